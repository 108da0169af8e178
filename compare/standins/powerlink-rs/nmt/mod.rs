//! Declares the given NMT files.

pub mod cn_state_machine;
pub mod events;
pub mod flags;
pub mod state_machine;
pub mod states;

pub use state_machine::NmtStateMachine;
