//! Root of the crate in which the original files are compiled. The files of this folder stand in
//! for the modules that the originals name and that are not given. What no comparison reaches is
//! `unimplemented!()`.

// The originals have imports and items that only the missing modules would use.
#![allow(dead_code, unused_imports, unused_variables)]

extern crate alloc;

pub mod common;
pub mod frame;
pub mod hal;
pub mod log;
pub mod nmt;
pub mod node;
pub mod od;
pub mod pdo;
pub mod sdo;
pub mod types;

pub use frame::ErrorHandler;
pub use hal::PowerlinkError;
pub use types::NodeId;
