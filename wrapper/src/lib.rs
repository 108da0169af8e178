//! A POWERLINK controlled node (EPSG DS 301) for firmware, over the library that is proved.
//!
//! [`Node`] is a head with its memory: its emergency queue, its error history and its run of
//! watched nodes. It is made by [`Node::start`] alone, so each one that there is was started.
//! [`WeighHead`] is a node with the recipe that it doses from. Both send no frames and read no
//! process data: these stay with the firmware, which hands in frames and times.
//!
//! - **Times and timeouts** are in µs from any origin, at most [`LATEST_TIME`]. The tolerance is in
//!   ns, weights are in grams.
//! - **Refusals**: a call that may be refused answers a `Result` with a [`Refusal`]. Of several
//!   that apply, the first in the order of the method's comment is given. A refused call changes
//!   nothing. A call whose argument types leave nothing to refuse answers without a `Result`.
//! - **Sources**: a comment names the section of DS 301, or the rule of `docs/RULES.md` in the
//!   repository, as "rule 7.3".
//! - **Memory**: no allocation, no global state, no dependency. A node of 6,736 bytes may be moved,
//!   copied and sent to another thread.
//!
//! ```
//! use powerlink_cn::{Node, NmtEvent, NmtState, Refusal, Setup, Watched};
//!
//! # fn main() -> Result<(), Refusal> {
//! // Node 7: cycle of 1000 µs, tolerance of 100 µs, a partner that is late after 5000 µs.
//! let setup = Setup { cycle_us: Some(1000), tolerance_ns: Some(100_000), ..Setup::new(7) };
//! let mut node = Node::start(&setup, &[Watched::new(17, 5000)])?;
//!
//! node.nmt_event(NmtEvent::SwReset);
//! assert_eq!(node.state(), NmtState::NotActive);
//! assert_eq!(node.withdraw(), Ok(()));
//! assert_eq!(node.heard(9, 20), Err(Refusal::NotWatched));
//! # Ok(())
//! # }
//! ```
#![no_std]
#![deny(missing_docs, unsafe_op_in_unsafe_fn, missing_debug_implementations)]
#![warn(
    clippy::undocumented_unsafe_blocks,
    clippy::missing_safety_doc,
    clippy::missing_errors_doc
)]

#[macro_use]
mod numbered;

mod answers;
mod entry;
mod error;
mod frame;
mod head;
mod node;
pub mod raw;
mod refusal;
mod reset;
mod setup;
pub mod text;
mod types;
mod watched;
mod weigh;

pub use answers::{ErrorAnswer, FrameAnswer, NmtAction, NmtAnswer};
pub use entry::{Entries, Entry, EntryMode};
pub use error::{DllError, DllErrorKind, Errors};
pub use frame::{Frame, Message};
pub use head::{Counter, Head};
pub use node::Node;
pub use raw::{
    Component, ENTRY_BYTES, HIGHEST_THRESHOLD, HISTORY_PLACES, IndexRange, LATEST_TIME,
    QUEUE_PLACES, RECIPE_PLACES, Run, VERSION, WATCHED_PLACES, Watched,
};
pub use refusal::Refusal;
pub use reset::{Reset, ResetSteps};
pub use setup::{Setup, Thresholds, Update};
pub use types::{Command, DllEvent, DllState, NmtEvent, NmtState, SocVerdict};
pub use watched::Bitmap;
pub use weigh::WeighHead;

/// The version of the archive that is linked, as [`VERSION`] is that of the header: 10000 × major +
/// 100 × minor + patch. Where the two differ, the archive is another's.
pub fn version() -> u32 {
    raw::plcn_version()
}

/// The code of README.md, compiled and run with the documentation's tests.
#[cfg(doctest)]
#[doc = include_str!("../README.md")]
pub struct Readme;
