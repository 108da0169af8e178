//! Declares the given poll frames.

pub mod preq;
pub mod pres;

pub use preq::PReqFrame;
pub use pres::{PRFlag, PResFrame, RSFlag};
