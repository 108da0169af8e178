//! What both sides of the benchmark share: the rows, each written once over what a side can do, and
//! how a row is timed. A side is a node of ours or of the original.

mod rows;
mod side;
mod timing;
mod view;

pub use rows::{Row, Work, calls, rows};
pub use side::{CYCLE, Component, Setup, Side, TOLERANCE};
pub use timing::{Case, Measured, keep, keep_number};
pub use view::View;
