//! The original as a side of the benchmark. The package is compiled twice: over the original as it
//! is, and over the copy that gives no log prefix.

mod by_hand;
mod dictionary;
mod node;
#[path = "../../../compare/driver/forms.rs"]
mod places;

use rows::Row;

/// The rows of this side.
pub fn rows() -> Vec<Row> {
    rows::rows::<node::Node>()
}

/// The bytes of a node beside what it has on the heap.
pub fn size() -> usize {
    size_of::<powerlink_rs::node::cn::state::CnContext>()
}

/// A node behind its start, for its memory to be measured.
pub fn fresh() -> Box<dyn std::any::Any> {
    use rows::Side;
    Box::new(node::Node::start(rows::Setup {
        threshold: 15,
        queue: 32,
    }))
}
