//! What the reader of scripts asks of kinds of error.

use powerlink_cn::{DllError, DllErrorKind};

/// How many of A and B the kind of this number carries.
pub fn carried(kind: u64) -> usize {
    match DllErrorKind::from_number(kind).map(|kind| DllError::new(kind, 1, 0)) {
        Some(DllError::UnexpectedEventInState { .. }) => 2,
        Some(error) if error.node().is_some() => 1,
        _ => 0,
    }
}
