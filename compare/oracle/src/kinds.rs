//! Errors by their kind's place, and back from the lines that the original handler logs.

use crate::places::{ERRORS, node_of};
use powerlink_rs::NodeId;
use powerlink_rs::frame::DllError;

/// How many of A and B the kind at this place carries.
pub fn carried(kind: u64) -> usize {
    match at(kind, 1, 0) {
        Some(DllError::UnexpectedEventInState { .. }) => 2,
        Some(error) if node_of(&error).is_some() => 1,
        _ => 0,
    }
}

/// The error of the kind at this place, with A as its node, or A and B as its state and event.
pub fn at(kind: u64, a: u8, b: u8) -> Option<DllError> {
    let mut error = *ERRORS.get(usize::try_from(kind).ok()?)?;
    match &mut error {
        DllError::LossOfPres { node_id }
        | DllError::LossOfStatusRes { node_id }
        | DllError::LatePres { node_id }
        | DllError::PdoMapVersion { node_id }
        | DllError::PdoPayloadShort { node_id }
        | DllError::HeartbeatTimeout { node_id } => *node_id = NodeId(a),
        DllError::UnexpectedEventInState { state, event } => (*state, *event) = (a, b),
        _ => {}
    }
    Some(error)
}

/// The errors logged since the last call, read from the lines of the stand-in for `log`.
pub fn take_logged() -> Vec<DllError> {
    log::take_dll_errors()
        .iter()
        .map(|line| logged(line))
        .collect()
}

/// The error whose line this is: the line has the error's Debug form.
fn logged(line: &str) -> DllError {
    let form = line
        .strip_prefix("[DLL Error]: ")
        .expect("the handler's lines begin so");
    let numbers: Vec<u8> = form
        .split(|letter: char| !letter.is_ascii_digit())
        .filter_map(|digits| digits.parse().ok())
        .collect();
    let carried = |place| numbers.get(place).copied().unwrap_or(0);
    (0..ERRORS.len() as u64)
        .filter_map(|kind| at(kind, carried(0), carried(1)))
        .find(|error| format!("{error:?}") == form)
        .unwrap_or_else(|| panic!("no error is logged as {line}"))
}
