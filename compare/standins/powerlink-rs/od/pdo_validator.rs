//! Stand-in: no comparison maps PDOs.

use super::ObjectDictionary;
use crate::PowerlinkError;

pub fn validate_pdo_mapping(
    od: &ObjectDictionary,
    index: u16,
    entries: u8,
) -> Result<(), PowerlinkError> {
    unimplemented!()
}
