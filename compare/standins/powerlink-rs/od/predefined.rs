//! Stand-in: a comparison inserts the objects that it uses, and no others are required.

use super::ObjectDictionary;
use crate::PowerlinkError;

pub fn validate_mandatory_objects(
    od: &ObjectDictionary,
    is_mn: bool,
) -> Result<(), PowerlinkError> {
    unimplemented!()
}
