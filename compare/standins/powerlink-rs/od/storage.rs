//! Stand-in: a comparison fills its dictionary itself and does not call `init`.

use super::ObjectDictionary;
use crate::PowerlinkError;

pub fn init(od: &mut ObjectDictionary) -> Result<(), PowerlinkError> {
    unimplemented!()
}
