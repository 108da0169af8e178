//! Stand-in: no comparison stores parameters or restores defaults by command.

use super::ObjectDictionary;
use crate::PowerlinkError;

pub fn store_parameters(od: &mut ObjectDictionary, sub_index: u8) -> Result<(), PowerlinkError> {
    unimplemented!()
}

pub fn restore_defaults(od: &mut ObjectDictionary, sub_index: u8) -> Result<(), PowerlinkError> {
    unimplemented!()
}
