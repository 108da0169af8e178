//! Stand-in: a connection of the SDO server. A comparison opens none, so the server's tick does
//! nothing.

use super::command::SdoCommandHandler;
use super::server::SdoClientInfo;
use super::state::SdoServerState;
use super::transport::SdoResponseData;
use crate::PowerlinkError;
use crate::od::ObjectDictionary;

pub struct SdoSequenceHandler;

impl SdoSequenceHandler {
    pub fn new(client_info: SdoClientInfo) -> Self {
        unimplemented!()
    }

    pub fn state(&self) -> &SdoServerState {
        unimplemented!()
    }

    pub fn is_closed(&self) -> bool {
        unimplemented!()
    }

    pub fn tick(
        &mut self,
        current_time_us: u64,
        od: &ObjectDictionary,
    ) -> Result<Option<SdoResponseData>, PowerlinkError> {
        unimplemented!()
    }

    pub fn handle_request(
        &mut self,
        payload: &[u8],
        od: &mut ObjectDictionary,
        current_time_us: u64,
        handler: &mut dyn SdoCommandHandler,
    ) -> Result<SdoResponseData, PowerlinkError> {
        unimplemented!()
    }
}
