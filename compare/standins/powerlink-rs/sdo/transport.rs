//! Stand-in: no comparison sends an SDO response.

use super::server::SdoClientInfo;
use crate::PowerlinkError;
use crate::node::NodeAction;
use crate::node::cn::state::CnContext;

pub struct SdoResponseData {
    pub client_info: SdoClientInfo,
}

pub trait SdoTransport {
    fn build_response(
        &self,
        response: SdoResponseData,
        context: &CnContext,
    ) -> Result<NodeAction, PowerlinkError>;
}

pub struct AsndTransport;

impl SdoTransport for AsndTransport {
    fn build_response(
        &self,
        response: SdoResponseData,
        context: &CnContext,
    ) -> Result<NodeAction, PowerlinkError> {
        unimplemented!()
    }
}
