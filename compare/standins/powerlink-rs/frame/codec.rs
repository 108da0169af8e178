//! Stand-in: no comparison reads or writes a frame's bytes.

use super::{EthernetHeader, PowerlinkFrame};
use crate::PowerlinkError;
use crate::types::{MessageType, NodeId};

pub trait Codec: Sized {
    fn serialize(&self, buffer: &mut [u8]) -> Result<usize, PowerlinkError>;
    fn deserialize(eth_header: EthernetHeader, buffer: &[u8]) -> Result<Self, PowerlinkError>;
}

pub struct CodecHelpers;

impl CodecHelpers {
    pub fn serialize_eth_header(header: &EthernetHeader, buffer: &mut [u8]) {
        unimplemented!()
    }

    pub fn serialize_pl_header(
        kind: MessageType,
        destination: NodeId,
        source: NodeId,
        buffer: &mut [u8],
    ) {
        unimplemented!()
    }

    pub fn deserialize_pl_header(
        buffer: &[u8],
    ) -> Result<(MessageType, NodeId, NodeId), PowerlinkError> {
        unimplemented!()
    }
}

pub fn deserialize_frame(buffer: &[u8]) -> Result<PowerlinkFrame, PowerlinkError> {
    unimplemented!()
}
