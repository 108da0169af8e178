//! Declares the given SDO server; the clients are stand-ins, since no comparison queues an SDO.

pub mod command;
pub mod sequence_handler;
pub mod server;
pub mod state;
pub mod transport;

pub use server::SdoServer;

use crate::{NodeId, PowerlinkError};
use alloc::vec::Vec;

#[derive(Default)]
pub struct SdoClient;

impl SdoClient {
    pub fn queue_request(&mut self, target: NodeId, payload: Vec<u8>) {
        unimplemented!()
    }
}

#[derive(Default)]
pub struct EmbeddedSdoServer;

impl EmbeddedSdoServer {
    pub fn get_pending_response(&mut self, channel: u16, length: usize) -> Vec<u8> {
        unimplemented!()
    }
}

#[derive(Default)]
pub struct EmbeddedSdoClient;

impl EmbeddedSdoClient {
    pub fn get_pending_request(&mut self, channel: u16, length: usize) -> Vec<u8> {
        unimplemented!()
    }

    pub fn queue_read(
        &mut self,
        channel: u16,
        index: u16,
        sub_index: u8,
    ) -> Result<(), PowerlinkError> {
        unimplemented!()
    }

    pub fn queue_write(
        &mut self,
        channel: u16,
        index: u16,
        sub_index: u8,
        data: Vec<u8>,
    ) -> Result<(), PowerlinkError> {
        unimplemented!()
    }
}
