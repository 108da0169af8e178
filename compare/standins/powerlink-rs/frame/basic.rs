//! Stand-in: the Ethernet header that frames carry.

use crate::types::C_DLL_ETHERTYPE_EPL;

#[derive(Debug, Clone, Copy, PartialEq, Eq, PartialOrd, Ord)]
pub struct MacAddress(pub [u8; 6]);

#[derive(Debug, Clone, Copy, PartialEq, Eq)]
pub struct EthernetHeader {
    pub destination_mac: MacAddress,
    pub source_mac: MacAddress,
    pub ether_type: u16,
}

impl EthernetHeader {
    pub fn new(destination_mac: MacAddress, source_mac: MacAddress) -> Self {
        Self {
            destination_mac,
            source_mac,
            ether_type: C_DLL_ETHERTYPE_EPL,
        }
    }
}
