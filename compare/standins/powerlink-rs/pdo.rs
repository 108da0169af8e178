//! Stand-in: no comparison exchanges process data.

#[derive(Debug, Clone, Copy, PartialEq, Eq, Default)]
pub struct PDOVersion(pub u8);

#[derive(Debug)]
pub enum PayloadSizeError {
    InvalidRange(u16),
}

#[derive(Debug)]
pub enum PdoError {
    ObjectNotFound {
        index: u16,
        sub_index: u8,
    },
    TypeMismatch {
        index: u16,
        sub_index: u8,
        expected_bits: u16,
        actual_bits: u16,
    },
    PayloadTooSmall {
        expected_bits: u16,
        actual_bytes: usize,
    },
    ConfigurationError(&'static str),
}

pub struct PdoMappingEntry {
    pub index: u16,
    pub sub_index: u8,
}

impl PdoMappingEntry {
    pub fn from_u64(raw: u64) -> Self {
        unimplemented!()
    }

    pub fn byte_offset(&self) -> Option<usize> {
        unimplemented!()
    }

    pub fn byte_length(&self) -> Option<usize> {
        unimplemented!()
    }
}
