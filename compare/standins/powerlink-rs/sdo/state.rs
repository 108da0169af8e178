//! Stand-in: the states of an SDO connection, as far as the given server names them.

pub struct SdoTransferState {
    pub deadline_us: Option<u64>,
}

pub enum SdoServerState {
    Closed,
    SegmentedUpload(SdoTransferState),
    SegmentedDownload(SdoTransferState),
}
