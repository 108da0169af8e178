//! Stand-in: the SDO server of a comparison has no connection, so it never handles a command.

pub trait SdoCommandHandler {}

pub struct DefaultSdoHandler;

impl SdoCommandHandler for DefaultSdoHandler {}
