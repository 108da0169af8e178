//! Declares the given control frames; the payloads are stand-ins without content.

pub mod asnd;
pub mod soa;
pub mod soc;

pub use asnd::{ASndFrame, ServiceId};
pub use soa::{RequestedServiceId, SoAFrame};
pub use soc::SocFrame;

pub struct IdentResponsePayload;
pub struct StaticErrorBitField;
pub struct StatusResponsePayload;
