//! Errors of the data link layer, and their kinds.

use core::fmt;
use core::ops::Deref;

use crate::Refusal;
use crate::raw;
use crate::refusal::taken;

numbered! {
    /// A kind of error (DS 301, 4.7), with its number here (rule 6.8).
    ///
    /// ```
    /// use powerlink_cn::{DllErrorKind, Refusal};
    ///
    /// assert_eq!(DllErrorKind::from_code(0x8245), Ok(DllErrorKind::LossOfSoc));
    /// assert_eq!(DllErrorKind::from_code(0x8000), Err(Refusal::NoSingleKind));
    /// ```
    pub enum DllErrorKind {
        /// `E_DLL_LOSS_OF_LINK`, code 0x8165: has a count of its own; is logged and signalled.
        LossOfLink = 0 => "LossOfLink",
        /// `E_DLL_BAD_PHYS_MODE`, code 0x8161.
        BadPhysicalMode = 1 => "BadPhysicalMode",
        /// `E_DLL_MAC_BUFFER`, code 0x8166.
        MacBuffer = 2 => "MacBuffer",
        /// `E_DLL_CRC_TH`, code 0x8164: is counted.
        Crc = 3 => "Crc",
        /// `E_DLL_COLLISION_TH`, code 0x8163: is counted.
        Collision = 4 => "Collision",
        /// `E_DLL_INVALID_FORMAT`, code 0x8241.
        InvalidFormat = 5 => "InvalidFormat",
        /// `E_DLL_LOSS_SOC_TH`, code 0x8245: is counted.
        LossOfSoc = 6 => "LossOfSoc",
        /// `E_DLL_LOSS_SOA_TH`, code 0x8244: is counted.
        LossOfSoa = 7 => "LossOfSoa",
        /// `E_DLL_LOSS_PREQ_TH`, code 0x8242: is counted.
        LossOfPreq = 8 => "LossOfPreq",
        /// `E_DLL_LOSS_PRES_TH`, code 0x8243: carries a node.
        LossOfPres = 9 => "LossOfPres",
        /// `E_DLL_LOSS_STATUSRES_TH`, code 0x8246: carries a node.
        LossOfStatusRes = 10 => "LossOfStatusRes",
        /// `E_DLL_CYCLE_EXCEED_TH`, code 0x8233.
        CycleTimeExceeded = 11 => "CycleTimeExceeded",
        /// `E_DLL_LATE_PRES_TH`, code 0x8236: carries a node.
        LatePres = 12 => "LatePres",
        /// `E_DLL_JITTER_TH`, code 0x8235: is counted.
        SoCJitter = 13 => "SoCJitter",
        /// An SoC waited for by a managing node.
        MsWaitSoc = 14 => "MsWaitSoc",
        /// More than one managing node.
        MultipleMn = 15 => "MultipleMn",
        /// Two nodes with one number.
        AddressConflict = 16 => "AddressConflict",
        /// A timeout of a managing node in the asynchronous phase.
        MevAsndTimeout = 17 => "MevAsndTimeout",
        /// An event that the state of a machine does not take: carries both.
        UnexpectedEventInState = 18 => "UnexpectedEventInState",
        /// `E_PDO_MAP_VERS`, code 0x8211: carries a node; is logged and signalled.
        PdoMapVersion = 19 => "PdoMapVersion",
        /// `E_PDO_SHORT_RX`, code 0x8210: carries a node; is logged and signalled.
        PdoPayloadShort = 20 => "PdoPayloadShort",
        /// `E_NMT_HEARTBEAT_TH`, code 0x8250: carries a node; is counted.
        HeartbeatTimeout = 21 => "HeartbeatTimeout",
    }
}

impl DllErrorKind {
    /// The code of its entries (rule 6.8). Five kinds have 0x8000.
    pub const fn code(self) -> u16 {
        match self {
            Self::LossOfLink => 0x8165,
            Self::BadPhysicalMode => 0x8161,
            Self::MacBuffer => 0x8166,
            Self::Crc => 0x8164,
            Self::Collision => 0x8163,
            Self::InvalidFormat => 0x8241,
            Self::LossOfSoc => 0x8245,
            Self::LossOfSoa => 0x8244,
            Self::LossOfPreq => 0x8242,
            Self::LossOfPres => 0x8243,
            Self::LossOfStatusRes => 0x8246,
            Self::CycleTimeExceeded => 0x8233,
            Self::LatePres => 0x8236,
            Self::SoCJitter => 0x8235,
            Self::PdoMapVersion => 0x8211,
            Self::PdoPayloadShort => 0x8210,
            Self::HeartbeatTimeout => 0x8250,
            Self::MsWaitSoc
            | Self::MultipleMn
            | Self::AddressConflict
            | Self::MevAsndTimeout
            | Self::UnexpectedEventInState => 0x8000,
        }
    }

    /// The kind behind the code of an entry (rule 6.7), which is not cut to 16 bits.
    ///
    /// # Errors
    ///
    /// Refused, in this order:
    /// - [`Refusal::NoSingleKind`]: no kind has the code, or more than one
    pub fn from_code(code: u64) -> Result<Self, Refusal> {
        let mut kind = 0;
        taken(raw::plcn_read_code(code, &mut kind))?;
        Self::from_number(kind.into()).ok_or(Refusal::NoSingleKind)
    }
}

impl TryFrom<u64> for DllErrorKind {
    type Error = Refusal;

    /// The kind of a number.
    ///
    /// # Errors
    ///
    /// Refused, in this order:
    /// - [`Refusal::UnknownNumber`]: no kind has the number
    fn try_from(number: u64) -> Result<Self, Refusal> {
        Self::from_number(number).ok_or(Refusal::UnknownNumber)
    }
}

/// An error: its kind with what it carries (DS 301, 4.7; rule 6.8).
///
/// ```
/// use powerlink_cn::{DllError, DllErrorKind};
///
/// let error = DllError::LatePres { node: 17 };
/// assert_eq!(error.kind(), DllErrorKind::LatePres);
/// assert_eq!(error.node(), Some(17));
/// assert_eq!(error.to_string(), "LatePres of node 17");
/// ```
#[derive(Debug, Clone, Copy, PartialEq, Eq, Hash)]
pub enum DllError {
    /// [`DllErrorKind::LossOfLink`].
    LossOfLink,
    /// [`DllErrorKind::BadPhysicalMode`].
    BadPhysicalMode,
    /// [`DllErrorKind::MacBuffer`].
    MacBuffer,
    /// [`DllErrorKind::Crc`].
    Crc,
    /// [`DllErrorKind::Collision`].
    Collision,
    /// [`DllErrorKind::InvalidFormat`].
    InvalidFormat,
    /// [`DllErrorKind::LossOfSoc`].
    LossOfSoc,
    /// [`DllErrorKind::LossOfSoa`].
    LossOfSoa,
    /// [`DllErrorKind::LossOfPreq`].
    LossOfPreq,
    /// [`DllErrorKind::LossOfPres`].
    LossOfPres {
        /// The node whose PRes is lost: 1 to 240, 253, 254 or 255.
        node: u8,
    },
    /// [`DllErrorKind::LossOfStatusRes`].
    LossOfStatusRes {
        /// The node whose StatusResponse is lost: 1 to 240, 253, 254 or 255.
        node: u8,
    },
    /// [`DllErrorKind::CycleTimeExceeded`].
    CycleTimeExceeded,
    /// [`DllErrorKind::LatePres`].
    LatePres {
        /// The node whose PRes came late: 1 to 240, 253, 254 or 255.
        node: u8,
    },
    /// [`DllErrorKind::SoCJitter`].
    SoCJitter,
    /// [`DllErrorKind::MsWaitSoc`].
    MsWaitSoc,
    /// [`DllErrorKind::MultipleMn`].
    MultipleMn,
    /// [`DllErrorKind::AddressConflict`].
    AddressConflict,
    /// [`DllErrorKind::MevAsndTimeout`].
    MevAsndTimeout,
    /// [`DllErrorKind::UnexpectedEventInState`].
    UnexpectedEventInState {
        /// The number of the state: any byte. Of the NMT machine's reports it is an
        /// [`NmtState`](crate::NmtState), of the DLL machine's a [`DllState`](crate::DllState).
        state: u8,
        /// The number of the event: any byte. Of the NMT machine's reports it is an
        /// [`NmtEvent`](crate::NmtEvent), of the DLL machine's a [`DllEvent`](crate::DllEvent).
        event: u8,
    },
    /// [`DllErrorKind::PdoMapVersion`].
    PdoMapVersion {
        /// The node whose PDO has another mapping version: 1 to 240, 253, 254 or 255.
        node: u8,
    },
    /// [`DllErrorKind::PdoPayloadShort`].
    PdoPayloadShort {
        /// The node whose PDO is too short: 1 to 240, 253, 254 or 255.
        node: u8,
    },
    /// [`DllErrorKind::HeartbeatTimeout`].
    HeartbeatTimeout {
        /// The node that was not heard for too long: 1 to 240, 253, 254 or 255.
        node: u8,
    },
}

impl DllError {
    /// The error of a kind: with `a` as its node, or `a` and `b` as its state and its event. What
    /// the kind does not carry is not looked at.
    pub const fn new(kind: DllErrorKind, a: u8, b: u8) -> Self {
        match kind {
            DllErrorKind::LossOfLink => Self::LossOfLink,
            DllErrorKind::BadPhysicalMode => Self::BadPhysicalMode,
            DllErrorKind::MacBuffer => Self::MacBuffer,
            DllErrorKind::Crc => Self::Crc,
            DllErrorKind::Collision => Self::Collision,
            DllErrorKind::InvalidFormat => Self::InvalidFormat,
            DllErrorKind::LossOfSoc => Self::LossOfSoc,
            DllErrorKind::LossOfSoa => Self::LossOfSoa,
            DllErrorKind::LossOfPreq => Self::LossOfPreq,
            DllErrorKind::LossOfPres => Self::LossOfPres { node: a },
            DllErrorKind::LossOfStatusRes => Self::LossOfStatusRes { node: a },
            DllErrorKind::CycleTimeExceeded => Self::CycleTimeExceeded,
            DllErrorKind::LatePres => Self::LatePres { node: a },
            DllErrorKind::SoCJitter => Self::SoCJitter,
            DllErrorKind::MsWaitSoc => Self::MsWaitSoc,
            DllErrorKind::MultipleMn => Self::MultipleMn,
            DllErrorKind::AddressConflict => Self::AddressConflict,
            DllErrorKind::MevAsndTimeout => Self::MevAsndTimeout,
            DllErrorKind::UnexpectedEventInState => {
                Self::UnexpectedEventInState { state: a, event: b }
            }
            DllErrorKind::PdoMapVersion => Self::PdoMapVersion { node: a },
            DllErrorKind::PdoPayloadShort => Self::PdoPayloadShort { node: a },
            DllErrorKind::HeartbeatTimeout => Self::HeartbeatTimeout { node: a },
        }
    }

    /// Its kind.
    pub const fn kind(self) -> DllErrorKind {
        match self {
            Self::LossOfLink => DllErrorKind::LossOfLink,
            Self::BadPhysicalMode => DllErrorKind::BadPhysicalMode,
            Self::MacBuffer => DllErrorKind::MacBuffer,
            Self::Crc => DllErrorKind::Crc,
            Self::Collision => DllErrorKind::Collision,
            Self::InvalidFormat => DllErrorKind::InvalidFormat,
            Self::LossOfSoc => DllErrorKind::LossOfSoc,
            Self::LossOfSoa => DllErrorKind::LossOfSoa,
            Self::LossOfPreq => DllErrorKind::LossOfPreq,
            Self::LossOfPres { .. } => DllErrorKind::LossOfPres,
            Self::LossOfStatusRes { .. } => DllErrorKind::LossOfStatusRes,
            Self::CycleTimeExceeded => DllErrorKind::CycleTimeExceeded,
            Self::LatePres { .. } => DllErrorKind::LatePres,
            Self::SoCJitter => DllErrorKind::SoCJitter,
            Self::MsWaitSoc => DllErrorKind::MsWaitSoc,
            Self::MultipleMn => DllErrorKind::MultipleMn,
            Self::AddressConflict => DllErrorKind::AddressConflict,
            Self::MevAsndTimeout => DllErrorKind::MevAsndTimeout,
            Self::UnexpectedEventInState { .. } => DllErrorKind::UnexpectedEventInState,
            Self::PdoMapVersion { .. } => DllErrorKind::PdoMapVersion,
            Self::PdoPayloadShort { .. } => DllErrorKind::PdoPayloadShort,
            Self::HeartbeatTimeout { .. } => DllErrorKind::HeartbeatTimeout,
        }
    }

    /// The node that it carries.
    pub const fn node(self) -> Option<u8> {
        match self {
            Self::LossOfPres { node }
            | Self::LossOfStatusRes { node }
            | Self::LatePres { node }
            | Self::PdoMapVersion { node }
            | Self::PdoPayloadShort { node }
            | Self::HeartbeatTimeout { node } => Some(node),
            _ => None,
        }
    }

    /// What it carries: its node and 0, its state and its event, or zeros.
    pub(crate) const fn carried(self) -> (u8, u8) {
        match (self, self.node()) {
            (Self::UnexpectedEventInState { state, event }, _) => (state, event),
            (_, Some(node)) => (node, 0),
            (_, None) => (0, 0),
        }
    }
}

/// Its kind's name with what it carries.
impl fmt::Display for DllError {
    fn fmt(&self, f: &mut fmt::Formatter<'_>) -> fmt::Result {
        f.write_str(self.kind().name())?;
        match (*self, self.node()) {
            (Self::UnexpectedEventInState { state, event }, _) => {
                write!(f, ", event {event} in state 0x{state:02X}")
            }
            (_, Some(node)) => write!(f, " of node {node}"),
            (_, None) => Ok(()),
        }
    }
}

/// The errors that one call reports, in order: none, one or two. It is a slice of them.
///
/// ```
/// use powerlink_cn::{DllError, DllEvent, Node, Refusal, Setup};
/// use powerlink_cn::NmtEvent::{SoAReceived, SocReceived, SwReset};
///
/// # fn main() -> Result<(), Refusal> {
/// let mut node = Node::start(&Setup::new(7), &[])?;
/// for event in [SwReset, SoAReceived, SocReceived] {
///     node.nmt_event(event);
/// }
/// assert!(node.dll_event(DllEvent::Soc, true).is_empty());
/// let errors = node.dll_event(DllEvent::SocTimeout, true);
/// assert_eq!(*errors, [DllError::LossOfSoc, DllError::LossOfSoa]);
/// # Ok(())
/// # }
/// ```
#[derive(Clone, Copy, PartialEq, Eq)]
pub struct Errors {
    error: [DllError; 2],
    count: usize,
}

impl Errors {
    /// They as a slice.
    pub fn as_slice(&self) -> &[DllError] {
        self.error.get(..self.count).unwrap_or(&self.error)
    }
}

/// As a list.
impl fmt::Debug for Errors {
    fn fmt(&self, f: &mut fmt::Formatter<'_>) -> fmt::Result {
        self.as_slice().fmt(f)
    }
}

impl Deref for Errors {
    type Target = [DllError];

    fn deref(&self) -> &[DllError] {
        self.as_slice()
    }
}

impl<'a> IntoIterator for &'a Errors {
    type Item = &'a DllError;
    type IntoIter = core::slice::Iter<'a, DllError>;

    fn into_iter(self) -> Self::IntoIter {
        self.as_slice().iter()
    }
}

impl From<raw::Errors> for Errors {
    /// Of none, which most calls report, nothing is read.
    fn from(errors: raw::Errors) -> Self {
        if errors.count == 0 {
            return Self {
                error: [DllError::LossOfLink; 2],
                count: 0,
            };
        }
        Self {
            error: errors.error.map(DllError::from),
            count: errors.count.into(),
        }
    }
}

impl From<raw::Error> for DllError {
    /// The library reports no number that is no kind, which would be read as LossOfLink.
    fn from(error: raw::Error) -> Self {
        let kind = DllErrorKind::from_number(error.kind.into()).unwrap_or(DllErrorKind::LossOfLink);
        Self::new(kind, error.a, error.b)
    }
}
