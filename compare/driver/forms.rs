//! The enums of the node in the order of their declaration, the counters' levels and thresholds, and
//! the printed forms of numbers and errors.

// Each driver uses a part of them.
#![allow(dead_code)]

use powerlink_rs::NodeId;
use powerlink_rs::frame::error::ThresholdCounter;
use powerlink_rs::frame::{DllCsEvent, DllError, NmtAction};
use powerlink_rs::nmt::events::NmtEvent;
use powerlink_rs::nmt::states::NmtState;
use std::mem::discriminant;

pub const NMT_STATES: [NmtState; 12] = [
    NmtState::NmtGsOff,
    NmtState::NmtGsInitialising,
    NmtState::NmtGsResetApplication,
    NmtState::NmtGsResetCommunication,
    NmtState::NmtGsResetConfiguration,
    NmtState::NmtNotActive,
    NmtState::NmtPreOperational1,
    NmtState::NmtPreOperational2,
    NmtState::NmtReadyToOperate,
    NmtState::NmtOperational,
    NmtState::NmtCsStopped,
    NmtState::NmtBasicEthernet,
];

pub const NMT_EVENTS: [NmtEvent; 19] = [
    NmtEvent::StartNode,
    NmtEvent::StopNode,
    NmtEvent::EnterPreOperational2,
    NmtEvent::EnableReadyToOperate,
    NmtEvent::Reset,
    NmtEvent::SwReset,
    NmtEvent::ResetNode,
    NmtEvent::ResetCommunication,
    NmtEvent::ResetConfiguration,
    NmtEvent::EnterEplMode,
    NmtEvent::Timeout,
    NmtEvent::Error,
    NmtEvent::SoAReceived,
    NmtEvent::SocReceived,
    NmtEvent::PowerlinkFrameReceived,
    NmtEvent::CnConfigurationComplete,
    NmtEvent::AllCnsIdentified,
    NmtEvent::ConfigurationCompleteCnsReady,
    NmtEvent::AllMandatoryCnsOperational,
];

pub const DLL_EVENTS: [DllCsEvent; 6] = [
    DllCsEvent::Soc,
    DllCsEvent::Preq,
    DllCsEvent::Pres,
    DllCsEvent::Soa,
    DllCsEvent::Asnd,
    DllCsEvent::SocTimeout,
];

const NODE: NodeId = NodeId(17);

/// One error of each kind.
pub const ERRORS: [DllError; 22] = [
    DllError::LossOfLink,
    DllError::BadPhysicalMode,
    DllError::MacBuffer,
    DllError::Crc,
    DllError::Collision,
    DllError::InvalidFormat,
    DllError::LossOfSoc,
    DllError::LossOfSoa,
    DllError::LossOfPreq,
    DllError::LossOfPres { node_id: NODE },
    DllError::LossOfStatusRes { node_id: NODE },
    DllError::CycleTimeExceeded,
    DllError::LatePres { node_id: NODE },
    DllError::SoCJitter,
    DllError::MsWaitSoc,
    DllError::MultipleMn,
    DllError::AddressConflict,
    DllError::MevAsndTimeout,
    DllError::UnexpectedEventInState {
        state: 0x6D,
        event: 2,
    },
    DllError::PdoMapVersion { node_id: NODE },
    DllError::PdoPayloadShort { node_id: NODE },
    DllError::HeartbeatTimeout { node_id: NODE },
];

/// Stops where a list above is not in the order of its enum. The enum of errors has fields and so
/// no `as`; the place of an error is read from the Debug form of its discriminant. NMT states have
/// numbers of their own, which do not tell their place, so their list is not checked.
pub fn check_order() {
    for (place, event) in NMT_EVENTS.iter().enumerate() {
        assert_eq!(*event as usize, place, "NMT_EVENTS is not in order");
    }
    for (place, event) in DLL_EVENTS.iter().enumerate() {
        assert_eq!(*event as usize, place, "DLL_EVENTS is not in order");
    }
    for (place, error) in ERRORS.iter().enumerate() {
        let number = format!("{:?}", discriminant(error));
        assert_eq!(
            number,
            format!("Discriminant({place})"),
            "ERRORS is not in order"
        );
    }
}

/// The place of an error's kind in its enum, from 0.
pub fn kind(error: &DllError) -> usize {
    let same_kind = |other: &DllError| discriminant(other) == discriminant(error);
    ERRORS
        .iter()
        .position(same_kind)
        .expect("ERRORS has every kind")
}

/// The place of the one kind that has the code; none where no kind has it, or more than one.
pub fn kind_behind(code: u64) -> Option<usize> {
    let mut kinds = ERRORS
        .iter()
        .filter(|error| u64::from(error.to_error_code()) == code)
        .map(kind);
    kinds.next().filter(|_| kinds.next().is_none())
}

/// An 8-bit number as states and commands are written, `0x1C`.
pub fn hex(number: u8) -> String {
    format!("0x{number:02X}")
}

/// The node that an error carries.
pub fn node_of(error: &DllError) -> Option<NodeId> {
    match error {
        DllError::LossOfPres { node_id }
        | DllError::LossOfStatusRes { node_id }
        | DllError::LatePres { node_id }
        | DllError::PdoMapVersion { node_id }
        | DllError::PdoPayloadShort { node_id }
        | DllError::HeartbeatTimeout { node_id } => Some(*node_id),
        _ => None,
    }
}

/// An error as its kind with what it carries: `(6)`, `(21 17)`, `(18 0x6D 2)`.
pub fn error_form(error: &DllError) -> String {
    let kind = kind(error);
    match (node_of(error), error) {
        (Some(node), _) => format!("({kind} {node})"),
        (None, DllError::UnexpectedEventInState { state, event }) => {
            format!("({kind} {} {event})", hex(*state))
        }
        (None, _) => format!("({kind})"),
    }
}

/// The errors that an event reports: `(errors (6) (7))`; none: `(errors)`.
pub fn errors_form(errors: Option<Vec<DllError>>) -> String {
    named_form("errors", errors.unwrap_or_default().iter().map(error_form))
}

/// A form of a name and what stands behind it: `(name A B)`.
pub fn named_form(name: &str, parts: impl Iterator<Item = String>) -> String {
    let mut form = format!("({name}");
    for part in parts {
        form.push(' ');
        form.push_str(&part);
    }
    form.push(')');
    form
}

/// The place of an action in its enum, from 0.
pub fn action_number(action: NmtAction) -> u8 {
    match action {
        NmtAction::None => 0,
        NmtAction::ResetCommunication => 1,
        NmtAction::ResetNode(_) => 2,
    }
}

pub fn level(counter: &ThresholdCounter) -> u32 {
    level_and_threshold(counter).0
}

pub fn threshold(counter: &ThresholdCounter) -> u32 {
    level_and_threshold(counter).1
}

/// Their fields are private, so they are read from the derived Debug form.
fn level_and_threshold(counter: &ThresholdCounter) -> (u32, u32) {
    let form = format!("{counter:?}");
    let field = |name: &str| {
        let (_, rest) = form.split_once(name).expect("the Debug form names it");
        let digits = rest.split([',', ' ']).next().unwrap_or("");
        digits.parse::<u32>().expect("it is a number")
    };
    let (level, threshold) = (field(" threshold_cnt: "), field(" threshold: "));
    assert_eq!(
        form,
        format!(
            "ThresholdCounter {{ cumulative_cnt: {}, threshold_cnt: {level}, threshold: {threshold} }}",
            counter.cumulative_count(),
        ),
        "these are all its fields"
    );
    (level, threshold)
}
