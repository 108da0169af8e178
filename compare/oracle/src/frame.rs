//! A frame from its bytes (RULES 13), read apart from our definitions. Which events it is the
//! original's `PowerlinkFrame` says.

use powerlink_rs::NodeId;
use powerlink_rs::common::{NetTime, RelativeTime};
use powerlink_rs::frame::control::soa::SoAFlags;
use powerlink_rs::frame::control::soc::SocFlags;
use powerlink_rs::frame::poll::preq::PReqFlags;
use powerlink_rs::frame::poll::pres::PResFlags;
use powerlink_rs::frame::{
    ASndFrame, DllCsEvent, MacAddress, PReqFrame, PResFrame, PowerlinkFrame, RequestedServiceId,
    ServiceId, SoAFrame, SocFrame,
};
use powerlink_rs::nmt::events::{NmtEvent, NmtStateCommand};
use powerlink_rs::nmt::states::NmtState;
use powerlink_rs::pdo::PDOVersion;
use powerlink_rs::types::EPLVersion;

const MAC: MacAddress = MacAddress([0; 6]);
const NODE: NodeId = NodeId(17);
const NMT_COMMAND: u8 = 4;

pub struct Frame {
    pub destination: u8,
    pub dll: DllCsEvent,
    pub nmt: Option<NmtEvent>,
    pub arms: bool,
}

impl Frame {
    /// Numbers 18, 19, 20, of an ASnd 18 again, and 4.
    pub fn read(bytes: &[u8]) -> Result<Self, u8> {
        if bytes.len() < 17 {
            return Err(18);
        }
        if bytes[12] != 0x88 || bytes[13] != 0xAB {
            return Err(19);
        }
        let frame = made_as(bytes[14]).ok_or(20)?;
        let command = match frame {
            PowerlinkFrame::ASnd(_) => command_in(&bytes[17..])?,
            _ => None,
        };
        Ok(Self {
            destination: bytes[15],
            dll: frame.dll_cn_event(),
            nmt: command.map(event_of).or(frame.nmt_event()),
            arms: matches!(frame, PowerlinkFrame::Soc(_)),
        })
    }
}

/// The command of an ASnd, from its service on.
fn command_in(payload: &[u8]) -> Result<Option<NmtStateCommand>, u8> {
    let service = *payload.first().ok_or(18)?;
    if service != NMT_COMMAND {
        return Ok(None);
    }
    let command = *payload.get(1).ok_or(18)?;
    NmtStateCommand::try_from(command).map(Some).map_err(|_| 4)
}

/// The event of a command is the one of its name; the original has no conversion.
fn event_of(command: NmtStateCommand) -> NmtEvent {
    match command {
        NmtStateCommand::StartNode => NmtEvent::StartNode,
        NmtStateCommand::StopNode => NmtEvent::StopNode,
        NmtStateCommand::EnterPreOperational2 => NmtEvent::EnterPreOperational2,
        NmtStateCommand::EnableReadyToOperate => NmtEvent::EnableReadyToOperate,
        NmtStateCommand::ResetNode => NmtEvent::ResetNode,
        NmtStateCommand::ResetCommunication => NmtEvent::ResetCommunication,
        NmtStateCommand::ResetConfiguration => NmtEvent::ResetConfiguration,
        NmtStateCommand::SwReset => NmtEvent::SwReset,
    }
}

/// The original's frame of a message type, whatever it carries.
fn made_as(message_type: u8) -> Option<PowerlinkFrame> {
    Some(match message_type {
        1 => PowerlinkFrame::Soc(SocFrame::new(
            MAC,
            SocFlags::default(),
            NetTime::new(0, 0),
            RelativeTime(0),
        )),
        3 => PowerlinkFrame::PReq(PReqFrame::new(
            MAC,
            MAC,
            NODE,
            PReqFlags::default(),
            PDOVersion(0),
            vec![],
        )),
        4 => PowerlinkFrame::PRes(PResFrame::new(
            MAC,
            NODE,
            NmtState::NmtOperational,
            PResFlags::default(),
            PDOVersion(0),
            vec![],
        )),
        5 => PowerlinkFrame::SoA(SoAFrame::new(
            MAC,
            NmtState::NmtOperational,
            SoAFlags::default(),
            RequestedServiceId::NoService,
            NODE,
            EPLVersion(0x20),
        )),
        6 => PowerlinkFrame::ASnd(ASndFrame::new(
            MAC,
            MAC,
            NODE,
            NODE,
            ServiceId::NmtCommand,
            vec![],
        )),
        _ => return None,
    })
}
