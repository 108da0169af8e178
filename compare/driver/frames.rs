//! One frame of each kind, and the events that it is. What a frame carries beside its kind decides nothing here.

use crate::forms::hex;
use powerlink_rs::NodeId;
use powerlink_rs::common::{NetTime, RelativeTime};
use powerlink_rs::frame::control::soa::SoAFlags;
use powerlink_rs::frame::control::soc::SocFlags;
use powerlink_rs::frame::poll::preq::PReqFlags;
use powerlink_rs::frame::poll::pres::PResFlags;
use powerlink_rs::frame::{
    ASndFrame, MacAddress, PReqFrame, PResFrame, PowerlinkFrame, RequestedServiceId, ServiceId,
    SoAFrame, SocFrame,
};
use powerlink_rs::nmt::states::NmtState;
use powerlink_rs::pdo::PDOVersion;
use powerlink_rs::types::{EPLVersion, MessageType};

const MAC: MacAddress = MacAddress([0; 6]);
const NODE: NodeId = NodeId(17);
const STATE: NmtState = NmtState::NmtOperational;
const PDO: PDOVersion = PDOVersion(0);

/// The frames in the order of their enum.
fn frames() -> [PowerlinkFrame; 5] {
    let time = NetTime::new(0, 0);
    let service = RequestedServiceId::NoService;
    let epl = EPLVersion(0x20);
    [
        PowerlinkFrame::Soc(SocFrame::new(
            MAC,
            SocFlags::default(),
            time,
            RelativeTime(0),
        )),
        PowerlinkFrame::PReq(PReqFrame::new(
            MAC,
            MAC,
            NODE,
            PReqFlags::default(),
            PDO,
            vec![],
        )),
        PowerlinkFrame::PRes(PResFrame::new(
            MAC,
            NODE,
            STATE,
            PResFlags::default(),
            PDO,
            vec![],
        )),
        PowerlinkFrame::SoA(SoAFrame::new(
            MAC,
            STATE,
            SoAFlags::default(),
            service,
            NODE,
            epl,
        )),
        PowerlinkFrame::ASnd(ASndFrame::new(
            MAC,
            MAC,
            NODE,
            NODE,
            ServiceId::NmtCommand,
            vec![],
        )),
    ]
}

/// The message type with which the original makes such a frame.
fn message_type(frame: &PowerlinkFrame) -> MessageType {
    match frame {
        PowerlinkFrame::Soc(frame) => frame.message_type,
        PowerlinkFrame::PReq(frame) => frame.message_type,
        PowerlinkFrame::PRes(frame) => frame.message_type,
        PowerlinkFrame::SoA(frame) => frame.message_type,
        PowerlinkFrame::ASnd(frame) => frame.message_type,
    }
}

/// Prints of each kind of frame the places of its DLL event and of its NMT event.
pub fn print_frames() {
    for frame in &frames() {
        let kind = hex(message_type(frame) as u8);
        let dll = frame.dll_cn_event() as usize;
        let nmt = frame
            .nmt_event()
            .map_or("none".to_string(), |event| (event as usize).to_string());
        println!("(frame {kind} (dll {dll}) (nmt {nmt}))");
    }
}
