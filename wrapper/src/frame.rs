//! Frames, as a controlled node reads them.

use crate::raw;
use crate::refusal::taken;
use crate::{Command, Refusal};

/// What is read of a frame (rule 13.1).
///
/// ```
/// use powerlink_cn::{Command, Frame, Message, Refusal};
///
/// # fn main() -> Result<(), Refusal> {
/// // An ASnd to all nodes, with the command ResetCommunication. The addresses are not looked at.
/// let mut bytes = [0; 60];
/// bytes[12..19].copy_from_slice(&[0x88, 0xAB, 0x06, 0xFF, 0xF0, 0x04, 0x29]);
/// let frame = Frame::read(&bytes)?;
/// assert_eq!((frame.destination, frame.source), (255, 240));
/// let command = Some(Command::ResetCommunication);
/// assert_eq!(frame.message, Message::Asnd { service: 4, command });
///
/// assert_eq!(Frame::read(&bytes[..16]), Err(Refusal::FrameTooShort));
/// # Ok(())
/// # }
/// ```
#[derive(Debug, Clone, Copy, PartialEq, Eq, Hash)]
pub struct Frame {
    /// The message, by its type.
    pub message: Message,
    /// The number of the node that it is for; 255: every node. Any byte may stand there.
    pub destination: u8,
    /// The number of the node that sent it. Any byte may stand there.
    pub source: u8,
}

/// The message of a frame (DS 301, Appendix 3.1).
#[derive(Debug, Clone, Copy, PartialEq, Eq, Hash)]
pub enum Message {
    /// SoC, message type 1.
    Soc,
    /// PReq, message type 3.
    Preq,
    /// PRes, message type 4.
    Pres,
    /// SoA, message type 5.
    Soa,
    /// ASnd, message type 6.
    Asnd {
        /// Its service. Any byte may stand there; 4 is NMTCommand.
        service: u8,
        /// The state command of service 4; of other services none.
        command: Option<Command>,
    },
}

impl Frame {
    /// Reads the bytes of an Ethernet frame, from its destination's address on.
    ///
    /// # Errors
    ///
    /// Refused, in this order:
    /// - [`Refusal::FrameTooShort`]: fewer than 17 bytes
    /// - [`Refusal::OtherEtherType`]: the EtherType is not 0x88AB
    /// - [`Refusal::OtherMessageType`]: the message type is none of SoC, PReq, PRes, SoA and ASnd
    /// - [`Refusal::FrameTooShort`]: an ASnd ends before its service or its command
    /// - [`Refusal::UnknownNumber`]: service 4 has no state command
    pub fn read(bytes: &[u8]) -> Result<Self, Refusal> {
        let mut frame = raw::Frame::default();
        // SAFETY: the pointer and the length are those of one slice.
        taken(unsafe { raw::plcn_frame_read(bytes.as_ptr(), bytes.len() as u64, &mut frame) })?;
        Ok(Self {
            message: Message::of(&frame).ok_or(Refusal::OtherMessageType)?,
            destination: frame.destination,
            source: frame.source,
        })
    }
}

impl Message {
    fn of(frame: &raw::Frame) -> Option<Self> {
        Some(match frame.message {
            1 => Self::Soc,
            3 => Self::Preq,
            4 => Self::Pres,
            5 => Self::Soa,
            6 => Self::Asnd {
                service: frame.service,
                command: Command::from_number(frame.command.into()),
            },
            _ => return None,
        })
    }
}
