//! The names and texts as the library has them. [`Refusal`](crate::Refusal) and the enums have the
//! same by `Display`, without a call of the library.

use core::fmt;

use crate::raw;

/// A text of the library; empty where the number is none.
///
/// ```
/// use powerlink_cn::{Refusal, text};
///
/// assert_eq!(text::of_refusal(8).as_str(), Refusal::ReadyToOperate.text());
/// assert_eq!(text::of_state(0x5D).to_string(), "PreOperational2");
/// assert!(text::of_state(0x5E).as_str().is_empty());
/// ```
#[derive(Debug, Clone, Copy, PartialEq, Eq)]
pub struct Text(raw::Text);

impl Text {
    /// Its characters.
    pub fn as_str(&self) -> &str {
        let bytes = self.0.text.split(|byte| *byte == 0).next().unwrap_or(&[]);
        core::str::from_utf8(bytes).unwrap_or("")
    }
}

impl fmt::Display for Text {
    fn fmt(&self, f: &mut fmt::Formatter<'_>) -> fmt::Result {
        f.pad(self.as_str())
    }
}

/// Why a call is refused, without a full stop, by the refusal's number.
pub fn of_refusal(number: u32) -> Text {
    Text(raw::plcn_refusal_text(number))
}

/// The name of an NMT state, by its number.
pub fn of_state(number: u32) -> Text {
    Text(raw::plcn_state_name(number))
}

/// The name of an NMT event, by its number.
pub fn of_event(number: u32) -> Text {
    Text(raw::plcn_event_name(number))
}

/// The name of a state command, by its number.
pub fn of_command(number: u32) -> Text {
    Text(raw::plcn_command_name(number))
}

/// The name of a DLL event, by its number.
pub fn of_dll_event(number: u32) -> Text {
    Text(raw::plcn_dll_event_name(number))
}

/// The name of a kind of error, by its number.
pub fn of_kind(number: u32) -> Text {
    Text(raw::plcn_kind_name(number))
}
