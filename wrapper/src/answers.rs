//! What calls answer.

use core::fmt;

use crate::raw;
use crate::{Errors, Reset, SocVerdict};

/// What an NMT event answers.
#[derive(Debug, Clone, Copy, PartialEq, Eq)]
pub struct NmtAnswer {
    /// The errors that it reports; they are not counted (rule 4.6).
    pub errors: Errors,
    /// The reset that it passed, if it is one. [`Reset::steps`] tells what is to be restored.
    pub reset: Option<Reset>,
}

impl From<raw::NmtAnswer> for NmtAnswer {
    fn from(answer: raw::NmtAnswer) -> Self {
        Self {
            errors: answer.errors.into(),
            reset: Reset::from_number(answer.reset.into()),
        }
    }
}

/// What the NMT machine is asked to do for an error.
#[derive(Debug, Clone, Copy, PartialEq, Eq, Hash)]
pub enum NmtAction {
    /// To reset the communication.
    ResetCommunication,
    /// To reset the node of this number. No counter of a controlled node asks for it.
    ResetNode(u8),
}

impl NmtAction {
    fn of(answer: &raw::ErrorAnswer) -> Option<Self> {
        match answer.action {
            1 => Some(Self::ResetCommunication),
            2 => Some(Self::ResetNode(answer.action_node)),
            _ => None,
        }
    }
}

impl fmt::Display for NmtAction {
    fn fmt(&self, f: &mut fmt::Formatter<'_>) -> fmt::Result {
        match self {
            Self::ResetCommunication => f.write_str("ResetCommunication"),
            Self::ResetNode(node) => write!(f, "ResetNode of node {node}"),
        }
    }
}

/// What an error that was given to the counters answers (rule 6).
#[derive(Debug, Clone, Copy, PartialEq, Eq)]
pub struct ErrorAnswer {
    /// What is asked for, and not carried out.
    pub action: Option<NmtAction>,
    /// Whether the error is signalled.
    pub signal: bool,
    /// What is logged.
    pub logged: Errors,
}

impl From<raw::ErrorAnswer> for ErrorAnswer {
    fn from(answer: raw::ErrorAnswer) -> Self {
        Self {
            action: NmtAction::of(&answer),
            signal: answer.signal != 0,
            logged: answer.logged.into(),
        }
    }
}

/// What a frame answers (rule 13).
#[derive(Debug, Clone, Copy, PartialEq, Eq)]
pub enum FrameAnswer {
    /// It is for another node; nothing changed.
    NotOurs,
    /// It is for this node, or for all.
    Ours {
        /// What is logged.
        logged: Errors,
        /// What the NMT event answers that came of it, if one came.
        nmt: Option<NmtAnswer>,
    },
}

impl From<raw::FrameAnswer> for FrameAnswer {
    fn from(answer: raw::FrameAnswer) -> Self {
        if answer.ours == 0 {
            return Self::NotOurs;
        }
        Self::Ours {
            logged: answer.logged.into(),
            nmt: (answer.has_nmt != 0).then(|| answer.nmt.into()),
        }
    }
}

impl From<raw::RangeAnswer> for SocVerdict {
    /// The library answers no number that is none, which would be read as open.
    fn from(answer: raw::RangeAnswer) -> Self {
        Self::from_number(answer.verdict.into()).unwrap_or(Self::Open)
    }
}

impl From<raw::DueAnswer> for Option<u64> {
    fn from(answer: raw::DueAnswer) -> Self {
        (answer.there != 0).then_some(answer.time_us)
    }
}
