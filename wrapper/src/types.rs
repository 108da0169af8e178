//! States, events and commands, each with the number by which the library knows it.

use crate::Refusal;
use crate::raw;
use crate::refusal::taken;

numbered! {
    /// An NMT state (DS 301, 7.1), with the standard's number.
    ///
    /// ```
    /// use powerlink_cn::{NmtState, Refusal};
    ///
    /// assert_eq!(NmtState::try_from(0x5D), Ok(NmtState::PreOperational2));
    /// assert_eq!(NmtState::try_from(0x15D), Err(Refusal::UnknownNumber));
    /// assert_eq!(NmtState::PreOperational2.to_string(), "PreOperational2");
    /// ```
    pub enum NmtState {
        /// `NMT_GS_OFF`.
        GsOff = 0x00 => "GsOff",
        /// `NMT_GS_INITIALISING`: a fresh head, and the first state that Reset and SwReset pass.
        GsInitialising = 0x19 => "GsInitialising",
        /// `NMT_GS_RESET_APPLICATION`: a reset passes it.
        GsResetApplication = 0x29 => "GsResetApplication",
        /// `NMT_GS_RESET_COMMUNICATION`: a reset passes it.
        GsResetCommunication = 0x39 => "GsResetCommunication",
        /// `NMT_GS_RESET_CONFIGURATION`: a reset passes it.
        GsResetConfiguration = 0x79 => "GsResetConfiguration",
        /// `NMT_CS_NOT_ACTIVE`: each reset ends here.
        NotActive = 0x1C => "NotActive",
        /// `NMT_CS_PRE_OPERATIONAL_1`.
        PreOperational1 = 0x1D => "PreOperational1",
        /// `NMT_CS_PRE_OPERATIONAL_2`: here the application's ready word counts.
        PreOperational2 = 0x5D => "PreOperational2",
        /// `NMT_CS_READY_TO_OPERATE`.
        ReadyToOperate = 0x6D => "ReadyToOperate",
        /// `NMT_CS_OPERATIONAL`: here alone a weight is told.
        Operational = 0xFD => "Operational",
        /// `NMT_CS_STOPPED`.
        CsStopped = 0x4D => "CsStopped",
        /// `NMT_CS_BASIC_ETHERNET`.
        BasicEthernet = 0x1E => "BasicEthernet",
    }
}

impl TryFrom<u64> for NmtState {
    type Error = Refusal;

    /// The state of a number (rule 4.8).
    ///
    /// # Errors
    ///
    /// Refused, in this order:
    /// - [`Refusal::UnknownNumber`]: no state has the number
    fn try_from(number: u64) -> Result<Self, Refusal> {
        let mut state = 0;
        taken(raw::plcn_read_state(number, &mut state))?;
        Self::from_number(state.into()).ok_or(Refusal::UnknownNumber)
    }
}

numbered! {
    /// An event of the NMT machine (rule 4.9), with its number there.
    pub enum NmtEvent {
        /// The command StartNode.
        StartNode = 0 => "StartNode",
        /// The command StopNode.
        StopNode = 1 => "StopNode",
        /// The command EnterPreOperational2.
        EnterPreOperational2 = 2 => "EnterPreOperational2",
        /// The command EnableReadyToOperate: the managing node allows ReadyToOperate.
        EnableReadyToOperate = 3 => "EnableReadyToOperate",
        /// A reset by hardware: a reset from GsInitialising on.
        Reset = 4 => "Reset",
        /// The command SwReset: a reset from GsInitialising on.
        SwReset = 5 => "SwReset",
        /// The command ResetNode: a reset from GsResetApplication on.
        ResetNode = 6 => "ResetNode",
        /// The command ResetCommunication: a reset from GsResetCommunication on.
        ResetCommunication = 7 => "ResetCommunication",
        /// The command ResetConfiguration: a reset from GsResetConfiguration on.
        ResetConfiguration = 8 => "ResetConfiguration",
        /// An event that no state takes.
        EnterEplMode = 9 => "EnterEplMode",
        /// The basic timeout has passed. A tick makes it at NotActive.
        Timeout = 10 => "Timeout",
        /// A counter has crossed. A tick or a frame makes it.
        Error = 11 => "Error",
        /// An SoA was received.
        SoAReceived = 12 => "SoAReceived",
        /// An SoC was received.
        SocReceived = 13 => "SocReceived",
        /// Any frame of POWERLINK was received.
        PowerlinkFrameReceived = 14 => "PowerlinkFrameReceived",
        /// The application's ready word.
        CnConfigurationComplete = 15 => "CnConfigurationComplete",
        /// An event of a managing node, that no state of a controlled node takes.
        AllCnsIdentified = 16 => "AllCnsIdentified",
        /// An event of a managing node, that no state of a controlled node takes.
        ConfigurationCompleteCnsReady = 17 => "ConfigurationCompleteCnsReady",
        /// An event of a managing node, that no state of a controlled node takes.
        AllMandatoryCnsOperational = 18 => "AllMandatoryCnsOperational",
    }
}

impl TryFrom<u64> for NmtEvent {
    type Error = Refusal;

    /// The event of a number.
    ///
    /// # Errors
    ///
    /// Refused, in this order:
    /// - [`Refusal::UnknownNumber`]: no event has the number
    fn try_from(number: u64) -> Result<Self, Refusal> {
        Self::from_number(number).ok_or(Refusal::UnknownNumber)
    }
}

numbered! {
    /// A state command of the managing node (DS 301, Appendix 3.7), with the standard's number.
    /// Each is the NMT event of its name.
    ///
    /// ```
    /// use powerlink_cn::{Command, NmtEvent, Refusal};
    ///
    /// assert_eq!(Command::try_from(0x22), Ok(Command::StopNode));
    /// assert_eq!(Command::try_from(0x25), Err(Refusal::UnknownNumber));
    /// assert_eq!(Command::StopNode.event(), NmtEvent::StopNode);
    /// ```
    pub enum Command {
        /// `NMTStartNode`.
        StartNode = 0x21 => "StartNode",
        /// `NMTStopNode`.
        StopNode = 0x22 => "StopNode",
        /// `NMTEnterPreOperational2`.
        EnterPreOperational2 = 0x23 => "EnterPreOperational2",
        /// `NMTEnableReadyToOperate`.
        EnableReadyToOperate = 0x24 => "EnableReadyToOperate",
        /// `NMTResetNode`.
        ResetNode = 0x28 => "ResetNode",
        /// `NMTResetCommunication`.
        ResetCommunication = 0x29 => "ResetCommunication",
        /// `NMTResetConfiguration`.
        ResetConfiguration = 0x2A => "ResetConfiguration",
        /// `NMTSwReset`.
        SwReset = 0x2B => "SwReset",
    }
}

impl Command {
    /// The NMT event of its name (rule 4.8).
    pub const fn event(self) -> NmtEvent {
        match self {
            Self::StartNode => NmtEvent::StartNode,
            Self::StopNode => NmtEvent::StopNode,
            Self::EnterPreOperational2 => NmtEvent::EnterPreOperational2,
            Self::EnableReadyToOperate => NmtEvent::EnableReadyToOperate,
            Self::ResetNode => NmtEvent::ResetNode,
            Self::ResetCommunication => NmtEvent::ResetCommunication,
            Self::ResetConfiguration => NmtEvent::ResetConfiguration,
            Self::SwReset => NmtEvent::SwReset,
        }
    }
}

impl TryFrom<u64> for Command {
    type Error = Refusal;

    /// The state command of a number (rule 4.8).
    ///
    /// # Errors
    ///
    /// Refused, in this order:
    /// - [`Refusal::UnknownNumber`]: no state command has the number
    fn try_from(number: u64) -> Result<Self, Refusal> {
        let mut command = 0;
        taken(raw::plcn_read_command(number, &mut command))?;
        Self::from_number(command.into()).ok_or(Refusal::UnknownNumber)
    }
}

numbered! {
    /// An event of the DLL machine (DS 301, 4.2.4.5.3), with its number here (rule 5.4).
    pub enum DllEvent {
        /// An SoC was received.
        Soc = 0 => "Soc",
        /// A PReq was received.
        Preq = 1 => "Preq",
        /// A PRes was received.
        Pres = 2 => "Pres",
        /// An SoA was received.
        Soa = 3 => "Soa",
        /// An ASnd was received.
        Asnd = 4 => "Asnd",
        /// The SoC is lost.
        SocTimeout = 5 => "SocTimeout",
    }
}

impl TryFrom<u64> for DllEvent {
    type Error = Refusal;

    /// The event of a number.
    ///
    /// # Errors
    ///
    /// Refused, in this order:
    /// - [`Refusal::UnknownNumber`]: no event has the number
    fn try_from(number: u64) -> Result<Self, Refusal> {
        Self::from_number(number).ok_or(Refusal::UnknownNumber)
    }
}

numbered! {
    /// A state of the DLL machine (DS 301, 4.2.4.5), with its number here (rule 5.4).
    pub enum DllState {
        /// `DLL_CS_NON_CYCLIC`.
        NonCyclic = 0 => "NonCyclic",
        /// `DLL_CS_WAIT_SOC`.
        WaitSoc = 1 => "WaitSoc",
        /// `DLL_CS_WAIT_PREQ`.
        WaitPreq = 2 => "WaitPreq",
        /// `DLL_CS_WAIT_SOA`.
        WaitSoa = 3 => "WaitSoa",
    }
}

numbered! {
    /// What readings of a clock say of the SoC (rule 7.10).
    pub enum SocVerdict {
        /// At each of them it is lost.
        Lost = 0 => "lost",
        /// At none of them.
        Kept = 1 => "kept",
        /// At some of them.
        Open = 2 => "open",
    }
}
