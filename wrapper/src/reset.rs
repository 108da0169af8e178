//! Resets, and what they pass.

use crate::raw;
use crate::refusal::never_refused;
use crate::{IndexRange, NmtState};

numbered! {
    /// Which reset was passed (rule 4.4), by the state in which it begins.
    ///
    /// ```
    /// use powerlink_cn::{IndexRange, NmtEvent, NmtState, Node, Refusal, Reset, Setup};
    ///
    /// # fn main() -> Result<(), Refusal> {
    /// let mut node = Node::start(&Setup::new(7), &[])?;
    /// let reset = node.nmt_event(NmtEvent::ResetCommunication).reset;
    /// assert_eq!(reset, Some(Reset::Communication));
    ///
    /// // What is to be restored, before a load tells the node what came of it.
    /// let steps = Reset::Communication.steps();
    /// assert!(steps.ranges().eq([IndexRange { first: 0x1000, last: 0x1FFF }]));
    /// assert_eq!(steps.states().last(), Some(NmtState::NotActive));
    /// # Ok(())
    /// # }
    /// ```
    pub enum Reset {
        /// Reset and SwReset: from GsInitialising on.
        Whole = 1 => "Whole",
        /// ResetNode: from GsResetApplication on.
        Node = 2 => "Node",
        /// ResetCommunication: from GsResetCommunication on.
        Communication = 3 => "Communication",
        /// ResetConfiguration: GsResetConfiguration.
        Configuration = 4 => "Configuration",
    }
}

impl Reset {
    /// The states that it passes and the ranges of the dictionary to restore.
    pub fn steps(self) -> ResetSteps {
        let mut steps = raw::ResetSteps::default();
        never_refused(raw::plcn_reset_steps(self.number().into(), &mut steps));
        ResetSteps(steps)
    }
}

/// What a reset passes (rule 4.4).
#[derive(Debug, Clone, Copy, PartialEq, Eq)]
pub struct ResetSteps(raw::ResetSteps);

impl ResetSteps {
    /// The states that it enters, in order; the last is NotActive.
    pub fn states(&self) -> impl Iterator<Item = NmtState> + '_ {
        let states = self.0.state.iter().take(self.0.states.into());
        states.filter_map(|state| NmtState::from_number((*state).into()))
    }

    /// The ranges of the dictionary whose power-on values are to be restored, in order.
    pub fn ranges(&self) -> impl Iterator<Item = IndexRange> + '_ {
        self.0.range.iter().take(self.0.ranges.into()).copied()
    }
}
