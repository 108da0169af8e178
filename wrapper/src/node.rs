//! A head with its memory.

use core::fmt;

use crate::raw;
use crate::refusal::{never_refused, taken};
use crate::{
    Bitmap, DllError, DllEvent, Entries, Entry, ErrorAnswer, Errors, FrameAnswer, Head, NmtAnswer,
    NmtEvent, NmtState, Refusal, Run, Setup, SocVerdict, Update, Watched,
};

/// A controlled node: its head, its emergency queue, its error history and its run of watched
/// nodes.
///
/// ```
/// use powerlink_cn::{DllError, NmtEvent, NmtState, Node, Refusal, Setup};
///
/// # fn main() -> Result<(), Refusal> {
/// let setup = Setup { cycle_us: Some(1000), tolerance_ns: Some(100_000), ..Setup::new(7) };
/// let mut node = Node::start(&setup, &[])?;
///
/// // From the power-on reset to PreOperational2, then the ready word and the enable.
/// use NmtEvent::{CnConfigurationComplete, EnableReadyToOperate, SoAReceived, SocReceived};
/// for event in [NmtEvent::SwReset, SoAReceived, SocReceived, CnConfigurationComplete] {
///     node.nmt_event(event);
/// }
/// assert_eq!(node.state(), NmtState::PreOperational2);
/// node.nmt_event(EnableReadyToOperate);
/// assert_eq!(node.state(), NmtState::ReadyToOperate);
///
/// // An SoC at 10,000 µs: the next is lost where it has not come by 11,100 µs.
/// node.arm(10_000)?;
/// assert_eq!(node.next_due()?, Some(11_100));
/// assert!(node.tick(11_100)?.is_empty());
/// assert_eq!(node.margin(11_101)?, -1);
/// # Ok(())
/// # }
/// ```
#[derive(Clone, PartialEq, Eq)]
pub struct Node {
    head: Head,
    run: Run,
    queue: raw::Queue,
    history: raw::History,
}

impl Node {
    /// Starts a node: a fresh head at GsInitialising, ready, not enabled, with an empty queue and
    /// an empty history (rule 1.9). It watches the nodes that are given, ascending by number, each
    /// with its timeout in µs; each counts as never heard.
    ///
    /// # Errors
    ///
    /// Refused, in this order:
    /// - [`Refusal::NodeNumber`]: `setup.node` is not 1 to 240, 253, 254 or 255
    /// - [`Refusal::QueueCapacity`]: `setup.queue_capacity` is above 32
    /// - [`Refusal::WatchedNodes`]: more than 32 nodes are watched, or they are not strictly
    ///   ascending by number, or one has a number outside the first refusal's or a time above
    ///   [`LATEST_TIME`](crate::LATEST_TIME)
    /// - [`Refusal::ThresholdLimit`]: a threshold is above 1,000,000
    ///
    /// # Examples
    ///
    /// ```
    /// use powerlink_cn::{Node, Refusal, Setup, Watched};
    ///
    /// let partners = [Watched::new(3, 5000), Watched::new(17, 0)];
    /// assert!(Node::start(&Setup::new(7), &partners).is_ok());
    /// let twice = [Watched::new(3, 5000), Watched::new(3, 5000)];
    /// assert_eq!(Node::start(&Setup::new(7), &twice), Err(Refusal::WatchedNodes));
    /// ```
    pub fn start(setup: &Setup, watched: &[Watched]) -> Result<Self, Refusal> {
        let mut node = Self {
            head: Head(raw::Head::default()),
            run: Run::of(watched),
            queue: raw::Queue::default(),
            history: raw::History::default(),
        };
        node.restart(setup)?;
        Ok(node)
    }

    /// Starts the node again, in place, with the run of watched nodes that it has.
    ///
    /// # Errors
    ///
    /// Those of [`Node::start`], in their order. On a refusal the node goes on as it was.
    pub fn restart(&mut self, setup: &Setup) -> Result<(), Refusal> {
        taken(raw::plcn_start(
            &mut self.head.0,
            &mut self.run,
            &setup.into(),
        ))
    }

    /// What its head keeps.
    pub const fn head(&self) -> &Head {
        &self.head
    }

    /// Its NMT state.
    pub const fn state(&self) -> NmtState {
        self.head.state()
    }

    /// Its run of watched nodes.
    pub const fn run(&self) -> &Run {
        &self.run
    }

    /// Its run of watched nodes, to be written between calls (rule 10). A call that looks at the
    /// run refuses one that is not well formed (rule 8.2) by [`Refusal::WatchedNodes`].
    pub const fn run_mut(&mut self) -> &mut Run {
        &mut self.run
    }

    /// The nodes that it watches, ascending by number.
    pub fn watched(&self) -> &[Watched] {
        self.run.watched()
    }

    /// The entries of its emergency queue, oldest first.
    pub fn queue(&self) -> Entries<'_> {
        Entries::of_queue(self.head.0, &self.queue)
    }

    /// The entries of its error history (object 0x1003), newest first.
    pub fn history(&self) -> Entries<'_> {
        Entries::of_history(self.head.0, &self.history)
    }

    /// Makes an NMT event (DS 301, 7.1, Table 107; rule 4). Errors are reported and not counted; a
    /// reset forgets the enable and the ready word. Never refused.
    ///
    /// ```
    /// use powerlink_cn::{DllError, NmtEvent, NmtState, Node, Refusal, Setup};
    ///
    /// # fn main() -> Result<(), Refusal> {
    /// let mut node = Node::start(&Setup::new(7), &[])?;
    /// assert!(node.nmt_event(NmtEvent::SwReset).reset.is_some());
    /// // NotActive does not take StopNode, event 1: it stays, with an error.
    /// let answer = node.nmt_event(NmtEvent::StopNode);
    /// assert_eq!(*answer.errors, [DllError::UnexpectedEventInState { state: 0x1C, event: 1 }]);
    /// assert_eq!(node.state(), NmtState::NotActive);
    /// # Ok(())
    /// # }
    /// ```
    pub fn nmt_event(&mut self, event: NmtEvent) -> NmtAnswer {
        let mut answer = raw::NmtAnswer::default();
        never_refused(raw::plcn_nmt_event(
            &mut self.head.0,
            event.number().into(),
            &mut answer,
        ));
        answer.into()
    }

    /// [`Node::nmt_event`] of an event's number, which is not cut to 8 bits.
    ///
    /// # Errors
    ///
    /// Refused, in this order:
    /// - [`Refusal::UnknownNumber`]: the number is above 18
    pub fn nmt_event_number(&mut self, event: u64) -> Result<NmtAnswer, Refusal> {
        let mut answer = raw::NmtAnswer::default();
        taken(raw::plcn_nmt_event(&mut self.head.0, event, &mut answer))?;
        Ok(answer.into())
    }

    /// Makes a DLL event in the node's NMT state (DS 301, 4.2.4.5; rule 5). `expect_preq` says
    /// whether a PReq is expected in this cycle. Errors are reported and not counted. Never
    /// refused.
    pub fn dll_event(&mut self, event: DllEvent, expect_preq: bool) -> Errors {
        let mut errors = raw::Errors::default();
        let event = event.number().into();
        let head = &mut self.head.0;
        never_refused(raw::plcn_dll_event(
            head,
            event,
            expect_preq.into(),
            &mut errors,
        ));
        errors.into()
    }

    /// [`Node::dll_event`] of an event's number, which is not cut to 8 bits.
    ///
    /// # Errors
    ///
    /// Refused, in this order:
    /// - [`Refusal::UnknownNumber`]: the number is above 5
    pub fn dll_event_number(&mut self, event: u64, expect_preq: bool) -> Result<Errors, Refusal> {
        let mut errors = raw::Errors::default();
        let head = &mut self.head.0;
        taken(raw::plcn_dll_event(
            head,
            event,
            expect_preq.into(),
            &mut errors,
        ))?;
        Ok(errors.into())
    }

    /// Gives an error to the counters (DS 301, 4.7.4.1; rule 6). The action is asked for and not
    /// carried out.
    ///
    /// # Errors
    ///
    /// Refused, in this order:
    /// - [`Refusal::NodeNumber`]: the node that the error carries is not 1 to 240, 253, 254 or 255
    ///
    /// # Examples
    ///
    /// ```
    /// use powerlink_cn::{DllError, NmtAction, Node, Refusal, Setup};
    ///
    /// # fn main() -> Result<(), Refusal> {
    /// // Each error raises the level by 8, and the threshold is 15: the second crosses.
    /// let mut node = Node::start(&Setup::new(7), &[])?;
    /// assert_eq!(node.handle_error(DllError::Crc)?.action, None);
    /// let answer = node.handle_error(DllError::Crc)?;
    /// assert_eq!(answer.action, Some(NmtAction::ResetCommunication));
    /// assert!(answer.signal);
    /// # Ok(())
    /// # }
    /// ```
    pub fn handle_error(&mut self, error: DllError) -> Result<ErrorAnswer, Refusal> {
        let (a, b) = error.carried();
        self.handle_error_number(error.kind().number().into(), a, b)
    }

    /// [`Node::handle_error`] of a kind's number, which is not cut to 8 bits. `a` is the node of a
    /// kind that carries one; `a` and `b` are the state and the event of kind 18; what a kind does
    /// not carry is not looked at.
    ///
    /// # Errors
    ///
    /// Refused, in this order:
    /// - [`Refusal::UnknownNumber`]: the kind is above 21
    /// - [`Refusal::NodeNumber`]: `a` is to be a node and is not 1 to 240, 253, 254 or 255
    pub fn handle_error_number(&mut self, kind: u64, a: u8, b: u8) -> Result<ErrorAnswer, Refusal> {
        let mut answer = raw::ErrorAnswer::default();
        taken(raw::plcn_handle_error(
            &mut self.head.0,
            kind,
            a,
            b,
            &mut answer,
        ))?;
        Ok(answer.into())
    }

    /// A cycle is complete: each level above 0 falls by 1 (rule 6.4). Whether the last of them
    /// reached 0. Never refused.
    pub fn cycle_complete(&mut self) -> bool {
        let mut answer = raw::CycleAnswer::default();
        never_refused(raw::plcn_cycle_complete(&mut self.head.0, &mut answer));
        answer.cleared != 0
    }

    /// The application is not ready any more: its ready word is withdrawn (our rule 4.3).
    ///
    /// # Errors
    ///
    /// Refused, in this order:
    /// - [`Refusal::ReadyToOperate`]: the node is at ReadyToOperate
    pub fn withdraw(&mut self) -> Result<(), Refusal> {
        taken(raw::plcn_withdraw(&mut self.head.0))
    }

    /// A watched node was heard at a time, in µs (DS 301, 7.3.5; rule 8.5).
    ///
    /// # Errors
    ///
    /// Refused, in this order:
    /// - [`Refusal::WatchedNodes`]: the run is not well formed
    /// - [`Refusal::TimeLimit`]: the time is above [`LATEST_TIME`](crate::LATEST_TIME)
    /// - [`Refusal::NotWatched`]: the node is not watched
    pub fn heard(&mut self, node: u8, time_us: u64) -> Result<(), Refusal> {
        taken(raw::plcn_heard(
            &mut self.head.0,
            &mut self.run,
            node,
            time_us,
        ))
    }

    /// The oldest entry leaves the emergency queue (DS 301, 6.5; rule 9.4); none where it is empty.
    /// Never refused.
    #[must_use = "the entry has left the queue"]
    pub fn hand_out(&mut self) -> Option<Entry> {
        let mut answer = raw::HandedOut::default();
        never_refused(raw::plcn_hand_out(
            &mut self.head.0,
            &self.queue,
            &mut answer,
        ));
        answer.into()
    }

    /// Loads values of the dictionary, and a history (rule 3). Never refused.
    pub fn load(&mut self, update: &Update<'_>) {
        let entries = update.history.unwrap_or_default();
        let (head, history) = (&mut self.head.0, &mut self.history);
        let (bytes, length) = (entries.as_ptr(), entries.len() as u64);
        // SAFETY: the pointer and the length are those of one slice.
        never_refused(unsafe { raw::plcn_load(head, history, &update.into(), bytes, length) });
    }

    /// An SoC was received at a time, in µs (DS 301, 4.7.7.3.1; rule 3): with a cycle above 0 the
    /// SoC check goes on with a deadline, with cycle 0 it goes off. [`Node::frame`] arms by itself.
    ///
    /// # Errors
    ///
    /// Refused, in this order:
    /// - [`Refusal::TimeLimit`]: the time is above [`LATEST_TIME`](crate::LATEST_TIME)
    pub fn arm(&mut self, time_us: u64) -> Result<(), Refusal> {
        taken(raw::plcn_arm(&mut self.head.0, time_us))
    }

    /// A tick at a time, in µs: late watched nodes, a lost SoC and the basic timeout are looked for
    /// (DS 301, 4.7.7.3.1 and 7.3.5; rule 7). What is logged.
    ///
    /// # Errors
    ///
    /// Refused, in this order:
    /// - [`Refusal::WatchedNodes`]: the run is not well formed
    /// - [`Refusal::TimeLimit`]: the time is above [`LATEST_TIME`](crate::LATEST_TIME)
    /// - [`Refusal::BeforeHeard`]: in a state that checks heartbeats: a watched node was heard
    ///   later
    ///
    /// # Examples
    ///
    /// ```
    /// use powerlink_cn::{NmtEvent, NmtState, Node, Refusal, Setup};
    ///
    /// # fn main() -> Result<(), Refusal> {
    /// let mut node = Node::start(&Setup { basic_timeout_us: 500, ..Setup::new(7) }, &[])?;
    /// node.nmt_event(NmtEvent::SwReset);
    /// // The first tick at NotActive sets the deadline of the basic timeout.
    /// assert!(node.tick(1000)?.is_empty());
    /// assert_eq!(node.next_due()?, Some(1500));
    /// node.tick(1500)?;
    /// assert_eq!(node.state(), NmtState::BasicEthernet);
    /// # Ok(())
    /// # }
    /// ```
    pub fn tick(&mut self, time_us: u64) -> Result<Errors, Refusal> {
        let mut logged = raw::Errors::default();
        let Self {
            head,
            run,
            queue,
            history,
        } = self;
        taken(raw::plcn_tick(
            &mut head.0,
            queue,
            history,
            run,
            time_us,
            &mut logged,
        ))?;
        Ok(logged.into())
    }

    /// Whether the SoC is lost between two readings of a clock, in µs, both included (our rule
    /// 7.10).
    ///
    /// # Errors
    ///
    /// Refused, in this order:
    /// - [`Refusal::TimeLimit`]: a reading is above [`LATEST_TIME`](crate::LATEST_TIME)
    /// - [`Refusal::EarliestAfterLatest`]: `earliest_us` is after `latest_us`
    pub fn range(&self, earliest_us: u64, latest_us: u64) -> Result<SocVerdict, Refusal> {
        let mut answer = raw::RangeAnswer::default();
        taken(raw::plcn_range(
            &self.head.0,
            earliest_us,
            latest_us,
            &mut answer,
        ))?;
        Ok(answer.into())
    }

    /// What is left of the limit of the SoC check at a reading of a clock, both in µs; below 0 the
    /// SoC is lost (our rule 7.10).
    ///
    /// # Errors
    ///
    /// Refused, in this order:
    /// - [`Refusal::TimeLimit`]: the reading is above [`LATEST_TIME`](crate::LATEST_TIME)
    pub fn margin(&self, time_us: u64) -> Result<i64, Refusal> {
        let mut answer = raw::MarginAnswer::default();
        taken(raw::plcn_margin(&self.head.0, time_us, &mut answer))?;
        Ok(answer.margin_us)
    }

    /// Watches a node from now on, never heard yet, with its timeout in µs; 0: it is never late
    /// (our rule 8.4). The places behind the watched nodes are cleared.
    ///
    /// # Errors
    ///
    /// Refused, in this order:
    /// - [`Refusal::NodeNumber`]: the node is not 1 to 240, 253, 254 or 255
    /// - [`Refusal::WatchedNodes`]: the run is not well formed, or the timeout is above
    ///   [`LATEST_TIME`](crate::LATEST_TIME)
    /// - [`Refusal::AlreadyWatched`]: the node is watched already
    /// - [`Refusal::AllWatched`]: 32 nodes are watched already
    pub fn add(&mut self, node: u8, timeout_us: u64) -> Result<(), Refusal> {
        taken(raw::plcn_add(
            &mut self.head.0,
            &mut self.run,
            node,
            timeout_us,
        ))
    }

    /// Watches a node no more (our rule 8.4). The places behind the watched nodes are cleared.
    ///
    /// # Errors
    ///
    /// Refused, in this order:
    /// - [`Refusal::WatchedNodes`]: the run is not well formed
    /// - [`Refusal::NotWatched`]: the node is not watched
    pub fn remove(&mut self, node: u8) -> Result<(), Refusal> {
        taken(raw::plcn_remove(&mut self.head.0, &mut self.run, node))
    }

    /// When the next tick is due, in µs; 0: at once; none where no tick finds anything to do (our
    /// rule 7.13). A tick that is taken before then finds nothing to do.
    ///
    /// # Errors
    ///
    /// Refused, in this order:
    /// - [`Refusal::WatchedNodes`]: the run is not well formed
    pub fn next_due(&self) -> Result<Option<u64>, Refusal> {
        let mut answer = raw::DueAnswer::default();
        taken(raw::plcn_next_due(&self.head.0, &self.run, &mut answer))?;
        Ok(answer.into())
    }

    /// A frame arrived at a time, in µs: the bytes of an Ethernet frame, from its destination's
    /// address on (rule 13). Its DLL event, its NMT event and the arming of an SoC come of it.
    ///
    /// # Errors
    ///
    /// Refused, in this order:
    /// - [`Refusal::FrameTooShort`]: fewer than 17 bytes
    /// - [`Refusal::OtherEtherType`]: the EtherType is not 0x88AB
    /// - [`Refusal::OtherMessageType`]: the message type is none of SoC, PReq, PRes, SoA and ASnd
    /// - [`Refusal::FrameTooShort`]: an ASnd ends before its service or its command
    /// - [`Refusal::UnknownNumber`]: service 4 has no state command
    /// - [`Refusal::TimeLimit`]: the time is above [`LATEST_TIME`](crate::LATEST_TIME)
    ///
    /// # Examples
    ///
    /// ```
    /// use powerlink_cn::{FrameAnswer, NmtEvent, NmtState, Node, Refusal, Setup};
    ///
    /// # fn main() -> Result<(), Refusal> {
    /// let mut node = Node::start(&Setup { cycle_us: Some(1000), ..Setup::new(7) }, &[])?;
    /// node.nmt_event(NmtEvent::SwReset);
    /// // An SoC: message type 1, from the managing node to all.
    /// let mut soc = [0; 60];
    /// soc[12..17].copy_from_slice(&[0x88, 0xAB, 0x01, 0xFF, 0xF0]);
    /// assert!(matches!(node.frame(10_000, &soc)?, FrameAnswer::Ours { nmt: Some(_), .. }));
    /// assert_eq!(node.state(), NmtState::PreOperational1);
    /// assert_eq!(node.head().last_soc_us(), 10_000);
    /// # Ok(())
    /// # }
    /// ```
    pub fn frame(&mut self, time_us: u64, bytes: &[u8]) -> Result<FrameAnswer, Refusal> {
        let mut answer = raw::FrameAnswer::default();
        let Self {
            head,
            queue,
            history,
            ..
        } = self;
        let (at, length) = (bytes.as_ptr(), bytes.len() as u64);
        // SAFETY: the pointer and the length are those of one slice.
        taken(unsafe {
            raw::plcn_frame(
                &mut head.0,
                queue,
                history,
                time_us,
                at,
                length,
                &mut answer,
            )
        })?;
        Ok(answer.into())
    }

    /// The watched nodes as bits (rule 8.7).
    ///
    /// # Errors
    ///
    /// Refused, in this order:
    /// - [`Refusal::WatchedNodes`]: the run is not well formed
    pub fn bitmap(&self) -> Result<Bitmap, Refusal> {
        self.run.bitmap()
    }
}

/// Its head and what it watches.
impl fmt::Debug for Node {
    fn fmt(&self, f: &mut fmt::Formatter<'_>) -> fmt::Result {
        f.debug_struct("Node")
            .field("head", &self.head)
            .field("watched", &self.watched())
            .finish_non_exhaustive()
    }
}
