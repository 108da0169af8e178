//! A node with the recipe that it doses from.

use core::fmt;

use crate::raw;
use crate::raw::Component;
use crate::refusal::{never_refused, taken};
use crate::{
    Bitmap, DllError, DllEvent, Entries, Entry, ErrorAnswer, Errors, FrameAnswer, Head, NmtAnswer,
    NmtEvent, NmtState, RECIPE_PLACES, Refusal, Run, Setup, SocVerdict, Update, Watched,
};

impl Component {
    /// So many grams from a bin.
    pub const fn new(bin: u8, grams: u16) -> Self {
        Self { bin, grams }
    }
}

/// A weigh head: a node, and 16 places for the components of its recipe (rule 12). It loads a
/// recipe and gives its node the ready word in one call, each reset empties all places, and it
/// tells a weight in Operational alone, of the recipe that was last loaded since the last reset.
///
/// The calls of a [`Node`](crate::Node) are made through it; nobody else reaches the node.
///
/// ```
/// use powerlink_cn::{Component, NmtEvent, NmtState, Refusal, Setup, WeighHead};
///
/// # fn main() -> Result<(), Refusal> {
/// let mut head = WeighHead::start(&Setup::new(7), &[])?;
/// for event in [NmtEvent::SwReset, NmtEvent::SoAReceived, NmtEvent::SocReceived] {
///     head.nmt_event(event);
/// }
/// head.load_recipe(&[Component::new(12, 250), Component::new(3, 40)])?;
/// head.nmt_event(NmtEvent::StartNode);
/// assert_eq!(head.state(), NmtState::Operational);
/// assert_eq!(head.weight(1), Ok(40));
///
/// // A reset empties the places: no weight is told before a recipe is loaded again.
/// head.nmt_event(NmtEvent::ResetCommunication);
/// assert_eq!(head.weight(1), Err(Refusal::NoWeight));
/// # Ok(())
/// # }
/// ```
#[derive(Clone)]
pub struct WeighHead {
    weigh: raw::Weigh,
    memory: raw::Memory,
}

impl WeighHead {
    /// Starts a weigh head: a fresh node, as by [`Node::start`](crate::Node::start), and no recipe.
    ///
    /// # Errors
    ///
    /// Refused, in this order:
    /// - [`Refusal::NodeNumber`]: `setup.node` is not 1 to 240, 253, 254 or 255
    /// - [`Refusal::QueueCapacity`]: `setup.queue_capacity` is above 32
    /// - [`Refusal::WatchedNodes`]: more than 32 nodes are watched, or they are not strictly
    ///   ascending by number, or one has a number outside the first refusal's or a time above
    ///   [`LATEST_TIME`](crate::LATEST_TIME)
    /// - [`Refusal::ThresholdLimit`]: a threshold is above 1,000,000
    pub fn start(setup: &Setup, watched: &[Watched]) -> Result<Self, Refusal> {
        let memory = raw::Memory {
            run: Run::of(watched),
            ..raw::Memory::default()
        };
        let mut head = Self {
            weigh: raw::Weigh::new(),
            memory,
        };
        head.restart(setup)?;
        Ok(head)
    }

    /// Starts the weigh head again, in place, with the run of watched nodes that it has.
    ///
    /// # Errors
    ///
    /// Those of [`WeighHead::start`], in their order. On a refusal it goes on as it was.
    pub fn restart(&mut self, setup: &Setup) -> Result<(), Refusal> {
        taken(raw::plcn_weigh_start(
            &mut self.weigh,
            &mut self.memory,
            &setup.into(),
        ))
    }

    /// Loads a recipe and gives the node its ready word (rule 12.3): the components fill the places
    /// in their order, and the places behind them are empty.
    ///
    /// # Errors
    ///
    /// Refused, in this order:
    /// - [`Refusal::RecipeLimits`]: not 1 to 16 components, a bin that is not 1 to 64 or stands
    ///   twice, or grams that are not 1 to 30,000
    /// - [`Refusal::NotPreOperational2`]: the node is not at PreOperational2
    pub fn load_recipe(&mut self, components: &[Component]) -> Result<(), Refusal> {
        let (at, number) = (components.as_ptr(), components.len() as u64);
        let Self { weigh, memory } = self;
        // SAFETY: the pointer and the number are those of one slice.
        taken(unsafe { raw::plcn_weigh_load_recipe(weigh, memory, at, number) })
    }

    /// The weight for a place, from 0 on, in grams (rule 12.4).
    ///
    /// # Errors
    ///
    /// Refused, in this order:
    /// - [`Refusal::NoWeight`]: the node is not at Operational, or the recipe last loaded since the
    ///   last reset has no such place
    pub fn weight(&self, place: usize) -> Result<u16, Refusal> {
        let mut grams = 0;
        taken(raw::plcn_weigh_weight(
            &self.weigh,
            place as u64,
            &mut grams,
        ))?;
        Ok(grams)
    }

    /// Its places; one without a component has bin 0 and 0 grams.
    pub fn places(&self) -> [Component; RECIPE_PLACES] {
        let mut places = [Component::default(); RECIPE_PLACES];
        never_refused(raw::plcn_weigh_places(&self.weigh, &mut places));
        places
    }

    /// What the head of its node keeps: a copy.
    pub fn head(&self) -> Head {
        let mut head = raw::Head::default();
        never_refused(raw::plcn_weigh_head(&self.weigh, &mut head));
        Head(head)
    }

    /// Its node's NMT state.
    pub fn state(&self) -> NmtState {
        self.head().state()
    }

    /// As [`Node::run`](crate::Node::run).
    pub const fn run(&self) -> &Run {
        &self.memory.run
    }

    /// As [`Node::run_mut`](crate::Node::run_mut).
    pub const fn run_mut(&mut self) -> &mut Run {
        &mut self.memory.run
    }

    /// As [`Node::watched`](crate::Node::watched).
    pub fn watched(&self) -> &[Watched] {
        self.memory.run.watched()
    }

    /// As [`Node::queue`](crate::Node::queue).
    pub fn queue(&self) -> Entries<'_> {
        Entries::of_queue(self.head().0, &self.memory.queue)
    }

    /// As [`Node::history`](crate::Node::history).
    pub fn history(&self) -> Entries<'_> {
        Entries::of_history(self.head().0, &self.memory.history)
    }

    /// As [`Node::nmt_event`](crate::Node::nmt_event); a reset empties all places. Never refused.
    pub fn nmt_event(&mut self, event: NmtEvent) -> NmtAnswer {
        let mut answer = raw::NmtAnswer::default();
        let Self { weigh, memory } = self;
        let event = event.number().into();
        never_refused(raw::plcn_weigh_nmt_event(weigh, memory, event, &mut answer));
        answer.into()
    }

    /// As [`Node::nmt_event_number`](crate::Node::nmt_event_number); a reset empties all places.
    ///
    /// # Errors
    ///
    /// Refused, in this order:
    /// - [`Refusal::UnknownNumber`]: the number is above 18
    pub fn nmt_event_number(&mut self, event: u64) -> Result<NmtAnswer, Refusal> {
        let mut answer = raw::NmtAnswer::default();
        taken(raw::plcn_weigh_nmt_event(
            &mut self.weigh,
            &mut self.memory,
            event,
            &mut answer,
        ))?;
        Ok(answer.into())
    }

    /// As [`Node::dll_event`](crate::Node::dll_event). Never refused.
    pub fn dll_event(&mut self, event: DllEvent, expect_preq: bool) -> Errors {
        let mut errors = raw::Errors::default();
        let Self { weigh, memory } = self;
        let (event, expect) = (event.number().into(), expect_preq.into());
        never_refused(raw::plcn_weigh_dll_event(
            weigh,
            memory,
            event,
            expect,
            &mut errors,
        ));
        errors.into()
    }

    /// As [`Node::dll_event_number`](crate::Node::dll_event_number).
    ///
    /// # Errors
    ///
    /// Refused, in this order:
    /// - [`Refusal::UnknownNumber`]: the number is above 5
    pub fn dll_event_number(&mut self, event: u64, expect_preq: bool) -> Result<Errors, Refusal> {
        let mut errors = raw::Errors::default();
        let Self { weigh, memory } = self;
        let expect = expect_preq.into();
        taken(raw::plcn_weigh_dll_event(
            weigh,
            memory,
            event,
            expect,
            &mut errors,
        ))?;
        Ok(errors.into())
    }

    /// As [`Node::handle_error`](crate::Node::handle_error).
    ///
    /// # Errors
    ///
    /// Refused, in this order:
    /// - [`Refusal::NodeNumber`]: the node that the error carries is not 1 to 240, 253, 254 or 255
    pub fn handle_error(&mut self, error: DllError) -> Result<ErrorAnswer, Refusal> {
        let (a, b) = error.carried();
        self.handle_error_number(error.kind().number().into(), a, b)
    }

    /// As [`Node::handle_error_number`](crate::Node::handle_error_number).
    ///
    /// # Errors
    ///
    /// Refused, in this order:
    /// - [`Refusal::UnknownNumber`]: the kind is above 21
    /// - [`Refusal::NodeNumber`]: `a` is to be a node and is not 1 to 240, 253, 254 or 255
    pub fn handle_error_number(&mut self, kind: u64, a: u8, b: u8) -> Result<ErrorAnswer, Refusal> {
        let mut answer = raw::ErrorAnswer::default();
        let Self { weigh, memory } = self;
        taken(raw::plcn_weigh_handle_error(
            weigh,
            memory,
            kind,
            a,
            b,
            &mut answer,
        ))?;
        Ok(answer.into())
    }

    /// As [`Node::cycle_complete`](crate::Node::cycle_complete). Never refused.
    pub fn cycle_complete(&mut self) -> bool {
        let mut answer = raw::CycleAnswer::default();
        let Self { weigh, memory } = self;
        never_refused(raw::plcn_weigh_cycle_complete(weigh, memory, &mut answer));
        answer.cleared != 0
    }

    /// As [`Node::withdraw`](crate::Node::withdraw).
    ///
    /// # Errors
    ///
    /// Refused, in this order:
    /// - [`Refusal::ReadyToOperate`]: the node is at ReadyToOperate
    pub fn withdraw(&mut self) -> Result<(), Refusal> {
        taken(raw::plcn_weigh_withdraw(&mut self.weigh, &mut self.memory))
    }

    /// As [`Node::heard`](crate::Node::heard); the time is in µs.
    ///
    /// # Errors
    ///
    /// Refused, in this order:
    /// - [`Refusal::WatchedNodes`]: the run is not well formed
    /// - [`Refusal::TimeLimit`]: the time is above [`LATEST_TIME`](crate::LATEST_TIME)
    /// - [`Refusal::NotWatched`]: the node is not watched
    pub fn heard(&mut self, node: u8, time_us: u64) -> Result<(), Refusal> {
        taken(raw::plcn_weigh_heard(
            &mut self.weigh,
            &mut self.memory,
            node,
            time_us,
        ))
    }

    /// As [`Node::hand_out`](crate::Node::hand_out). Never refused.
    #[must_use = "the entry has left the queue"]
    pub fn hand_out(&mut self) -> Option<Entry> {
        let mut answer = raw::HandedOut::default();
        let Self { weigh, memory } = self;
        never_refused(raw::plcn_weigh_hand_out(weigh, memory, &mut answer));
        answer.into()
    }

    /// As [`Node::load`](crate::Node::load). Never refused.
    pub fn load(&mut self, update: &Update<'_>) {
        let entries = update.history.unwrap_or_default();
        let Self { weigh, memory } = self;
        let (bytes, length) = (entries.as_ptr(), entries.len() as u64);
        // SAFETY: the pointer and the length are those of one slice.
        never_refused(unsafe {
            raw::plcn_weigh_load(weigh, memory, &update.into(), bytes, length)
        });
    }

    /// As [`Node::arm`](crate::Node::arm); the time is in µs.
    ///
    /// # Errors
    ///
    /// Refused, in this order:
    /// - [`Refusal::TimeLimit`]: the time is above [`LATEST_TIME`](crate::LATEST_TIME)
    pub fn arm(&mut self, time_us: u64) -> Result<(), Refusal> {
        taken(raw::plcn_weigh_arm(
            &mut self.weigh,
            &mut self.memory,
            time_us,
        ))
    }

    /// As [`Node::tick`](crate::Node::tick); the time is in µs.
    ///
    /// # Errors
    ///
    /// Refused, in this order:
    /// - [`Refusal::WatchedNodes`]: the run is not well formed
    /// - [`Refusal::TimeLimit`]: the time is above [`LATEST_TIME`](crate::LATEST_TIME)
    /// - [`Refusal::BeforeHeard`]: in a state that checks heartbeats: a watched node was heard
    ///   later
    pub fn tick(&mut self, time_us: u64) -> Result<Errors, Refusal> {
        let mut logged = raw::Errors::default();
        taken(raw::plcn_weigh_tick(
            &mut self.weigh,
            &mut self.memory,
            time_us,
            &mut logged,
        ))?;
        Ok(logged.into())
    }

    /// As [`Node::range`](crate::Node::range); the readings are in µs.
    ///
    /// # Errors
    ///
    /// Refused, in this order:
    /// - [`Refusal::TimeLimit`]: a reading is above [`LATEST_TIME`](crate::LATEST_TIME)
    /// - [`Refusal::EarliestAfterLatest`]: `earliest_us` is after `latest_us`
    pub fn range(&self, earliest_us: u64, latest_us: u64) -> Result<SocVerdict, Refusal> {
        let mut answer = raw::RangeAnswer::default();
        taken(raw::plcn_weigh_range(
            &self.weigh,
            earliest_us,
            latest_us,
            &mut answer,
        ))?;
        Ok(answer.into())
    }

    /// As [`Node::margin`](crate::Node::margin), in µs.
    ///
    /// # Errors
    ///
    /// Refused, in this order:
    /// - [`Refusal::TimeLimit`]: the reading is above [`LATEST_TIME`](crate::LATEST_TIME)
    pub fn margin(&self, time_us: u64) -> Result<i64, Refusal> {
        let mut answer = raw::MarginAnswer::default();
        taken(raw::plcn_weigh_margin(&self.weigh, time_us, &mut answer))?;
        Ok(answer.margin_us)
    }

    /// As [`Node::add`](crate::Node::add); the timeout is in µs.
    ///
    /// # Errors
    ///
    /// Refused, in this order:
    /// - [`Refusal::NodeNumber`]: the node is not 1 to 240, 253, 254 or 255
    /// - [`Refusal::WatchedNodes`]: the run is not well formed, or the timeout is above
    ///   [`LATEST_TIME`](crate::LATEST_TIME)
    /// - [`Refusal::AlreadyWatched`]: the node is watched already
    /// - [`Refusal::AllWatched`]: 32 nodes are watched already
    pub fn add(&mut self, node: u8, timeout_us: u64) -> Result<(), Refusal> {
        taken(raw::plcn_weigh_add(
            &mut self.weigh,
            &mut self.memory,
            node,
            timeout_us,
        ))
    }

    /// As [`Node::remove`](crate::Node::remove).
    ///
    /// # Errors
    ///
    /// Refused, in this order:
    /// - [`Refusal::WatchedNodes`]: the run is not well formed
    /// - [`Refusal::NotWatched`]: the node is not watched
    pub fn remove(&mut self, node: u8) -> Result<(), Refusal> {
        taken(raw::plcn_weigh_remove(
            &mut self.weigh,
            &mut self.memory,
            node,
        ))
    }

    /// As [`Node::next_due`](crate::Node::next_due), in µs.
    ///
    /// # Errors
    ///
    /// Refused, in this order:
    /// - [`Refusal::WatchedNodes`]: the run is not well formed
    pub fn next_due(&self) -> Result<Option<u64>, Refusal> {
        let mut answer = raw::DueAnswer::default();
        taken(raw::plcn_weigh_next_due(
            &self.weigh,
            &self.memory,
            &mut answer,
        ))?;
        Ok(answer.into())
    }

    /// As [`Node::frame`](crate::Node::frame); the time is in µs. A reset by a command empties all
    /// places.
    ///
    /// # Errors
    ///
    /// Refused, in this order:
    /// - [`Refusal::FrameTooShort`]: fewer than 17 bytes
    /// - [`Refusal::OtherEtherType`]: the EtherType is not 0x88AB
    /// - [`Refusal::OtherMessageType`]: the message type is none of SoC, PReq, PRes, SoA and ASnd
    /// - [`Refusal::FrameTooShort`]: an ASnd ends before its service or its command
    /// - [`Refusal::UnknownNumber`]: service 4 has no state command
    /// - [`Refusal::TimeLimit`]: the time is above [`LATEST_TIME`](crate::LATEST_TIME)
    pub fn frame(&mut self, time_us: u64, bytes: &[u8]) -> Result<FrameAnswer, Refusal> {
        let mut answer = raw::FrameAnswer::default();
        let Self { weigh, memory } = self;
        let (at, length) = (bytes.as_ptr(), bytes.len() as u64);
        // SAFETY: the pointer and the length are those of one slice.
        taken(unsafe { raw::plcn_weigh_frame(weigh, memory, time_us, at, length, &mut answer) })?;
        Ok(answer.into())
    }

    /// As [`Node::bitmap`](crate::Node::bitmap).
    ///
    /// # Errors
    ///
    /// Refused, in this order:
    /// - [`Refusal::WatchedNodes`]: the run is not well formed
    pub fn bitmap(&self) -> Result<Bitmap, Refusal> {
        self.memory.run.bitmap()
    }
}

/// Equal are two with equal heads, places, runs, and bytes of queue and history.
impl PartialEq for WeighHead {
    fn eq(&self, other: &Self) -> bool {
        self.head() == other.head()
            && self.places() == other.places()
            && self.memory == other.memory
    }
}

impl Eq for WeighHead {}

/// The head of its node, its places and what it watches.
impl fmt::Debug for WeighHead {
    fn fmt(&self, f: &mut fmt::Formatter<'_>) -> fmt::Result {
        f.debug_struct("WeighHead")
            .field("head", &self.head())
            .field("places", &self.places())
            .field("watched", &self.watched())
            .finish_non_exhaustive()
    }
}
