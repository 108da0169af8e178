//! A head on top of the original `CnContext`, and its calls. The refusals stand in front
//! of the original code, in their order: a call that is declined does not reach it.

use crate::clock::Watch;
use crate::dictionary::{self, Defaults, Dictionary};
use crate::frame::Frame;
use crate::occurrences::Occurrences;
use crate::partners::{self, Consumers};
use crate::places::{self, DLL_EVENTS, NMT_EVENTS};
use crate::reset;
use crate::run::Run;
use crate::script::{Component, Load, Start};
use crate::view::{HEARTBEAT, HIGHEST_THRESHOLD};
use crate::{forms, kinds};
use powerlink_rs::NodeId;
use powerlink_rs::common::{NetTime, RelativeTime};
use powerlink_rs::frame::basic::MacAddress;
use powerlink_rs::frame::cs_state_machine::DllCsState;
use powerlink_rs::frame::error::{
    CnErrorCounters, DllErrorManager, Held, LoggingErrorHandler, ThresholdCounter, held,
};
use powerlink_rs::frame::{DllCsStateMachine, DllError};
use powerlink_rs::hal::TimeProvider;
use powerlink_rs::nmt::NmtStateMachine;
use powerlink_rs::nmt::cn_state_machine::CnNmtStateMachine;
use powerlink_rs::nmt::events::{NmtEvent, NmtStateCommand};
use powerlink_rs::nmt::flags::FeatureFlags;
use powerlink_rs::nmt::states::NmtState;
use powerlink_rs::node::cn::{handle_error, run_tick, state::CnContext};
use powerlink_rs::node::{CoreNodeContext, NodeAction};
use powerlink_rs::sdo::transport::AsndTransport;
use powerlink_rs::types::C_ADR_BROADCAST_NODE_ID;
use std::collections::{BTreeMap, VecDeque};
use std::panic::{AssertUnwindSafe, catch_unwind};

/// The line of an accepted call, or the number of the refusal.
pub type Answer = Result<String, u8>;

const LONGEST_QUEUE: u64 = 32;
pub const LAST_TIME: u64 = (1 << 62) - 1;
const TOLERANCE_IF_MISSING: u32 = 100_000;

/// What a reset does beside what the original's does.
#[derive(Debug, Clone, Copy, PartialEq, Eq)]
pub enum Resets {
    /// It forgets, as RULES 4.5 asks for.
    Forget,
    /// Nothing.
    AsTheOriginal,
}

/// The context asks for a clock; nothing that is driven here reads it.
struct NoClock;

impl TimeProvider for NoClock {
    fn now_monotonic_us(&self) -> u64 {
        unreachable!("times come with the calls")
    }

    fn now_net_time(&self) -> NetTime {
        unreachable!("times come with the calls")
    }
}

pub struct Head {
    pub context: CnContext<'static>,
    /// The errors that reached its counters.
    pub occurrences: Occurrences,
    /// The capacity that start gave the queue.
    capacity: usize,
    dictionary: Dictionary,
    resets: Resets,
    /// The recipe that was loaded last, until a reset; empty where there is none.
    pub recipe: Vec<Component>,
    /// The watched nodes as the last call that was lent them left them.
    pub left: Consumers,
    /// The earliest moment at which a watched node would be late, as it was last worked out.
    pub earliest: Option<u64>,
}

impl Head {
    pub fn start(
        start: &Start,
        run: &mut Run,
        defaults: Defaults,
        resets: Resets,
    ) -> Result<Self, u8> {
        let node = try_node(start.node)?;
        if start.queue > LONGEST_QUEUE {
            return Err(2);
        }
        let mut consumers = partners::consumers(partners::try_run(run)?);
        try_thresholds(start.thresholds)?;
        for (_, heard) in consumers.values_mut() {
            *heard = 0;
        }
        let dictionary = Dictionary::new(defaults);
        let capacity = start.queue as usize;
        let mut context = context(node, start, &dictionary, capacity);
        context.heartbeat_consumers = consumers;
        let mut head = Self {
            occurrences: Occurrences::new(&context.dll_error_manager.counters),
            context,
            capacity,
            dictionary,
            resets,
            recipe: Vec::new(),
            left: Consumers::new(),
            earliest: None,
        };
        head.give_back(run);
        assert_eq!(head.earliest, None, "no node was heard yet");
        Ok(head)
    }

    pub fn nmt(&mut self, event: u64) -> Answer {
        let event = *at(&NMT_EVENTS, event)?;
        Ok(forms::taken(&self.process_event(event)))
    }

    /// What the original's NMT machine makes of an event, in parts of an answer.
    fn process_event(&mut self, event: NmtEvent) -> Vec<String> {
        let from = self.context.nmt_state_machine.current_state;
        let errors = self
            .context
            .nmt_state_machine
            .process_event(event, &mut self.context.core.od);
        if self.resets == Resets::Forget {
            forget(&mut self.context, event);
            if reset::is_reset(event) {
                self.recipe.clear();
            }
        }
        let to = self.context.nmt_state_machine.current_state;
        let (entered, ranges) = reset::recorded(from, event);
        match entered.last() {
            None => {
                assert!(!reset::is_reset(event), "a reset enters states");
                vec![forms::errors(errors)]
            }
            Some(last) => {
                assert!(reset::is_reset(event), "only a reset enters states");
                assert_eq!(to, *last, "the machine ends where the recorder does");
                assert_eq!(errors, None, "a reset reports no errors");
                vec![forms::entered(&entered), forms::restore(&ranges)]
            }
        }
    }

    /// A frame that arrived at a time: the original's machines in the order of RULES 13.
    pub fn frame(&mut self, time: u64, bytes: &[u8]) -> Answer {
        let frame = Frame::read(bytes)?;
        try_time(time)?;
        let nmt = &self.context.nmt_state_machine;
        let (state, node) = (nmt.current_state, nmt.node_id);
        if frame.destination != node.0 && frame.destination != C_ADR_BROADCAST_NODE_ID {
            return Ok(forms::taken(&["not_ours".to_string()]));
        }
        let errors = self
            .context
            .dll_state_machine
            .process_event(frame.dll, state, node, true);
        let ended = errors.into_iter().flatten().any(|error| {
            let ended = handle_error(&mut self.context, error, time);
            let counters = &self.context.dll_error_manager.counters;
            self.occurrences.handled(counters);
            ended
        });
        let mut parts = vec![forms::logged(&kinds::take_logged())];
        match frame.nmt.filter(|_| !ended) {
            Some(event) => parts.extend(self.process_event(event)),
            None => parts.push(forms::errors(None)),
        }
        if frame.arms && !ended {
            self.arm(time)?;
        }
        Ok(forms::taken(&parts))
    }

    pub fn dll(&mut self, event: u64, expected: bool) -> Answer {
        let event = *at(&DLL_EVENTS, event)?;
        let nmt = &self.context.nmt_state_machine;
        let (state, node) = (nmt.current_state, nmt.node_id);
        let errors = self
            .context
            .dll_state_machine
            .process_event(event, state, node, expected);
        Ok(forms::taken(&[forms::errors(errors)]))
    }

    pub fn error(&mut self, kind: u64, a: u64, b: u64) -> Answer {
        // A number that the kind does not carry may be wider.
        let error = kinds::at(kind, a as u8, b as u8).ok_or(4)?;
        if let Some(node) = places::node_of(&error) {
            try_node(node.0)?;
        }
        let manager = &mut self.context.dll_error_manager;
        let (action, signal) = manager.handle_error(error);
        self.occurrences.handled(&manager.counters);
        Ok(forms::error_answer(action, signal, &kinds::take_logged()))
    }

    pub fn cycle(&mut self) -> Answer {
        let manager = &mut self.context.dll_error_manager;
        let cleared = manager.on_cycle_complete();
        self.occurrences.cycle_completed(&manager.counters);
        Ok(forms::taken(&[format!("(cleared {})", cleared as u8)]))
    }

    pub fn tick(&mut self, now: u64, run: &mut Run) -> Answer {
        self.lend(run)?;
        try_time(now)?;
        if self.heard_after(now) {
            return Err(6);
        }
        let logged = self.run_tick(now);
        self.give_back(run);
        Ok(forms::taken(&[forms::logged(&logged)]))
    }

    /// Number 6: the original would take a later time from an earlier one.
    fn heard_after(&self, now: u64) -> bool {
        self.context.nmt_state_machine.current_state >= NmtState::NmtPreOperational2
            && self
                .context
                .heartbeat_consumers
                .values()
                .any(|(timeout, heard)| *timeout > 0 && *heard > 0 && now < *heard)
    }

    /// The original tick; what it logged.
    fn run_tick(&mut self, now: u64) -> Vec<DllError> {
        let [given_before, ..] = dictionary::counters(&self.context.core.od);
        let (action, at_lines) = run_tick(&mut self.context, now);
        assert_eq!(action, NodeAction::NoAction, "a tick sends nothing");
        self.count_in_tick(at_lines, given_before);
        kinds::take_logged()
    }

    /// Counts the errors of a tick. Between two lines that it logged, each counter got at most one: a line
    /// stands before every heartbeat error. Those of a lost SoC come with no line between them, but the
    /// original adds to counter 1 at each of them, so that a second one for the same counter is noticed.
    /// An unexpected event is given too, alone, and reaches none.
    fn count_in_tick(&mut self, at_lines: Vec<Held>, given_before: u32) {
        let before = self.occurrences.counts;
        for now in at_lines {
            self.occurrences.look(now);
        }
        self.occurrences
            .look(held(&self.context.dll_error_manager.counters));
        let rises = self.occurrences.counts.into_iter().zip(before);
        let reached: u32 = rises.take(HEARTBEAT).map(|(now, then)| now - then).sum();
        let [given, ..] = dictionary::counters(&self.context.core.od);
        match given.wrapping_sub(given_before) {
            1 if reached == 0 => {}
            given => assert_eq!(reached, given, "each error of a lost SoC is seen"),
        }
    }

    /// What the original says when it panics at this tick, all refusals aside; none: it does not.
    /// The watched nodes are those that the last call was lent; what became of them is taken back.
    pub fn panic_at_tick(&mut self, now: u64) -> Option<String> {
        let caught = catch_unwind(AssertUnwindSafe(|| run_tick(&mut self.context, now)));
        self.context.heartbeat_consumers = self.left.clone();
        let message = caught.err()?;
        Some(message.downcast_ref::<&str>()?.to_string())
    }

    /// Whether a tick of the original at this time, in a state that checks heartbeats, finds one of the watched nodes late.
    /// Those that were heard later are left out, since it would take the later time from the earlier one.
    pub fn finds_late(&self, time: u64) -> bool {
        let start = Start::of_a_scratch_head();
        let mut context = context(NodeId(start.node), &start, &self.dictionary, 0);
        context.nmt_state_machine.current_state = NmtState::NmtPreOperational2;
        context.heartbeat_consumers = self.left.clone();
        context
            .heartbeat_consumers
            .retain(|_, (_, heard)| *heard <= time);
        let before = held(&context.dll_error_manager.counters);
        run_tick(&mut context, time);
        kinds::take_logged();
        held(&context.dll_error_manager.counters) != before
    }

    pub fn withdraw(&mut self) -> Answer {
        if self.context.nmt_state_machine.current_state == NmtState::NmtReadyToOperate {
            return Err(8);
        }
        self.context.nmt_state_machine.app_ready = false;
        Ok(forms::taken(&[]))
    }

    pub fn heard(&mut self, node: u8, time: u64, run: &mut Run) -> Answer {
        self.lend(run)?;
        try_time(time)?;
        let consumer = self.context.heartbeat_consumers.get_mut(&NodeId(node));
        let (_, heard) = consumer.ok_or(7)?;
        *heard = time;
        self.give_back(run);
        Ok(forms::taken(&[]))
    }

    pub fn hand_out(&mut self) -> Answer {
        let entry = self.context.emergency_queue.pop_front();
        Ok(forms::handed_out(entry))
    }

    pub fn arm(&mut self, time: u64) -> Answer {
        try_time(time)?;
        let od = &self.context.core.od;
        let cycle = u64::from(dictionary::cycle(od).unwrap_or(0));
        let tolerance = u64::from(dictionary::tolerance(od).unwrap_or(TOLERANCE_IF_MISSING));
        let deadline = time + cycle + tolerance / 1000;
        self.context.last_soc_reception_time_us = time;
        self.context.soc_timeout_check_active = cycle > 0;
        self.context.next_tick_us = (cycle > 0).then_some(deadline);
        Ok(forms::taken(&[]))
    }

    fn watch(&self) -> Watch {
        let od = &self.context.core.od;
        let cycle = u64::from(dictionary::cycle(od).unwrap_or(0));
        let tolerance = u64::from(dictionary::tolerance(od).unwrap_or(TOLERANCE_IF_MISSING));
        Watch {
            last_soc: self.context.last_soc_reception_time_us,
            limit: cycle + tolerance / 1000,
        }
    }

    /// Number 5 for each reading, then number 21.
    pub fn range(&self, earliest: u64, latest: u64) -> Answer {
        try_time(earliest)?;
        try_time(latest)?;
        if earliest > latest {
            return Err(21);
        }
        let verdict = self.watch().verdict(earliest, latest);
        Ok(forms::taken(&[verdict.to_string()]))
    }

    pub fn margin(&self, time: u64) -> Answer {
        try_time(time)?;
        Ok(forms::taken(&[self.watch().margin(time).to_string()]))
    }

    pub fn load(&mut self, load: &Load) -> Answer {
        self.dictionary.load(&mut self.context.core.od, load);
        Ok(forms::taken(&[]))
    }

    pub fn check(&self) {
        let capacity = self.context.emergency_queue.capacity();
        assert_eq!(capacity, self.capacity, "the queue keeps its capacity");
        assert!(
            kinds::take_logged().is_empty(),
            "only error, tick and frame log"
        );
        assert_eq!(
            self.occurrences.seen,
            held(&self.context.dll_error_manager.counters),
            "only error, cycle, tick and frame change the counters"
        );
        assert_eq!(
            self.context.heartbeat_consumers, self.left,
            "only calls that are lent the watched nodes change them"
        );
    }
}

/// What a reset forgets (RULES 4.5): readiness, deadline and SoC check, and the DLL machine is at
/// NonCyclic. The original leaves these four, so they are set by
/// hand behind an event that its NMT machine was given. Nothing else is touched. The events that a
/// tick gives by itself, Error and Timeout, are no resets.
fn forget(context: &mut CnContext, event: NmtEvent) {
    reset::forget_readiness(&mut context.nmt_state_machine, event);
    if reset::is_reset(event) {
        context.next_tick_us = None;
        context.soc_timeout_check_active = false;
        // Its state is private; a new machine stands at NonCyclic.
        context.dll_state_machine = DllCsStateMachine::new();
        assert_eq!(
            context.dll_state_machine.current_state(),
            DllCsState::NonCyclic
        );
    }
}

pub fn read_state(number: u64) -> Answer {
    let number = u8::try_from(number).map_err(|_| 4)?;
    let state = NmtState::try_from(number).map_err(|_| 4)?;
    Ok(forms::taken(&[forms::hex(state as u8)]))
}

pub fn read_command(number: u64) -> Answer {
    let number = u8::try_from(number).map_err(|_| 4)?;
    let command = NmtStateCommand::try_from(number).map_err(|_| 4)?;
    Ok(forms::taken(&[forms::hex(command as u8)]))
}

/// The original has no way from a code to its kind: its code of every kind is tried.
pub fn read_kind(code: u64) -> Answer {
    let kind = places::kind_behind(code).ok_or(13)?;
    Ok(forms::taken(&[kind.to_string()]))
}

/// Number 4: what stands at a place of a list.
fn at<T>(list: &[T], place: u64) -> Result<&T, u8> {
    let place = usize::try_from(place).map_err(|_| 4)?;
    list.get(place).ok_or(4)
}

/// Number 1.
pub fn try_node(number: u8) -> Result<NodeId, u8> {
    NodeId::try_from(number).map_err(|_| 1)
}

/// Number 14.
fn try_thresholds(thresholds: Option<[u32; 7]>) -> Result<(), u8> {
    let above = |threshold: u32| threshold > HIGHEST_THRESHOLD;
    if thresholds.is_some_and(|seven| seven.into_iter().any(above)) {
        return Err(14);
    }
    Ok(())
}

/// Number 5.
fn try_time(time: u64) -> Result<(), u8> {
    if time <= LAST_TIME { Ok(()) } else { Err(5) }
}

/// The counters of a fresh head. The original's start with 15 for each kind; other thresholds are given
/// to it by its own constructor of a counter.
fn counters(thresholds: Option<[u32; 7]>) -> CnErrorCounters {
    let mut counters = CnErrorCounters::new();
    if let Some(given) = thresholds {
        let new = given.map(ThresholdCounter::new);
        [
            counters.collision,
            counters.loss_of_soc,
            counters.loss_of_soa,
            counters.loss_of_preq,
            counters.soc_jitter,
            counters.crc_errors,
            counters.heartbeat_timeout,
        ] = new;
    }
    counters
}

/// The context of a fresh head. What no call looks at is empty.
fn context(
    node: NodeId,
    start: &Start,
    dictionary: &Dictionary,
    capacity: usize,
) -> CnContext<'static> {
    let flags = FeatureFlags(start.flags);
    CnContext {
        core: CoreNodeContext {
            od: dictionary.fresh(start),
            node_id: node,
            mac_address: MacAddress([0; 6]),
            sdo_server: Default::default(),
            sdo_client: Default::default(),
            embedded_sdo_server: Default::default(),
            embedded_sdo_client: Default::default(),
        },
        time_provider: &NoClock,
        nmt_state_machine: CnNmtStateMachine::new(node, flags, start.timeout),
        dll_state_machine: DllCsStateMachine::new(),
        dll_error_manager: DllErrorManager::new(counters(start.thresholds), LoggingErrorHandler),
        asnd_transport: AsndTransport,
        last_soc_net_time: NetTime::default(),
        last_soc_relative_time: RelativeTime::default(),
        last_soc_arrival_time_us: 0,
        last_soc_ps_flag: false,
        last_soc_mc_flag: false,
        pending_nmt_requests: Vec::new(),
        emergency_queue: VecDeque::with_capacity(capacity),
        heartbeat_consumers: BTreeMap::new(),
        last_soc_reception_time_us: 0,
        soc_timeout_check_active: false,
        next_tick_us: None,
        en_flag: false,
        ec_flag: false,
        error_status_changed: false,
    }
}
