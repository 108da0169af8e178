//! A node of the original.

use crate::{by_hand, dictionary, places};
use powerlink_rs::NodeId;
use powerlink_rs::common::{NetTime, RelativeTime};
use powerlink_rs::frame::basic::MacAddress;
use powerlink_rs::frame::error::{
    CnErrorCounters, DllErrorManager, EntryType, ErrorEntry, ErrorEntryMode, LoggingErrorHandler,
    ThresholdCounter, seven,
};
use powerlink_rs::frame::{DllCsEvent, DllCsStateMachine, DllError};
use powerlink_rs::hal::TimeProvider;
use powerlink_rs::nmt::cn_state_machine::CnNmtStateMachine;
use powerlink_rs::nmt::events::NmtEvent;
use powerlink_rs::nmt::flags::FeatureFlags;
use powerlink_rs::node::CoreNodeContext;
use powerlink_rs::node::cn::state::CnContext;
use powerlink_rs::node::cn::{clear_history, run_tick};
use powerlink_rs::od::{Object, ObjectValue};
use powerlink_rs::sdo::transport::AsndTransport;
use rows::{Component, Setup, Side, View, keep, keep_number};
use std::collections::{BTreeMap, VecDeque};

/// The places of a recipe.
pub const PLACES: usize = 16;

/// The context asks for a clock; nothing that is measured reads it.
struct NoClock;

impl TimeProvider for NoClock {
    fn now_monotonic_us(&self) -> u64 {
        unreachable!("times come with the calls")
    }

    fn now_net_time(&self) -> NetTime {
        unreachable!("times come with the calls")
    }
}

/// A node of the original, and beside it what the original has no field for.
pub struct Node {
    pub context: CnContext<'static>,
    pub earliest: Option<u64>,
    pub recipe: [Component; PLACES],
    threshold: u32,
    dll: DllCsStateMachine,
    told: u64,
}

fn counters(threshold: u32) -> CnErrorCounters {
    CnErrorCounters {
        collision: ThresholdCounter::new(threshold),
        loss_of_soc: ThresholdCounter::new(threshold),
        loss_of_soa: ThresholdCounter::new(threshold),
        loss_of_preq: ThresholdCounter::new(threshold),
        soc_jitter: ThresholdCounter::new(threshold),
        crc_errors: ThresholdCounter::new(threshold),
        heartbeat_timeout: ThresholdCounter::new(threshold),
        loss_of_link_cumulative: 0,
    }
}

/// The context of a fresh node. What no call looks at is empty.
fn context(setup: Setup) -> CnContext<'static> {
    let node = NodeId(7);
    CnContext {
        core: CoreNodeContext {
            od: dictionary::fresh(),
            node_id: node,
            mac_address: MacAddress([0; 6]),
            sdo_server: Default::default(),
            sdo_client: Default::default(),
            embedded_sdo_server: Default::default(),
            embedded_sdo_client: Default::default(),
        },
        time_provider: &NoClock,
        nmt_state_machine: CnNmtStateMachine::new(node, FeatureFlags(0), 5000),
        dll_state_machine: DllCsStateMachine::new(),
        dll_error_manager: DllErrorManager::new(counters(setup.threshold), LoggingErrorHandler),
        asnd_transport: AsndTransport,
        last_soc_net_time: NetTime::default(),
        last_soc_relative_time: RelativeTime::default(),
        last_soc_arrival_time_us: 0,
        last_soc_ps_flag: false,
        last_soc_mc_flag: false,
        pending_nmt_requests: Vec::new(),
        emergency_queue: VecDeque::with_capacity(setup.queue),
        heartbeat_consumers: BTreeMap::new(),
        last_soc_reception_time_us: 0,
        soc_timeout_check_active: false,
        next_tick_us: None,
        en_flag: false,
        ec_flag: false,
        error_status_changed: false,
    }
}

/// The entry of a lost SoC.
const ENTRY: ErrorEntry = ErrorEntry {
    entry_type: EntryType {
        is_status_entry: false,
        send_to_queue: true,
        mode: ErrorEntryMode::EventOccurred,
        profile: 2,
    },
    error_code: 0x8245,
    timestamp: NetTime {
        seconds: 0,
        nanoseconds: 0,
    },
    additional_information: 0,
};

impl Side for Node {
    type Event = NmtEvent;
    type DllEvent = DllCsEvent;
    type Kind = DllError;

    fn event(number: u8) -> NmtEvent {
        places::NMT_EVENTS[usize::from(number)]
    }

    fn dll_event(number: u8) -> DllCsEvent {
        places::DLL_EVENTS[usize::from(number)]
    }

    fn kind(number: u8) -> DllError {
        places::ERRORS[usize::from(number)]
    }

    fn start(setup: Setup) -> Self {
        places::check_order();
        Self {
            context: context(setup),
            earliest: None,
            recipe: [Component::default(); PLACES],
            threshold: setup.threshold,
            dll: DllCsStateMachine::new(),
            told: 0,
        }
    }

    #[inline(always)]
    fn nmt_event(&mut self, event: NmtEvent) {
        let errors = by_hand::nmt_event(self, event);
        keep(&errors);
    }

    #[inline(always)]
    fn dll_event_of(&mut self, event: DllCsEvent) {
        let machine = &self.context.nmt_state_machine;
        let (state, node) = (machine.current_state, machine.node_id);
        let dll = &mut self.context.dll_state_machine;
        keep(&dll.process_event(event, state, node, true));
    }

    #[inline(always)]
    fn handle_error(&mut self, kind: DllError) {
        keep(&self.context.dll_error_manager.handle_error(kind));
    }

    #[inline(always)]
    fn cycle_complete(&mut self) {
        let cleared = self.context.dll_error_manager.on_cycle_complete();
        keep_number(cleared.into());
    }

    #[inline(always)]
    fn withdraw(&mut self) {
        keep(&by_hand::withdraw(&mut self.context));
    }

    #[inline(always)]
    fn heard(&mut self, node: u8, time: u64) {
        keep(&by_hand::heard(self, node, time));
    }

    #[inline(always)]
    fn hand_out(&mut self) {
        keep(&self.context.emergency_queue.pop_front());
    }

    #[inline(always)]
    fn load_register(&mut self, register: u8) {
        dictionary::write_register(&mut self.context.core.od, register);
    }

    #[inline(always)]
    fn load_values(&mut self, register: u8, cycle: u32, tolerance: u32, counter: u32) {
        let od = &mut self.context.core.od;
        dictionary::write_register(od, register);
        dictionary::write_cycle(od, cycle, tolerance);
        dictionary::write_counters(od, counter);
    }

    #[inline(always)]
    fn load_history(&mut self, entries: &[[u8; 20]]) {
        let newest = entries.iter().take(254);
        let mut values = Vec::with_capacity(255);
        values.extend(newest.map(|entry| ObjectValue::Domain(entry.to_vec())));
        let od = &mut self.context.core.od;
        dictionary::put(od, dictionary::ERROR_HISTORY, Object::Array(values));
    }

    #[inline(always)]
    fn arm(&mut self, time: u64) {
        keep(&by_hand::arm(&mut self.context, time));
    }

    #[inline(always)]
    fn tick(&mut self, time: u64) {
        keep(&run_tick(&mut self.context, time));
    }

    #[inline(always)]
    fn frame(&mut self, time: u64, bytes: &[u8]) {
        keep(&by_hand::frame(self, time, bytes));
    }

    #[inline(always)]
    fn add(&mut self, node: u8, timeout: u64) {
        keep(&by_hand::add(self, node, timeout));
    }

    #[inline(always)]
    fn remove(&mut self, node: u8) {
        keep(&by_hand::remove(self, node));
    }

    #[inline(always)]
    fn next_due(&mut self) {
        let due = by_hand::next_due(&self.context);
        keep(&due);
        self.told = due.ok().flatten().unwrap_or(u64::MAX);
    }

    #[inline(always)]
    fn load_recipe(&mut self, components: &[Component]) {
        keep(&by_hand::load_recipe(self, components));
    }

    #[inline(always)]
    fn weight(&mut self, place: u64) {
        self.told = by_hand::weight(self, place).map_or(u64::MAX, u64::from);
    }

    #[inline(always)]
    fn bare_withdraw(&mut self) {
        self.context.nmt_state_machine.app_ready = false;
    }

    #[inline(always)]
    fn bare_heard(&mut self, node: u8, time: u64) {
        if let Some((_, heard)) = self.context.heartbeat_consumers.get_mut(&NodeId(node)) {
            *heard = time;
        }
    }

    #[inline(always)]
    fn bare_arm(&mut self, time: u64, deadline: u64) {
        self.context.last_soc_reception_time_us = time;
        self.context.soc_timeout_check_active = true;
        self.context.next_tick_us = Some(deadline);
    }

    fn weigh_event(&mut self, event: NmtEvent) {
        self.nmt_event(event);
    }

    fn weigh_view(&self) -> View {
        self.view()
    }

    fn view(&self) -> View {
        let context = &self.context;
        let machine = &context.nmt_state_machine;
        let od = &context.core.od;
        let counters = seven(&context.dll_error_manager.counters);
        let watched = context.heartbeat_consumers.iter();
        View {
            state: machine.current_state as u8,
            enabled: machine.ready_to_operate_enabled,
            ready: machine.app_ready,
            dll: context.dll_state_machine.current_state() as u8,
            levels: counters.map(places::level),
            crossings: counters.map(|counter| counter.cumulative_count()),
            last_soc: context.last_soc_reception_time_us,
            check: context.soc_timeout_check_active,
            deadline: context.next_tick_us,
            status_changed: context.error_status_changed,
            register: dictionary::register(od),
            cycle: dictionary::cycle(od),
            tolerance: dictionary::tolerance(od),
            counters: dictionary::counters(od),
            queue: context.emergency_queue.len(),
            history: dictionary::entries(od),
            watched: watched
                .map(|(node, (timeout, heard))| (node.0, *timeout, *heard))
                .collect(),
            earliest: self.earliest,
            recipe: self.recipe,
            told: self.told,
        }
    }

    fn watch(&mut self, nodes: &[(u8, u64, u64)]) {
        let records = nodes
            .iter()
            .map(|(node, timeout, heard)| (NodeId(*node), (*timeout, *heard)));
        self.context.heartbeat_consumers = records.collect();
    }

    fn set_heard(&mut self, time: u64) {
        for (_, heard) in self.context.heartbeat_consumers.values_mut() {
            *heard = time;
        }
    }

    fn set_state(&mut self, state: u8) {
        self.context.nmt_state_machine.current_state = *places::NMT_STATES
            .iter()
            .find(|one| **one as u8 == state)
            .expect("it is a state");
    }

    fn restore_dll(&mut self) {
        // SAFETY: the machine is plain data.
        self.context.dll_state_machine = unsafe { std::ptr::read(&self.dll) };
    }

    fn keep_dll(&mut self) {
        // SAFETY: the machine is plain data.
        self.dll = unsafe { std::ptr::read(&self.context.dll_state_machine) };
    }

    fn set_deadline(&mut self, deadline: u64) {
        self.context.soc_timeout_check_active = true;
        self.context.next_tick_us = Some(deadline);
    }

    fn set_levels(&mut self, kinds: usize) {
        let counters = &mut self.context.dll_error_manager.counters;
        let places = [
            &mut counters.collision,
            &mut counters.loss_of_soc,
            &mut counters.loss_of_soa,
            &mut counters.loss_of_preq,
            &mut counters.soc_jitter,
            &mut counters.crc_errors,
            &mut counters.heartbeat_timeout,
        ];
        for counter in places.into_iter().take(kinds) {
            *counter = ThresholdCounter::new(self.threshold);
            counter.increment();
        }
    }

    fn empty_queue(&mut self) {
        self.context.emergency_queue.clear();
    }

    fn set_one_queued(&mut self) {
        self.context.emergency_queue.clear();
        self.context.emergency_queue.push_back(ENTRY);
    }

    fn clear_history(&mut self) {
        clear_history(&mut self.context);
    }
}
