//! The static library as a side of the benchmark.

use crate::ffi;
use rows::{CYCLE, Component, Setup, Side, TOLERANCE, View, keep, keep_number};
use std::mem::MaybeUninit;

/// A node of ours with all that is lent to it, and the same node as a weigh head.
pub struct Ours {
    pub head: ffi::Head,
    pub weigh: ffi::Weigh,
    pub memory: ffi::Memory,
    dll: u32,
    told: u64,
}

/// Makes a call that writes an answer, and keeps what it answered.
#[inline(always)]
fn answered<A>(call: impl FnOnce(*mut A) -> u32) {
    let mut answer = MaybeUninit::<A>::uninit();
    keep_number(call(answer.as_mut_ptr()).into());
    keep(&answer);
}

fn setup(setup: Setup) -> ffi::Setup {
    let there = |value| ffi::Value { there: 1, value };
    ffi::Setup {
        node: 7,
        error_register: 0,
        feature_flags: 0,
        basic_timeout_us: 5000,
        cycle_us: there(CYCLE),
        tolerance_ns: there(TOLERANCE),
        counters: [0; 4],
        thresholds: [setup.threshold; 7],
        queue_capacity: setup.queue as u64,
    }
}

/// What a head keeps, and the watched nodes beside it.
fn view(head: &ffi::Head, run: &ffi::Run, recipe: [Component; 16], told: u64) -> View {
    let watched = run.place[..run.number as usize].iter();
    View {
        state: head.state as u8,
        enabled: head.enabled != 0,
        ready: head.ready != 0,
        dll: head.dll_state as u8,
        levels: head.counters.map(|counter| counter.level),
        crossings: head.counters.map(|counter| counter.crossings),
        last_soc: head.last_soc.joined(),
        check: head.check_on != 0,
        deadline: (head.has_deadline != 0).then(|| head.deadline.joined()),
        status_changed: head.error_status_changed != 0,
        register: head.error_register as u8,
        cycle: head.cycle_us,
        tolerance: head.tolerance_ns,
        counters: [
            head.counter_1,
            head.counter_2,
            head.counter_3,
            head.counter_5,
        ],
        queue: head.queue_length as usize,
        history: head.history_count as usize,
        watched: watched
            .map(|place| (place.node as u8, place.timeout_us, place.last_heard_us))
            .collect(),
        earliest: (head.has_earliest != 0).then(|| head.earliest.joined()),
        recipe,
        told,
    }
}

/// Each pointer that is given to the library is to a field of its own, whole and aligned, which is
/// all that the header asks for.
impl Side for Ours {
    type Event = u64;
    type DllEvent = u64;
    type Kind = u64;

    fn event(number: u8) -> u64 {
        number.into()
    }

    fn dll_event(number: u8) -> u64 {
        number.into()
    }

    fn kind(number: u8) -> u64 {
        number.into()
    }

    fn start(given: Setup) -> Self {
        let mut node = Self {
            head: ffi::Head::default(),
            weigh: ffi::Weigh([0; 76]),
            memory: ffi::Memory {
                run: ffi::Run::default(),
                queue: ffi::Queue([[0; 20]; 32]),
                history: ffi::History([[0; 20]; 254]),
            },
            dll: 0,
            told: 0,
        };
        let setup = setup(given);
        let refused = unsafe { ffi::plcn_start(&mut node.head, &mut node.memory.run, &setup) };
        assert_eq!(refused, 0, "a start is taken");
        let refused = unsafe { ffi::plcn_weigh_start(&mut node.weigh, &mut node.memory, &setup) };
        assert_eq!(refused, 0, "a start of a weigh head is taken");
        node
    }

    #[inline(always)]
    fn nmt_event(&mut self, event: u64) {
        answered(|answer| unsafe { ffi::plcn_nmt_event(&mut self.head, event, answer) });
    }

    #[inline(always)]
    fn dll_event_of(&mut self, event: u64) {
        answered(|errors| unsafe { ffi::plcn_dll_event(&mut self.head, event, 1, errors) });
    }

    #[inline(always)]
    fn handle_error(&mut self, kind: u64) {
        answered(|answer| unsafe { ffi::plcn_handle_error(&mut self.head, kind, 0, 0, answer) });
    }

    #[inline(always)]
    fn cycle_complete(&mut self) {
        answered(|answer| unsafe { ffi::plcn_cycle_complete(&mut self.head, answer) });
    }

    #[inline(always)]
    fn withdraw(&mut self) {
        keep_number(unsafe { ffi::plcn_withdraw(&mut self.head) }.into());
    }

    #[inline(always)]
    fn heard(&mut self, node: u8, time: u64) {
        let run = &mut self.memory.run;
        keep_number(unsafe { ffi::plcn_heard(&mut self.head, run, node, time) }.into());
    }

    #[inline(always)]
    fn hand_out(&mut self) {
        let (head, queue) = (&mut self.head, &self.memory.queue);
        answered(|answer| unsafe { ffi::plcn_hand_out(head, queue, answer) });
    }

    #[inline(always)]
    fn load_register(&mut self, register: u8) {
        let update = ffi::Update {
            set_error_register: 1,
            error_register: register,
            ..Default::default()
        };
        self.load(&update, &[]);
    }

    #[inline(always)]
    fn load_values(&mut self, register: u8, cycle: u32, tolerance: u32, counter: u32) {
        let there = |value| ffi::Value { there: 1, value };
        let update = ffi::Update {
            set_error_register: 1,
            set_cycle: 1,
            set_tolerance: 1,
            set_counters: [1; 4],
            set_history: 0,
            error_register: register,
            cycle_us: there(cycle),
            tolerance_ns: there(tolerance),
            counters: [counter; 4],
        };
        self.load(&update, &[]);
    }

    #[inline(always)]
    fn load_history(&mut self, entries: &[[u8; 20]]) {
        let update = ffi::Update {
            set_history: 1,
            ..Default::default()
        };
        self.load(&update, entries);
    }

    #[inline(always)]
    fn arm(&mut self, time: u64) {
        keep_number(unsafe { ffi::plcn_arm(&mut self.head, time) }.into());
    }

    #[inline(always)]
    fn tick(&mut self, time: u64) {
        let (head, memory) = (&mut self.head, &mut self.memory);
        let (queue, history, run) = (&mut memory.queue, &mut memory.history, &mut memory.run);
        answered(|logged| unsafe { ffi::plcn_tick(head, queue, history, run, time, logged) });
    }

    #[inline(always)]
    fn frame(&mut self, time: u64, bytes: &[u8]) {
        let (head, memory) = (&mut self.head, &mut self.memory);
        let (queue, history) = (&mut memory.queue, &mut memory.history);
        let (bytes, length) = (bytes.as_ptr(), bytes.len() as u64);
        answered(|answer| unsafe {
            ffi::plcn_frame(head, queue, history, time, bytes, length, answer)
        });
    }

    #[inline(always)]
    fn add(&mut self, node: u8, timeout: u64) {
        let run = &mut self.memory.run;
        keep_number(unsafe { ffi::plcn_add(&mut self.head, run, node, timeout) }.into());
    }

    #[inline(always)]
    fn remove(&mut self, node: u8) {
        let run = &mut self.memory.run;
        keep_number(unsafe { ffi::plcn_remove(&mut self.head, run, node) }.into());
    }

    #[inline(always)]
    fn next_due(&mut self) {
        let mut answer = ffi::DueAnswer::default();
        let run = &self.memory.run;
        keep_number(unsafe { ffi::plcn_next_due(&self.head, run, &mut answer) }.into());
        self.told = if answer.there == 0 {
            u64::MAX
        } else {
            answer.time_us
        };
    }

    #[inline(always)]
    fn load_recipe(&mut self, components: &[Component]) {
        let (weigh, memory) = (&mut self.weigh, &mut self.memory);
        let (components, number) = (components.as_ptr(), components.len() as u64);
        keep_number(
            unsafe { ffi::plcn_weigh_load_recipe(weigh, memory, components, number) }.into(),
        );
    }

    #[inline(always)]
    fn weight(&mut self, place: u64) {
        let mut grams = u16::MAX;
        keep_number(unsafe { ffi::plcn_weigh_weight(&self.weigh, place, &mut grams) }.into());
        self.told = grams.into();
    }

    #[inline(always)]
    fn bare_withdraw(&mut self) {
        self.withdraw();
    }

    #[inline(always)]
    fn bare_heard(&mut self, node: u8, time: u64) {
        self.heard(node, time);
    }

    #[inline(always)]
    fn bare_arm(&mut self, time: u64, _: u64) {
        self.arm(time);
    }

    fn weigh_event(&mut self, event: u64) {
        let (weigh, memory) = (&mut self.weigh, &mut self.memory);
        answered(|answer| unsafe { ffi::plcn_weigh_nmt_event(weigh, memory, event, answer) });
    }

    fn weigh_view(&self) -> View {
        let mut head = ffi::Head::default();
        let mut recipe = [Component::default(); 16];
        unsafe {
            ffi::plcn_weigh_head(&self.weigh, &mut head);
            ffi::plcn_weigh_places(&self.weigh, recipe.as_mut_ptr());
        }
        view(&head, &self.memory.run, recipe, self.told)
    }

    fn view(&self) -> View {
        view(
            &self.head,
            &self.memory.run,
            [Component::default(); 16],
            self.told,
        )
    }

    fn watch(&mut self, nodes: &[(u8, u64, u64)]) {
        self.memory.run = ffi::Run::default();
        for (place, (node, timeout, heard)) in self.memory.run.place.iter_mut().zip(nodes) {
            *place = ffi::Watched {
                node: (*node).into(),
                timeout_us: *timeout,
                last_heard_us: *heard,
            };
        }
        self.memory.run.number = nodes.len() as u64;
    }

    fn set_heard(&mut self, time: u64) {
        for place in &mut self.memory.run.place[..self.memory.run.number as usize] {
            place.last_heard_us = time;
        }
    }

    fn set_state(&mut self, state: u8) {
        self.head.state = state.into();
    }

    fn restore_dll(&mut self) {
        self.head.dll_state = self.dll;
    }

    fn keep_dll(&mut self) {
        self.dll = self.head.dll_state;
    }

    fn set_deadline(&mut self, deadline: u64) {
        self.head.check_on = 1;
        self.head.has_deadline = 1;
        self.head.deadline = ffi::SplitTime::of(deadline);
    }

    fn set_levels(&mut self, kinds: usize) {
        for counter in self.head.counters.iter_mut().take(kinds) {
            (counter.cumulative, counter.level, counter.crossings) = (1, 8, 0);
        }
    }

    fn empty_queue(&mut self) {
        self.head.queue_length = 0;
    }

    fn set_one_queued(&mut self) {
        self.head.queue_oldest = 0;
        self.head.queue_length = 1;
    }

    fn clear_history(&mut self) {
        self.head.history_count = 0;
    }
}

impl Ours {
    #[inline(always)]
    fn load(&mut self, update: &ffi::Update, entries: &[[u8; 20]]) {
        let (head, history) = (&mut self.head, &mut self.memory.history);
        let (bytes, length) = (entries.as_ptr().cast(), 20 * entries.len() as u64);
        keep_number(unsafe { ffi::plcn_load(head, history, update, bytes, length) }.into());
    }
}
