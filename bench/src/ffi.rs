//! The part of include/powerlink_cn.h that is called.

use rows::Component;

// As the header has them.
const _: () = assert!(size_of::<Head>() == 240 && size_of::<Weigh>() == 304);
const _: () = assert!(size_of::<Run>() == 776 && size_of::<Memory>() == 776 + 640 + 5080);
const _: () = assert!(size_of::<Setup>() == 80 && size_of::<Update>() == 44);
const _: () = assert!(size_of::<HandedOut>() == 32 && size_of::<FrameAnswer>() == 17);

#[derive(Debug, Clone, Copy, Default)]
#[repr(C)]
pub struct Counter {
    pub cumulative: u32,
    pub level: u32,
    pub threshold: u32,
    pub crossings: u32,
}

#[derive(Debug, Clone, Copy, Default)]
#[repr(C)]
pub struct SplitTime {
    pub low: u32,
    pub high: u32,
}

impl SplitTime {
    pub fn joined(self) -> u64 {
        u64::from(self.high) << 32 | u64::from(self.low)
    }

    pub fn of(time: u64) -> Self {
        Self {
            low: time as u32,
            high: (time >> 32) as u32,
        }
    }
}

#[derive(Debug, Clone, Copy, Default)]
#[repr(C)]
pub struct Head {
    pub state: u32,
    pub node: u32,
    pub feature_flags: u32,
    pub basic_timeout_us: u32,
    pub enabled: u32,
    pub ready: u32,
    pub dll_state: u32,
    /// Collision, loss of SoC, of SoA, of PReq, SoC jitter, CRC errors, heartbeat timeout.
    pub counters: [Counter; 7],
    pub lost_links: u32,
    pub last_soc: SplitTime,
    pub deadline: SplitTime,
    pub check_on: u32,
    pub has_deadline: u32,
    pub error_status_changed: u32,
    pub error_register: u32,
    pub has_cycle: u32,
    pub cycle_us: u32,
    pub has_tolerance: u32,
    pub tolerance_ns: u32,
    pub counter_1: u32,
    pub counter_2: u32,
    pub counter_3: u32,
    pub counter_5: u32,
    pub queue_oldest: u32,
    pub queue_length: u32,
    pub queue_capacity: u32,
    pub history_newest: u32,
    pub history_count: u32,
    pub has_earliest: u32,
    pub earliest: SplitTime,
}

#[derive(Debug, Clone, Copy, Default)]
#[repr(C)]
pub struct Watched {
    pub node: u64,
    pub timeout_us: u64,
    pub last_heard_us: u64,
}

#[derive(Debug, Clone, Copy, Default)]
#[repr(C)]
pub struct Run {
    pub place: [Watched; 32],
    pub number: u64,
}

#[derive(Debug, Clone, Copy)]
#[repr(C)]
pub struct Queue(pub [[u8; 20]; 32]);

#[derive(Debug, Clone, Copy)]
#[repr(C)]
pub struct History(pub [[u8; 20]; 254]);

#[derive(Debug, Clone, Copy)]
#[repr(C)]
pub struct Memory {
    pub run: Run,
    pub queue: Queue,
    pub history: History,
}

#[derive(Debug, Clone, Copy)]
#[repr(C)]
pub struct Weigh(pub [u32; 76]);

#[derive(Debug, Clone, Copy, Default)]
#[repr(C)]
pub struct Value {
    pub there: u32,
    pub value: u32,
}

#[derive(Debug, Clone, Copy, Default)]
#[repr(C)]
pub struct Setup {
    pub node: u8,
    pub error_register: u8,
    pub feature_flags: u32,
    pub basic_timeout_us: u32,
    pub cycle_us: Value,
    pub tolerance_ns: Value,
    pub counters: [u32; 4],
    pub thresholds: [u32; 7],
    pub queue_capacity: u64,
}

#[derive(Debug, Clone, Copy, Default)]
#[repr(C)]
pub struct Update {
    pub set_error_register: u8,
    pub set_cycle: u8,
    pub set_tolerance: u8,
    pub set_counters: [u8; 4],
    pub set_history: u8,
    pub error_register: u8,
    pub cycle_us: Value,
    pub tolerance_ns: Value,
    pub counters: [u32; 4],
}

#[derive(Debug, Clone, Copy, Default)]
#[repr(C)]
pub struct Error {
    pub kind: u8,
    pub a: u8,
    pub b: u8,
}

#[derive(Debug, Clone, Copy, Default)]
#[repr(C)]
pub struct Errors {
    pub count: u8,
    pub error: [Error; 2],
}

#[derive(Debug, Clone, Copy, Default)]
#[repr(C)]
pub struct NmtAnswer {
    pub errors: Errors,
    pub reset: u8,
}

#[derive(Debug, Clone, Copy, Default)]
#[repr(C)]
pub struct ErrorAnswer {
    pub action: u8,
    pub action_node: u8,
    pub signal: u8,
    pub logged: Errors,
}

#[derive(Debug, Clone, Copy, Default)]
#[repr(C)]
pub struct CycleAnswer {
    pub cleared: u8,
}

#[derive(Debug, Clone, Copy, Default)]
#[repr(C)]
pub struct Entry {
    pub is_status: u8,
    pub send_to_queue: u8,
    pub mode: u8,
    pub profile: u16,
    pub code: u16,
    pub seconds: u32,
    pub nanoseconds: u32,
    pub additional: u64,
}

#[derive(Debug, Clone, Copy, Default)]
#[repr(C)]
pub struct HandedOut {
    pub entry: Entry,
    pub there: u8,
}

#[derive(Debug, Clone, Copy, Default)]
#[repr(C)]
pub struct DueAnswer {
    pub time_us: u64,
    pub there: u8,
}

#[derive(Debug, Clone, Copy, Default)]
#[repr(C)]
pub struct FrameAnswer {
    pub ours: u8,
    pub logged: Errors,
    pub has_nmt: u8,
    pub nmt: NmtAnswer,
}

unsafe extern "C" {
    pub fn plcn_version() -> u32;
    pub fn plcn_start(head: *mut Head, run: *mut Run, setup: *const Setup) -> u32;
    pub fn plcn_nmt_event(head: *mut Head, event: u64, answer: *mut NmtAnswer) -> u32;
    pub fn plcn_dll_event(head: *mut Head, event: u64, expected: u32, errors: *mut Errors) -> u32;
    pub fn plcn_handle_error(
        head: *mut Head,
        kind: u64,
        a: u8,
        b: u8,
        answer: *mut ErrorAnswer,
    ) -> u32;
    pub fn plcn_cycle_complete(head: *mut Head, answer: *mut CycleAnswer) -> u32;
    pub fn plcn_withdraw(head: *mut Head) -> u32;
    pub fn plcn_heard(head: *mut Head, run: *mut Run, node: u8, time: u64) -> u32;
    pub fn plcn_hand_out(head: *mut Head, queue: *const Queue, answer: *mut HandedOut) -> u32;
    pub fn plcn_load(
        head: *mut Head,
        history: *mut History,
        update: *const Update,
        entries: *const u8,
        length: u64,
    ) -> u32;
    pub fn plcn_arm(head: *mut Head, time: u64) -> u32;
    pub fn plcn_tick(
        head: *mut Head,
        queue: *mut Queue,
        history: *mut History,
        run: *mut Run,
        time: u64,
        logged: *mut Errors,
    ) -> u32;
    pub fn plcn_add(head: *mut Head, run: *mut Run, node: u8, timeout: u64) -> u32;
    pub fn plcn_remove(head: *mut Head, run: *mut Run, node: u8) -> u32;
    pub fn plcn_next_due(head: *const Head, run: *const Run, answer: *mut DueAnswer) -> u32;
    pub fn plcn_frame(
        head: *mut Head,
        queue: *mut Queue,
        history: *mut History,
        time: u64,
        bytes: *const u8,
        length: u64,
        answer: *mut FrameAnswer,
    ) -> u32;
    pub fn plcn_heard_over(
        head: *mut Head,
        places: *mut Watched,
        length: u64,
        number: u64,
        node: u8,
        time: u64,
    ) -> u32;
    pub fn plcn_tick_over(
        head: *mut Head,
        queue: *mut Queue,
        history: *mut History,
        places: *mut Watched,
        length: u64,
        number: u64,
        time: u64,
        logged: *mut Errors,
    ) -> u32;
    pub fn plcn_add_over(
        head: *mut Head,
        places: *mut Watched,
        length: u64,
        number: *mut u64,
        node: u8,
        timeout: u64,
    ) -> u32;
    pub fn plcn_remove_over(
        head: *mut Head,
        places: *mut Watched,
        length: u64,
        number: *mut u64,
        node: u8,
    ) -> u32;
    pub fn plcn_next_due_over(
        head: *const Head,
        places: *const Watched,
        length: u64,
        number: u64,
        answer: *mut DueAnswer,
    ) -> u32;
    pub fn plcn_weigh_start(weigh: *mut Weigh, memory: *mut Memory, setup: *const Setup) -> u32;
    pub fn plcn_weigh_nmt_event(
        weigh: *mut Weigh,
        memory: *mut Memory,
        event: u64,
        answer: *mut NmtAnswer,
    ) -> u32;
    pub fn plcn_weigh_tick(
        weigh: *mut Weigh,
        memory: *mut Memory,
        time: u64,
        logged: *mut Errors,
    ) -> u32;
    pub fn plcn_weigh_frame(
        weigh: *mut Weigh,
        memory: *mut Memory,
        time: u64,
        bytes: *const u8,
        length: u64,
        answer: *mut FrameAnswer,
    ) -> u32;
    pub fn plcn_weigh_load(
        weigh: *mut Weigh,
        memory: *mut Memory,
        update: *const Update,
        entries: *const u8,
        length: u64,
    ) -> u32;
    pub fn plcn_weigh_load_recipe(
        weigh: *mut Weigh,
        memory: *mut Memory,
        components: *const Component,
        number: u64,
    ) -> u32;
    pub fn plcn_weigh_weight(weigh: *const Weigh, place: u64, grams: *mut u16) -> u32;
    pub fn plcn_weigh_head(weigh: *const Weigh, head: *mut Head) -> u32;
    pub fn plcn_weigh_places(weigh: *const Weigh, places: *mut Component) -> u32;
}
