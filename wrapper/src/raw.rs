//! The functions and structs of `include/powerlink_cn.h` as they are, for a program that lends its
//! own memory. [`Node`](crate::Node) and [`WeighHead`](crate::WeighHead) are made of them.
//!
//! Each function answers 0, or the number of a [`Refusal`](crate::Refusal); a refused call writes
//! nothing. What a function does, its units and its refusals in their order stand in the header.
//! References rule out what the header asks of pointers: null, unaligned, short and overlapping
//! memory. So a function that is lent references alone is safe, whatever they hold; one that is
//! lent a pointer with a length is not.

mod functions;

use core::fmt;
use core::mem::{MaybeUninit, offset_of};

pub use functions::*;

/// The version of the header that this crate was written from: 10000 × major + 100 × minor + patch.
pub const VERSION: u32 = 100;
/// The latest time and the longest timeout, in µs: 2^62 − 1.
pub const LATEST_TIME: u64 = (1 << 62) - 1;
/// The places of a run of watched nodes.
pub const WATCHED_PLACES: usize = 32;
/// The bytes of an entry.
pub const ENTRY_BYTES: usize = 20;
/// The entries that an emergency queue may hold at most.
pub const QUEUE_PLACES: usize = 32;
/// The entries that an error history holds.
pub const HISTORY_PLACES: usize = 254;
/// The highest threshold.
pub const HIGHEST_THRESHOLD: u32 = 1_000_000;
/// The places of a weigh head, and the most components of a recipe.
pub const RECIPE_PLACES: usize = 16;
/// The bytes of a text, with the 0 behind it.
pub const TEXT_BYTES: usize = 96;

/// The counter of one kind of error.
#[repr(C)]
#[derive(Debug, Default, Clone, Copy, PartialEq, Eq)]
pub struct Counter {
    /// The errors that it got, up to 2^32 − 1.
    pub cumulative: u32,
    /// An error raises it by 8, a complete cycle lowers it by 1.
    pub level: u32,
    /// The level at which it crosses; 0: never.
    pub threshold: u32,
    /// How often it crossed, up to 2^32 − 1.
    pub crossings: u32,
}

/// A time of a head, in two words.
#[repr(C)]
#[derive(Debug, Default, Clone, Copy, PartialEq, Eq)]
pub struct SplitTime {
    /// The lower 32 bits.
    pub low: u32,
    /// The upper 32 bits.
    pub high: u32,
}

impl SplitTime {
    /// The time in one number.
    pub const fn joined(self) -> u64 {
        (self.high as u64) << 32 | self.low as u64
    }
}

/// A head: one controlled node, 60 words.
#[repr(C)]
#[derive(Debug, Default, Clone, Copy, PartialEq, Eq)]
pub struct Head {
    /// The NMT state's number.
    pub state: u32,
    /// The node's number.
    pub node: u32,
    /// Kept, never read.
    pub feature_flags: u32,
    /// Until the fall to BasicEthernet, in µs; 0: never.
    pub basic_timeout_us: u32,
    /// Whether EnableReadyToOperate came in this visit.
    pub enabled: u32,
    /// Whether the application's ready word stands.
    pub ready: u32,
    /// The DLL state's number.
    pub dll_state: u32,
    /// The counter of Collision.
    pub collision: Counter,
    /// The counter of LossOfSoc.
    pub loss_of_soc: Counter,
    /// The counter of LossOfSoa.
    pub loss_of_soa: Counter,
    /// The counter of LossOfPreq.
    pub loss_of_preq: Counter,
    /// The counter of SoCJitter.
    pub soc_jitter: Counter,
    /// The counter of Crc.
    pub crc_errors: Counter,
    /// The counter of HeartbeatTimeout.
    pub heartbeat_timeout: Counter,
    /// The count of lost links.
    pub lost_links: u32,
    /// When the last SoC came, in µs.
    pub last_soc: SplitTime,
    /// Of the SoC check or the basic timeout, in µs.
    pub deadline: SplitTime,
    /// Whether a lost SoC is looked for.
    pub check_on: u32,
    /// Whether `deadline` stands.
    pub has_deadline: u32,
    /// Whether a signal in a tick set it.
    pub error_status_changed: u32,
    /// Object 0x1001.
    pub error_register: u32,
    /// Whether object 0x1006 is there; missing counts as 0.
    pub has_cycle: u32,
    /// Object 0x1006, in µs.
    pub cycle_us: u32,
    /// Whether object 0x1C14 is there; missing counts as 100,000.
    pub has_tolerance: u32,
    /// Object 0x1C14, in ns.
    pub tolerance_ns: u32,
    /// Counter 1 of object 0x1102: errors at the SoC check.
    pub counter_1: u32,
    /// Counter 2: entries that joined queue and history.
    pub counter_2: u32,
    /// Counter 3: entries that were dropped, as the queue was full.
    pub counter_3: u32,
    /// Counter 5: signals that changed the error register.
    pub counter_5: u32,
    /// The place of the oldest entry in the queue.
    pub queue_oldest: u32,
    /// How many entries wait.
    pub queue_length: u32,
    /// How many entries may wait.
    pub queue_capacity: u32,
    /// The place of the newest entry in the history.
    pub history_newest: u32,
    /// How many entries the history has.
    pub history_count: u32,
    /// Whether `earliest` stands.
    pub has_earliest: u32,
    /// When a watched node would be late, in µs.
    pub earliest: SplitTime,
}

/// The bytes of an emergency queue.
#[repr(C)]
#[derive(Debug, Clone, Copy, PartialEq, Eq)]
pub struct Queue {
    /// The places of the entries.
    pub entry: [[u8; ENTRY_BYTES]; QUEUE_PLACES],
}

/// The bytes of an error history.
#[repr(C)]
#[derive(Debug, Clone, Copy, PartialEq, Eq)]
pub struct History {
    /// The places of the entries.
    pub entry: [[u8; ENTRY_BYTES]; HISTORY_PLACES],
}

/// A watched node, a partner whose heartbeat is checked.
#[repr(C)]
#[derive(Debug, Default, Clone, Copy, PartialEq, Eq)]
pub struct Watched {
    /// Its number.
    pub node: u64,
    /// It is late once it was not heard for longer, in µs; 0: never late.
    pub timeout_us: u64,
    /// When it was last heard, in µs; 0: never heard.
    pub last_heard_us: u64,
}

/// The run of watched nodes: the first `number` places.
#[repr(C)]
#[derive(Debug, Default, Clone, Copy, PartialEq, Eq)]
pub struct Run {
    /// The places.
    pub place: [Watched; WATCHED_PLACES],
    /// How many places are watched.
    pub number: u64,
}

/// The memory of a weigh head, of which nobody else has the parts. It holds components as they were
/// given, with the byte between bin and grams, which nobody has to have written; so its words are
/// not read here.
#[repr(C)]
#[derive(Clone, Copy)]
pub struct Weigh {
    opaque: [MaybeUninit<u32>; 76],
}

impl Weigh {
    /// Memory for a start.
    pub const fn new() -> Self {
        Self {
            opaque: [MaybeUninit::new(0); 76],
        }
    }
}

impl Default for Weigh {
    fn default() -> Self {
        Self::new()
    }
}

impl fmt::Debug for Weigh {
    fn fmt(&self, f: &mut fmt::Formatter<'_>) -> fmt::Result {
        f.debug_struct("Weigh").finish_non_exhaustive()
    }
}

/// What is lent to a weigh head with each call.
#[repr(C)]
#[derive(Debug, Default, Clone, Copy, PartialEq, Eq)]
pub struct Memory {
    /// Its watched nodes.
    pub run: Run,
    /// Its emergency queue.
    pub queue: Queue,
    /// Its error history.
    pub history: History,
}

impl Default for Queue {
    fn default() -> Self {
        Self {
            entry: [[0; ENTRY_BYTES]; QUEUE_PLACES],
        }
    }
}

impl Default for History {
    fn default() -> Self {
        Self {
            entry: [[0; ENTRY_BYTES]; HISTORY_PLACES],
        }
    }
}

/// A value of the dictionary that may be missing.
#[repr(C)]
#[derive(Debug, Default, Clone, Copy, PartialEq, Eq)]
pub struct Value {
    /// 0: missing.
    pub there: u32,
    /// Not looked at where it is missing.
    pub value: u32,
}

impl From<Option<u32>> for Value {
    fn from(value: Option<u32>) -> Self {
        Self {
            there: value.is_some().into(),
            value: value.unwrap_or(0),
        }
    }
}

/// A threshold for each kind of error that is counted, 0 to 1,000,000; 0 never crosses.
#[repr(C)]
#[derive(Debug, Clone, Copy, PartialEq, Eq)]
pub struct Thresholds {
    /// Of Collision.
    pub collision: u32,
    /// Of LossOfSoc.
    pub loss_of_soc: u32,
    /// Of LossOfSoa.
    pub loss_of_soa: u32,
    /// Of LossOfPreq.
    pub loss_of_preq: u32,
    /// Of SoCJitter.
    pub soc_jitter: u32,
    /// Of Crc.
    pub crc_errors: u32,
    /// Of HeartbeatTimeout.
    pub heartbeat_timeout: u32,
}

/// What a head is started with.
#[repr(C)]
#[derive(Debug, Clone, Copy, PartialEq, Eq)]
pub struct Setup {
    /// 1 to 240, 253, 254 or 255.
    pub node: u8,
    /// Object 0x1001.
    pub error_register: u8,
    /// Kept, never read.
    pub feature_flags: u32,
    /// In µs; 0: the node never falls to BasicEthernet.
    pub basic_timeout_us: u32,
    /// Object 0x1006, in µs; missing counts as 0: no SoC check.
    pub cycle_us: Value,
    /// Object 0x1C14, in ns; missing counts as 100,000.
    pub tolerance_ns: Value,
    /// Counter 1 of object 0x1102.
    pub counter_1: u32,
    /// Counter 2.
    pub counter_2: u32,
    /// Counter 3.
    pub counter_3: u32,
    /// Counter 5.
    pub counter_5: u32,
    /// The seven thresholds.
    pub thresholds: Thresholds,
    /// 0 to 32.
    pub queue_capacity: u64,
}

/// Which values of the dictionary are loaded, and with what.
#[repr(C)]
#[derive(Debug, Default, Clone, Copy, PartialEq, Eq)]
pub struct Update {
    /// 0: the error register stays as it is; so for each of these.
    pub set_error_register: u8,
    /// Whether the cycle is set.
    pub set_cycle: u8,
    /// Whether the tolerance is set.
    pub set_tolerance: u8,
    /// Whether counter 1 is set.
    pub set_counter_1: u8,
    /// Whether counter 2 is set.
    pub set_counter_2: u8,
    /// Whether counter 3 is set.
    pub set_counter_3: u8,
    /// Whether counter 5 is set.
    pub set_counter_5: u8,
    /// Whether the entries that are given become the history.
    pub set_history: u8,
    /// Object 0x1001.
    pub error_register: u8,
    /// Object 0x1006, in µs; may be set to missing.
    pub cycle_us: Value,
    /// Object 0x1C14, in ns; may be set to missing.
    pub tolerance_ns: Value,
    /// Counter 1 of object 0x1102.
    pub counter_1: u32,
    /// Counter 2.
    pub counter_2: u32,
    /// Counter 3.
    pub counter_3: u32,
    /// Counter 5.
    pub counter_5: u32,
}

/// A component of a recipe; of a place without one, 0 and 0.
#[repr(C)]
#[derive(Debug, Default, Clone, Copy, PartialEq, Eq, Hash)]
pub struct Component {
    /// 1 to 64.
    pub bin: u8,
    /// 1 to 30,000.
    pub grams: u16,
}

/// An error.
#[repr(C)]
#[derive(Debug, Default, Clone, Copy, PartialEq, Eq)]
pub struct Error {
    /// The kind's number.
    pub kind: u8,
    /// The node of a kind that carries one, or the state of kind 18; else 0.
    pub a: u8,
    /// The event of kind 18; else 0.
    pub b: u8,
}

/// The errors that one call reports, in order.
#[repr(C)]
#[derive(Debug, Default, Clone, Copy, PartialEq, Eq)]
pub struct Errors {
    /// 0, 1 or 2.
    pub count: u8,
    /// Zeros behind `count`.
    pub error: [Error; 2],
}

/// What an NMT event answers.
#[repr(C)]
#[derive(Debug, Default, Clone, Copy, PartialEq, Eq)]
pub struct NmtAnswer {
    /// The errors that it reports.
    pub errors: Errors,
    /// The reset that it passed, by its number; 0: none.
    pub reset: u8,
}

/// What an error answers.
#[repr(C)]
#[derive(Debug, Default, Clone, Copy, PartialEq, Eq)]
pub struct ErrorAnswer {
    /// 0: none, 1: ResetCommunication, 2: ResetNode.
    pub action: u8,
    /// The node of ResetNode; else 0.
    pub action_node: u8,
    /// Whether the error is signalled.
    pub signal: u8,
    /// What is logged.
    pub logged: Errors,
}

/// What a complete cycle answers.
#[repr(C)]
#[derive(Debug, Default, Clone, Copy, PartialEq, Eq)]
pub struct CycleAnswer {
    /// Whether the last level above 0 reached 0.
    pub cleared: u8,
}

/// An entry of a queue or a history (DS 301, Tables 94 and 96).
#[repr(C)]
#[derive(Debug, Default, Clone, Copy, PartialEq, Eq)]
pub struct Entry {
    /// The status mark, bit 15 of the type.
    pub is_status: u8,
    /// The queue mark, bit 14.
    pub send_to_queue: u8,
    /// The mode's number, 0 to 3.
    pub mode: u8,
    /// 0 to 4095; 2 is POWERLINK.
    pub profile: u16,
    /// The error code.
    pub code: u16,
    /// The seconds of its time.
    pub seconds: u32,
    /// The nanoseconds of its time.
    pub nanoseconds: u32,
    /// Additional information.
    pub additional: u64,
}

/// The entry that was handed out, if any.
#[repr(C)]
#[derive(Debug, Default, Clone, Copy, PartialEq, Eq)]
pub struct HandedOut {
    /// Zeros where none waits.
    pub entry: Entry,
    /// 0: the queue is empty.
    pub there: u8,
}

/// What a range of readings answers.
#[repr(C)]
#[derive(Debug, Default, Clone, Copy, PartialEq, Eq)]
pub struct RangeAnswer {
    /// 0: lost, 1: kept, 2: open.
    pub verdict: u8,
}

/// What a margin answers.
#[repr(C)]
#[derive(Debug, Default, Clone, Copy, PartialEq, Eq)]
pub struct MarginAnswer {
    /// What is left of the limit, in µs; below 0 the SoC is lost.
    pub margin_us: i64,
}

/// When the next tick is due.
#[repr(C)]
#[derive(Debug, Default, Clone, Copy, PartialEq, Eq)]
pub struct DueAnswer {
    /// The moment, in µs; 0: at once, or none where `there` is 0.
    pub time_us: u64,
    /// 0: no tick finds anything to do.
    pub there: u8,
}

/// What a frame answers.
#[repr(C)]
#[derive(Debug, Default, Clone, Copy, PartialEq, Eq)]
pub struct FrameAnswer {
    /// 0: it is for another node, nothing changed, all else is 0.
    pub ours: u8,
    /// What is logged.
    pub logged: Errors,
    /// Whether an NMT event came of it.
    pub has_nmt: u8,
    /// What that answers; zeros where none came.
    pub nmt: NmtAnswer,
}

/// What is read of a frame.
#[repr(C)]
#[derive(Debug, Default, Clone, Copy, PartialEq, Eq)]
pub struct Frame {
    /// The message type's number.
    pub message: u8,
    /// The number of the node that it is for; 255: every node.
    pub destination: u8,
    /// The number of the node that sent it.
    pub source: u8,
    /// Of an ASnd its service; else 0.
    pub service: u8,
    /// Of service 4 the state command; else 0.
    pub command: u8,
}

/// The watched nodes as bits: node n is bit n % 8 of byte n / 8, lowest bit first.
#[repr(C)]
#[derive(Debug, Default, Clone, Copy, PartialEq, Eq)]
pub struct Bitmap {
    /// The bits.
    pub byte: [u8; 32],
    /// How many bits are set.
    pub nodes: u32,
}

/// A range of indexes of the object dictionary, both included.
#[repr(C)]
#[derive(Debug, Default, Clone, Copy, PartialEq, Eq, Hash)]
pub struct IndexRange {
    /// The first index.
    pub first: u16,
    /// The last index.
    pub last: u16,
}

/// What a reset passes.
#[repr(C)]
#[derive(Debug, Default, Clone, Copy, PartialEq, Eq)]
pub struct ResetSteps {
    /// How many states it enters, 0 to 5.
    pub states: u8,
    /// Their numbers, in order; zeros behind.
    pub state: [u8; 5],
    /// How many ranges are to be restored, 0 to 3.
    pub ranges: u8,
    /// They, in order; zeros behind.
    pub range: [IndexRange; 3],
}

/// A text, with a 0 behind it; empty where there is none.
#[repr(C)]
#[derive(Debug, Clone, Copy, PartialEq, Eq)]
pub struct Text {
    /// Its bytes.
    pub text: [u8; TEXT_BYTES],
}

// The sizes, alignments and places that the header states.
const _: () = {
    assert!(size_of::<Counter>() == 16);
    assert!(size_of::<SplitTime>() == 8);
    assert!(size_of::<Head>() == 240 && align_of::<Head>() == 4);
    assert!(offset_of!(Head, collision) == 28);
    assert!(offset_of!(Head, last_soc) == 144);
    assert!(offset_of!(Head, error_register) == 172);
    assert!(offset_of!(Head, queue_oldest) == 208);
    assert!(offset_of!(Head, earliest) == 232);
    assert!(size_of::<Queue>() == 640 && align_of::<Queue>() == 1);
    assert!(size_of::<History>() == 5080 && align_of::<History>() == 1);
    assert!(size_of::<Watched>() == 24 && align_of::<Watched>() == 8);
    assert!(size_of::<Run>() == 776 && offset_of!(Run, number) == 768);
    assert!(size_of::<Weigh>() == 304 && align_of::<Weigh>() == 4);
    assert!(size_of::<Memory>() == 6496 && offset_of!(Memory, history) == 1416);
    assert!(size_of::<Value>() == 8);
    assert!(size_of::<Thresholds>() == 28);
    assert!(size_of::<Setup>() == 80 && offset_of!(Setup, thresholds) == 44);
    assert!(size_of::<Update>() == 44 && offset_of!(Update, cycle_us) == 12);
    assert!(size_of::<Component>() == 4);
    assert!(size_of::<Error>() == 3);
    assert!(size_of::<Errors>() == 7);
    assert!(size_of::<NmtAnswer>() == 8);
    assert!(size_of::<ErrorAnswer>() == 10);
    assert!(size_of::<CycleAnswer>() == 1);
    assert!(size_of::<Entry>() == 24 && offset_of!(Entry, additional) == 16);
    assert!(size_of::<HandedOut>() == 32);
    assert!(size_of::<RangeAnswer>() == 1);
    assert!(size_of::<MarginAnswer>() == 8);
    assert!(size_of::<DueAnswer>() == 16);
    assert!(size_of::<FrameAnswer>() == 17);
    assert!(size_of::<Frame>() == 5);
    assert!(size_of::<Bitmap>() == 36);
    assert!(size_of::<IndexRange>() == 4);
    assert!(size_of::<ResetSteps>() == 20 && offset_of!(ResetSteps, range) == 8);
    assert!(size_of::<Text>() == TEXT_BYTES);
};
