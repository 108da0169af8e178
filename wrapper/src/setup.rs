//! What a head is started with, and what is loaded into it.

use crate::raw;

pub use crate::raw::Thresholds;

impl Thresholds {
    /// The same threshold for each kind of error that is counted.
    pub const fn all(threshold: u32) -> Self {
        Self {
            collision: threshold,
            loss_of_soc: threshold,
            loss_of_soa: threshold,
            loss_of_preq: threshold,
            soc_jitter: threshold,
            crc_errors: threshold,
            heartbeat_timeout: threshold,
        }
    }
}

/// What a head is started with (rule 1.9). Its limits are looked at by the start.
///
/// ```
/// use powerlink_cn::{Node, Refusal, Setup, Thresholds};
///
/// let setup = Setup { cycle_us: Some(1000), thresholds: Thresholds::all(30), ..Setup::new(7) };
/// assert!(Node::start(&setup, &[]).is_ok());
/// let setup = Setup { queue_capacity: 33, ..setup };
/// assert_eq!(Node::start(&setup, &[]), Err(Refusal::QueueCapacity));
/// ```
#[derive(Debug, Clone, Copy, PartialEq, Eq)]
pub struct Setup {
    /// The node's number: 1 to 240, 253, 254 or 255.
    pub node: u8,
    /// Object 0x1001.
    pub error_register: u8,
    /// Object 0x1F82; kept, and read by no call.
    pub feature_flags: u32,
    /// Object 0x1F99, in µs: how long the node waits at NotActive before it falls to BasicEthernet;
    /// 0: it never does.
    pub basic_timeout_us: u32,
    /// Object 0x1006, in µs; where it is missing, 0 counts: no SoC check.
    pub cycle_us: Option<u32>,
    /// Object 0x1C14, in ns; where it is missing, 100,000 counts.
    pub tolerance_ns: Option<u32>,
    /// Counter 1 of object 0x1102: errors at the SoC check and of frames.
    pub counter_1: u32,
    /// Counter 2: entries that joined queue and history.
    pub counter_2: u32,
    /// Counter 3: entries that were dropped, as the queue was full.
    pub counter_3: u32,
    /// Counter 5: signals that changed the error register.
    pub counter_5: u32,
    /// The threshold of each kind of error that is counted: 0 to 1,000,000; 0 never crosses.
    pub thresholds: Thresholds,
    /// How many entries may wait in the emergency queue: 0 to 32.
    pub queue_capacity: usize,
}

impl Setup {
    /// For a node of this number: no cycle and no tolerance, no basic timeout, thresholds of 15, a
    /// queue of 32 entries, and 0 for all else.
    pub const fn new(node: u8) -> Self {
        Self {
            node,
            error_register: 0,
            feature_flags: 0,
            basic_timeout_us: 0,
            cycle_us: None,
            tolerance_ns: None,
            counter_1: 0,
            counter_2: 0,
            counter_3: 0,
            counter_5: 0,
            thresholds: Thresholds::all(15),
            queue_capacity: crate::QUEUE_PLACES,
        }
    }
}

impl From<&Setup> for raw::Setup {
    fn from(setup: &Setup) -> Self {
        Self {
            node: setup.node,
            error_register: setup.error_register,
            feature_flags: setup.feature_flags,
            basic_timeout_us: setup.basic_timeout_us,
            cycle_us: setup.cycle_us.into(),
            tolerance_ns: setup.tolerance_ns.into(),
            counter_1: setup.counter_1,
            counter_2: setup.counter_2,
            counter_3: setup.counter_3,
            counter_5: setup.counter_5,
            thresholds: setup.thresholds,
            queue_capacity: setup.queue_capacity as u64,
        }
    }
}

/// The values that a load sets (rule 3). What is `None` stays as it is.
///
/// ```
/// use powerlink_cn::{Node, Refusal, Setup, Update};
///
/// # fn main() -> Result<(), Refusal> {
/// let mut node = Node::start(&Setup { tolerance_ns: Some(100_000), ..Setup::new(7) }, &[])?;
/// node.load(&Update { cycle_us: Some(Some(400)), tolerance_ns: Some(None), ..Update::default() });
/// assert_eq!(node.head().cycle_us(), Some(400));
/// assert_eq!(node.head().tolerance_ns(), None);
/// # Ok(())
/// # }
/// ```
#[derive(Debug, Default, Clone, Copy, PartialEq, Eq)]
pub struct Update<'a> {
    /// Object 0x1001.
    pub error_register: Option<u8>,
    /// Object 0x1006, in µs; `Some(None)` sets it to missing.
    pub cycle_us: Option<Option<u32>>,
    /// Object 0x1C14, in ns; `Some(None)` sets it to missing.
    pub tolerance_ns: Option<Option<u32>>,
    /// Counter 1 of object 0x1102.
    pub counter_1: Option<u32>,
    /// Counter 2.
    pub counter_2: Option<u32>,
    /// Counter 3.
    pub counter_3: Option<u32>,
    /// Counter 5.
    pub counter_5: Option<u32>,
    /// The error history, object 0x1003: the bytes of its entries, 20 each, newest first. Of more
    /// than 254 entries the newest 254 are taken; bytes behind the last whole entry are no entry.
    pub history: Option<&'a [u8]>,
}

impl From<&Update<'_>> for raw::Update {
    fn from(update: &Update<'_>) -> Self {
        Self {
            set_error_register: update.error_register.is_some().into(),
            set_cycle: update.cycle_us.is_some().into(),
            set_tolerance: update.tolerance_ns.is_some().into(),
            set_counter_1: update.counter_1.is_some().into(),
            set_counter_2: update.counter_2.is_some().into(),
            set_counter_3: update.counter_3.is_some().into(),
            set_counter_5: update.counter_5.is_some().into(),
            set_history: update.history.is_some().into(),
            error_register: update.error_register.unwrap_or(0),
            cycle_us: update.cycle_us.flatten().into(),
            tolerance_ns: update.tolerance_ns.flatten().into(),
            counter_1: update.counter_1.unwrap_or(0),
            counter_2: update.counter_2.unwrap_or(0),
            counter_3: update.counter_3.unwrap_or(0),
            counter_5: update.counter_5.unwrap_or(0),
        }
    }
}
