//! What a head keeps.

use crate::raw;
use crate::{DllErrorKind, DllState, NmtState};

pub use crate::raw::Counter;

/// A head, to be read (rule 1).
///
/// ```
/// use powerlink_cn::{DllErrorKind, NmtState, Node, Refusal, Setup};
///
/// # fn main() -> Result<(), Refusal> {
/// let node = Node::start(&Setup { cycle_us: Some(1000), ..Setup::new(7) }, &[])?;
/// let head = node.head();
/// assert_eq!((head.state(), head.node()), (NmtState::GsInitialising, 7));
/// assert!(head.is_ready() && !head.is_enabled());
/// assert_eq!(head.deadline_us(), None);
/// assert_eq!(head.counter(DllErrorKind::LossOfSoc).map(|counter| counter.threshold), Some(15));
/// # Ok(())
/// # }
/// ```
#[derive(Debug, Clone, Copy, PartialEq, Eq)]
pub struct Head(pub(crate) raw::Head);

impl Head {
    /// Its words, each with a name.
    pub const fn raw(&self) -> &raw::Head {
        &self.0
    }

    /// The NMT state. A word that is none, which no call leaves, is read as GsOff.
    pub const fn state(&self) -> NmtState {
        match NmtState::from_number(self.0.state as u64) {
            Some(state) => state,
            None => NmtState::GsOff,
        }
    }

    /// Whether the managing node's enable came in this visit to PreOperational2 (rule 4.2).
    pub const fn is_enabled(&self) -> bool {
        self.0.enabled != 0
    }

    /// Whether the application's ready word stands (rule 4.3).
    pub const fn is_ready(&self) -> bool {
        self.0.ready != 0
    }

    /// The node's number.
    pub const fn node(&self) -> u8 {
        self.0.node as u8
    }

    /// The feature flags, as the start gave them.
    pub const fn feature_flags(&self) -> u32 {
        self.0.feature_flags
    }

    /// How long the node waits at NotActive before it falls to BasicEthernet, in µs; 0: for ever.
    pub const fn basic_timeout_us(&self) -> u32 {
        self.0.basic_timeout_us
    }

    /// The state of the DLL machine. A word that is none, which no call leaves, is read as
    /// NonCyclic.
    pub const fn dll_state(&self) -> DllState {
        match DllState::from_number(self.0.dll_state as u64) {
            Some(state) => state,
            None => DllState::NonCyclic,
        }
    }

    /// The counter of a kind of error; none of a kind that has no counter (rule 6.1).
    pub const fn counter(&self, kind: DllErrorKind) -> Option<&Counter> {
        Some(match kind {
            DllErrorKind::Collision => &self.0.collision,
            DllErrorKind::LossOfSoc => &self.0.loss_of_soc,
            DllErrorKind::LossOfSoa => &self.0.loss_of_soa,
            DllErrorKind::LossOfPreq => &self.0.loss_of_preq,
            DllErrorKind::SoCJitter => &self.0.soc_jitter,
            DllErrorKind::Crc => &self.0.crc_errors,
            DllErrorKind::HeartbeatTimeout => &self.0.heartbeat_timeout,
            _ => return None,
        })
    }

    /// How many links were lost, up to 2^32 − 1.
    pub const fn lost_links(&self) -> u32 {
        self.0.lost_links
    }

    /// When the last SoC came, in µs; 0 before the first.
    pub const fn last_soc_us(&self) -> u64 {
        self.0.last_soc.joined()
    }

    /// The deadline of the SoC check or of the basic timeout, in µs, where one stands.
    pub const fn deadline_us(&self) -> Option<u64> {
        if self.0.has_deadline == 0 {
            None
        } else {
            Some(self.0.deadline.joined())
        }
    }

    /// Whether a tick looks for a lost SoC.
    pub const fn is_check_on(&self) -> bool {
        self.0.check_on != 0
    }

    /// Whether an error was signalled since the start (rule 7.9).
    pub const fn error_status_changed(&self) -> bool {
        self.0.error_status_changed != 0
    }

    /// Object 0x1001.
    pub const fn error_register(&self) -> u8 {
        self.0.error_register as u8
    }

    /// Object 0x1006, in µs, where it is there.
    pub const fn cycle_us(&self) -> Option<u32> {
        if self.0.has_cycle == 0 {
            None
        } else {
            Some(self.0.cycle_us)
        }
    }

    /// Object 0x1C14, in ns, where it is there.
    pub const fn tolerance_ns(&self) -> Option<u32> {
        if self.0.has_tolerance == 0 {
            None
        } else {
            Some(self.0.tolerance_ns)
        }
    }

    /// The counters 1, 2, 3 and 5 of object 0x1102: errors at the SoC check and of frames, entries
    /// that joined queue and history, entries that were dropped, signals that changed the error
    /// register.
    pub const fn statistics(&self) -> [u32; 4] {
        [
            self.0.counter_1,
            self.0.counter_2,
            self.0.counter_3,
            self.0.counter_5,
        ]
    }

    /// How many entries wait in the emergency queue.
    pub const fn queue_length(&self) -> u32 {
        self.0.queue_length
    }

    /// How many entries may wait there.
    pub const fn queue_capacity(&self) -> u32 {
        self.0.queue_capacity
    }

    /// How many entries the error history has.
    pub const fn history_length(&self) -> u32 {
        self.0.history_count
    }

    /// When a watched node would be late, in µs; none where no node can be (rule 8.5).
    pub const fn earliest_us(&self) -> Option<u64> {
        if self.0.has_earliest == 0 {
            None
        } else {
            Some(self.0.earliest.joined())
        }
    }
}
