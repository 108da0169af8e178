//! Declares the given error files, and shows drivers what the counters hold.

pub mod counters;
pub mod manager;
pub mod status_response;
pub mod traits;
pub mod types;

pub use counters::{CnErrorCounters, MnErrorCounters, ThresholdCounter};
pub use manager::DllErrorManager;
pub use status_response::{EntryType, ErrorEntry, ErrorEntryMode};
pub use traits::{ErrorCounters, ErrorHandler, LoggingErrorHandler, NoOpErrorHandler};
pub use types::{DllError, NmtAction};

use alloc::format;
use alloc::string::String;

/// The seven counters, in the order of their fields.
pub fn seven(counters: &CnErrorCounters) -> [&ThresholdCounter; 7] {
    [
        &counters.collision,
        &counters.loss_of_soc,
        &counters.loss_of_soa,
        &counters.loss_of_preq,
        &counters.soc_jitter,
        &counters.crc_errors,
        &counters.heartbeat_timeout,
    ]
}

/// What each of them holds, as its derived Debug form: their fields are private.
pub type Held = [String; 7];

pub fn held(counters: &CnErrorCounters) -> Held {
    seven(counters).map(|counter| format!("{counter:?}"))
}
