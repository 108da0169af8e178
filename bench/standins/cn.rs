//! Declares the given files of the controlled node, and opens what the benchmark needs of them.

pub mod frame_errors;
pub mod state;
pub mod tick;

pub use frame_errors::handle_error;

use super::{NodeAction, NodeContext};
use crate::log::Loggable;
use crate::od::Object;
use alloc::string::String;
use state::CnContext;

pub struct ControlledNode;

impl Loggable for CnContext<'_> {
    fn log_prefix(&self) -> String {
        NodeContext::log_prefix(self)
    }
}

/// `process_tick` is visible in its crate only.
#[inline(always)]
pub fn run_tick(context: &mut CnContext, current_time_us: u64) -> NodeAction {
    tick::process_tick(context, current_time_us)
}

/// Makes the error history one without entries; it keeps the memory that it had.
pub fn clear_history(context: &mut CnContext) {
    let entry = context.core.od.entries.get_mut(&0x1003);
    if let Some(Object::Array(values)) = entry.map(|entry| &mut entry.object) {
        values.clear();
    }
}
