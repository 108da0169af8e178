//! Declares the given files of the controlled node, and opens the tick to drivers.

pub mod frame_errors;
pub mod state;
pub mod tick;

pub use frame_errors::handle_error;

use super::{NodeAction, NodeContext};
use crate::frame::error::{Held, held};
use crate::log::Loggable;
use alloc::string::String;
use alloc::vec::Vec;
use state::CnContext;
use std::cell::RefCell;

pub struct ControlledNode;

thread_local! {
    static AT_LINES: RefCell<Vec<Held>> = const { RefCell::new(Vec::new()) };
}

/// The original asks for the prefix at each line that it logs about the node. What the counters hold
/// is kept then.
impl Loggable for CnContext<'_> {
    fn log_prefix(&self) -> String {
        let now = held(&self.dll_error_manager.counters);
        AT_LINES.with_borrow_mut(|kept| kept.push(now));
        NodeContext::log_prefix(self)
    }
}

/// `process_tick` is visible in its crate only; drivers call it by this name. It can give the
/// heartbeat counter several errors, and logs a line before each: beside its answer, what the
/// counters held at the lines that it logged.
pub fn run_tick(context: &mut CnContext, current_time_us: u64) -> (NodeAction, Vec<Held>) {
    AT_LINES.take();
    let action = tick::process_tick(context, current_time_us);
    (action, AT_LINES.take())
}
