//! Stand-in: only the method that the controlled node implements.

use super::NodeContext;
use crate::frame::error::{DllErrorManager, ErrorCounters, ErrorHandler};

pub trait PdoHandler<'s>: NodeContext<'s> {
    fn dll_error_manager(&mut self) -> &mut DllErrorManager<impl ErrorCounters, impl ErrorHandler>;
}
