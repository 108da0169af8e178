//! Handles the errors of a frame as the tick does those of its SoC check.

use super::state::CnContext;
use crate::common::NetTime;
use crate::frame::DllError;
use crate::frame::error::{EntryType, ErrorEntry, ErrorEntryMode, NmtAction};
use crate::nmt::NmtStateMachine;
use crate::nmt::events::NmtEvent;
use crate::od::{ObjectValue, constants, error_history};

/// One error of a frame's DLL event that arrived at a time: what the tick does with one of its SoC
/// check, in the tick's order. Whether it brought an action, which is the event Error.
pub fn handle_error(context: &mut CnContext, error: DllError, now_us: u64) -> bool {
    let statistics = constants::IDX_DIAG_ERR_STATISTICS_REC;
    let od = &mut context.core.od;
    od.increment_counter(statistics, constants::SUBIDX_DIAG_ERR_STATS_HIST_WRITE);
    let (action, signaled) = context.dll_error_manager.handle_error(error);
    if signaled {
        context.error_status_changed = true;
        let register = od.read_u8(constants::IDX_NMT_ERROR_REGISTER_U8, 0);
        let register = register.unwrap_or(0);
        if register != register | 1 {
            od.increment_counter(statistics, constants::SUBIDX_DIAG_ERR_STATS_STATIC_ERR_CHG);
        }
        let value = ObjectValue::Unsigned8(register | 1);
        let _ = od.write_internal(constants::IDX_NMT_ERROR_REGISTER_U8, 0, value, false);
        let entry = ErrorEntry {
            entry_type: EntryType {
                is_status_entry: false,
                send_to_queue: true,
                mode: ErrorEntryMode::EventOccurred,
                profile: 0x002,
            },
            error_code: error.to_error_code(),
            timestamp: NetTime {
                seconds: (now_us / 1_000_000) as u32,
                nanoseconds: ((now_us % 1_000_000) * 1000) as u32,
            },
            additional_information: 0,
        };
        if context.emergency_queue.len() < context.emergency_queue.capacity() {
            context.emergency_queue.push_back(entry.clone());
            error_history::write_error_to_history(od, &entry);
            od.increment_counter(statistics, constants::SUBIDX_DIAG_ERR_STATS_EMCY_WRITE);
        } else {
            od.increment_counter(statistics, constants::SUBIDX_DIAG_ERR_STATS_EMCY_OVERFLOW);
        }
    }
    if action == NmtAction::None {
        return false;
    }
    let machine = &mut context.nmt_state_machine;
    machine.process_event(NmtEvent::Error, od);
    context.soc_timeout_check_active = false;
    true
}
