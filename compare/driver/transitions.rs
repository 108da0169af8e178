//! Prints what the original Rust does at every pair of its two state machines, one form a line. Every
//! answer is computed by calling the original code, but for the readiness behind a reset, which is
//! cleared by hand (RULES 4.5).

mod forms;
mod reset;

use forms::{DLL_EVENTS, NMT_EVENTS, NMT_STATES, errors_form, hex, named_form};
use powerlink_rs::NodeId;
use powerlink_rs::frame::{DllCsEvent, DllCsStateMachine};
use powerlink_rs::nmt::NmtStateMachine;
use powerlink_rs::nmt::cn_state_machine::CnNmtStateMachine;
use powerlink_rs::nmt::events::NmtEvent;
use powerlink_rs::nmt::flags::FeatureFlags;
use powerlink_rs::nmt::states::NmtState;

const NODE: NodeId = NodeId(7);

fn main() {
    forms::check_order();
    print_nmt();
    print_dll();
}

fn print_nmt() {
    for state in NMT_STATES {
        for event in NMT_EVENTS {
            for enabled in [false, true] {
                for ready in [false, true] {
                    print_nmt_event(state, event, enabled, ready);
                }
            }
        }
    }
}

fn print_nmt_event(state: NmtState, event: NmtEvent, enabled: bool, ready: bool) {
    let mut machine = CnNmtStateMachine::new(NODE, FeatureFlags(5), 5000);
    machine.current_state = state;
    machine.ready_to_operate_enabled = enabled;
    machine.app_ready = ready;
    let before = machine_form("at", &machine);
    let (errors, ranges) = reset::with_ranges(|od| machine.process_event(event, od));
    reset::forget_readiness(&mut machine, event);
    let after = machine_form("to", &machine);
    // These three have no place in the form: no event changes them.
    assert_eq!(machine.node_id, NODE);
    assert_eq!(machine.feature_flags, FeatureFlags(5));
    assert_eq!(machine.basic_ethernet_timeout, 5000);

    let (entered, recorded_ranges) = reset::recorded(state, event);
    assert_eq!(
        ranges, recorded_ranges,
        "the machine and the recorder restore alike"
    );
    let answer = match entered.last() {
        None => errors_form(errors),
        Some(last) => {
            assert_eq!(
                machine.current_state, *last,
                "the machine ends where the recorder does"
            );
            assert_eq!(errors, None, "a reset reports no errors");
            format!("{} {}", entered_form(&entered), restore_form(&ranges))
        }
    };
    println!("(nmt {before} (event {}) {after} {answer})", event as u8);
}

/// The fields of a machine that an event can change: `(at 0x1C (enabled 0) (ready 1))`.
fn machine_form(name: &str, machine: &CnNmtStateMachine) -> String {
    let state = hex(machine.current_state as u8);
    let enabled = machine.ready_to_operate_enabled as u8;
    let ready = machine.app_ready as u8;
    format!("({name} {state} (enabled {enabled}) (ready {ready}))")
}

fn entered_form(states: &[NmtState]) -> String {
    named_form("entered", states.iter().map(|state| hex(*state as u8)))
}

fn restore_form(ranges: &[reset::Range]) -> String {
    named_form(
        "restore",
        ranges
            .iter()
            .map(|(first, last)| format!("(0x{first:04X} 0x{last:04X})")),
    )
}

/// For each DLL state, in order, the events that bring a fresh machine there in NmtOperational. The
/// machine's state is private, so it can't be set.
const PATHS: [&[DllCsEvent]; 4] = [
    &[],
    &[DllCsEvent::Soc, DllCsEvent::Preq, DllCsEvent::Soa],
    &[DllCsEvent::Soc],
    &[DllCsEvent::Soc, DllCsEvent::Preq],
];

fn print_dll() {
    for at in 0..PATHS.len() {
        for event in DLL_EVENTS {
            for nmt in NMT_STATES {
                for expected in [false, true] {
                    print_dll_event(at, event, nmt, expected);
                }
            }
        }
    }
}

fn print_dll_event(at: usize, event: DllCsEvent, nmt: NmtState, expected: bool) {
    let mut machine = machine_at(at);
    let errors = machine.process_event(event, nmt, NODE, expected);
    println!(
        "(dll (at {at}) (event {}) (nmt {}) (expected {}) (to {}) {})",
        event as u8,
        hex(nmt as u8),
        expected as u8,
        machine.current_state() as u8,
        errors_form(errors),
    );
}

fn machine_at(state: usize) -> DllCsStateMachine {
    let mut machine = DllCsStateMachine::new();
    for event in PATHS[state] {
        let errors = machine.process_event(*event, NmtState::NmtOperational, NODE, true);
        assert_eq!(errors, None, "the way to a state has no errors");
    }
    assert_eq!(
        machine.current_state() as usize,
        state,
        "the way leads to the state"
    );
    machine
}
