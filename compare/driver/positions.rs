//! Prints every position (NMT state, enabled, ready) that the original machine reaches by its 19
//! events and withdrawals, with the least number of steps, one form a line. By hand behind the
//! original: a reset clears the readiness (RULES 4.5), and a withdrawal, which the original
//! has not, clears it everywhere but at ReadyToOperate, where it is refused and so no step.

mod forms;
mod reset;

use forms::{NMT_EVENTS, hex};
use powerlink_rs::NodeId;
use powerlink_rs::nmt::NmtStateMachine;
use powerlink_rs::nmt::cn_state_machine::CnNmtStateMachine;
use powerlink_rs::nmt::flags::FeatureFlags;
use powerlink_rs::nmt::states::NmtState;
use std::collections::BTreeSet;

/// The number of the NMT state, enabled, ready: in the order in which they are printed.
type Position = (u8, bool, bool);

fn main() {
    forms::check_order();
    let mut seen = BTreeSet::new();
    let mut layer = BTreeSet::from([position_of(&fresh())]);
    for steps in 0.. {
        for (state, enabled, ready) in &layer {
            let (enabled, ready) = (*enabled as u8, *ready as u8);
            println!(
                "(at {} (enabled {enabled}) (ready {ready}) (steps {steps}))",
                hex(*state)
            );
        }
        seen.extend(&layer);
        let next: BTreeSet<Position> = layer.iter().flat_map(one_step_on).collect();
        layer = &next - &seen;
        if layer.is_empty() {
            return;
        }
    }
}

fn fresh() -> CnNmtStateMachine {
    CnNmtStateMachine::new(NodeId(7), FeatureFlags(0), 5000)
}

fn position_of(machine: &CnNmtStateMachine) -> Position {
    (
        machine.current_state as u8,
        machine.ready_to_operate_enabled,
        machine.app_ready,
    )
}

fn machine_at((state, enabled, ready): Position) -> CnNmtStateMachine {
    let mut machine = fresh();
    machine.current_state = NmtState::try_from(state).expect("a position has a state");
    machine.ready_to_operate_enabled = enabled;
    machine.app_ready = ready;
    machine
}

/// The positions that one event or one withdrawal leads to.
fn one_step_on(position: &Position) -> Vec<Position> {
    let mut reached: Vec<Position> = Vec::new();
    for event in NMT_EVENTS {
        let mut machine = machine_at(*position);
        reset::with_ranges(|od| machine.process_event(event, od));
        reset::forget_readiness(&mut machine, event);
        reached.push(position_of(&machine));
    }
    let (state, enabled, _) = *position;
    if state != NmtState::NmtReadyToOperate as u8 {
        reached.push((state, enabled, false));
    }
    reached
}
