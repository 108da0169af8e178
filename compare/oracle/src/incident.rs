//! The shortest orders of NMT events that put the original at ReadyToOperate with an old ready word, one from before the
//! last reset: every event is tried in every position, breadth first.

use crate::places::NMT_EVENTS;
use crate::reset;
use powerlink_rs::NodeId;
use powerlink_rs::nmt::NmtStateMachine;
use powerlink_rs::nmt::cn_state_machine::CnNmtStateMachine;
use powerlink_rs::nmt::events::NmtEvent;
use powerlink_rs::nmt::flags::FeatureFlags;
use powerlink_rs::nmt::states::NmtState;
use std::collections::{BTreeMap, BTreeSet};
use std::io::{self, Write};

/// The last ready word.
#[derive(Debug, Clone, Copy, PartialEq, Eq, PartialOrd, Ord)]
enum Word {
    /// That of a fresh head; the application gave none.
    Fresh,
    /// Given in PreOperational2 since the last reset.
    Given,
    /// Given there, with a reset behind it.
    Old,
}

/// The number of the NMT state, enabled, ready, and the word.
#[derive(Debug, Clone, Copy, PartialEq, Eq, PartialOrd, Ord)]
struct Position(u8, bool, bool, Word);

/// The orders of events that lead to a position.
type Orders = Vec<Vec<u8>>;

/// Prints the shortest orders, each as the numbers of its events.
pub fn shortest(out: &mut dyn Write) -> io::Result<()> {
    let orders = shortest_orders();
    let events = orders.first().map_or(0, Vec::len);
    writeln!(
        out,
        "(shortest (events {events}) (orders {}))",
        orders.len()
    )?;
    for order in orders {
        let numbers: Vec<String> = order.iter().map(u8::to_string).collect();
        writeln!(out, "(order {})", numbers.join(" "))?;
    }
    Ok(())
}

/// All orders of the least length; none where no position is new any more.
fn shortest_orders() -> Orders {
    let fresh = Position(NmtState::NmtGsInitialising as u8, false, true, Word::Fresh);
    let mut seen = BTreeSet::from([fresh]);
    let mut layer = BTreeMap::from([(fresh, vec![Vec::new()])]);
    while !layer.is_empty() {
        let met = layer.iter().filter(|(position, _)| {
            position.0 == NmtState::NmtReadyToOperate as u8 && position.3 == Word::Old
        });
        let met: Orders = met.flat_map(|(_, orders)| orders.clone()).collect();
        if !met.is_empty() {
            return met;
        }
        layer = behind(&layer);
        layer.retain(|position, _| !seen.contains(position));
        seen.extend(layer.keys());
    }
    Vec::new()
}

/// The positions one event behind those of the layer.
fn behind(layer: &BTreeMap<Position, Orders>) -> BTreeMap<Position, Orders> {
    let mut next: BTreeMap<Position, Orders> = BTreeMap::new();
    for (position, orders) in layer {
        for event in NMT_EVENTS {
            let longer = orders.iter().map(|order| {
                let mut order = order.clone();
                order.push(event as u8);
                order
            });
            next.entry(after(*position, event))
                .or_default()
                .extend(longer);
        }
    }
    next
}

/// The position in which the original machine is after an event.
fn after(position: Position, event: NmtEvent) -> Position {
    let Position(state, enabled, ready, word) = position;
    let state = NmtState::try_from(state).expect("a position has a state");
    let mut machine = CnNmtStateMachine::new(NodeId(7), FeatureFlags(0), 5000);
    machine.current_state = state;
    machine.ready_to_operate_enabled = enabled;
    machine.app_ready = ready;
    reset::with_ranges(|od| machine.process_event(event, od));
    let counts =
        event == NmtEvent::CnConfigurationComplete && state == NmtState::NmtPreOperational2;
    let word = match word {
        _ if counts => Word::Given,
        Word::Given if reset::is_reset(event) => Word::Old,
        _ => word,
    };
    Position(
        machine.current_state as u8,
        machine.ready_to_operate_enabled,
        machine.app_ready,
        word,
    )
}
