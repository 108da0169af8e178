//! The lines that docs/CALLS.md gives for answers and for `show`.

use crate::dictionary;
use crate::head::Head;
use crate::places::{action_number, error_form, level, named_form, threshold};
use crate::reset::Range;
use crate::recipes::PLACES;
use crate::run::Run;
use crate::script::{Component, Watched};
use crate::view::COUNTER_NAMES;
use powerlink_rs::frame::DllError;
use powerlink_rs::frame::error::{ErrorEntry, NmtAction, seven};
use powerlink_rs::nmt::states::NmtState;
use powerlink_rs::node::cn::state::CnContext;

pub use crate::places::{errors_form as errors, hex};

pub fn unreadable(line: u64) -> String {
    format!("(unreadable {line})")
}

pub fn refused(number: u8) -> String {
    format!("(refused {number})")
}

/// `(taken)`, with the parts inside.
pub fn taken(parts: &[String]) -> String {
    named_form("taken", parts.iter().cloned())
}

pub fn logged(errors: &[DllError]) -> String {
    named_form("logged", errors.iter().map(error_form))
}

pub fn entered(states: &[NmtState]) -> String {
    named_form("entered", states.iter().map(|state| hex(*state as u8)))
}

pub fn restore(ranges: &[Range]) -> String {
    named_form(
        "restore",
        ranges.iter().map(|(first, last)| range(*first, *last)),
    )
}

pub fn range(first: u16, last: u16) -> String {
    format!("(0x{first:04X} 0x{last:04X})")
}

pub fn error_answer(action: NmtAction, signal: bool, errors: &[DllError]) -> String {
    taken(&[
        format!("(action {})", action_number(action)),
        format!("(signal {})", signal as u8),
        logged(errors),
    ])
}

pub fn handed_out(entry: Option<ErrorEntry>) -> String {
    taken(&[match entry {
        Some(entry) => format!("(entry {})", digits(&entry.serialize())),
        None => "none".to_string(),
    }])
}

/// What an entry holds.
pub fn entry_fields(entry: &ErrorEntry) -> String {
    let entry_type = &entry.entry_type;
    named_form(
        "entry",
        [
            format!("(status {})", entry_type.is_status_entry as u8),
            format!("(queue {})", entry_type.send_to_queue as u8),
            format!("(mode {})", entry_type.mode as u8),
            format!("(profile {})", entry_type.profile),
            format!("(code 0x{:04X})", entry.error_code),
            format!("(seconds {})", entry.timestamp.seconds),
            format!("(ns {})", entry.timestamp.nanoseconds),
            format!("(additional {})", entry.additional_information),
        ]
        .into_iter(),
    )
}

/// Two hexadecimal digits for each byte.
pub fn digits(bytes: &[u8]) -> String {
    bytes.iter().map(|byte| format!("{byte:02X}")).collect()
}

/// The head, the lent run, the desk's buffer and the recipe.
pub fn show(head: &Head, run: &Run, desk: &[u8], recipe: &[Component]) -> Vec<String> {
    let context = &head.context;
    let mut lines = vec![
        nmt(context),
        format!("(dll {})", context.dll_state_machine.current_state() as u8),
    ];
    lines.extend(counters(head));
    lines.extend([
        soc(context),
        dictionary(context),
        queue(context),
        named_form("history", dictionary::history(&context.core.od).map(digits)),
        named_form("watched", run.watched().iter().map(watched)),
        lent(run),
        format!("(earliest {})", or_none(head.earliest)),
        crossings(context),
        named_form("desk", (!desk.is_empty()).then(|| digits(desk)).into_iter()),
        thresholds(context),
        places(recipe),
    ]);
    lines
}

fn nmt(context: &CnContext) -> String {
    let machine = &context.nmt_state_machine;
    format!(
        "(nmt (state {}) (enabled {}) (ready {}) (node {}) (flags {}) (timeout {}))",
        hex(machine.current_state as u8),
        machine.ready_to_operate_enabled as u8,
        machine.app_ready as u8,
        machine.node_id,
        machine.feature_flags.0,
        machine.basic_ethernet_timeout,
    )
}

fn counters(head: &Head) -> Vec<String> {
    let counters = &head.context.dll_error_manager.counters;
    let form = |((name, counter), occurrences)| {
        let level = level(counter);
        format!("({name} (level {level}) (cumulative {occurrences}))")
    };
    let mut lines: Vec<String> = COUNTER_NAMES
        .into_iter()
        .zip(seven(counters))
        .zip(head.occurrences.counts)
        .map(form)
        .collect();
    lines.push(format!(
        "(loss_of_link {})",
        counters.loss_of_link_cumulative
    ));
    lines
}

fn soc(context: &CnContext) -> String {
    format!(
        "(soc (last {}) (check {}) (deadline {}) (status_changed {}))",
        context.last_soc_reception_time_us,
        context.soc_timeout_check_active as u8,
        or_none(context.next_tick_us),
        context.error_status_changed as u8,
    )
}

fn dictionary(context: &CnContext) -> String {
    let od = &context.core.od;
    let or_missing =
        |value: Option<u32>| value.map_or("missing".to_string(), |value| value.to_string());
    let [c1, c2, c3, c5] = dictionary::counters(od);
    format!(
        "(dictionary (register {}) (cycle {}) (tolerance {}) \
         (c1 {c1}) (c2 {c2}) (c3 {c3}) (c5 {c5}))",
        dictionary::register(od),
        or_missing(dictionary::cycle(od)),
        or_missing(dictionary::tolerance(od)),
    )
}

fn queue(context: &CnContext) -> String {
    let queue = &context.emergency_queue;
    let capacity = format!("(capacity {})", queue.capacity());
    let entries = queue.iter().map(|entry| digits(&entry.serialize()));
    named_form("queue", std::iter::once(capacity).chain(entries))
}

/// The cumulative values of the original (RULES 6.2).
fn crossings(context: &CnContext) -> String {
    let counters = seven(&context.dll_error_manager.counters);
    let crossings = counters.map(|counter| counter.cumulative_count().to_string());
    named_form("crossings", crossings.into_iter())
}

/// As the original's counters hold them (RULES 6.1).
fn thresholds(context: &CnContext) -> String {
    let counters = seven(&context.dll_error_manager.counters);
    let thresholds = counters.map(|counter| threshold(counter).to_string());
    named_form("thresholds", thresholds.into_iter())
}

/// What `show` tells of the run beside the nodes watched (RULES 8).
fn lent(run: &Run) -> String {
    let (places, number) = (run.places(), run.number());
    let rest = named_form("rest", run.rest().iter().map(watched));
    format!("(run (places {places}) (number {number}) {rest})")
}

/// All places, with bin 0 and 0 grams behind the components (RULES 12.3).
fn places(recipe: &[Component]) -> String {
    let components = recipe.iter().copied().chain(std::iter::repeat((0, 0)));
    let place = |(bin, grams)| format!("({bin} {grams})");
    named_form("recipe", components.take(PLACES).map(place))
}

/// A moment, or none.
fn or_none(moment: Option<u64>) -> String {
    moment.map_or("none".to_string(), |moment| moment.to_string())
}

fn watched(watched: &Watched) -> String {
    format!("({} {} {})", watched.node, watched.timeout, watched.heard)
}
