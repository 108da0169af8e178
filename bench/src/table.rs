//! What is told of the times.

use crate::measure::{Three, Times};
use crate::memory::Facts;
use rows::Work;
use std::fmt::Write;

/// The heads of a plant, and their cycle in ns.
const HEADS: f64 = 40.0;
const CYCLE_NS: f64 = 200_000.0;
/// The calls of a head in a cycle.
const OF_A_CYCLE: [&str; 5] = [
    "frame SoC",
    "frame PReq",
    "frame SoA",
    "cycle complete, all levels 0",
    "tick, 8 watched, none late",
];

/// A row's name, with a mark where the original has no such call.
fn name(name: &str, work: Work) -> String {
    match work {
        Work::ByHand => format!("{name} *"),
        _ => name.to_string(),
    }
}

/// The rows of the table.
fn rows(times: &Times) -> impl Iterator<Item = &(String, Work, Three)> {
    let is_point = |work: &Work| matches!(work, Work::Point(_));
    times
        .rows
        .iter()
        .filter(move |(_, work, _)| !is_point(work))
}

/// The numbers of a row: ours, the original, the ratio, without the prefix, the ratio.
fn numbers(times: &Times, work: Work, three: &Three) -> [String; 5] {
    let ratio = |other| match work {
        Work::Bare => "-".to_string(),
        _ => format!("{:.2}", times.ratio(three, other)),
    };
    let [ours, theirs, without] = three.map(|time| format!("{time:.1}"));
    [ours, theirs, ratio(1), without, ratio(2)]
}

pub fn as_text(times: &Times) -> String {
    let mut text = format!(
        "{:<42} {:>8} {:>8} {:>6} {:>15} {:>6}\n",
        "call", "ours ns", "Rust ns", "ratio", "no prefix ns", "ratio"
    );
    for (row, work, three) in rows(times) {
        let [ours, theirs, ratio, without, bar] = numbers(times, *work, three);
        let name = name(row, *work);
        let line = format!("{name:<42} {ours:>8} {theirs:>8} {ratio:>6} {without:>15} {bar:>6}");
        writeln!(text, "{line}").expect("a text takes it");
    }
    text + "\n"
}

pub fn as_markdown(times: &Times) -> String {
    let mut text =
        "| call | ours | Rust | ratio | no prefix | ratio |\n|---|--:|--:|--:|--:|--:|\n"
            .to_string();
    for (row, work, three) in rows(times) {
        let cells = numbers(times, *work, three).join("|");
        writeln!(text, "|{}|{cells}|", name(row, *work).replace('*', "\\*"))
            .expect("a text takes it");
    }
    text
}

/// The calls over a run beside those over places of any length.
pub fn over(times: &Times) -> String {
    let mut text = format!(
        "{:<42} {:>8} {:>8} {:>6}\n",
        "call", "run ns", "over ns", "ratio"
    );
    for (name, number, [run, over]) in &times.over {
        let (name, ratio) = (format!("{name}, {number} watched"), over / run);
        writeln!(text, "{name:<42} {run:>8.1} {over:>8.1} {ratio:>6.2}").expect("a text takes it");
    }
    text + "\n"
}

/// Of the calls over places of any length, by how much more they cost.
fn over_in_a_line(times: &Times) -> String {
    let mut text = String::new();
    let mut last = "";
    for (name, number, [run, over]) in &times.over {
        if *name == last {
            write!(text, ", {:.2} at {number}", over / run)
        } else {
            let behind = if last.is_empty() { "" } else { "; " };
            write!(text, "{behind}{name} {:.2} at {number}", over / run)
        }
        .expect("a text takes it");
        last = name;
    }
    text
}

/// The part of a core, in percent, that the heads take whose calls take this long, in ns.
fn part(of_a_cycle: f64) -> f64 {
    100.0 * HEADS * of_a_cycle / CYCLE_NS
}

/// What is told beside the table, a line each.
pub fn beside(times: &Times, facts: &Facts) -> String {
    let (deepest, call) = facts.deepest;
    let (itself, heap) = facts.theirs;
    let cycle = |side| {
        OF_A_CYCLE
            .iter()
            .map(|name| times.of(name, side))
            .sum::<f64>()
    };
    let code = facts
        .code
        .map_or("unknown".to_string(), |code| format!("{code} bytes"));
    [
        format!("- An empty call across the boundary: {:.1} ns.", times.empty),
        format!(
            "- A head: {} bytes, and {} lent beside it. The Rust's node: {itself} bytes, and {heap} \
             on the heap behind its start.",
            facts.head, facts.lent
        ),
        format!("- The deepest stack: {deepest} bytes, of {call}. The archive's code: {code}."),
        format!(
            "- Forty heads at a cycle of 200 µs: {:.1} % of one core; the Rust without a prefix \
             {:.1} %. In each cycle a head gets an SoC, a PReq and an SoA, a complete cycle and a \
             tick with 8 watched nodes: {:.0} ns.",
            part(cycle(0)),
            part(cycle(2)),
            cycle(0)
        ),
    ]
    .map(|line| line + "\n")
    .concat()
}

/// What the page tells beside the table.
pub fn beside_on_the_page(times: &Times, facts: &Facts) -> String {
    let over = over_in_a_line(times);
    beside(times, facts)
        + &format!("- Places of any length (`.._over`) over a run: {over} watched.\n")
}

/// The row of the same work whose ratio to the Rust without a prefix is the greatest.
pub fn worst(times: &Times) -> String {
    let same = |work: &Work| matches!(work, Work::Original | Work::ByHand);
    let ratios = times.rows.iter().filter(|(_, work, _)| same(work));
    let ratios = ratios.map(|(name, _, three)| (times.ratio(three, 2), name));
    let (ratio, name) = ratios
        .max_by(|one, other| one.0.total_cmp(&other.0))
        .expect("there are rows");
    format!("worst ratio {ratio:.2} {name}")
}
