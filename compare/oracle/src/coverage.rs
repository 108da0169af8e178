//! Counts what a script reached, from the head's answers and from the head before and after each line.

mod frames;
mod partners;
mod recipes;

use crate::places::{ERRORS, kind_behind};
use crate::view::{COUNTER_NAMES, HEARTBEAT, HIGHEST_THRESHOLD, Lent, View};
use frames::Received;
use partners::Arrivals;
use recipes::Recipes;
use std::io::{self, Write};

/// Whether a script has ticks.
#[derive(Debug, Clone, Copy, Default, PartialEq, Eq)]
pub enum Ticks {
    #[default]
    With,
    Without,
}

/// One line of a script and what the head made of it.
pub struct Step<'a> {
    pub line: &'a str,
    pub before: Option<&'a View>,
    /// The run of watched nodes before the line, and behind it.
    pub lent: &'a Lent,
    pub after: Option<&'a View>,
    pub left: &'a Lent,
    pub answers: &'a [String],
}

const STATES: [(u8, &str); 12] = [
    (0x00, "GsOff"),
    (0x19, "GsInitialising"),
    (0x29, "GsResetApplication"),
    (0x39, "GsResetCommunication"),
    (0x79, "GsResetConfiguration"),
    (0x1C, "NotActive"),
    (0x1D, "PreOperational1"),
    (0x5D, "PreOperational2"),
    (0x6D, "ReadyToOperate"),
    (0xFD, "Operational"),
    (0x4D, "CsStopped"),
    (0x1E, "BasicEthernet"),
];
pub const NOT_ACTIVE: u8 = 0x1C;
pub const BASIC_ETHERNET: u8 = 0x1E;
pub const PRE_OPERATIONAL_2: u8 = 0x5D;
pub const READY_TO_OPERATE: u8 = 0x6D;

/// The states in which the DLL machine runs.
pub const CYCLIC: [u8; 4] = [PRE_OPERATIONAL_2, READY_TO_OPERATE, 0xFD, 0x4D];
const DLL_STATES: [&str; 4] = ["NonCyclic", "WaitSoc", "WaitPreq", "WaitSoa"];
const DLL_EVENTS: [&str; 6] = ["Soc", "Preq", "Pres", "Soa", "Asnd", "SocTimeout"];
const NMT_EVENTS: usize = 19;
const ERROR_KINDS: usize = 22;

const CALLS: [&str; 16] = [
    "start", "nmt", "dll", "error", "cycle", "tick", "withdraw", "heard", "handout", "arm", "load",
    "state", "command", "kind", "range", "margin",
];

/// Those that a tick can count: loss_of_soc, loss_of_soa, heartbeat_timeout.
const TICK_KINDS: [usize; 3] = [1, 2, HEARTBEAT];
const COUNTERS: [&str; 4] = ["c1", "c2", "c3", "c5"];

/// Each call with the refusals that it can give.
const REFUSALS: [(&str, u8); 22] = [
    ("start", 1),
    ("error", 1),
    ("start", 2),
    ("start", 3),
    ("tick", 3),
    ("heard", 3),
    ("nmt", 4),
    ("dll", 4),
    ("error", 4),
    ("state", 4),
    ("command", 4),
    ("tick", 5),
    ("arm", 5),
    ("heard", 5),
    ("tick", 6),
    ("heard", 7),
    ("withdraw", 8),
    ("kind", 13),
    ("start", 14),
    ("range", 5),
    ("margin", 5),
    ("range", 21),
];

/// The thresholds whose starts, errors and crossings are counted, with those between them as one.
const THRESHOLDS: [u32; 7] = [0, 1, 8, 9, 15, 16, HIGHEST_THRESHOLD];
const BETWEEN: usize = 7;

/// What is seen of kinds at a threshold of 0, and at one other than 0 and 15.
const LEVELS_AT_0: [&str; 4] = [
    "level above 15",
    "level drained by a cycle",
    "level drained to 0",
    "cycle that cleared the last level, of such a kind",
];
const LEVELS_ELSEWHERE: [&str; 3] = [
    "level one below, no crossing",
    "level met, a crossing",
    "level passed, a crossing",
];

/// The numbers of the refusals, and the highest of them.
const NUMBERS: [usize; 11] = [1, 2, 3, 4, 5, 6, 7, 8, 13, 14, 21];
const HIGHEST: usize = 21;

/// Codes that name no single kind.
const NO_KIND: [&str; 3] = ["0x8000, of five kinds", "above 16 bits", "of no kind"];

const TICKS: [&str; 8] = [
    "refused",
    "before the deadline, or none stands",
    "basic timeout's deadline set",
    "basic timeout passed",
    "deadline passed, check off",
    "within the limit",
    "loss",
    "heartbeat crossing",
];
const TICK_REFUSED: usize = 0;
const TICK_EARLY: usize = 1;
const TICK_DEADLINE_SET: usize = 2;
const TICK_TIMEOUT: usize = 3;
const TICK_CHECK_OFF: usize = 4;
const TICK_WITHIN: usize = 5;
const TICK_LOSS: usize = 6;
const TICK_HEARTBEAT: usize = 7;

/// Cases at a bound, each of which a wrong comparison or a forgotten rule would show.
const BOUNDS: [&str; 13] = [
    "tick at the deadline - 1",
    "tick at the very deadline",
    "elapsed at the limit",
    "elapsed at the limit + 1",
    "tick before the last SoC",
    "loss with DLL NonCyclic",
    "loss outside the cyclic states",
    "check gone off by cycle 0",
    "node heard its timeout ago",
    "node heard its timeout + 1 ago",
    "tick before a last-heard time, not checked",
    "tick at 2^62 - 1 taken",
    "armed deadline at NotActive passed",
];

/// Readings of a clock, and what a wrong end, order or sign would show.
const READINGS: [&str; 13] = [
    "range lost",
    "range kept",
    "range open",
    "range of one reading, lost",
    "range of one reading, kept",
    "range open by its last reading alone",
    "range open by its first reading alone",
    "range refused 5, the wrong way round too",
    "range refused 5, for the latest reading alone",
    "margin 0",
    "margin -1",
    "margin before the last SoC",
    "loss with the check off",
];

/// The NMT events at which there may be something to forget: the five resets, and Error, which forgets nothing.
const FORGETTING: [(usize, &str); 6] = [
    (4, "Reset"),
    (5, "SwReset"),
    (6, "ResetNode"),
    (7, "ResetCommunication"),
    (8, "ResetConfiguration"),
    (11, "Error, which keeps it"),
];
const FORGOTTEN: [&str; 4] = ["readiness", "deadline", "SoC check", "DLL state"];

const START_NODE: usize = 0;
const ENABLE_READY_TO_OPERATE: usize = 3;

/// What a run of 200,000 calls has to reach.
struct Minima {
    call: u64,
    state: u64,
    nmt_pair: u64,
    dll_pair: u64,
    error_kind: u64,
    code: u64,
    refusal: u64,
    crossing: u64,
    crossing_again: u64,
    tick: u64,
    entry: u64,
    wrap: u64,
    history_past: u64,
    bound: u64,
    reading: u64,
    forgotten: u64,
    level: u64,
    threshold: u64,
    late: u64,
    cleared: u64,
    unreadable: u64,
    passed_over: u64,
    show: u64,
}

const MINIMA: Minima = Minima {
    call: 500,
    state: 500,
    nmt_pair: 5,
    dll_pair: 5,
    error_kind: 50,
    code: 10,
    refusal: 20,
    crossing: 20,
    crossing_again: 5,
    tick: 50,
    entry: 50,
    wrap: 1,
    history_past: 10,
    bound: 20,
    reading: 20,
    forgotten: 20,
    level: 20,
    threshold: 5,
    late: 20,
    cleared: 50,
    unreadable: 500,
    passed_over: 50,
    show: 10_000,
};

/// The counts of one script.
#[derive(Debug, Clone, Default)]
pub struct Coverage {
    script: Ticks,
    calls: [u64; 16],
    /// By the number of the refusal, from 1; place 0 counts accepted calls.
    refusals: [[u64; HIGHEST + 1]; 16],
    states: [u64; 12],
    /// By state, then ready, enabled and event.
    nmt: [[[[u64; NMT_EVENTS]; 2]; 2]; 12],
    /// By NMT state of `CYCLIC`, then DLL state, event and expected.
    dll: [[[[u64; 2]; 6]; 4]; 4],
    dll_elsewhere: u64,
    errors: [u64; ERROR_KINDS],
    /// Codes by the kind that was answered, and those of `NO_KIND`.
    kinds: [u64; ERROR_KINDS],
    no_kind: [u64; 3],
    crossings: [u64; 7],
    crossings_in_ticks: [u64; 7],
    /// Those of a head whose counter had crossed before.
    crossings_again: [u64; 7],
    /// Levels of 14 left by an error, and crossings at 15.
    level_14: u64,
    level_15: u64,
    /// By threshold of `THRESHOLDS`, or `BETWEEN`, and kind: accepted starts, errors that counted, crossings.
    started_at: [[u64; 7]; 8],
    errors_at: [[u64; 7]; 8],
    crossings_at: [[u64; 7]; 8],
    starts_without: u64,
    levels_at_0: [u64; 4],
    levels_elsewhere: [u64; 3],
    /// Starts with a threshold above the limit, by the number of the refusal.
    above_the_limit: [u64; HIGHEST + 1],
    ticks: [u64; 8],
    kept: u64,
    dropped: u64,
    dropped_without_places: u64,
    handed_out: u64,
    handed_none: u64,
    wraps: [u64; 4],
    history_past: u64,
    bounds: [u64; 13],
    readings: [u64; 13],
    /// By event of `FORGETTING` and what of `FORGOTTEN` stood before it.
    to_forget: [[u64; 4]; 6],
    /// Whether a reset forgot a ready word and neither a word nor a withdrawal came behind it.
    word_forgotten: bool,
    asked_without_word: u64,
    one_late: u64,
    several_late: u64,
    several_counted: u64,
    late_uncounted: u64,
    first_heard: u64,
    cleared: u64,
    unreadable: u64,
    passed_over: u64,
    shows: u64,
    run_lines: u64,
    /// Of RULES 8.
    arrivals: Arrivals,
    /// Of RULES 12.
    recipes: Recipes,
    /// Of RULES 13.
    received: Received,
}

/// Ready and enabled.
const FLAGS: [(usize, usize); 4] = [(0, 0), (0, 1), (1, 0), (1, 1)];

fn number(word: Option<&str>) -> Option<u64> {
    let word = word?;
    match word.strip_prefix("0x") {
        Some(digits) => u64::from_str_radix(digits, 16).ok(),
        None => word.parse().ok(),
    }
}

/// The number as a place below `limit`.
fn place(word: Option<&str>, limit: usize) -> Option<usize> {
    let place = usize::try_from(number(word)?).ok()?;
    (place < limit).then_some(place)
}

/// The number of the refusal; 0 of an accepted call.
fn refusal(answer: &str) -> usize {
    let number = answer
        .strip_prefix("(refused ")
        .and_then(|rest| rest.strip_suffix(')'));
    place(number, HIGHEST + 1).unwrap_or(0)
}

fn threshold_place(threshold: u32) -> usize {
    THRESHOLDS
        .iter()
        .position(|place| *place == threshold)
        .unwrap_or(BETWEEN)
}

fn threshold_name(place: usize) -> String {
    match THRESHOLDS.get(place) {
        Some(threshold) => format!("threshold {threshold}"),
        None => "another threshold".to_string(),
    }
}

fn state_place(state: u8) -> usize {
    STATES.iter().position(|s| s.0 == state).unwrap_or(0)
}

/// Whether a head can stand in the state with these flags: enabled only lasts in PreOperational2 without ready, and
/// at ReadyToOperate, where ready cannot be withdrawn. NotActive is entered by a reset alone, which forgets the ready
/// word, and BasicEthernet from there alone.
fn stands(state: u8, ready: usize, enabled: usize) -> bool {
    match state {
        0x00 | 0x29 | 0x39 | 0x79 => false,
        PRE_OPERATIONAL_2 => ready == 0 || enabled == 0,
        READY_TO_OPERATE => ready == 1 && enabled == 1,
        NOT_ACTIVE | BASIC_ETHERNET => ready == 0 && enabled == 0,
        _ => enabled == 0,
    }
}

/// µs from the last SoC within which no loss is seen.
pub fn limit(view: &View) -> u64 {
    u64::from(view.cycle.unwrap_or(0)) + u64::from(view.tolerance.unwrap_or(100_000)) / 1000
}

/// The crossings of one counter.
fn crossed(kind: usize, before: &View, after: &View) -> u64 {
    u64::from(after.crossings[kind].saturating_sub(before.crossings[kind]))
}

impl Coverage {
    pub fn new(script: Ticks) -> Self {
        Self {
            script,
            ..Self::default()
        }
    }

    pub fn total_calls(&self) -> u64 {
        self.calls.iter().sum::<u64>()
            + self.arrivals.total_calls()
            + self.recipes.total_calls()
            + self.received.total_calls()
    }

    /// Counts one line.
    pub fn count(&mut self, step: &Step) {
        if step.line.is_empty() || step.line.starts_with('#') {
            self.passed_over += 1;
            return;
        }
        let answer = step.answers.first().map_or("", |a| a.as_str());
        if answer.starts_with("(unreadable") {
            self.unreadable += 1;
            return;
        }
        let mut words = step.line.split(' ');
        let call = words.next().unwrap_or("");
        match CALLS.iter().position(|c| *c == call) {
            Some(place) => self.count_call(place, answer),
            None if call == "show" => self.shows += 1,
            None if partners::LINES.contains(&call)
                || recipes::LINES.contains(&call)
                || call == frames::LINE => {}
            None => self.run_lines += 1,
        }
        if call == "start" {
            self.count_start(step, answer);
        }
        self.arrivals.count(step, answer);
        self.recipes.count(step, answer);
        self.received.count(step, answer);
        if let Some(after) = step.after {
            self.states[state_place(after.nmt)] += 1;
        }
        if let (Some(before), Some(after)) = (step.before, step.after) {
            self.count_effect(call, words, step, before, after, answer);
        }
    }

    fn count_call(&mut self, call: usize, answer: &str) {
        self.calls[call] += 1;
        self.refusals[call][refusal(answer)] += 1;
    }

    /// The thresholds of a start stand behind its first eleven numbers.
    fn count_start(&mut self, step: &Step, answer: &str) {
        let named: Vec<u64> = step
            .line
            .split(' ')
            .skip(12)
            .filter_map(|word| number(Some(word)))
            .collect();
        let above = |threshold: &u64| *threshold > u64::from(HIGHEST_THRESHOLD);
        self.above_the_limit[refusal(answer)] += u64::from(named.iter().any(above));
        if let (0, Some(after)) = (refusal(answer), step.after) {
            self.starts_without += u64::from(named.is_empty());
            for (kind, threshold) in after.thresholds.iter().enumerate() {
                self.started_at[threshold_place(*threshold)][kind] += 1;
            }
        }
    }

    fn count_effect<'a>(
        &mut self,
        call: &str,
        mut words: impl Iterator<Item = &'a str>,
        step: &Step,
        before: &View,
        after: &View,
        answer: &str,
    ) {
        match call {
            "nmt" => self.count_nmt(words.next(), before, after),
            "dll" => self.count_dll(words.next(), words.next(), before),
            "error" => {
                if let Some(kind) = place(words.next(), ERROR_KINDS) {
                    self.errors[kind] += 1;
                }
                self.count_crossings(before, after);
                self.count_levels(before, after);
                self.count_thresholds(before, after);
            }
            "tick" => {
                self.count_crossings(before, after);
                self.count_thresholds(before, after);
                for kind in TICK_KINDS {
                    self.crossings_in_ticks[kind] += crossed(kind, before, after);
                }
                let now = number(words.next()).unwrap_or(0);
                self.count_tick(now, before, after, answer);
                self.count_entries(before, after);
                if !answer.starts_with("(refused") {
                    self.count_bounds(now, step.lent.watched(), before, after);
                    self.count_late(now, step.lent.watched(), before, after);
                }
            }
            "start" | "withdraw" if !answer.starts_with("(refused") => self.word_forgotten = false,
            "handout" if answer == "(taken none)" => self.handed_none += 1,
            "handout" => self.handed_out += 1,
            "cycle" => self.count_cycle(before, after, answer == "(taken (cleared 1))"),
            "kind" => self.count_code(number(words.next()).unwrap_or(0), answer),
            "range" => {
                let (a, b) = (number(words.next()), number(words.next()));
                self.count_range(a.unwrap_or(0), b.unwrap_or(0), before, answer);
            }
            "margin" => self.count_margin(number(words.next()).unwrap_or(0), before, answer),
            _ => (),
        }
    }

    fn count_code(&mut self, code: u64, answer: &str) {
        let kind = answer
            .strip_prefix("(taken ")
            .and_then(|rest| rest.strip_suffix(')'));
        match place(kind, ERROR_KINDS) {
            Some(kind) => self.kinds[kind] += 1,
            None if code == 0x8000 => self.no_kind[0] += 1,
            None if code > u64::from(u16::MAX) => self.no_kind[1] += 1,
            None => self.no_kind[2] += 1,
        }
    }

    fn count_range(&mut self, a: u64, b: u64, before: &View, answer: &str) {
        let last_kept = before.last_soc + limit(before);
        let (lost, kept, open) = (
            answer == "(taken lost)",
            answer == "(taken kept)",
            answer == "(taken open)",
        );
        let late = answer == "(refused 5)";
        let cases = [
            lost,
            kept,
            open,
            lost && a == b,
            kept && a == b,
            open && b == last_kept + 1,
            open && a == last_kept,
            late && a > b,
            late && a < 1 << 62,
        ];
        for (count, case) in self.readings.iter_mut().zip(cases) {
            *count += u64::from(case);
        }
        self.readings[12] += u64::from(lost && !before.check);
    }

    fn count_margin(&mut self, time: u64, before: &View, answer: &str) {
        let taken = !answer.starts_with("(refused");
        let cases = [
            answer == "(taken 0)",
            answer == "(taken -1)",
            taken && time < before.last_soc,
            answer.starts_with("(taken -") && !before.check,
        ];
        for (count, case) in self.readings[9..].iter_mut().zip(cases) {
            *count += u64::from(case);
        }
    }

    fn count_nmt(&mut self, event: Option<&str>, before: &View, after: &View) {
        if let Some(event) = place(event, NMT_EVENTS) {
            let flags = &mut self.nmt[state_place(before.nmt)][usize::from(before.ready)];
            flags[usize::from(before.enabled)][event] += 1;
            self.count_forgotten(event, before, after);
        }
    }

    fn count_forgotten(&mut self, event: usize, before: &View, after: &View) {
        let asks = event == START_NODE || event == ENABLE_READY_TO_OPERATE;
        let asked = asks && before.nmt == PRE_OPERATIONAL_2;
        self.asked_without_word += u64::from(asked && self.word_forgotten);
        self.word_forgotten = !after.ready && (before.ready || self.word_forgotten);
        if let Some(place) = FORGETTING.iter().position(|(number, _)| *number == event) {
            let stood = [
                before.ready,
                before.deadline.is_some(),
                before.check,
                before.dll != 0,
            ];
            for (count, stood) in self.to_forget[place].iter_mut().zip(stood) {
                *count += u64::from(stood);
            }
        }
    }

    fn count_dll(&mut self, event: Option<&str>, expected: Option<&str>, before: &View) {
        let (Some(event), Some(expected)) = (place(event, 6), place(expected, 2)) else {
            return;
        };
        match CYCLIC.iter().position(|s| *s == before.nmt) {
            Some(nmt) => self.dll[nmt][usize::from(before.dll) % 4][event][expected] += 1,
            None => self.dll_elsewhere += 1,
        }
    }

    fn count_crossings(&mut self, before: &View, after: &View) {
        for kind in 0..COUNTER_NAMES.len() {
            let crossed = crossed(kind, before, after);
            self.crossings[kind] += crossed;
            if before.crossings[kind] > 0 {
                self.crossings_again[kind] += crossed;
            }
        }
    }

    fn count_tick(&mut self, now: u64, before: &View, after: &View, answer: &str) {
        let passed = before.deadline.is_some_and(|deadline| now >= deadline);
        let elapsed = now.saturating_sub(before.last_soc);
        let kind = if answer.starts_with("(refused") {
            TICK_REFUSED
        } else if crossed(HEARTBEAT, before, after) > 0 {
            TICK_HEARTBEAT
        } else if before.nmt == NOT_ACTIVE && after.nmt == BASIC_ETHERNET {
            TICK_TIMEOUT
        } else if before.deadline.is_none() && after.deadline.is_some() {
            TICK_DEADLINE_SET
        } else if !passed {
            TICK_EARLY
        } else if !before.check || before.nmt == NOT_ACTIVE {
            TICK_CHECK_OFF
        } else if elapsed > limit(before) {
            TICK_LOSS
        } else {
            TICK_WITHIN
        };
        self.ticks[kind] += 1;
    }

    /// Of one error: what it left of the levels.
    fn count_levels(&mut self, before: &View, after: &View) {
        for (kind, threshold) in before.thresholds.into_iter().enumerate() {
            let (was, is) = (before.levels[kind], after.levels[kind]);
            let crossed = crossed(kind, before, after) > 0;
            let below = is > was && is + 1 == threshold;
            let met = crossed && was + 8 == threshold;
            match threshold {
                0 => self.levels_at_0[0] += u64::from(is > was && is > 15),
                15 => {
                    self.level_14 += u64::from(below);
                    self.level_15 += u64::from(met);
                }
                _ => {
                    let seen = [below, met, crossed && !met];
                    for (count, seen) in self.levels_elsewhere.iter_mut().zip(seen) {
                        *count += u64::from(seen);
                    }
                }
            }
        }
    }

    /// The errors that counted and the crossings, by threshold.
    fn count_thresholds(&mut self, before: &View, after: &View) {
        for (kind, threshold) in before.thresholds.into_iter().enumerate() {
            let place = threshold_place(threshold);
            let errors = after.occurrences[kind].saturating_sub(before.occurrences[kind]);
            self.errors_at[place][kind] += u64::from(errors);
            self.crossings_at[place][kind] += crossed(kind, before, after);
        }
    }

    fn count_cycle(&mut self, before: &View, after: &View, cleared: bool) {
        self.cleared += u64::from(cleared);
        for (kind, threshold) in before.thresholds.into_iter().enumerate() {
            let (was, is) = (before.levels[kind], after.levels[kind]);
            if threshold == 0 && is < was {
                self.levels_at_0[1] += 1;
                self.levels_at_0[2] += u64::from(is == 0);
                self.levels_at_0[3] += u64::from(is == 0 && cleared);
            }
        }
    }

    fn count_bounds(&mut self, now: u64, lent: &[(u8, u64, u64)], before: &View, after: &View) {
        let checks = before.nmt >= PRE_OPERATIONAL_2;
        let passed = before.deadline.is_some_and(|deadline| now >= deadline);
        let checked = passed && before.check && before.nmt != NOT_ACTIVE;
        let elapsed = now.saturating_sub(before.last_soc);
        let loss = checked && elapsed > limit(before);
        let cyclic = CYCLIC.contains(&before.nmt);
        let timed = |past: u64| {
            let at = |(_, timeout, heard): &(u8, u64, u64)| now == heard + timeout + past;
            checks && lent.iter().filter(|node| node.1 > 0 && node.2 > 0).any(at)
        };
        let met = [
            before.deadline == now.checked_add(1),
            before.deadline == Some(now),
            checked && elapsed == limit(before),
            checked && elapsed == limit(before) + 1,
            before.check && now < before.last_soc,
            loss && cyclic && before.dll == 0,
            loss && !cyclic,
            checked && !after.check && after.nmt == before.nmt,
            timed(0),
            timed(1),
            !checks
                && lent
                    .iter()
                    .any(|(_, timeout, heard)| *timeout > 0 && now < *heard),
            now == (1 << 62) - 1,
            before.check && before.nmt == NOT_ACTIVE && after.nmt == BASIC_ETHERNET,
        ];
        for (bound, met) in self.bounds.iter_mut().zip(met) {
            *bound += u64::from(met);
        }
    }

    fn count_late(&mut self, now: u64, lent: &[(u8, u64, u64)], before: &View, after: &View) {
        if before.nmt < PRE_OPERATIONAL_2 {
            return;
        }
        let late = |(_, timeout, heard): &&(u8, u64, u64)| {
            *heard > 0 && *timeout > 0 && now.saturating_sub(*heard) > *timeout
        };
        let late = lent.iter().filter(late).count() as u64;
        match late {
            0 => (),
            1 => self.one_late += 1,
            _ => self.several_late += 1,
        }
        let counted = u64::from(after.occurrences[HEARTBEAT] - before.occurrences[HEARTBEAT]);
        self.several_counted += u64::from(counted > 1);
        self.late_uncounted += u64::from(counted < late);
        self.first_heard += u64::from(lent.iter().any(|(_, _, heard)| *heard == 0));
    }

    fn count_entries(&mut self, before: &View, after: &View) {
        for (place, wraps) in self.wraps.iter_mut().enumerate() {
            *wraps += u64::from(after.counters[place] < before.counters[place]);
        }
        if after.counters[1] != before.counters[1] {
            self.kept += 1;
            self.history_past += u64::from(before.history_length == 254);
        }
        if after.counters[2] != before.counters[2] {
            self.dropped += 1;
            self.dropped_without_places += u64::from(before.queue_capacity == 0);
        }
    }

    /// The refusals of this number by all calls.
    fn refused(&self, number: usize) -> u64 {
        self.refusals.iter().map(|call| call[number]).sum()
    }
}

/// A count with its name and the least that it has to be.
struct Count {
    name: String,
    count: u64,
    minimum: u64,
    /// Whether a tick is needed to reach it.
    by_tick: bool,
}

fn counted(name: impl Into<String>, count: u64, minimum: u64) -> Count {
    Count {
        name: name.into(),
        count,
        minimum,
        by_tick: false,
    }
}

/// Counts that a tick is needed to reach.
fn by_tick(mut counts: Vec<Count>) -> Vec<Count> {
    counts.iter_mut().for_each(|count| count.by_tick = true);
    counts
}

/// Counts under a title.
type Group = (&'static str, Vec<Count>);

/// The report and the shortfalls are made of the same groups, so that neither leaves out what the other has.
impl Coverage {
    /// The groups, without what needs a tick if the script has none.
    fn groups(&self) -> Vec<(&'static str, Vec<Count>)> {
        let mut groups = self.all_groups();
        groups.extend(self.arrivals.groups());
        groups.extend(self.recipes.groups());
        groups.extend(self.received.groups());
        if self.script == Ticks::Without {
            for (_, counts) in &mut groups {
                counts.retain(|count| !count.by_tick);
            }
            groups.retain(|(_, counts)| !counts.is_empty());
        }
        groups
    }

    fn all_groups(&self) -> Vec<(&'static str, Vec<Count>)> {
        vec![
            ("Calls", self.call_counts()),
            ("Lines that are no call", self.line_counts()),
            ("NMT state after a line", self.state_counts()),
            ("What a reset found to forget", self.forgotten_counts()),
            ("Refusals", self.refusal_counts()),
            ("Errors given to the counters, by kind", self.error_counts()),
            ("Codes, by the kind behind them", self.code_counts()),
            ("Crossings", self.crossing_counts()),
            ("Thresholds", self.threshold_counts()),
            ("Ticks", by_tick(named(&TICKS, &self.ticks, MINIMA.tick))),
            (
                "Bounds in ticks",
                by_tick(named(&BOUNDS, &self.bounds, MINIMA.bound)),
            ),
            (
                "Readings of a clock",
                named(&READINGS, &self.readings, MINIMA.reading),
            ),
            ("Watched nodes in ticks", by_tick(self.heartbeat_counts())),
            ("Entries", self.entry_counts()),
            (
                "Counters wrapped from the top",
                by_tick(named(&COUNTERS, &self.wraps, MINIMA.wrap)),
            ),
        ]
    }

    fn call_counts(&self) -> Vec<Count> {
        let mut counts = named(&CALLS, &self.calls, MINIMA.call);
        for count in &mut counts {
            count.by_tick = count.name == "tick";
        }
        counts.push(counted(
            "cycle that cleared the last level",
            self.cleared,
            MINIMA.cleared,
        ));
        counts
    }

    fn line_counts(&self) -> Vec<Count> {
        vec![
            counted("unreadable", self.unreadable, MINIMA.unreadable),
            counted("comment or empty", self.passed_over, MINIMA.passed_over),
            counted("show", self.shows, MINIMA.show),
            counted("watch and unwatch", self.run_lines, MINIMA.call),
        ]
    }

    fn state_counts(&self) -> Vec<Count> {
        let count = |(place, (number, name)): (usize, &(u8, &str))| {
            let stood = FLAGS
                .iter()
                .any(|(ready, enabled)| stands(*number, *ready, *enabled));
            let minimum = if stood { MINIMA.state } else { 0 };
            counted(
                format!("{name} (0x{number:02X})"),
                self.states[place],
                minimum,
            )
        };
        STATES.iter().enumerate().map(count).collect()
    }

    fn forgotten_counts(&self) -> Vec<Count> {
        let mut counts = Vec::new();
        for ((_, event), found) in FORGETTING.iter().zip(&self.to_forget) {
            for (what, count) in FORGOTTEN.iter().zip(found) {
                counts.push(counted(
                    format!("{what} at {event}"),
                    *count,
                    MINIMA.forgotten,
                ));
            }
        }
        counts.push(counted(
            "enable or StartNode in PreOperational2, the ready word forgotten",
            self.asked_without_word,
            MINIMA.forgotten,
        ));
        counts
    }

    fn refusal_counts(&self) -> Vec<Count> {
        let of_number = |n| Count {
            by_tick: n == 6,
            ..counted(format!("number {n}"), self.refused(n), MINIMA.refusal)
        };
        let of_call = |(call, n): &(&str, u8)| {
            let place = CALLS.iter().position(|c| c == call).unwrap_or(0);
            let count = self.refusals[place][usize::from(*n)];
            Count {
                by_tick: *call == "tick",
                ..counted(format!("{call} refused {n}"), count, MINIMA.refusal)
            }
        };
        NUMBERS
            .into_iter()
            .map(of_number)
            .chain(REFUSALS.iter().map(of_call))
            .collect()
    }

    fn error_counts(&self) -> Vec<Count> {
        let count = |(kind, count): (usize, &u64)| {
            counted(format!("kind {kind}"), *count, MINIMA.error_kind)
        };
        self.errors.iter().enumerate().map(count).collect()
    }

    fn code_counts(&self) -> Vec<Count> {
        let of_kind = |(kind, count): (usize, &u64)| {
            let own = kind_behind(u64::from(ERRORS[kind].to_error_code())).is_some();
            let minimum = if own { MINIMA.code } else { 0 };
            counted(format!("kind {kind}"), *count, minimum)
        };
        let mut counts: Vec<Count> = self.kinds.iter().enumerate().map(of_kind).collect();
        counts.extend(named(&NO_KIND, &self.no_kind, MINIMA.code));
        counts
    }

    fn crossing_counts(&self) -> Vec<Count> {
        let in_tick = |kind: usize| {
            let name = format!("{} in a tick", COUNTER_NAMES[kind]);
            Count {
                by_tick: true,
                ..counted(name, self.crossings_in_ticks[kind], MINIMA.crossing)
            }
        };
        let again = |(name, count): (&&str, u64)| {
            let name = format!("{name}, not the head's first");
            counted(name, count, MINIMA.crossing_again)
        };
        let mut counts = named(&COUNTER_NAMES, &self.crossings, MINIMA.crossing);
        counts.extend(TICK_KINDS.into_iter().map(in_tick));
        counts.extend(COUNTER_NAMES.iter().zip(self.crossings_again).map(again));
        counts.push(counted(
            "level of 14, no crossing",
            self.level_14,
            MINIMA.level,
        ));
        counts.push(counted(
            "level of 15, a crossing",
            self.level_15,
            MINIMA.level,
        ));
        counts
    }

    fn threshold_counts(&self) -> Vec<Count> {
        let mut counts = vec![counted(
            "start that names none",
            self.starts_without,
            MINIMA.refusal,
        )];
        for number in [1, 2, 3, 14] {
            counts.push(counted(
                format!("start with one above the limit, refused {number}"),
                self.above_the_limit[number],
                MINIMA.refusal,
            ));
        }
        let at_0 = LEVELS_AT_0.iter().zip(self.levels_at_0);
        counts.extend(at_0.map(|(name, count)| counted(format!("0: {name}"), count, MINIMA.level)));
        let elsewhere = LEVELS_ELSEWHERE.iter().zip(self.levels_elsewhere);
        counts.extend(elsewhere.map(|(name, count)| {
            counted(format!("other than 0 and 15: {name}"), count, MINIMA.level)
        }));
        for place in 0..=BETWEEN {
            let name = threshold_name(place);
            let errors = self.errors_at[place].iter().sum();
            let crossings = self.crossings_at[place].iter().sum();
            counts.push(counted(format!("{name}, errors"), errors, MINIMA.crossing));
            counts.push(counted(format!("{name}, crossings"), crossings, 0));
        }
        counts
    }

    /// Each threshold with each kind: starts, errors and crossings. At 0 there are none, and at the limit they are too far.
    fn kind_counts(&self) -> Vec<Count> {
        let mut counts = Vec::new();
        for place in 0..=BETWEEN {
            let name = threshold_name(place);
            let crosses = !matches!(THRESHOLDS.get(place), Some(0 | &HIGHEST_THRESHOLD));
            for (kind, counter) in COUNTER_NAMES.iter().enumerate() {
                let mut push = |what: &str, count: u64, minimum: u64| {
                    counts.push(counted(
                        format!("{name}, {counter}, {what}"),
                        count,
                        minimum,
                    ));
                };
                push("started", self.started_at[place][kind], MINIMA.threshold);
                push("errors", self.errors_at[place][kind], MINIMA.threshold);
                if crosses {
                    push(
                        "crossings",
                        self.crossings_at[place][kind],
                        MINIMA.threshold,
                    );
                }
            }
        }
        counts
    }

    fn heartbeat_counts(&self) -> Vec<Count> {
        vec![
            counted("one late", self.one_late, MINIMA.late),
            counted("several late at once", self.several_late, MINIMA.late),
            counted("several errors counted", self.several_counted, MINIMA.late),
            counted(
                "late behind a crossing, not counted",
                self.late_uncounted,
                MINIMA.late,
            ),
            counted("last heard 0, set to now", self.first_heard, MINIMA.late),
        ]
    }

    fn entry_counts(&self) -> Vec<Count> {
        let no_places = self.dropped_without_places;
        let mut counts = by_tick(vec![
            counted("kept", self.kept, MINIMA.entry),
            counted("dropped", self.dropped, MINIMA.entry),
            counted("dropped, queue of 0", no_places, MINIMA.entry),
            counted(
                "dropped, queue full",
                self.dropped - no_places,
                MINIMA.entry,
            ),
            counted("handed out", self.handed_out, MINIMA.entry),
            counted(
                "kept with 254 in the history",
                self.history_past,
                MINIMA.history_past,
            ),
        ]);
        counts.push(counted("none to hand out", self.handed_none, MINIMA.entry));
        counts
    }

    /// Each state and event, with the flags that a head can have there.
    fn nmt_counts(&self) -> Vec<Count> {
        let mut counts = Vec::new();
        for (place, (number, name)) in STATES.iter().enumerate() {
            for (ready, enabled) in FLAGS {
                if !stands(*number, ready, enabled) {
                    continue;
                }
                for (event, count) in self.nmt[place][ready][enabled].iter().enumerate() {
                    let what = format!("{name}, ready {ready}, enabled {enabled}, event {event}");
                    counts.push(counted(what, *count, MINIMA.nmt_pair));
                }
            }
        }
        counts
    }

    fn dll_counts(&self) -> Vec<Count> {
        let mut counts = Vec::new();
        for (nmt, states) in CYCLIC.iter().zip(&self.dll) {
            for (state, events) in DLL_STATES.iter().zip(states) {
                for (event, expectations) in DLL_EVENTS.iter().zip(events) {
                    for (expected, count) in expectations.iter().enumerate() {
                        let what = format!("0x{nmt:02X}, {state}, {event}, expected {expected}");
                        counts.push(counted(what, *count, MINIMA.dll_pair));
                    }
                }
            }
        }
        counts.push(counted(
            "in other NMT states",
            self.dll_elsewhere,
            MINIMA.call,
        ));
        counts
    }

    /// Prints the counts in plain words; of the NMT and DLL pairs, which are hundreds, how many were given and how
    /// often the rarest one.
    pub fn report(&self, out: &mut dyn Write) -> io::Result<()> {
        writeln!(out, "Calls in all: {}", self.total_calls())?;
        for (title, counts) in self.groups() {
            writeln!(out, "{title}:")?;
            for count in counts {
                writeln!(out, "  {}: {}", count.name, count.count)?;
            }
        }
        report_pairs(out, "NMT states with flags, and events", &self.nmt_counts())?;
        report_pairs(
            out,
            "DLL states in NMT states, events and expectations",
            &self.dll_counts(),
        )?;
        report_pairs(
            out,
            "Thresholds of kinds, with starts, errors and crossings",
            &self.kind_counts(),
        )?;
        for (title, counts) in self.run_groups() {
            report_pairs(out, title, &counts)?;
        }
        Ok(())
    }

    /// Calls that are lent the run, without the tick if the script has none.
    fn run_groups(&self) -> Vec<Group> {
        let mut groups = Vec::from(self.arrivals.pair_groups());
        groups.extend(self.received.pair_groups());
        if self.script == Ticks::Without {
            for (_, counts) in &mut groups {
                counts.retain(|count| !count.by_tick);
            }
        }
        groups
    }

    /// Every count that is below what a run of 200,000 calls has to reach.
    pub fn shortfalls(&self) -> Vec<String> {
        let mut groups = self.groups();
        groups.push(("NMT", self.nmt_counts()));
        groups.push(("DLL", self.dll_counts()));
        groups.push(("Thresholds", self.kind_counts()));
        groups.extend(self.run_groups());
        let mut short = Vec::new();
        for (title, counts) in groups {
            for count in counts.iter().filter(|count| count.count < count.minimum) {
                let Count {
                    name,
                    count,
                    minimum,
                    ..
                } = count;
                short.push(format!(
                    "{title}, {name}: {count}, at least {minimum} wanted"
                ));
            }
        }
        short
    }
}

fn named(names: &[&str], counts: &[u64], minimum: u64) -> Vec<Count> {
    names
        .iter()
        .zip(counts)
        .map(|(name, count)| counted(*name, *count, minimum))
        .collect()
}

fn report_pairs(out: &mut dyn Write, title: &str, counts: &[Count]) -> io::Result<()> {
    let given = counts.iter().filter(|count| count.count > 0).count();
    let total: u64 = counts.iter().map(|count| count.count).sum();
    let rarest = counts.iter().min_by_key(|count| count.count);
    writeln!(
        out,
        "{title}: {given} of {} given, {total} times in all",
        counts.len()
    )?;
    match rarest {
        Some(rarest) => writeln!(out, "  rarest: {} ({} times)", rarest.name, rarest.count),
        None => Ok(()),
    }
}
