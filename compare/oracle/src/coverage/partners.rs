//! What a script reached of RULES 8: runs of every number and length, nodes added and removed at every place,
//! what stands past the number, and the earliest moment.

use super::{
    Count, Group, HEARTBEAT, MINIMA, NOT_ACTIVE, PRE_OPERATIONAL_2, Step, counted, crossed, named, number,
    refusal,
};
use crate::view::{Lent, is_node};

const PLACES: usize = 32;
/// The last time that is taken.
const TOP: u64 = (1 << 62) - 1;

/// What a run of 200,000 calls has to reach of each case, and of each call with each number or each fault of a run.
const CASE: u64 = 20;
const PAIR: u64 = 3;

/// The lines of watched nodes: four calls, and one that is no call.
pub const LINES: [&str; 5] = ["add", "remove", "bitmap", "due", "lend"];
const OWN_CALLS: usize = 4;

/// Each of these calls with the refusals that it can give.
const REFUSALS: [(&str, usize); 8] = [
    ("due", 3),
    ("add", 1),
    ("add", 3),
    ("remove", 3),
    ("bitmap", 3),
    ("remove", 7),
    ("add", 9),
    ("add", 10),
];

/// The calls that are lent the run.
const CALLS: [&str; 7] = ["start", "tick", "heard", "add", "remove", "bitmap", "due"];

/// Why number 3 declines a run that has no other fault.
const FAULTS: [&str; 6] = [
    "31 places",
    "33 places",
    "another number of places",
    "number 33 of 32 places",
    "a higher number of 32 places",
    "a record",
];

const CASES: [&str; 68] = [
    "due: none",
    "due: at once at NotActive",
    "due: at once, a node not heard",
    "due: the deadline",
    "due: a node before the deadline",
    "due: a node, no deadline",
    "add of a bad node to a bad run, 1",
    "add of a bad node to 32, 1",
    "add of a bad node with a timeout above the limit, 1",
    "add of a node that a bad run has, 3",
    "add with a timeout above the limit, 3",
    "add of a watched node with a timeout above the limit, 3",
    "add of a 33rd node with a timeout above the limit, 3",
    "add of a watched node to 32, 10",
    "add of a watched node to fewer, 10",
    "add of a 33rd node, 9",
    "added to none",
    "added before all",
    "added between two",
    "added behind all",
    "added with timeout 2^62 - 1",
    "added with timeout 0",
    "added a node that stood past the number",
    "added, further places past the number held something",
    "removal of an unwatched node from a bad run, 3",
    "removal of a number that is no node, 7",
    "removal of a node that stands past the number, 7",
    "removal from none, 7",
    "removed the only one",
    "removed the first",
    "removed one between two",
    "removed the last",
    "removed, places past the number held something",
    "start, something past the number",
    "tick, something past the number",
    "heard, something past the number",
    "bitmap, something past the number",
    "due, something past the number",
    "refused add or removal, something past the number",
    "taken with a bad node past the number",
    "taken with 2^64 - 1 past the number",
    "tick, a record past the number would be late",
    "earliest: none after a tick, nodes watched",
    "earliest: none after a heard",
    "earliest: none after an add",
    "earliest: none after a removal, nodes watched",
    "earliest: a moment after a tick",
    "earliest: a moment after a heard",
    "earliest: a moment after an add",
    "earliest: a moment after a removal",
    "earliest: a start takes a moment away",
    "earliest: a heard raises it",
    "earliest: a heard lowers it",
    "earliest: a heard at 0 takes it away",
    "earliest: a removal raises it",
    "earliest: a removal takes it away",
    "earliest: an add works out that of another run",
    "earliest: a tick raises it",
    "earliest: a tick gives the first",
    "earliest: a tick that checks no heartbeats works out another",
    "earliest: a tick that a heartbeat crossing ended works out another",
    "earliest: above 2^62 - 1",
    "earliest: a node with timeout 0 beside one that counts",
    "earliest: a node never heard beside one that counts",
    "earliest: a place past the number would be earlier",
    "earliest: another call leaves that of another run",
    "earliest: a refused call leaves that of another run",
    "earliest: a reset leaves a moment",
];

#[derive(Debug, Clone)]
pub struct Arrivals {
    lines: [u64; LINES.len()],
    refusals: [u64; REFUSALS.len()],
    cases: [u64; CASES.len()],
    /// Accepted calls of `CALLS`, by the number watched before them.
    taken: [[u64; PLACES + 1]; CALLS.len()],
    /// Calls that number 3 declined, by the fault of the run.
    faults: [[u64; FAULTS.len()]; CALLS.len()],
}

impl Default for Arrivals {
    fn default() -> Self {
        Self {
            lines: [0; LINES.len()],
            refusals: [0; REFUSALS.len()],
            cases: [0; CASES.len()],
            taken: [[0; PLACES + 1]; CALLS.len()],
            faults: [[0; FAULTS.len()]; CALLS.len()],
        }
    }
}

type Record = (u8, u64, u64);

fn sound(watched: &[Record]) -> bool {
    let taken =
        |(node, timeout, heard): &Record| is_node(*node) && *timeout <= TOP && *heard <= TOP;
    watched.iter().all(taken) && watched.is_sorted_by(|one, next| one.0 < next.0)
}

/// The place in `FAULTS` of the run's only fault.
fn fault(lent: &Lent) -> Option<usize> {
    let places = lent.places.len();
    if !sound(lent.watched()) {
        return (places == PLACES && lent.number <= 32).then_some(5);
    }
    match (places, lent.number) {
        (PLACES, ..=32) => None,
        (PLACES, 33) => Some(3),
        (PLACES, _) => Some(4),
        (31, ..=31) => Some(0),
        (33, ..=32) => Some(1),
        (_, number) => (number <= places as u64).then_some(2),
    }
}

fn is_taken(lent: &Lent) -> bool {
    lent.places.len() == PLACES && lent.number <= 32 && sound(lent.watched())
}

fn has(records: &[Record], node: u64) -> bool {
    records.iter().any(|record| u64::from(record.0) == node)
}

fn holds_something(records: &[Record]) -> bool {
    records.iter().any(|record| *record != (0, 0, 0))
}

/// The earliest moment, of records that may hold anything.
fn earliest(records: &[Record]) -> Option<u128> {
    let moment = |(_, timeout, heard): &Record| u128::from(*timeout) + u128::from(*heard) + 1;
    let counts = |record: &&Record| record.1 > 0 && record.2 > 0;
    records.iter().filter(counts).map(moment).min()
}

impl Arrivals {
    pub fn total_calls(&self) -> u64 {
        self.lines[..OWN_CALLS].iter().sum()
    }

    fn mark(&mut self, holds: bool, case: &str) {
        if holds {
            let place = CASES.iter().position(|name| *name == case);
            self.cases[place.expect("a case has a name")] += 1;
        }
    }

    /// Counts one line.
    pub fn count(&mut self, step: &Step, answer: &str) {
        let mut words = step.line.split(' ');
        let call = words.next().unwrap_or("");
        let numbers: Vec<u64> = words.filter_map(|word| number(Some(word))).collect();
        let refused = refusal(answer);
        if let Some(place) = LINES.iter().position(|name| *name == call) {
            self.lines[place] += 1;
        }
        if let Some(place) = REFUSALS.iter().position(|pair| *pair == (call, refused)) {
            self.refusals[place] += 1;
        }
        if let Some(place) = CALLS.iter().position(|name| *name == call) {
            match refused {
                0 => self.taken[place][step.lent.watched().len()] += 1,
                3 => fault(step.lent)
                    .into_iter()
                    .for_each(|fault| self.faults[place][fault] += 1),
                _ => (),
            }
        }
        match (call, &numbers[..]) {
            ("add", [node, timeout]) => self.count_add(*node, *timeout, step.lent, refused),
            ("remove", [node]) => self.count_remove(*node, step.lent, refused),
            ("tick", [now]) if refused == 0 => self.count_late_past(*now, step),
            ("due", []) if refused == 0 => self.count_due(step, answer),
            _ => (),
        }
        self.count_past(call, step.lent, refused);
        self.count_earliest(call, step, refused);
    }

    fn count_due(&mut self, step: &Step, answer: &str) {
        let Some(before) = step.before else {
            return;
        };
        let said = answer
            .strip_prefix("(taken ")
            .and_then(|rest| rest.strip_suffix(')'));
        let moment = said.and_then(|word| word.parse::<u64>().ok());
        let unheard = step.lent.watched().iter().any(|record| record.2 == 0);
        let at_deadline = moment.is_some() && moment == before.deadline;
        let of_a_node = moment.is_some_and(|moment| moment > 0) && !at_deadline;
        let idle = before.nmt == NOT_ACTIVE && before.deadline.is_none();
        self.mark(moment.is_none(), "due: none");
        self.mark(moment == Some(0) && idle, "due: at once at NotActive");
        self.mark(
            moment == Some(0) && before.nmt >= PRE_OPERATIONAL_2 && unheard,
            "due: at once, a node not heard",
        );
        self.mark(at_deadline, "due: the deadline");
        self.mark(
            of_a_node && before.deadline.is_some(),
            "due: a node before the deadline",
        );
        self.mark(
            of_a_node && before.deadline.is_none(),
            "due: a node, no deadline",
        );
    }

    fn count_add(&mut self, node: u64, timeout: u64, lent: &Lent, refused: usize) {
        let watched = lent.watched();
        let (full, above) = (watched.len() == PLACES, timeout > TOP);
        let (here, run) = (has(watched, node), is_taken(lent));
        let new = run && !here;
        let declined = [
            (1, !run, "add of a bad node to a bad run, 1"),
            (1, run && full, "add of a bad node to 32, 1"),
            (
                1,
                above,
                "add of a bad node with a timeout above the limit, 1",
            ),
            (3, !run && here, "add of a node that a bad run has, 3"),
            (3, new && !full, "add with a timeout above the limit, 3"),
            (
                3,
                run && here,
                "add of a watched node with a timeout above the limit, 3",
            ),
            (
                3,
                new && full,
                "add of a 33rd node with a timeout above the limit, 3",
            ),
            (10, full, "add of a watched node to 32, 10"),
            (10, !full, "add of a watched node to fewer, 10"),
            (9, true, "add of a 33rd node, 9"),
        ];
        for (number, holds, case) in declined {
            self.mark(refused == number && holds, case);
        }
        if refused != 0 {
            return;
        }
        let before = watched
            .iter()
            .filter(|record| u64::from(record.0) < node)
            .count();
        let place = match before {
            _ if watched.is_empty() => "added to none",
            0 => "added before all",
            before if before == watched.len() => "added behind all",
            _ => "added between two",
        };
        self.mark(true, place);
        self.mark(timeout == TOP, "added with timeout 2^62 - 1");
        self.mark(timeout == 0, "added with timeout 0");
        let past = has(lent.rest(), node);
        self.mark(past, "added a node that stood past the number");
        self.mark(
            holds_something(&lent.rest()[1..]),
            "added, further places past the number held something",
        );
    }

    fn count_remove(&mut self, node: u64, lent: &Lent, refused: usize) {
        let watched = lent.watched();
        let declined = [
            (
                3,
                !has(watched, node),
                "removal of an unwatched node from a bad run, 3",
            ),
            (
                7,
                !is_node(node as u8),
                "removal of a number that is no node, 7",
            ),
            (
                7,
                has(lent.rest(), node),
                "removal of a node that stands past the number, 7",
            ),
            (7, watched.is_empty(), "removal from none, 7"),
        ];
        for (number, holds, case) in declined {
            self.mark(refused == number && holds, case);
        }
        if refused != 0 {
            return;
        }
        let is = |record: Option<&Record>| record.is_some_and(|record| u64::from(record.0) == node);
        let place = match (is(watched.first()), is(watched.last())) {
            (true, true) => "removed the only one",
            (true, false) => "removed the first",
            (false, true) => "removed the last",
            (false, false) => "removed one between two",
        };
        self.mark(true, place);
        self.mark(
            holds_something(lent.rest()),
            "removed, places past the number held something",
        );
    }

    fn count_past(&mut self, call: &str, lent: &Lent, refused: usize) {
        let rest = lent.rest();
        if !CALLS.contains(&call) || !holds_something(rest) {
            return;
        }
        if refused != 0 {
            let changes = call == "add" || call == "remove";
            let case = "refused add or removal, something past the number";
            return self.mark(changes && is_taken(lent), case);
        }
        if call != "add" && call != "remove" {
            self.mark(true, &format!("{call}, something past the number"));
        }
        let bad = |record: &Record| *record != (0, 0, 0) && !is_node(record.0);
        let top = |record: &Record| record.1 == u64::MAX || record.2 == u64::MAX;
        self.mark(
            rest.iter().any(bad),
            "taken with a bad node past the number",
        );
        self.mark(rest.iter().any(top), "taken with 2^64 - 1 past the number");
    }

    fn count_late_past(&mut self, now: u64, step: &Step) {
        let checks = step
            .before
            .is_some_and(|view| view.nmt >= PRE_OPERATIONAL_2);
        let late = earliest(step.lent.rest()).is_some_and(|moment| u128::from(now) >= moment);
        self.mark(
            checks && late,
            "tick, a record past the number would be late",
        );
    }

    fn count_earliest(&mut self, call: &str, step: &Step, refused: usize) {
        let (Some(before), Some(after)) = (step.before, step.after) else {
            return;
        };
        let (was, is) = (before.earliest, after.earliest);
        let afresh = earliest(step.left.watched());
        let another = is.map(u128::from) != afresh;
        if refused != 0 {
            return self.mark(
                another,
                "earliest: a refused call leaves that of another run",
            );
        }
        let counts = earliest(step.lent.watched());
        let kept = was.map(u128::from) == counts;
        let (taken_away, raised) = (was.is_some() && is.is_none(), was.is_some() && was < is);
        let watched = !step.left.watched().is_empty();
        match call {
            "start" => self.mark(taken_away, "earliest: a start takes a moment away"),
            "heard" => {
                self.mark(is.is_none(), "earliest: none after a heard");
                self.mark(is.is_some(), "earliest: a moment after a heard");
                self.mark(kept && raised, "earliest: a heard raises it");
                let lowered = is.is_some() && is < was;
                self.mark(kept && lowered, "earliest: a heard lowers it");
                let case = "earliest: a heard at 0 takes it away";
                self.mark(kept && taken_away, case);
            }
            "add" => {
                self.mark(is.is_none(), "earliest: none after an add");
                self.mark(is.is_some(), "earliest: a moment after an add");
                let case = "earliest: an add works out that of another run";
                self.mark(was != is, case);
            }
            "remove" => {
                let case = "earliest: none after a removal, nodes watched";
                self.mark(watched && is.is_none(), case);
                self.mark(is.is_some(), "earliest: a moment after a removal");
                self.mark(kept && raised, "earliest: a removal raises it");
                self.mark(kept && taken_away, "earliest: a removal takes it away");
            }
            "tick" => self.count_earliest_in_tick(step, kept && raised),
            _ => {
                let case = "earliest: another call leaves that of another run";
                self.mark(another && !step.answers.is_empty() && call != "show", case);
                let reset = step
                    .answers
                    .iter()
                    .any(|answer| answer.contains("(entered"));
                self.mark(reset && is.is_some(), "earliest: a reset leaves a moment");
                return;
            }
        }
        self.count_moment(step.left, is);
    }

    fn count_earliest_in_tick(&mut self, step: &Step, raised: bool) {
        let (Some(before), Some(after)) = (step.before, step.after) else {
            return;
        };
        let (was, is) = (before.earliest, after.earliest);
        let none = !step.left.watched().is_empty() && is.is_none();
        self.mark(none, "earliest: none after a tick, nodes watched");
        self.mark(is.is_some(), "earliest: a moment after a tick");
        self.mark(raised, "earliest: a tick raises it");
        let first = was.is_none() && is.is_some();
        self.mark(first, "earliest: a tick gives the first");
        let checks = before.nmt >= PRE_OPERATIONAL_2;
        self.mark(
            !checks && was != is,
            "earliest: a tick that checks no heartbeats works out another",
        );
        self.mark(
            crossed(HEARTBEAT, before, after) > 0 && was != is,
            "earliest: a tick that a heartbeat crossing ended works out another",
        );
    }

    /// Of a moment that was worked out.
    fn count_moment(&mut self, left: &Lent, moment: Option<u64>) {
        let Some(moment) = moment else {
            return;
        };
        let watched = left.watched();
        let never_fires = watched.iter().any(|record| record.1 == 0 && record.2 > 0);
        let never_heard = watched.iter().any(|record| record.1 > 0 && record.2 == 0);
        let earlier = earliest(left.rest()).is_some_and(|past| past < u128::from(moment));
        self.mark(moment > TOP, "earliest: above 2^62 - 1");
        self.mark(
            never_fires,
            "earliest: a node with timeout 0 beside one that counts",
        );
        self.mark(
            never_heard,
            "earliest: a node never heard beside one that counts",
        );
        self.mark(
            earlier,
            "earliest: a place past the number would be earlier",
        );
    }

    pub fn groups(&self) -> [Group; 3] {
        [
            (
                "Lines of nodes that arrive and leave",
                named(&LINES, &self.lines, MINIMA.call),
            ),
            ("Refusals of these calls", self.refusal_counts()),
            ("Nodes that arrive and leave", self.case_counts()),
        ]
    }

    /// Those of which the report says the rarest.
    pub fn pair_groups(&self) -> [Group; 2] {
        [
            (
                "Calls taken with a run, by the number watched",
                self.number_counts(),
            ),
            (
                "Calls that number 3 declined, by the fault of the run",
                self.fault_counts(),
            ),
        ]
    }

    fn refusal_counts(&self) -> Vec<Count> {
        let count = |((call, number), count): (&(&str, usize), &u64)| {
            counted(format!("{call} refused {number}"), *count, MINIMA.refusal)
        };
        REFUSALS.iter().zip(&self.refusals).map(count).collect()
    }

    fn case_counts(&self) -> Vec<Count> {
        let count = |(case, count): (&&str, &u64)| Count {
            by_tick: case.contains("tick"),
            ..counted(*case, *count, CASE)
        };
        CASES.iter().zip(&self.cases).map(count).collect()
    }

    /// Each call that is lent the run, with each number that it can be accepted with.
    fn number_counts(&self) -> Vec<Count> {
        let mut counts = Vec::new();
        for (call, numbers) in CALLS.iter().zip(&self.taken) {
            for (number, count) in numbers.iter().enumerate() {
                let never = match *call {
                    "heard" | "remove" => number == 0,
                    "add" => number == PLACES,
                    _ => false,
                };
                if !never {
                    counts.push(pair(call, &format!("{number} watched"), *count));
                }
            }
        }
        counts
    }

    fn fault_counts(&self) -> Vec<Count> {
        let mut counts = Vec::new();
        for (call, faults) in CALLS.iter().zip(&self.faults) {
            for (fault, count) in FAULTS.iter().zip(faults) {
                counts.push(pair(call, fault, *count));
            }
        }
        counts
    }
}

fn pair(call: &str, with: &str, count: u64) -> Count {
    Count {
        by_tick: call == "tick",
        ..counted(format!("{call}, {with}"), count, PAIR)
    }
}
