//! What a script reached of RULES 13: frames of every type in every state of the cycle, each reason to decline one, and
//! what an action, a command and an SoC left.

use super::{CYCLIC, Count, DLL_STATES, Group, PRE_OPERATIONAL_2, Step, counted, named, number, refusal};
use crate::view::View;

/// The last time that is taken.
const TOP: u64 = (1 << 62) - 1;
const OPERATIONAL: u8 = 0xFD;
const BASIC_ETHERNET: u8 = 0x1E;

/// What a run of 200,000 calls has to reach of each case, and of each type in each state of the cycle.
const CASE: u64 = 20;
const PAIR: u64 = 3;

pub const LINE: &str = "frame";

const TYPES: [(u8, &str); 5] = [
    (1, "SoC"),
    (3, "PReq"),
    (4, "PRes"),
    (5, "SoA"),
    (6, "ASnd"),
];
const COMMANDS: [u8; 8] = [0x21, 0x22, 0x23, 0x24, 0x28, 0x29, 0x2A, 0x2B];
const RESETS: [u8; 4] = [0x28, 0x29, 0x2A, 0x2B];

const CASES: [&str; 47] = [
    "18: no bytes",
    "18: 16 bytes",
    "18: fewer than 17 bytes of another EtherType",
    "18: an ASnd without a service",
    "18: a service 4 without a command",
    "18: the same, too late as well",
    "19",
    "19: of another message type as well",
    "20",
    "20: 0x80 above a type",
    "20: AMNI or AInv",
    "4",
    "4: a managing command",
    "4: too late as well",
    "4: for another node as well",
    "5",
    "5: for another node as well",
    "not ours",
    "by its node's number",
    "by 255",
    "with no byte behind",
    "with bytes behind",
    "another service that DS 301 knows",
    "an unknown service",
    "command 0x21",
    "command 0x22",
    "command 0x23",
    "command 0x24",
    "command 0x28",
    "command 0x29",
    "command 0x2A",
    "command 0x2B",
    "enable or StartNode in PreOperational2",
    "a reset with something to forget",
    "an unexpected event: counter 1 rises, no level does",
    "a level that rises and does not cross",
    "an action",
    "an action before a reset's command",
    "an action before an SoC's arming",
    "an action while a deadline stands",
    "a crossing whose entry is kept",
    "a crossing whose entry is dropped",
    "an SoC that arms",
    "an SoC with cycle 0",
    "an SoC in Operational",
    "an SoC in BasicEthernet",
    "at 2^62 - 1",
];

/// A frame as it is laid out; none where it ends before its source.
struct Laid<'a> {
    ether_type: bool,
    kind: u8,
    destination: u8,
    payload: &'a [u8],
}

impl<'a> Laid<'a> {
    fn of(bytes: &'a [u8]) -> Option<Self> {
        let [high, low, kind, destination, _, payload @ ..] = bytes.get(12..)? else {
            return None;
        };
        Some(Self {
            ether_type: [*high, *low] == [0x88, 0xAB],
            kind: *kind,
            destination: *destination,
            payload,
        })
    }

    fn is(&self, kind: u8) -> bool {
        self.kind == kind
    }

    fn has_type(&self) -> bool {
        TYPES.iter().any(|(number, _)| self.is(*number))
    }

    fn command(&self) -> Option<u8> {
        match self.payload {
            [4, command, ..] if self.is(6) => Some(*command),
            _ => None,
        }
    }

    /// The bytes behind those that are read.
    fn behind(&self) -> usize {
        let read = match self.payload {
            [4, ..] if self.is(6) => 2,
            _ if self.is(6) => 1,
            _ => 0,
        };
        self.payload.len().saturating_sub(read)
    }
}

#[derive(Debug, Clone)]
pub struct Received {
    calls: u64,
    cases: [u64; CASES.len()],
    /// By NMT state of `CYCLIC`, then DLL state, then type.
    pairs: [[[u64; 5]; 4]; 4],
}

impl Default for Received {
    fn default() -> Self {
        Self {
            calls: 0,
            cases: [0; CASES.len()],
            pairs: [[[0; 5]; 4]; 4],
        }
    }
}

fn bytes_of(word: Option<&str>) -> Vec<u8> {
    let digits = word.unwrap_or("").as_bytes();
    let byte = |pair: &[u8]| {
        let text = std::str::from_utf8(pair).ok()?;
        u8::from_str_radix(text, 16).ok()
    };
    digits.chunks(2).filter_map(byte).collect()
}

fn crossings(view: &View) -> u32 {
    view.crossings.iter().sum()
}

impl Received {
    pub fn total_calls(&self) -> u64 {
        self.calls
    }

    fn mark(&mut self, holds: bool, case: &str) {
        if holds {
            let place = CASES.iter().position(|name| *name == case);
            self.cases[place.expect("a case has a name")] += 1;
        }
    }

    /// Counts one line.
    pub fn count(&mut self, step: &Step, answer: &str) {
        let mut words = step.line.split(' ');
        if words.next() != Some(LINE) {
            return;
        }
        self.calls += 1;
        let (Some(before), Some(after)) = (step.before, step.after) else {
            return;
        };
        let time = number(words.next()).unwrap_or(0);
        let bytes = bytes_of(words.next());
        let refused = refusal(answer);
        let Some(frame) = Laid::of(&bytes) else {
            let other = bytes.len() >= 14 && bytes[12..14] != [0x88, 0xAB];
            self.mark(bytes.is_empty(), "18: no bytes");
            self.mark(bytes.len() == 16, "18: 16 bytes");
            self.mark(other, "18: fewer than 17 bytes of another EtherType");
            return;
        };
        match refused {
            0 if answer == "(taken not_ours)" => self.mark(true, "not ours"),
            0 => self.count_taken(&frame, time, before, after),
            _ => self.count_refused(&frame, time, before, refused),
        }
    }

    fn count_refused(&mut self, frame: &Laid, time: u64, before: &View, refused: usize) {
        let late = time > TOP;
        let other = frame.destination != before.node && frame.destination != 255;
        let managing = matches!(frame.command(), Some(0x62 | 0x63));
        let silent = frame.payload.is_empty();
        let cases = [
            (18, silent, "18: an ASnd without a service"),
            (18, !silent, "18: a service 4 without a command"),
            (18, !silent && late, "18: the same, too late as well"),
            (19, true, "19"),
            (19, !frame.has_type(), "19: of another message type as well"),
            (20, true, "20"),
            (20, (0x81..=0x86).contains(&frame.kind), "20: 0x80 above a type"),
            (20, frame.is(7) || frame.is(0x0D), "20: AMNI or AInv"),
            (4, true, "4"),
            (4, managing, "4: a managing command"),
            (4, late, "4: too late as well"),
            (4, other, "4: for another node as well"),
            (5, true, "5"),
            (5, other, "5: for another node as well"),
        ];
        assert!(frame.ether_type || refused == 19);
        for (number, holds, case) in cases {
            self.mark(refused == number && holds, case);
        }
    }

    fn count_taken(&mut self, frame: &Laid, time: u64, before: &View, after: &View) {
        let kind = TYPES.iter().position(|(number, _)| frame.is(*number));
        if let (Some(nmt), Some(kind)) = (CYCLIC.iter().position(|s| *s == before.nmt), kind) {
            self.pairs[nmt][usize::from(before.dll) % 4][kind] += 1;
        }
        self.mark(frame.destination == before.node, "by its node's number");
        self.mark(frame.destination == 255, "by 255");
        self.mark(frame.behind() == 0, "with no byte behind");
        self.mark(frame.behind() > 0, "with bytes behind");
        self.mark(time == TOP, "at 2^62 - 1");
        let acted = crossings(after) > crossings(before);
        self.count_errors(before, after, acted);
        self.count_command(frame, before, acted);
        if acted {
            let command = frame.command();
            let reset = command.is_some_and(|command| RESETS.contains(&command));
            self.mark(true, "an action");
            self.mark(reset, "an action before a reset's command");
            self.mark(frame.is(1), "an action before an SoC's arming");
            self.mark(before.deadline.is_some(), "an action while a deadline stands");
        } else if frame.is(1) {
            let cycle = before.cycle.unwrap_or(0) > 0;
            self.mark(cycle, "an SoC that arms");
            self.mark(!cycle, "an SoC with cycle 0");
            self.mark(before.nmt == OPERATIONAL, "an SoC in Operational");
            self.mark(before.nmt == BASIC_ETHERNET, "an SoC in BasicEthernet");
        }
    }

    fn count_errors(&mut self, before: &View, after: &View, acted: bool) {
        let counted = after.counters[0] != before.counters[0];
        let same = after.levels == before.levels && after.occurrences == before.occurrences;
        let higher = after.levels.iter().zip(before.levels).any(|(now, then)| *now > then);
        self.mark(
            counted && same,
            "an unexpected event: counter 1 rises, no level does",
        );
        self.mark(
            higher && !acted,
            "a level that rises and does not cross",
        );
        let dropped = after.counters[2] != before.counters[2];
        self.mark(acted && !dropped, "a crossing whose entry is kept");
        self.mark(dropped, "a crossing whose entry is dropped");
    }

    fn count_command(&mut self, frame: &Laid, before: &View, acted: bool) {
        if !frame.is(6) {
            return;
        }
        let service = frame.payload.first().copied();
        self.mark(
            matches!(service, Some(1..=3 | 5)),
            "another service that DS 301 knows",
        );
        self.mark(matches!(service, Some(0 | 6..)), "an unknown service");
        let Some(command) = frame.command().filter(|_| !acted) else {
            return;
        };
        if COMMANDS.contains(&command) {
            self.mark(true, &format!("command 0x{command:02X}"));
        }
        self.mark(
            matches!(command, 0x21 | 0x24) && before.nmt == PRE_OPERATIONAL_2,
            "enable or StartNode in PreOperational2",
        );
        let stands = before.ready || before.check || before.deadline.is_some() || before.dll != 0;
        self.mark(
            RESETS.contains(&command) && stands,
            "a reset with something to forget",
        );
    }

    pub fn groups(&self) -> [Group; 1] {
        let mut counts = vec![counted("frames", self.calls, 500)];
        counts.extend(named(&CASES, &self.cases, CASE));
        [("Frames", counts)]
    }

    pub fn pair_groups(&self) -> [Group; 1] {
        let mut counts = Vec::<Count>::new();
        for (nmt, states) in CYCLIC.iter().zip(&self.pairs) {
            for (state, types) in DLL_STATES.iter().zip(states) {
                for ((_, kind), count) in TYPES.iter().zip(types) {
                    let what = format!("0x{nmt:02X}, {state}, {kind}");
                    counts.push(counted(what, *count, PAIR));
                }
            }
        }
        [("Frames in NMT and DLL states", counts)]
    }
}
