//! Writes seeded call scripts. A script is a row of lives, each a start and short scenarios behind it; a scenario looks
//! at the head between its lines, so that it reaches what single random calls would hardly meet: a time at the very
//! deadline, a level of 14, a full queue.

mod frames;
mod partners;
mod recipes;

use crate::coverage::{
    BASIC_ETHERNET, CYCLIC, Coverage, NOT_ACTIVE, PRE_OPERATIONAL_2, READY_TO_OPERATE, Step, Ticks,
    limit,
};
use crate::places::ERRORS;
use crate::view::{Driven, Lent, View};
use std::io::{self, Write};

/// The last time that is taken.
const TOP: u64 = (1 << 62) - 1;

/// Shortly before the seconds of an entry, which have 32 bits, begin again.
const SECONDS_WRAP: u64 = (1 << 32) * 1_000_000 - 10_000;

const INITIALISING: u8 = 0x19;
const PRE_OPERATIONAL_1: u8 = 0x1D;
const CS_STOPPED: u8 = 0x4D;
const OPERATIONAL: u8 = 0xFD;

const ALL_STATES: [u8; 8] = [
    INITIALISING,
    NOT_ACTIVE,
    PRE_OPERATIONAL_1,
    BASIC_ETHERNET,
    CS_STOPPED,
    PRE_OPERATIONAL_2,
    READY_TO_OPERATE,
    OPERATIONAL,
];

// NMT events by their place.
const START_NODE: u64 = 0;
const STOP_NODE: u64 = 1;
const ENTER_PRE_OPERATIONAL_2: u64 = 2;
const ENABLE_READY_TO_OPERATE: u64 = 3;
const RESET: u64 = 4;
const TIMEOUT: u64 = 10;
const ERROR: u64 = 11;
const SOA_RECEIVED: u64 = 12;
const SOC_RECEIVED: u64 = 13;
const POWERLINK_FRAME_RECEIVED: u64 = 14;
const CONFIGURATION_COMPLETE: u64 = 15;

const WAIT_SOC: u8 = 1;
const WAIT_PREQ: u8 = 2;
const WAIT_SOA: u8 = 3;

/// Error kinds that have a threshold, in the order of the counters, and kinds that carry a node.
const THRESHOLD_KINDS: [u64; 7] = [4, 6, 7, 8, 13, 3, 21];
const NODE_KINDS: [u64; 6] = [9, 10, 12, 19, 20, 21];

const TIMEOUTS: [u64; 7] = [0, 1, 2, 100, 5000, 1_000_000, 0xFFFF_FFFF];
const QUEUES: [u64; 8] = [0, 0, 1, 1, 2, 3, 31, 32];
const CYCLES: [u64; 8] = [0, 1, 7, 1000, 1000, 1000, 20_000, 0xFFFF_FFFF];
const TOLERANCES: [u64; 8] = [0, 999, 1000, 1999, 100_000, 100_000, 5_000_000, 0xFFFF_FFFF];
const COUNTER_VALUES: [u64; 6] = [0, 0, 1, 7, 0xFFFF_FFFE, 0xFFFF_FFFF];
const REGISTERS: [u64; 6] = [0, 0, 1, 2, 0xFE, 0xFF];
/// 15 is the most frequent, so that the other scenarios cross as before.
const THRESHOLDS: [u64; 21] = [
    0, 0, 1, 1, 7, 8, 8, 9, 9, 14, 15, 15, 15, 15, 15, 16, 16, 17, 24, 33, 1_000_000,
];
const THRESHOLDS_ABOVE: [u64; 3] = [1_000_001, 1_000_001, 0xFFFF_FFFF];
/// Numbers that name no event, kind, state or command.
const UNNAMED: [u64; 8] = [19, 22, 23, 255, 256, 257, 1 << 32, u64::MAX];

/// splitmix64.
pub struct Random(pub u64);

impl Random {
    pub fn next(&mut self) -> u64 {
        self.0 = self.0.wrapping_add(0x9E37_79B9_7F4A_7C15);
        let mut x = self.0;
        x = (x ^ (x >> 30)).wrapping_mul(0xBF58_476D_1CE4_E5B9);
        x = (x ^ (x >> 27)).wrapping_mul(0x94D0_49BB_1331_11EB);
        x ^ (x >> 31)
    }

    pub fn below(&mut self, limit: u64) -> u64 {
        self.next() % limit
    }

    pub fn one_in(&mut self, limit: u64) -> bool {
        self.below(limit) == 0
    }

    pub fn pick<T: Copy>(&mut self, from: &[T]) -> T {
        from[self.below(from.len() as u64) as usize]
    }
}

/// Writes a script of about `calls` calls and gives each line to the head.
pub fn generate(
    head: &mut dyn Driven,
    seed: u64,
    calls: u64,
    ticks: Ticks,
    out: &mut dyn Write,
) -> io::Result<Coverage> {
    let mut script = Script {
        seen: (head.view(), head.lent()),
        head,
        out,
        random: Random(seed),
        coverage: Coverage::new(ticks),
        ticks,
        now: 0,
    };
    script.partners_before_the_first_start()?;
    script.recipes_before_the_first_start()?;
    script.frames_before_the_first_start()?;
    script.before_the_first_start()?;
    while script.coverage.total_calls() < calls {
        script.life(calls)?;
    }
    script.give("show")?;
    Ok(script.coverage)
}

struct Script<'a> {
    head: &'a mut dyn Driven,
    /// The head and the run behind the last line.
    seen: (Option<View>, Lent),
    out: &'a mut dyn Write,
    random: Random,
    coverage: Coverage,
    ticks: Ticks,
    /// The time of the script: most calls are made at it or soon after.
    now: u64,
}

// Lines, numbers and the head between lines.
impl Script<'_> {
    /// Writes a line and gives it to the head.
    fn give(&mut self, line: &str) -> io::Result<()> {
        if self.ticks == Ticks::Without && line.split(' ').next() == Some("tick") {
            return Ok(());
        }
        writeln!(self.out, "{line}")?;
        let answers = self.head.line(line);
        let (after, left) = (self.head.view(), self.head.lent());
        let (before, lent) = &self.seen;
        self.coverage.count(&Step {
            line,
            before: before.as_ref(),
            lent,
            after: after.as_ref(),
            left: &left,
            answers: &answers,
        });
        self.seen = (after, left);
        Ok(())
    }

    /// A line, with a show behind a share of them. A long history makes a show of 10 kB, so there they are rare.
    fn call(&mut self, line: &str) -> io::Result<()> {
        self.give(line)?;
        if self.random.one_in(16) {
            self.give("due")?;
        }
        if self.random.one_in(64) {
            let place = self.random.below(4);
            self.give(&format!("weight {place}"))?;
        }
        let (view, _) = &self.seen;
        let long = view.as_ref().is_some_and(|view| view.history_length > 40);
        if self.random.one_in(if long { 50 } else { 5 }) {
            self.give("show")?;
        }
        Ok(())
    }

    /// A number in one of the ways to write it.
    fn number(&mut self, number: u64) -> String {
        match self.random.below(30) {
            0 => format!("0x{number:x}"),
            1 => format!("0x{number:X}"),
            2 => format!("00{number}"),
            3 => format!("0x{number:020x}"),
            4 => format!("{number:030}"),
            _ => number.to_string(),
        }
    }

    /// A call with one number.
    fn call1(&mut self, word: &str, number: u64) -> io::Result<()> {
        let number = self.number(number);
        self.call(&format!("{word} {number}"))
    }

    fn call2(&mut self, word: &str, first: u64, second: u64) -> io::Result<()> {
        let (first, second) = (self.number(first), self.number(second));
        self.call(&format!("{word} {first} {second}"))
    }

    fn nmt(&mut self, event: u64) -> io::Result<()> {
        self.call1("nmt", event)
    }

    fn dll(&mut self, event: u64) -> io::Result<()> {
        let expected = self.random.below(2);
        self.call2("dll", event, expected)
    }

    fn error(&mut self, kind: u64) -> io::Result<()> {
        let node = if NODE_KINDS.contains(&kind) {
            u64::from(self.good_node())
        } else {
            self.random.below(256)
        };
        let (a, b) = (self.number(node), self.random.below(256));
        self.call(&format!("error {kind} {a} {b}"))
    }

    /// A tick; the script's time follows it, not to the top, from which it could go no further.
    fn tick(&mut self, time: u64) -> io::Result<()> {
        if time < TOP / 2 {
            self.now = self.now.max(time);
        }
        match self.ticks {
            Ticks::With => self.call1("tick", time),
            Ticks::Without => self.instead_of_a_tick(time),
        }
    }

    /// Another call at the time of a tick that is left out.
    fn instead_of_a_tick(&mut self, time: u64) -> io::Result<()> {
        let run = self.head.watched();
        match self.random.below(5) {
            0 => self.call1("arm", time),
            1 | 2 if !run.is_empty() => {
                let (node, _, _) = self.random.pick(&run);
                self.call2("heard", u64::from(node), time)
            }
            3 => {
                let kind = self.random.pick(&THRESHOLD_KINDS);
                self.error(kind)
            }
            _ => self.call("cycle"),
        }
    }

    /// The script's time, a little later than it was.
    fn later(&mut self) -> u64 {
        let step = self.random.pick(&[0, 1, 5, 100, 1000, 12_345]);
        self.now += step;
        self.now
    }

    fn good_node(&mut self) -> u8 {
        match self.random.below(8) {
            0 => self.random.pick(&[1, 239, 240, 253, 254, 255]),
            _ => self.random.below(240) as u8 + 1,
        }
    }

    fn bad_node(&mut self) -> u8 {
        self.random.pick(&[0, 0, 241, 242, 251, 252])
    }

    fn value_or_missing(&mut self, values: &[u64]) -> String {
        if self.random.one_in(6) {
            return "-".to_string();
        }
        let value = self.random.pick(values);
        self.number(value)
    }

    fn value(&mut self, values: &[u64]) -> String {
        let value = self.random.pick(values);
        self.number(value)
    }
}

// Starts and the lent run.
impl Script<'_> {
    fn life(&mut self, calls: u64) -> io::Result<()> {
        let times = [0, 1, 10_000, 1_000_000, 1 << 50, SECONDS_WRAP, 1 << 60];
        self.now = self.random.pick(&times) + self.random.below(5000);
        self.good_run()?;
        if self.random.one_in(3) {
            self.refused_start()?;
        }
        self.start()?;
        for _ in 0..8 + self.random.below(40) {
            if self.coverage.total_calls() >= calls {
                break;
            }
            match self.random.below(31) {
                0..5 => self.partners()?,
                5..8 => self.frames()?,
                8 => self.recipes()?,
                _ => self.scenario()?,
            }
        }
        Ok(())
    }

    fn start(&mut self) -> io::Result<()> {
        let node = self.good_node();
        let queue = self.random.pick(&QUEUES);
        let line = self.start_line(u64::from(node), queue);
        self.call(&line)
    }

    fn start_line(&mut self, node: u64, queue: u64) -> String {
        let (node, queue) = (self.number(node), self.number(queue));
        let flags = self.value(&[0, 1, 0x45, 0xFFFF_FFFF]);
        let timeout = self.value(&TIMEOUTS);
        let register = self.value(&REGISTERS);
        let cycle = self.value_or_missing(&CYCLES);
        let tolerance = self.value_or_missing(&TOLERANCES);
        let counters: Vec<String> = (0..4).map(|_| self.value(&COUNTER_VALUES)).collect();
        let counters = counters.join(" ");
        let thresholds = self.thresholds();
        format!(
            "start {node} {flags} {timeout} {queue} {register} {cycle} {tolerance} {counters}{thresholds}"
        )
    }

    /// Seven thresholds behind a start, or none.
    fn thresholds(&mut self) -> String {
        if self.random.one_in(3) {
            return String::new();
        }
        (0..7)
            .map(|_| format!(" {}", self.value(&THRESHOLDS)))
            .collect()
    }

    /// A start with a threshold above the limit, at times with more than one.
    fn start_above_the_limit(&mut self, node: u64, queue: u64) -> String {
        let line = self.start_line(node, queue);
        let mut words: Vec<String> = line.split(' ').take(12).map(str::to_string).collect();
        let above = self.random.below(7);
        for place in 0..7 {
            let values = if place == above || self.random.one_in(8) {
                &THRESHOLDS_ABOVE[..]
            } else {
                &THRESHOLDS[..]
            };
            words.push(self.value(values));
        }
        words.join(" ")
    }

    /// Starts that are declined, some for more than one reason.
    fn refused_start(&mut self) -> io::Result<()> {
        let (good, bad) = (u64::from(self.good_node()), u64::from(self.bad_node()));
        let queue = self.random.pick(&[33, 34, 256, 1 << 32, u64::MAX]);
        let few = self.random.below(33);
        let line = match self.random.below(8) {
            0 => self.start_line(bad, few),
            1 => self.start_line(bad, queue),
            2 => self.start_line(good, queue),
            3 => self.start_above_the_limit(bad, few),
            4 => self.start_above_the_limit(good, queue),
            5 | 6 => self.start_above_the_limit(good, few),
            _ => return self.bad_run(),
        };
        self.call(&line)
    }

    fn watch(&mut self, node: u8, timeout: u64, heard: u64) -> io::Result<()> {
        let (timeout, heard) = (self.number(timeout), self.number(heard));
        self.give(&format!("watch {node} {timeout} {heard}"))
    }

    /// A new run of `length` watched nodes, ascending.
    fn run(&mut self, length: u64) -> io::Result<()> {
        self.give("unwatch")?;
        let mut nodes: Vec<u8> = (1..=240).chain(253..=255).collect();
        while nodes.len() as u64 > length {
            let place = self.random.below(nodes.len() as u64) as usize;
            nodes.remove(place);
        }
        let now = self.now;
        for node in nodes {
            let timeout = self.random.pick(&[0, 1, 10, 50, 50, 2000, 1 << 40, TOP]);
            let heard = self.random.pick(&[0, 0, now, now, now / 2, now + 20]);
            self.watch(node, timeout, heard)?;
        }
        Ok(())
    }

    /// A run that is taken. Often it is empty, since late nodes end ticks before the SoC check.
    fn good_run(&mut self) -> io::Result<()> {
        let length = self.random.pick(&[0, 0, 0, 0, 0, 1, 2, 3, 5, 31, 32]);
        self.run(length)
    }

    /// Calls with a run that number 3 declines; those that are not lent it are taken.
    fn bad_run(&mut self) -> io::Result<()> {
        self.write_a_bad_run()?;
        self.calls_with_a_bad_run()?;
        self.good_run()
    }

    fn write_a_bad_run(&mut self) -> io::Result<()> {
        let length = self.random.pick(&[0, 0, 1, 3, 31]);
        let above = self.random.pick(&[TOP + 1, 1 << 63, u64::MAX]);
        match self.random.below(5) {
            0 => {
                let long = self.random.pick(&[33, 33, 34, 40]);
                self.run(long)?;
            }
            1 => {
                let node = self.good_node();
                let lower = self.random.pick(&[node, node, 1]);
                self.run(0)?;
                self.watch(node, 50, 0)?;
                self.watch(lower, 50, 0)?;
            }
            2 => {
                self.run(0)?;
                let node = self.bad_node();
                self.watch(node, 50, 0)?;
            }
            bound => {
                self.run(length)?;
                let (timeout, heard) = if bound == 3 { (above, 0) } else { (50, above) };
                self.watch(255, timeout, heard)?;
            }
        }
        Ok(())
    }

    fn calls_with_a_bad_run(&mut self) -> io::Result<()> {
        for _ in 0..2 + self.random.below(4) {
            let now = self.later();
            let node = self.good_node();
            match self.random.below(8) {
                0 | 1 => self.tick(now)?,
                2 => self.tick(TOP + 1)?,
                3 => self.call2("heard", u64::from(node), now)?,
                4 => self.call2("heard", u64::from(node), TOP + 1)?,
                5 => self.plain_call()?,
                _ => {
                    // The node and the queue are looked at before the run, and the thresholds behind it.
                    let bad = self.bad_node();
                    let node = u64::from(self.random.pick(&[node, node, bad]));
                    let queue = self.random.pick(&[2, 2, 33]);
                    let line = match self.random.below(2) {
                        0 => self.start_above_the_limit(node, queue),
                        _ => self.start_line(node, queue),
                    };
                    self.call(&line)?;
                }
            }
        }
        Ok(())
    }
}

// Ways to states.
impl Script<'_> {
    /// Gives events until the head stands in the state.
    fn go_to(&mut self, target: u8) -> io::Result<()> {
        for _ in 0..12 {
            let Some(view) = self.head.view().filter(|view| view.nmt != target) else {
                break;
            };
            if target == INITIALISING {
                self.start()?;
            } else {
                let event = self.event_towards(&view, target);
                if event == CONFIGURATION_COMPLETE && self.random.one_in(3) {
                    self.recipe()?;
                } else {
                    self.nmt(event)?;
                }
            }
        }
        Ok(())
    }

    /// The next event on a way to the state; where there is more than one, any of them.
    fn event_towards(&mut self, view: &View, target: u8) -> u64 {
        let reset = RESET + self.random.below(5);
        let soc_or_soa = self.random.pick(&[SOC_RECEIVED, SOA_RECEIVED]);
        let start_or_enable = self.random.pick(&[START_NODE, ENABLE_READY_TO_OPERATE]);
        match (view.nmt, target) {
            (INITIALISING, _) | (_, NOT_ACTIVE) => reset,
            (NOT_ACTIVE, BASIC_ETHERNET) => TIMEOUT,
            (_, BASIC_ETHERNET) => reset,
            (NOT_ACTIVE, _) => soc_or_soa,
            (BASIC_ETHERNET, _) => POWERLINK_FRAME_RECEIVED,
            (PRE_OPERATIONAL_1, _) => SOC_RECEIVED,
            (_, PRE_OPERATIONAL_1) => ERROR,
            (PRE_OPERATIONAL_2 | READY_TO_OPERATE | OPERATIONAL, CS_STOPPED) => STOP_NODE,
            (PRE_OPERATIONAL_2, READY_TO_OPERATE) if view.ready || !view.enabled => {
                ENABLE_READY_TO_OPERATE
            }
            (PRE_OPERATIONAL_2, OPERATIONAL) if view.ready => start_or_enable,
            (PRE_OPERATIONAL_2, _) => CONFIGURATION_COMPLETE,
            (READY_TO_OPERATE, OPERATIONAL) => START_NODE,
            (READY_TO_OPERATE, _) => ERROR,
            _ => ENTER_PRE_OPERATIONAL_2,
        }
    }

    /// To a state with the ready word and "enabled" as wanted, as far as that state has them.
    fn go_to_flags(&mut self, target: u8) -> io::Result<()> {
        let (ready, enabled) = (self.random.one_in(2), self.random.one_in(2));
        let has = self.head.view().is_none_or(|view| view.ready);
        if ready && !has {
            // The word counts only here.
            self.go_to(PRE_OPERATIONAL_2)?;
            self.nmt(CONFIGURATION_COMPLETE)?;
        }
        self.go_to(target)?;
        if !ready {
            self.call("withdraw")?;
        }
        if !ready && enabled && target == PRE_OPERATIONAL_2 {
            let enable = self.random.pick(&[START_NODE, ENABLE_READY_TO_OPERATE]);
            self.nmt(enable)?;
        }
        Ok(())
    }

    /// To an NMT and a DLL state. The DLL machine comes back to NonCyclic by a reset, or by an event outside the cyclic
    /// states.
    fn go_to_dll(&mut self, target: u8, state: u8) -> io::Result<()> {
        let cyclic = self.head.view().is_some_and(|view| view.dll != 0);
        if state == 0 && cyclic {
            let outside = self
                .random
                .pick(&[PRE_OPERATIONAL_1, NOT_ACTIVE, BASIC_ETHERNET]);
            self.go_to(outside)?;
            let event = self.random.below(6);
            self.dll(event)?;
        }
        self.go_to(target)?;
        if CYCLIC.contains(&target) && state != 0 {
            self.call("dll 0 1")?;
            match state {
                WAIT_SOC => self.call("dll 5 1")?,
                WAIT_SOA => self.call("dll 1 1")?,
                _ => (),
            }
        }
        Ok(())
    }
}

// Scenarios.
impl Script<'_> {
    fn scenario(&mut self) -> io::Result<()> {
        match self.random.below(112) {
            0..14 => self.nmt_events(),
            14..28 => self.dll_pairs(),
            28..36 => self.error_levels(),
            36..50 => self.soc_check(),
            50..58 => self.losses(),
            58..62 => self.basic_timeout(),
            62..72 => self.heartbeats(),
            72..77 => self.load(),
            77 => self.long_history(),
            78..80 => self.counters_at_the_top(),
            80..82 => self.times_at_the_top(),
            82..85 => self.bad_numbers(),
            85..88 => self.readings(),
            88..91 => self.unreadable(),
            91 => self.comment(),
            92 => self.too_many_watched(),
            93 => self.bad_run(),
            94 => self.refused_start(),
            95 => self.withdrawals(),
            96 | 97 => self.reset_between(),
            98 => self.kinds(),
            99..107 => self.up_to_the_threshold(),
            107..110 => self.clock_readings(),
            _ => self.plain_calls(),
        }
    }

    /// Any of the 19 events in any state; behind a reset, what a restore might have made of the values.
    fn nmt_events(&mut self) -> io::Result<()> {
        for _ in 0..2 + self.random.below(4) {
            // PreOperational2 has the most flags.
            let state = match self.random.below(6) {
                0 => PRE_OPERATIONAL_2,
                _ => self.random.pick(&ALL_STATES),
            };
            self.go_to_flags(state)?;
            let event = self.random.below(19);
            self.nmt(event)?;
            if (RESET..RESET + 5).contains(&event) && self.random.one_in(2) {
                self.load()?;
            }
        }
        Ok(())
    }

    fn dll_pairs(&mut self) -> io::Result<()> {
        let target = match self.random.below(10) {
            0 => self.random.pick(&ALL_STATES),
            _ => self.random.pick(&CYCLIC),
        };
        for _ in 0..1 + self.random.below(3) {
            let state = self.random.below(4) as u8;
            self.go_to_dll(target, state)?;
            let event = self.random.below(6);
            self.dll(event)?;
        }
        Ok(())
    }

    /// Errors with completed cycles between them: one between two leaves 15, a crossing, and two leave 14.
    fn error_levels(&mut self) -> io::Result<()> {
        let kind = self.random.pick(&THRESHOLD_KINDS);
        for _ in 0..2 + self.random.below(3) {
            self.error(kind)?;
            if self.random.one_in(2) {
                let other = self.random.below(22);
                self.error(other)?;
            }
            let cycles = self.random.pick(&[0, 1, 1, 2, 2, 3, 8, 16]);
            for _ in 0..cycles {
                self.call("cycle")?;
            }
        }
        Ok(())
    }

    /// Errors of one kind, with cycles before the last but one, so that this one leaves its level one below the threshold or meets it.
    /// A level at threshold 0 rises further and is drained, at times by more cycles than it needs.
    fn up_to_the_threshold(&mut self) -> io::Result<()> {
        let place = self.random.below(7) as usize;
        let kind = THRESHOLD_KINDS[place];
        let below = self.random.below(2) as u32;
        let held = |view: View| (view.levels[place], view.thresholds[place]);
        for _ in 0..12 {
            let Some((level, threshold)) = self.head.view().map(held) else {
                break;
            };
            let left = threshold.saturating_sub(below);
            match threshold {
                0 if self.random.one_in(3) => self.cycles(level.min(40) + below)?,
                0 => self.error(kind)?,
                _ if level + 8 < left || level == 0 => self.error(kind)?,
                _ => {
                    self.cycles((level + 8).saturating_sub(left).min(level))?;
                    self.error(kind)?;
                    return self.error(kind);
                }
            }
        }
        Ok(())
    }

    fn cycles(&mut self, count: u32) -> io::Result<()> {
        (0..count).try_for_each(|_| self.call("cycle"))
    }

    fn soc_check(&mut self) -> io::Result<()> {
        let target = match self.random.below(5) {
            0 => self.random.pick(&ALL_STATES),
            _ => self.random.pick(&CYCLIC),
        };
        let state = self.random.below(4) as u8;
        self.go_to_dll(target, state)?;
        if self.random.one_in(2) {
            self.useful_cycle()?;
        }
        let now = self.later();
        self.call1("arm", now)?;
        for _ in 0..2 + self.random.below(8) {
            let time = self.time_near_the_deadline();
            self.tick(time)?;
            self.between_ticks()?;
        }
        Ok(())
    }

    /// A time at one of the bounds that the tick looks at.
    fn time_near_the_deadline(&mut self) -> u64 {
        let later = self.later();
        let Some(view) = self.head.view() else {
            return later;
        };
        let cycle = u64::from(view.cycle.unwrap_or(0));
        let limit = limit(&view);
        let deadline = view.deadline.unwrap_or(later);
        match self.random.below(12) {
            0 => deadline.saturating_sub(1),
            1..4 => deadline,
            4 => deadline + 1,
            5 => view.last_soc + limit,
            6 | 7 => view.last_soc + limit + 1,
            8 => deadline + self.random.below(50) * cycle,
            9 => view.last_soc + self.random.below(5) * cycle,
            10 => view.last_soc.saturating_sub(self.random.below(3)),
            _ => later,
        }
    }

    fn between_ticks(&mut self) -> io::Result<()> {
        let now = self.now;
        match self.random.below(20) {
            0 | 1 => self.call1("arm", now),
            2 => self.call1("arm", now.saturating_sub(500)),
            3 => self.call("cycle"),
            4 => self.call("handout"),
            5 | 6 => self.dll(0),
            7 => self.dll(1),
            8 => self.useful_cycle(),
            9 => self.call("load cycle 0"),
            10 => self.call("load cycle -"),
            11 => {
                let tolerance = self.value_or_missing(&TOLERANCES);
                self.call(&format!("load tolerance {tolerance}"))
            }
            12 => self.error(7),
            _ => Ok(()),
        }
    }

    fn useful_cycle(&mut self) -> io::Result<()> {
        let cycle = self.random.pick(&[1, 7, 400, 1000, 20_000]);
        let tolerance = self.value_or_missing(&[0, 999, 1999, 100_000]);
        self.call(&format!("load cycle {cycle} tolerance {tolerance}"))
    }

    /// Crossings of the SoC check one behind another, so that the queue fills, with entries handed out at times.
    fn losses(&mut self) -> io::Result<()> {
        let rounds = match self.random.below(12) {
            0 => 36,
            _ => 1 + self.random.below(4),
        };
        let hand_out = self.random.one_in(3);
        self.useful_cycle()?;
        for _ in 0..rounds {
            self.loss_until_crossing()?;
            if hand_out || self.random.one_in(8) {
                self.call("handout")?;
            }
        }
        let waiting = self.head.view().map_or(0, |view| view.queue_length as u64);
        let handed_out = if self.random.one_in(3) {
            self.random.below(waiting + 2)
        } else {
            0
        };
        (0..handed_out).try_for_each(|_| self.call("handout"))
    }

    /// Late ticks until one crosses. A LossOfSoa given before can let that counter cross before LossOfSoc's.
    fn loss_until_crossing(&mut self) -> io::Result<()> {
        let target = self.random.pick(&CYCLIC);
        let state = self.random.pick(&[WAIT_SOC, WAIT_PREQ, WAIT_SOA]);
        self.go_to_dll(target, state)?;
        if self.random.one_in(4) {
            self.error(7)?;
        }
        let now = self.later();
        self.call1("arm", now)?;
        for _ in 0..3 {
            let Some(view) = self.head.view().filter(|view| view.check) else {
                break;
            };
            let late = self.random.below(2);
            let time = view.deadline.unwrap_or(now).max(self.now) + late;
            self.tick(time)?;
        }
        Ok(())
    }

    /// The basic timeout: the deadline is set by one tick and passes at its very time. One that is armed at NotActive acts
    /// likewise; one that was armed before is forgotten.
    fn basic_timeout(&mut self) -> io::Result<()> {
        if self.random.one_in(3) {
            self.start()?;
        }
        if self.random.one_in(4) {
            let now = self.later();
            self.call1("arm", now)?;
        }
        self.go_to(NOT_ACTIVE)?;
        if self.random.one_in(4) {
            let now = self.later();
            self.call1("arm", now)?;
        }
        for _ in 0..3 {
            let now = self.later();
            let deadline = self
                .head
                .view()
                .and_then(|view| view.deadline)
                .unwrap_or(now);
            let time = self
                .random
                .pick(&[deadline.saturating_sub(1), deadline, deadline, now]);
            self.tick(time)?;
        }
        Ok(())
    }

    fn heartbeats(&mut self) -> io::Result<()> {
        let length = self.random.pick(&[1, 1, 2, 3, 5, 32]);
        self.run(length)?;
        let target = match self.random.below(4) {
            0 => self.random.pick(&ALL_STATES),
            // Heartbeats are not checked in CsStopped.
            _ => self
                .random
                .pick(&[PRE_OPERATIONAL_2, READY_TO_OPERATE, OPERATIONAL]),
        };
        for _ in 0..3 + self.random.below(8) {
            if self.random.one_in(2) {
                self.go_to(target)?;
            }
            self.heartbeat_step()?;
        }
        if self.random.one_in(2) {
            self.run(0)
        } else {
            Ok(())
        }
    }

    /// A node heard, or a tick at the bound of one node or past that of all.
    fn heartbeat_step(&mut self) -> io::Result<()> {
        let now = self.later();
        let run = self.head.watched();
        if run.is_empty() {
            return self.tick(now);
        }
        let (node, timeout, heard) = self.random.pick(&run);
        let latest = run.iter().map(|(_, _, heard)| *heard).max().unwrap_or(0);
        let bound = heard.saturating_add(timeout);
        match self.random.below(12) {
            0 | 1 => self.call2("heard", u64::from(node), now),
            2 => {
                let other = self.random.below(256);
                self.call2("heard", other, now)
            }
            3 => self.call2("heard", u64::from(node), 0),
            4 => self.tick(bound),
            5 => self.tick(bound.saturating_add(1)),
            6 => self.tick(bound.max(latest)),
            7 | 8 => self.tick(bound.max(latest).saturating_add(1)),
            9 => self.tick(latest + 2001),
            10 => self.tick(heard.saturating_sub(1)),
            _ => self.tick(now),
        }
    }
}

// Values, bounds and lines that are no calls.
impl Script<'_> {
    /// Any of the values, in the order that a load has.
    fn load(&mut self) -> io::Result<()> {
        let every = self.random.one_in(8);
        let single = self.random.below(8);
        let mut line = "load".to_string();
        for place in 0..8 {
            if !(every || place == single || self.random.one_in(5)) {
                continue;
            }
            line.push(' ');
            line.push_str(&self.loaded_value(place));
        }
        if self.random.one_in(16) {
            line = "load".to_string();
        }
        self.call(&line)
    }

    fn loaded_value(&mut self, place: u64) -> String {
        let value = match place {
            0 => self.value(&REGISTERS),
            1 => self.value_or_missing(&CYCLES),
            2 => self.value_or_missing(&TOLERANCES),
            3..7 => self.value(&COUNTER_VALUES),
            _ => {
                let length = self.random.pick(&[0, 1, 2, 3]);
                return self.history(length);
            }
        };
        let names = ["register", "cycle", "tolerance", "c1", "c2", "c3", "c5"];
        format!("{} {value}", names[place as usize])
    }

    fn entry(&mut self) -> String {
        let (a, b, c) = (
            self.random.next(),
            self.random.next(),
            self.random.next() as u32,
        );
        match self.random.below(4) {
            0 => format!("{a:016x}{b:016x}{c:08x}"),
            _ => format!("{a:016X}{b:016X}{c:08X}"),
        }
    }

    fn history(&mut self, length: u64) -> String {
        let mut words = "history".to_string();
        for _ in 0..length {
            words.push(' ');
            words.push_str(&self.entry());
        }
        words
    }

    /// A history at its bound and crossings behind it, at times as many as it has places. Then mostly a short one,
    /// since a long one makes long shows.
    fn long_history(&mut self) -> io::Result<()> {
        let length = self.random.pick(&[252, 253, 254, 255, 300]);
        let history = self.history(length);
        self.call(&format!("load {history}"))?;
        self.useful_cycle()?;
        let keeps = self.head.view().is_some_and(|view| view.queue_capacity > 0);
        let rounds = if keeps && self.random.one_in(40) {
            260
        } else {
            3
        };
        if rounds > 3 {
            self.run(0)?;
        }
        for _ in 0..rounds {
            self.call("handout")?;
            self.loss_until_crossing()?;
        }
        self.give("show")?;
        if self.random.one_in(3) {
            Ok(())
        } else {
            self.call("load history")
        }
    }

    /// Counters that the next crossing wraps, whether its entry is kept or dropped.
    fn counters_at_the_top(&mut self) -> io::Result<()> {
        let top = self
            .random
            .pick(&[0xFFFF_FFFF_u64, 0xFFFF_FFFF, 0xFFFF_FFFE]);
        self.call(&format!(
            "load register 0 c1 {top} c2 {top} c3 {top} c5 {top}"
        ))?;
        self.useful_cycle()?;
        self.loss_until_crossing()?;
        self.give("show")
    }

    /// Times at 2^62 − 1 and above, and calls at earlier times behind them.
    fn times_at_the_top(&mut self) -> io::Result<()> {
        let node = match self.head.watched().first() {
            Some(watched) => u64::from(watched.0),
            None => u64::from(self.good_node()),
        };
        for _ in 0..1 + self.random.below(4) {
            let time = self
                .random
                .pick(&[TOP - 1, TOP, TOP, TOP + 1, TOP + 1, 1 << 63, u64::MAX]);
            match self.random.below(4) {
                0 => self.call1("arm", time)?,
                1 => self.call2("heard", node, time)?,
                2 => self.call2("heard", 0, time)?,
                _ => self.tick(time)?,
            }
        }
        let now = self.later();
        self.tick(now)?;
        self.call1("arm", now)?;
        self.good_run()
    }

    fn bad_numbers(&mut self) -> io::Result<()> {
        let unnamed = self.random.pick(&UNNAMED);
        let kind = self.random.pick(&NODE_KINDS);
        let (bad, expected) = (self.bad_node(), self.random.below(2));
        match self.random.below(5) {
            0 => self.call1("nmt", unnamed),
            1 => {
                let event = self.random.pick(&[6, 7, unnamed]);
                self.call2("dll", event, expected)
            }
            // The unknown kind is looked at before its node.
            2 => self.call(&format!("error {} {bad} 0", unnamed.max(22))),
            3 => self.call(&format!("error {kind} {bad} 0")),
            // What a kind does not carry may be any number.
            _ => self.call(&format!("error 6 {unnamed} {}", u64::MAX)),
        }
    }

    fn readings(&mut self) -> io::Result<()> {
        for _ in 0..1 + self.random.below(6) {
            let word = self.random.pick(&["state", "command"]);
            let states = self.random.pick(&ALL_STATES);
            let any = self.random.below(256);
            let other = self
                .random
                .pick(&[0, 0x29, 0x39, 0x79, 256 + 0x1C, u64::MAX]);
            let command = 0x20 + self.random.below(14);
            let managing = 0x60 + self.random.below(6);
            let number =
                self.random
                    .pick(&[u64::from(states), any, other, command, command, managing]);
            self.call1(word, number)?;
        }
        Ok(())
    }

    /// The codes that the original gives the kinds, their neighbours, numbers that are such a code but for a bit above the
    /// 16, and any number.
    fn kinds(&mut self) -> io::Result<()> {
        for _ in 0..4 + self.random.below(12) {
            let code = u64::from(self.random.pick(&ERRORS).to_error_code());
            let wide = code + (1 << (16 + self.random.below(48)));
            let any = self.random.below(1 << 16);
            let number = self
                .random
                .pick(&[code, code, code, code - 1, code + 1, wide, any]);
            self.call1("kind", number)?;
        }
        Ok(())
    }

    /// Readings of a clock around the first that is a loss, in any state, with the check on or off; some the wrong way round
    /// or above what is taken.
    fn clock_readings(&mut self) -> io::Result<()> {
        if self.random.one_in(2) {
            let state = self.random.pick(&ALL_STATES);
            self.go_to(state)?;
        }
        if self.random.one_in(2) {
            let now = self.later();
            self.call1("arm", now)?;
        }
        for _ in 0..4 + self.random.below(12) {
            let (a, b) = (self.reading(), self.reading());
            match self.random.below(8) {
                0..3 => self.call1("margin", a)?,
                3 => self.call2("range", a, a)?,
                4 => self.call2("range", a.max(b), a.min(b))?,
                _ => self.call2("range", a.min(b), a.max(b))?,
            }
        }
        Ok(())
    }

    fn reading(&mut self) -> u64 {
        let later = self.later();
        let Some(view) = self.head.view() else {
            return later;
        };
        let last_kept = view.last_soc + limit(&view);
        match self.random.below(14) {
            0..3 => last_kept,
            3..6 => last_kept + 1,
            6 => last_kept.saturating_sub(1),
            7 => last_kept + self.random.below(5000),
            8 => view.last_soc,
            9 => view.last_soc.saturating_sub(1 + self.random.below(3)),
            10 => self.random.pick(&[0, 1, TOP - 1, TOP, TOP]),
            11 | 12 => self.random.pick(&[TOP + 1, 1 << 63, u64::MAX]),
            _ => later,
        }
    }

    /// Withdrawals where they count, and at ReadyToOperate, where they are declined.
    fn withdrawals(&mut self) -> io::Result<()> {
        let state = self
            .random
            .pick(&[READY_TO_OPERATE, READY_TO_OPERATE, PRE_OPERATIONAL_2]);
        self.go_to(state)?;
        self.call("withdraw")?;
        self.nmt(ENABLE_READY_TO_OPERATE)?;
        self.call("withdraw")?;
        self.nmt(CONFIGURATION_COMPLETE)
    }

    /// A reset of a head that is ready and in the cycle, as between two recipes. Behind it the managing node asks and the
    /// application gives its word in any order, at times before it counts, at times not at all.
    fn reset_between(&mut self) -> io::Result<()> {
        self.go_to(READY_TO_OPERATE)?;
        let target = self.random.pick(&[
            PRE_OPERATIONAL_1,
            PRE_OPERATIONAL_2,
            READY_TO_OPERATE,
            OPERATIONAL,
            CS_STOPPED,
        ]);
        self.go_to(target)?;
        if self.random.one_in(2) {
            let now = self.later();
            self.call1("arm", now)?;
            self.call("dll 0 1")?;
        }
        let reset = RESET + self.random.below(5);
        self.nmt(reset)?;
        for _ in 0..2 {
            if self.random.one_in(3) {
                let time = self.time_near_the_deadline();
                self.tick(time)?;
                self.nmt(CONFIGURATION_COMPLETE)?;
            }
            self.nmt(SOC_RECEIVED)?;
        }
        self.go_to(PRE_OPERATIONAL_2)?;
        for _ in 0..1 + self.random.below(4) {
            let event =
                self.random
                    .pick(&[START_NODE, ENABLE_READY_TO_OPERATE, CONFIGURATION_COMPLETE]);
            self.nmt(event)?;
        }
        self.give("show")
    }

    fn plain_calls(&mut self) -> io::Result<()> {
        for _ in 0..1 + self.random.below(10) {
            self.plain_call()?;
        }
        Ok(())
    }

    /// A call that is not lent the run, chosen without a look at the head; now and then a tick.
    fn plain_call(&mut self) -> io::Result<()> {
        let now = self.later();
        match self.random.below(9) {
            0 => {
                let event = self.random.below(19);
                self.nmt(event)
            }
            1 => {
                let event = self.random.below(6);
                self.dll(event)
            }
            2 | 3 => {
                let kind = self.random.below(22);
                self.error(kind)
            }
            4 => self.call("cycle"),
            5 => self.call("handout"),
            6 => self.call("withdraw"),
            7 => self.call1("arm", now),
            _ => self.tick(now),
        }
    }

    fn comment(&mut self) -> io::Result<()> {
        let line = self
            .random
            .pick(&["", "", "#", "# a comment", "#nmt 4", "# (unreadable 1)"]);
        self.give(line)
    }

    /// Forty records, and a 41st, which is unreadable.
    fn too_many_watched(&mut self) -> io::Result<()> {
        self.run(40)?;
        self.watch(255, 0, 0)?;
        let now = self.later();
        self.tick(now)?;
        self.good_run()
    }

    /// Every line that the format asks a start for, without one; runs may be built.
    fn before_the_first_start(&mut self) -> io::Result<()> {
        let lines = [
            "show",
            "# before the first start",
            "",
            "nmt 5",
            "dll 0 1",
            "error 6 0 0",
            "cycle",
            "tick 5",
            "withdraw",
            "watch 17 50 0",
            "heard 17 5",
            "handout",
            "arm 5",
            "load",
            "load cycle 1000",
            "state 28",
            "command 33",
            "kind 0x8245",
            "range 0 5",
            "margin 5",
            "nmt 99",
            "unwatch",
            "unknown",
            "watch 0 18446744073709551615 18446744073709551615",
            "show",
            "start 7 0 5000 2 0 1000 - 0 0 0 0",
            "show",
            "tick 5",
            "unwatch",
            "start 0 0 5000 2 0 1000 - 0 0 0 0",
            "start 7 0 5000 33 0 1000 - 0 0 0 0",
            "start 7 0 5000 2 0 1000 - 0 0 0 0 15 15 15 15 15 15 1000001",
            "show",
        ];
        lines.iter().try_for_each(|line| self.give(line))
    }

    fn unreadable(&mut self) -> io::Result<()> {
        for _ in 0..1 + self.random.below(4) {
            let line = match self.random.below(8) {
                0 => self.unreadable_history(),
                1 => self.unreadable_start(),
                _ => self.random.pick(&UNREADABLE).to_string(),
            };
            self.call(&line)?;
        }
        Ok(())
    }

    fn unreadable_history(&mut self) -> String {
        let entry = self.entry();
        match self.random.below(8) {
            0 => format!("load {}", self.history(301)),
            1 => format!("load history {}", &entry[1..]),
            2 => format!("load history {entry}0"),
            3 => format!("load history {}G", &entry[1..]),
            4 => format!("load history {entry} register 1"),
            5 => format!("load history {entry}  {entry}"),
            6 => format!("load history 0x{}", &entry[2..]),
            _ => format!("load history {entry} "),
        }
    }

    fn unreadable_start(&mut self) -> String {
        let line = self.start_line(7, 2);
        let rest = line.splitn(3, ' ').nth(2).unwrap_or("");
        match self.random.below(10) {
            0 => format!("{line} 0"),
            1 => line
                .rsplit_once(' ')
                .map_or("", |(front, _)| front)
                .to_string(),
            2 => format!("start 256 {rest}"),
            3 => format!("start - {rest}"),
            4 => "start 7 4294967296 0 2 0 1000 - 0 0 0 0".to_string(),
            5 => "start 7 0 0 2 256 1000 - 0 0 0 0".to_string(),
            6 => "start 7 0 0 2 0 4294967296 - 0 0 0 0".to_string(),
            7 => "start 7 0 0 2 0 1000 - 0 0 0 0 15 15 15 15 15 15 4294967296".to_string(),
            8 => "start 7 0 0 2 0 1000 - 0 0 0 0 - 15 15 15 15 15 15".to_string(),
            _ => "start 7 0 0 2 0 1000 - 0 0 0 -".to_string(),
        }
    }
}

const UNREADABLE: [&str; 78] = [
    "due 1",
    "due ",
    "unknown",
    "Nmt 3",
    "nmt",
    "nmt ",
    "nmt  3",
    " nmt 3",
    "nmt 3 ",
    "nmt 3 4",
    "nmt x",
    "nmt 0x",
    "nmt 0X3",
    "nmt 0xG",
    "nmt -1",
    "nmt +3",
    "nmt 3.0",
    "nmt 1_0",
    "nmt -",
    "nmt 18446744073709551616",
    "nmt 0x10000000000000000",
    "nmt\t3",
    "nmt,3",
    "nmt \u{FF13}",
    "cycle\r",
    " ",
    " # no comment",
    "dll 0",
    "dll 0 2",
    "dll 0 1 1",
    "error 6",
    "error 6 0",
    "error 6 0 0 0",
    "error 9 256 0",
    "error 18 256 0",
    "error 18 0 256",
    "error 6 18446744073709551616 0",
    "cycle 1",
    "cycle ",
    "tick",
    "tick 18446744073709551616",
    "tick +5",
    "withdraw 1",
    "heard 17",
    "heard 256 5",
    "heard 17 5 5",
    "handout 1",
    "arm",
    "arm 0x1FFFFFFFFFFFFFFFF",
    "load ",
    "load cycle",
    "load cycle x",
    "load cycle 4294967296",
    "load c4 1",
    "load c1 4294967296",
    "load c1 -",
    "load register 256",
    "load register -",
    "load tolerance 1 cycle 1",
    "load cycle 1 cycle 1",
    "load c5 1 c1 1",
    "state",
    "state 0x1C 0",
    "command 18446744073709551616",
    "kind",
    "kind 0x8245 0",
    "kind 18446744073709551616",
    "range",
    "range 5",
    "range 5 6 7",
    "range 5 18446744073709551616",
    "margin",
    "margin 5 6",
    "margin -1",
    "watch 256 50 0",
    "watch 17 50",
    "unwatch 1",
    "show 1",
];
