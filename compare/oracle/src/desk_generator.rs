//! Writes seeded scripts of calls on the desk's buffer, with calls on a head between them. They are scripts of their own: no call on a
//! head looks at the desk, and the scripts of generator.rs stay as they are.

use crate::generator::Random;
use crate::view::Driven;
use std::io::{self, Write};

const START: &str = "start 7 0 5000 2 0 1000 - 0 0 0 0";

/// Lengths of the desk's buffer, around one, two and five entries.
const LENGTHS: [u64; 12] = [0, 1, 19, 20, 21, 39, 40, 41, 60, 80, 99, 100];
const PROFILES: [u64; 8] = [0, 1, 2, 4094, 4095, 4096, 0x8002, 0xFFFF];
const CODES: [u64; 4] = [0, 0x8000, 0x8245, 0xFFFF];
const SECONDS: [u64; 4] = [0, 1, 0x8000_0000, 0xFFFF_FFFF];
const NANOSECONDS: [u64; 5] = [0, 12_100_000, 999_999_999, 1_000_000_000, 0xFFFF_FFFF];

/// Lines that are not to be read, as they stand.
const UNREADABLE: [&str; 26] = [
    "desk",
    "desk ",
    "desk 0",
    "desk 00F",
    "desk 0G",
    "desk 00 11",
    "desk --",
    "desk - ",
    "desk 0x00",
    "desk 00\t",
    "Desk 00",
    "entrywrite",
    "entrywrite 0 0 1 3 2 0x8245 0 12100000",
    "entrywrite 0 0 1 3 2 0x8245 0 12100000 0 0",
    "entrywrite 0 2 1 3 2 0x8245 0 12100000 0",
    "entrywrite 0 0 2 3 2 0x8245 0 12100000 0",
    "entrywrite 0 0 1 4 2 0x8245 0 12100000 0",
    "entrywrite 0 0 1 3 65536 0x8245 0 12100000 0",
    "entrywrite 0 0 1 3 2 0x18245 0 12100000 0",
    "entrywrite 0 0 1 3 2 0x8245 4294967296 12100000 0",
    "entrywrite 0 0 1 3 2 0x8245 0 4294967296 0",
    "entrywrite 18446744073709551616 0 1 3 2 0x8245 0 12100000 0",
    "entrywrite -1 0 1 3 2 0x8245 0 12100000 0",
    "entryread",
    "entryread -",
    "entryread 0x0270458200000000A0A1B8000000000000000000",
];

/// Calls on the head.
const ON_THE_HEAD: [&str; 6] = [
    "nmt 5",
    "nmt 10",
    "error 6 0 0",
    "cycle",
    "tick 5000",
    "handout",
];

/// What a script has to reach in 200,000 calls, each so often.
const MINIMUM: u64 = 200;

const CASES: [&str; 26] = [
    "write taken",
    "write refused 11",
    "write refused 12",
    "write refused 11 with a profile above 4095",
    "write with exactly 20 bytes left",
    "write with 19 bytes left",
    "write at the end",
    "write past the end",
    "write at a place that wraps when 20 is added",
    "write into an empty desk",
    "write at place 0",
    "profile 4095",
    "profile 4096",
    "mode 0",
    "mode 1",
    "mode 2",
    "mode 3",
    "status mark",
    "queue mark",
    "nanoseconds above 999999999",
    "read of what was written",
    "read of any bytes",
    "empty desk",
    "desk of 100 bytes",
    "call on the head",
    "unreadable",
];

/// How often each case was reached, and each line printed.
pub struct Reached {
    calls: u64,
    shows: u64,
    cases: [u64; CASES.len()],
}

impl Reached {
    fn count(&mut self, case: &str) {
        let place = CASES.iter().position(|name| *name == case);
        self.cases[place.expect("a case has a name")] += 1;
    }

    fn count_if(&mut self, holds: bool, case: &str) {
        if holds {
            self.count(case);
        }
    }

    pub fn report(&self, out: &mut dyn Write) -> io::Result<()> {
        writeln!(out, "Calls in all: {}", self.calls)?;
        for (name, count) in CASES.iter().zip(self.cases) {
            writeln!(out, "  {name}: {count}")?;
        }
        writeln!(out, "  show: {}", self.shows)
    }

    pub fn shortfalls(&self) -> Vec<String> {
        let cases = CASES.iter().zip(self.cases);
        let short = cases.filter(|(_, count)| *count < MINIMUM);
        short
            .map(|(name, count)| format!("{name}: {count}, at least {MINIMUM}"))
            .collect()
    }
}

/// Writes a script of about `calls` calls and gives each line to the head.
pub fn generate(
    head: &mut dyn Driven,
    seed: u64,
    calls: u64,
    out: &mut dyn Write,
) -> io::Result<Reached> {
    let mut script = Script {
        head,
        out,
        random: Random(seed),
        desk: Vec::new(),
        reached: Reached {
            calls: 0,
            shows: 0,
            cases: [0; CASES.len()],
        },
    };
    script.before_the_first_start()?;
    while script.reached.calls < calls {
        script.lay()?;
        for _ in 0..1 + script.random.below(12) {
            script.line()?;
        }
    }
    script.show()?;
    Ok(script.reached)
}

struct Script<'a> {
    head: &'a mut dyn Driven,
    out: &'a mut dyn Write,
    random: Random,
    /// The desk's bytes, as the head shows them.
    desk: Vec<u8>,
    reached: Reached,
}

impl Script<'_> {
    fn give(&mut self, line: &str) -> io::Result<Vec<String>> {
        writeln!(self.out, "{line}")?;
        Ok(self.head.line(line))
    }

    /// A call; what it answers.
    fn call(&mut self, line: &str) -> io::Result<String> {
        self.reached.calls += 1;
        let answers = self.give(line)?;
        Ok(answers.into_iter().next().unwrap_or_default())
    }

    /// Shows the head, and looks at the desk's bytes.
    fn show(&mut self) -> io::Result<()> {
        self.reached.shows += 1;
        let lines = self.give("show")?;
        let shown = lines.iter().find_map(|line| line.strip_prefix("(desk"));
        let digits = shown.unwrap_or("").trim_matches([' ', ')']);
        self.desk = (0..digits.len() / 2)
            .map(|place| u8::from_str_radix(&digits[2 * place..2 * place + 2], 16))
            .collect::<Result<_, _>>()
            .expect("a desk is shown as digits");
        Ok(())
    }

    /// The desk may be laid before a start; no call may be made.
    fn before_the_first_start(&mut self) -> io::Result<()> {
        let lines = [
            "desk 00FF",
            "entrywrite 0 0 1 3 2 0x8245 0 12100000 0",
            "entryread 0270458200000000A0A1B8000000000000000000",
            "show",
            START,
        ];
        for line in lines {
            self.give(line)?;
        }
        self.show()
    }

    fn bytes(&mut self, count: u64) -> Vec<u8> {
        let all = self
            .random
            .pick(&[None, None, None, Some(0x00), Some(0xFF)]);
        (0..count)
            .map(|_| all.unwrap_or(self.random.below(256) as u8))
            .collect()
    }

    /// Digits of either case.
    fn digits(&mut self, bytes: &[u8]) -> String {
        let lower = self.random.one_in(3);
        let digit = |byte: &u8| {
            if lower {
                format!("{byte:02x}")
            } else {
                format!("{byte:02X}")
            }
        };
        bytes.iter().map(digit).collect()
    }

    /// A desk of some length.
    fn lay(&mut self) -> io::Result<()> {
        let any = self.random.below(101);
        let length = self.random.pick(&LENGTHS);
        let length = if self.random.one_in(4) { any } else { length };
        let bytes = self.bytes(length);
        self.reached.count_if(length == 0, "empty desk");
        self.reached.count_if(length == 100, "desk of 100 bytes");
        let digits = if length == 0 {
            "-".to_string()
        } else {
            self.digits(&bytes)
        };
        self.give(&format!("desk {digits}"))?;
        self.desk = bytes;
        Ok(())
    }

    fn line(&mut self) -> io::Result<()> {
        match self.random.below(12) {
            0..=6 => self.write()?,
            7 | 8 => {
                let bytes = self.bytes(20);
                self.read(&bytes, "read of any bytes")?;
            }
            9 | 10 => {
                self.reached.count("call on the head");
                let line = self.random.pick(&ON_THE_HEAD);
                self.call(line)?;
            }
            _ => self.unreadable()?,
        }
        if self.random.one_in(3) {
            self.show()?;
        }
        Ok(())
    }

    fn unreadable(&mut self) -> io::Result<()> {
        let long = "00".repeat(101);
        let line = match self.random.below(6) {
            0 => format!("desk {long}"),
            1 => format!("entryread {}", &long[..38]),
            2 => format!("entryread {}", &long[..42]),
            _ => self.random.pick(&UNREADABLE).to_string(),
        };
        let answers = self.give(&line)?;
        let unreadable = answers
            .iter()
            .any(|answer| answer.starts_with("(unreadable"));
        self.reached.count_if(unreadable, "unreadable");
        Ok(())
    }

    /// A place around the bounds, near 2^64, or any.
    fn place(&mut self) -> u64 {
        let length = self.desk.len() as u64;
        let near_the_top = u64::MAX - self.random.below(25);
        let beyond = self
            .random
            .pick(&[1 << 32, 1 << 63, near_the_top, near_the_top]);
        match self.random.below(10) {
            0 => length.saturating_sub(20),
            1 => length.saturating_sub(19),
            2 => length,
            3 => length + 1 + self.random.below(20),
            4 => beyond,
            5 => 0,
            _ => self.random.below(length.saturating_sub(19).max(1)),
        }
    }

    /// One of the values, or any number below a limit.
    fn value(&mut self, values: &[u64], limit: u64) -> u64 {
        match self.random.below(3) {
            0 => self.random.below(limit),
            _ => self.random.pick(values),
        }
    }

    fn write(&mut self) -> io::Result<()> {
        let place = self.place();
        let (status, queue) = (self.random.below(2), self.random.below(2));
        let mode = self.random.below(4);
        let profile = self.value(&PROFILES, 4096);
        let code = self.value(&CODES, 1 << 16);
        let seconds = self.value(&SECONDS, 1 << 32);
        let nanoseconds = self.value(&NANOSECONDS, 1 << 32);
        let any = self.random.next();
        let additional = self.random.pick(&[0, u64::MAX, any, any]);
        let answer = self.call(&format!(
            "entrywrite {place} {status} {queue} {mode} {profile} {code} {seconds} {nanoseconds} {additional}"
        ))?;
        self.count_place(place, profile, &answer);
        if answer != "(taken)" {
            return Ok(());
        }
        let reached = &mut self.reached;
        reached.count("write taken");
        reached.count_if(profile == 4095, "profile 4095");
        reached.count(["mode 0", "mode 1", "mode 2", "mode 3"][mode as usize]);
        reached.count_if(status == 1, "status mark");
        reached.count_if(queue == 1, "queue mark");
        reached.count_if(nanoseconds > 999_999_999, "nanoseconds above 999999999");
        if self.random.one_in(4) {
            self.show()?;
            let place = place as usize;
            let written = self.desk[place..place + 20].to_vec();
            self.read(&written, "read of what was written")?;
        }
        Ok(())
    }

    fn count_place(&mut self, place: u64, profile: u64, answer: &str) {
        let length = self.desk.len() as u64;
        let left = length.checked_sub(place);
        let reached = &mut self.reached;
        reached.count_if(answer == "(refused 11)", "write refused 11");
        reached.count_if(answer == "(refused 12)", "write refused 12");
        reached.count_if(answer == "(refused 12)" && profile == 4096, "profile 4096");
        let both = answer == "(refused 11)" && profile > 4095;
        reached.count_if(both, "write refused 11 with a profile above 4095");
        reached.count_if(left == Some(20), "write with exactly 20 bytes left");
        reached.count_if(left == Some(19), "write with 19 bytes left");
        reached.count_if(left == Some(0), "write at the end");
        reached.count_if(left.is_none(), "write past the end");
        let wraps = place.checked_add(20).is_none();
        reached.count_if(wraps, "write at a place that wraps when 20 is added");
        reached.count_if(length == 0, "write into an empty desk");
        reached.count_if(place == 0, "write at place 0");
    }

    fn read(&mut self, bytes: &[u8], case: &str) -> io::Result<()> {
        self.reached.count(case);
        let digits = self.digits(bytes);
        self.call(&format!("entryread {digits}"))?;
        Ok(())
    }
}
