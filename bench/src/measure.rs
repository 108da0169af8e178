//! Measures every row on the three sides: ours, the original, and the original without a log
//! prefix.

use crate::ours::Ours;
use crate::{Options, ffi, over};
use rows::{Case, Measured, Row, View, Work, keep_number};
use std::process::{Command, Stdio};

/// The times of a row, in ns: ours, the original, the original without a log prefix.
pub type Three = [f64; 3];

/// The least time of each row.
pub struct Times {
    pub rows: Vec<(String, Work, Three)>,
    /// Of a call across the boundary that does nothing.
    pub empty: f64,
    /// Of the calls over a run, and over places of any length.
    pub over: Vec<(&'static str, usize, [f64; 2])>,
}

impl Times {
    /// The ratio of a row to one of the two others: ours over theirs and an empty call.
    pub fn ratio(&self, three: &Three, other: usize) -> f64 {
        three[0] / (three[other] + self.empty)
    }

    /// The time of a side in a row that is there.
    pub fn of(&self, name: &str, side: usize) -> f64 {
        let row = self.rows.iter().find(|(row, ..)| row == name);
        row.expect("the row is there").2[side]
    }
}

/// The rows of each side, in the same order.
fn sides() -> [Vec<Row>; 3] {
    [
        rows::rows::<Ours>(),
        theirs::rows(),
        theirs_without_prefix::rows(),
    ]
}

/// That a row's calls find and leave the same on every side, where the row is the same work.
pub fn check_alike() -> Result<(), String> {
    let [ours, others @ ..] = sides();
    for other in others {
        for (ours, theirs) in ours.iter().zip(&other) {
            assert_eq!(ours.name, theirs.name, "the rows have one order");
            if ours.work == Work::Bare {
                continue;
            }
            let (mine, yours) = ((ours.views)(), (theirs.views)());
            if mine != yours {
                let before = differences(&mine.0, &yours.0);
                let behind = differences(&mine.1, &yours.1);
                let name = &ours.name;
                return Err(format!(
                    "the sides differ in the row '{name}'.\nbefore:\n{before}behind:\n{behind}"
                ));
            }
        }
    }
    Ok(())
}

/// The fields in which two views differ, a line each.
fn differences(ours: &View, theirs: &View) -> String {
    let (ours, theirs) = (format!("{ours:#?}"), format!("{theirs:#?}"));
    let lines = ours.lines().zip(theirs.lines());
    let differ = lines.filter(|(ours, theirs)| ours != theirs);
    differ
        .map(|(ours, theirs)| format!("    ours {}  Rust {}\n", ours.trim(), theirs.trim()))
        .collect()
}

/// Empty calls. Where the loop stands in memory changes its time, so there are some of them.
fn empty<const PLACE: u64>() -> Box<dyn Case> {
    rows::calls(0, 1, |_: &mut Ours, _| {
        keep_number(unsafe { ffi::plcn_version() }.into());
        keep_number(PLACE);
    })
}

/// One process: measures all cases, those of a row in turn; a line for each, of its two times.
pub fn once(rounds: u32) -> String {
    let mut text = String::new();
    let mut measure = |mut cases: Vec<Box<dyn Case>>| {
        let mut least = vec![Measured::NONE; cases.len()];
        for _ in 0..rounds {
            for (case, least) in cases.iter_mut().zip(&mut least) {
                *least = least.least(case.measure());
            }
        }
        for Measured { both, prepared } in least {
            text += &format!("{both} {prepared}\n");
        }
    };
    measure(vec![empty::<0>(), empty::<1>(), empty::<2>(), empty::<3>()]);
    for pair in over::pairs() {
        measure((pair.cases)().into());
    }
    let [ours, theirs, without] = sides();
    for ((ours, theirs), without) in ours.iter().zip(&theirs).zip(&without) {
        measure([ours, theirs, without].map(|row| (row.case)()).into());
    }
    text
}

/// All processes: the least times of all of them.
pub fn all(options: &Options) -> Result<Times, String> {
    let mut least: Vec<Measured> = Vec::new();
    for process in 1..=options.processes {
        eprintln!("bench: process {process} of {} measures", options.processes);
        let now = printed(options.rounds)?;
        if least.is_empty() {
            least = now;
        } else {
            least = least
                .into_iter()
                .zip(now)
                .map(|(one, other)| one.least(other))
                .collect();
        }
    }
    let mut calls = least.into_iter().map(Measured::call);
    let mut next = || calls.next().expect("a process measures every case");
    Ok(Times {
        empty: [next(), next(), next(), next()]
            .into_iter()
            .fold(f64::INFINITY, f64::min),
        over: over::pairs()
            .into_iter()
            .map(|pair| (pair.name, pair.number, [next(), next()]))
            .collect(),
        rows: rows::rows::<Ours>()
            .into_iter()
            .map(|row| (row.name, row.work, [next(), next(), next()]))
            .collect(),
    })
}

/// What one process measured.
fn printed(rounds: u32) -> Result<Vec<Measured>, String> {
    let program = std::env::current_exe().map_err(|error| format!("where it stands: {error}"))?;
    let output = Command::new(program)
        .args(["--once", "--rounds", &rounds.to_string()])
        .stderr(Stdio::inherit())
        .output()
        .map_err(|error| format!("a process could not be started: {error}"))?;
    if !output.status.success() {
        return Err("a process that measures failed".to_string());
    }
    let text = String::from_utf8_lossy(&output.stdout);
    let measured = |line: &str| {
        let (both, prepared) = line.split_once(' ')?;
        Some(Measured {
            both: both.parse().ok()?,
            prepared: prepared.parse().ok()?,
        })
    };
    let times: Option<Vec<Measured>> = text.lines().map(measured).collect();
    times.ok_or("a process that measures printed something else".to_string())
}
