//! What the oracle does with a whole script.

use crate::dictionary::Defaults;
use crate::forms;
use crate::head::Resets;
use crate::oracle::Oracle;
use crate::places::level;
use powerlink_rs::frame::error::ThresholdCounter;
use std::io::{self, Write};
use std::panic;

/// The lines of a script. A newline at the end begins no further line.
fn lines(script: &[u8]) -> impl Iterator<Item = &[u8]> {
    let script = script.strip_suffix(b"\n").unwrap_or(script);
    script.split(|byte| *byte == b'\n')
}

/// Prints what each line answers.
pub fn replay(script: &[u8], resets: Resets, out: &mut dyn Write) -> io::Result<()> {
    let mut oracle = Oracle::new(Defaults::Without, resets);
    for line in lines(script) {
        for printed in oracle.take(line) {
            writeln!(out, "{printed}")?;
        }
    }
    Ok(())
}

/// Prints the script again, with loads added. A reset here restores default values; behind each that
/// restores kept ones, the printed script loads what the restore made of them. The second oracle has
/// no default values and is given the printed script: the two are held to each other.
pub fn restore(script: &[u8], out: &mut dyn Write) -> io::Result<()> {
    let mut restoring = Oracle::new(Defaults::With, Resets::Forget);
    let mut loading = Oracle::new(Defaults::Without, Resets::Forget);
    for line in lines(script) {
        let restored = restoring.take(line);
        let loaded = loading.take(line);
        out.write_all(line)?;
        writeln!(out)?;
        if !is_unreadable(&restored) {
            // Of an unreadable line the number is printed, which the added loads change.
            assert_eq!(loaded, restored, "both answer alike");
        }
        if restored.iter().any(|answer| restores_kept(answer)) {
            let load = restoring.load_line().expect("a reset has a head");
            writeln!(out, "{load}")?;
            loading.take(load.as_bytes());
            assert_eq!(loading.show(), restoring.show(), "a load is a restore");
        }
    }
    Ok(())
}

fn is_unreadable(printed: &[String]) -> bool {
    printed.iter().any(|line| line.starts_with("(unreadable"))
}

/// Whether the answer is that of a reset, by an event or in a frame, whose ranges have the objects of the kept values.
fn restores_kept(answer: &str) -> bool {
    answer.contains("(entered ") && answer.contains(&forms::range(0x1000, 0x1FFF))
}

/// Gives a counter of the original at threshold 0 errors up to the 32-bit top, which no script reaches, and asserts that its level
/// stops there, that it never crosses and that a cycle still lowers it; prints how many errors the top takes.
pub fn top(out: &mut dyn Write) -> io::Result<()> {
    let mut counter = ThresholdCounter::new(0);
    let error = |counter: &mut ThresholdCounter| {
        counter.increment();
        assert!(!counter.check_and_reset(), "a threshold of 0 never crosses");
    };
    let below = u32::MAX / 8;
    for _ in 0..below {
        error(&mut counter);
    }
    assert_eq!(level(&counter), 8 * below);
    for _ in 0..2 {
        error(&mut counter);
        assert_eq!(level(&counter), u32::MAX, "it stops at the top");
    }
    counter.decrement();
    assert_eq!(level(&counter), u32::MAX - 1);
    error(&mut counter);
    assert_eq!(level(&counter), u32::MAX);
    assert_eq!(counter.cumulative_count(), 0);
    writeln!(out, "(top (errors {}))", u64::from(below) + 1)
}

/// What the original says when it takes a later time from an earlier one.
const TOO_EARLY: &str = "attempt to subtract with overflow";

/// Runs the original tick where number 6 refuses, and asserts that it panics and that nothing of
/// the head has changed by then; prints how often.
pub fn panics(script: &[u8], out: &mut dyn Write) -> io::Result<()> {
    let mut oracle = Oracle::new(Defaults::Without, Resets::Forget);
    let mut tried = 0;
    for line in lines(script) {
        if oracle.take(line) != [forms::refused(6)] {
            continue;
        }
        tried += 1;
        let before = oracle.show();
        // A panic that is looked for is not reported.
        let hook = panic::take_hook();
        panic::set_hook(Box::new(|_| {}));
        let message = oracle.panic_at(line);
        panic::set_hook(hook);
        assert_eq!(message.as_deref(), Some(TOO_EARLY), "the original panics");
        assert_eq!(
            oracle.show(),
            before,
            "it panics before it changes the head"
        );
    }
    writeln!(out, "(panics (tried {tried}))")
}

/// Holds each earliest moment that was worked out to the original's tick: a watched node is late at the moment, and none is
/// before it. Prints how often there was one, and how often none.
pub fn moments(script: &[u8], out: &mut dyn Write) -> io::Result<()> {
    let mut oracle = Oracle::new(Defaults::Without, Resets::Forget);
    let (mut some, mut none) = (0, 0);
    for line in lines(script) {
        match oracle.take_and_check_earliest(line) {
            Some(true) => some += 1,
            Some(false) => none += 1,
            None => {}
        }
    }
    writeln!(out, "(moments (tried {some}) (none {none}))")
}
