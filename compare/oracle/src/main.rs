//! The oracle of the comparison: reads a call script (docs/CALLS.md), drives the original Rust and
//! prints what the script's calls answer. Behind each reset it sets by hand what RULES 4.5
//! lets a reset forget. Behind `cumulative` stand the errors that reached a counter of the original,
//! and its own cumulative values are the crossings (RULES 6.2). Thresholds that a start names
//! are given to its counters (RULES 6.1). The run of watched nodes is set as its heartbeat consumers, which an
//! add and a removal change (RULES 8). Recipes are kept beside the original, which has none (RULES 12); by `original` a reset leaves them too.
//!
//!     oracle [replay] < SCRIPT     the answers
//!     oracle original < SCRIPT     the answers of the original as it is, whose resets forget nothing
//!     oracle restore < SCRIPT      the script again, with loads of what its resets restored
//!     oracle panics < SCRIPT       how many ticks number 6 refused; the original panics at each
//!     oracle moments < SCRIPT      how many earliest moments there were; a tick of the original finds each
//!     oracle generate SEED CALLS   a generated script; its coverage on standard error
//!     oracle generate SEED CALLS without-ticks   the same of the other calls
//!     oracle generate SEED CALLS desk            a script of calls on the desk's buffer
//!     oracle top                   how many errors take a level of the original at threshold 0 to the 32-bit top
//!     oracle shortest              the shortest ways of the original to ReadyToOperate with an old ready word

mod clock;
mod coverage;
mod desk;
mod desk_generator;
mod dictionary;
#[path = "../../driver/occurrences.rs"]
mod occurrences;
#[path = "../../driver/forms.rs"]
mod places;
#[path = "../../driver/reset.rs"]
mod reset;

mod forms;
mod frame;
mod generator;
mod head;
mod incident;
mod kinds;
mod modes;
mod oracle;
mod partners;
mod recipes;
mod run;
mod script;
mod view;

use coverage::Ticks;
use dictionary::Defaults;
use head::Resets;
use oracle::Oracle;
use std::io::{self, BufWriter, Read, Write};
use std::process::ExitCode;

/// The number of calls that the minima of coverage.rs and desk_generator.rs are made for.
const LONG: u64 = 200_000;

const USAGE: &str = "usage: oracle [replay | original | restore | panics | moments] < SCRIPT, or oracle generate SEED CALLS [without-ticks | desk], or oracle top, or oracle shortest";

fn main() -> ExitCode {
    let arguments: Vec<String> = std::env::args().skip(1).collect();
    let arguments: Vec<&str> = arguments.iter().map(String::as_str).collect();
    let mut out = BufWriter::new(io::stdout().lock());
    let done = run(&arguments, &mut out);
    match done.and_then(|()| out.flush()) {
        Ok(()) => ExitCode::SUCCESS,
        Err(error) => {
            eprintln!("oracle: {error}");
            ExitCode::FAILURE
        }
    }
}

fn run(arguments: &[&str], out: &mut dyn Write) -> io::Result<()> {
    match *arguments {
        [] | ["replay"] => modes::replay(&script()?, Resets::Forget, out),
        ["original"] => modes::replay(&script()?, Resets::AsTheOriginal, out),
        ["restore"] => modes::restore(&script()?, out),
        ["panics"] => modes::panics(&script()?, out),
        ["moments"] => modes::moments(&script()?, out),
        ["generate", seed, calls] => generate(seed, calls, Ticks::With, out),
        ["generate", seed, calls, "without-ticks"] => generate(seed, calls, Ticks::Without, out),
        ["generate", seed, calls, "desk"] => generate_desk(seed, calls, out),
        ["top"] => modes::top(out),
        ["shortest"] => incident::shortest(out),
        _ => Err(io::Error::other(USAGE)),
    }
}

fn script() -> io::Result<Vec<u8>> {
    let mut script = Vec::new();
    io::stdin().read_to_end(&mut script)?;
    Ok(script)
}

fn generate(seed: &str, calls: &str, ticks: Ticks, out: &mut dyn Write) -> io::Result<()> {
    let (seed, calls) = seed_and_calls(seed, calls)?;
    let mut head = Oracle::new(Defaults::Without, Resets::Forget);
    let coverage = generator::generate(&mut head, seed, calls, ticks, out)?;
    coverage.report(&mut io::stderr().lock())?;
    held(calls, &coverage.shortfalls())
}

fn generate_desk(seed: &str, calls: &str, out: &mut dyn Write) -> io::Result<()> {
    let (seed, calls) = seed_and_calls(seed, calls)?;
    let mut head = Oracle::new(Defaults::Without, Resets::Forget);
    let reached = desk_generator::generate(&mut head, seed, calls, out)?;
    reached.report(&mut io::stderr().lock())?;
    held(calls, &reached.shortfalls())
}

fn seed_and_calls(seed: &str, calls: &str) -> io::Result<(u64, u64)> {
    match (seed.parse(), calls.parse()) {
        (Ok(seed), Ok(calls)) => Ok((seed, calls)),
        _ => Err(io::Error::other(USAGE)),
    }
}

/// The minima are those of a long script; a short one can't meet them all.
fn held(calls: u64, shortfalls: &[String]) -> io::Result<()> {
    if calls < LONG || shortfalls.is_empty() {
        return Ok(());
    }
    for shortfall in shortfalls {
        eprintln!("too few: {shortfall}");
    }
    Err(io::Error::other(
        "the script does not reach all that it should",
    ))
}
