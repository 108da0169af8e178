//! The benchmark: what a call costs through the C interface of the static library, beside the same
//! call on the original Rust. docs/PERFORMANCE.md says how it is measured.

mod document;
mod ffi;
mod figure;
mod measure;
mod memory;
mod ours;
mod over;
mod stack;
mod table;

use std::io::Write;
use std::path::PathBuf;
use std::process::ExitCode;

const HELP: &str = "\
usage: bench [--processes N] [--rounds N] [--store FOLDER]

Measures each call of the static library beside the original Rust, prints the table, and ends in the
line 'worst ratio R CALL'. Progress goes to standard error.

  --processes N    processes that measure, one behind another; the least counts (12)
  --rounds N       rounds of a process, in each of which every side is measured once (30)
  --store FOLDER   also writes the table into PERFORMANCE.md of the folder, and performance.svg
  --help           this text
  --version        the version of the library

Exit status: 0; 1 where the two sides do not do the same or a file can't be written; 2 where the
arguments are wrong.";

/// What the arguments say.
pub struct Options {
    pub processes: u32,
    pub rounds: u32,
    pub store: Option<PathBuf>,
    /// Whether this process is one that measures.
    pub once: bool,
}

enum Asked {
    Run(Options),
    Help,
    Version,
}

fn read(mut arguments: impl Iterator<Item = String>) -> Result<Asked, String> {
    let mut options = Options {
        processes: 12,
        rounds: 30,
        store: None,
        once: false,
    };
    while let Some(argument) = arguments.next() {
        let mut value = || arguments.next().ok_or(format!("{argument} needs a value"));
        match argument.as_str() {
            "--help" => return Ok(Asked::Help),
            "--version" => return Ok(Asked::Version),
            "--once" => options.once = true,
            "--processes" => options.processes = number(&value()?)?,
            "--rounds" => options.rounds = number(&value()?)?,
            "--store" => options.store = Some(value()?.into()),
            _ => return Err(format!("{argument} is no option")),
        }
    }
    Ok(Asked::Run(options))
}

fn number(text: &str) -> Result<u32, String> {
    match text.parse() {
        Ok(number) if number > 0 => Ok(number),
        _ => Err(format!("{text} is no number above 0")),
    }
}

fn main() -> ExitCode {
    let options = match read(std::env::args().skip(1)) {
        Ok(Asked::Run(options)) => options,
        Ok(Asked::Help) => {
            println!("{HELP}");
            return ExitCode::SUCCESS;
        }
        Ok(Asked::Version) => {
            let version = unsafe { ffi::plcn_version() };
            let (major, minor, patch) = (version / 10_000, version / 100 % 100, version % 100);
            println!("powerlink_cn {major}.{minor}.{patch}");
            return ExitCode::SUCCESS;
        }
        Err(message) => {
            eprintln!("bench: {message}; --help lists the options.");
            return ExitCode::from(2);
        }
    };
    let text = if options.once {
        Ok(measure::once(options.rounds))
    } else {
        run(&options)
    };
    match text.and_then(print) {
        Ok(()) => ExitCode::SUCCESS,
        Err(message) => {
            eprintln!("bench: {message}");
            ExitCode::FAILURE
        }
    }
}

fn print(text: String) -> Result<(), String> {
    let written = std::io::stdout().write_all(text.as_bytes());
    written.map_err(|error| format!("the output can't be written: {error}"))
}

/// What is printed.
fn run(options: &Options) -> Result<String, String> {
    // First, while the heap is as the program found it.
    let facts = memory::facts();
    measure::check_alike()?;
    let times = measure::all(options)?;
    if let Some(folder) = &options.store {
        document::store(folder, &times, &facts)?;
    }
    Ok([
        table::as_text(&times),
        table::over(&times),
        table::beside(&times, &facts),
        table::worst(&times) + "\n",
    ]
    .concat())
}
