//! The stored call scripts of the repository (docs/CALLS.md), played through the wrapper: each line
//! on a node and on a weigh head, and what is lent a run also over places of the caller's. What is
//! printed is compared with what is stored, byte for byte.
//!
//! A script is read by the reader of the comparison, which reads numbers alone.

mod forms;
mod kinds;
mod over;
mod run;
#[allow(dead_code)]
#[path = "../../../compare/oracle/src/script.rs"]
mod script;
mod station;

use station::Station;
use std::fs;
use std::path::{Path, PathBuf};

fn scripts() -> PathBuf {
    Path::new(env!("CARGO_MANIFEST_DIR")).join("../compare/scripts")
}

/// What a script prints. A newline at its end begins no further line.
fn played(script: &[u8]) -> String {
    let mut station = Station::new();
    let script = script.strip_suffix(b"\n").unwrap_or(script);
    let mut printed = String::new();
    for line in script.split(|byte| *byte == b'\n') {
        for answer in station.take(line) {
            printed.push_str(&answer);
            printed.push('\n');
        }
    }
    printed
}

/// Stops at the first line that is not as stored.
fn compare(name: &str, printed: &str, stored: &str) {
    for (number, (printed, stored)) in printed.lines().zip(stored.lines()).enumerate() {
        assert_eq!(printed, stored, "line {} of {name}.out", number + 1);
    }
    assert!(printed == stored, "{name}.out has more or fewer lines");
}

#[test]
fn the_stored_scripts_print_what_is_stored() {
    let mut names: Vec<String> = fs::read_dir(scripts())
        .expect("compare/scripts is there")
        .map(|file| file.expect("it can be listed").path())
        .filter(|path| path.extension().is_some_and(|extension| extension == "txt"))
        .map(|path| {
            path.file_stem()
                .expect("it has a name")
                .to_string_lossy()
                .into_owned()
        })
        .collect();
    names.sort();
    assert!(
        names.iter().any(|name| name == "rules"),
        "the scripts are there"
    );
    for name in names {
        let script = fs::read(scripts().join(format!("{name}.txt"))).expect("it can be read");
        let stored = fs::read_to_string(scripts().join(format!("{name}.out")))
            .unwrap_or_else(|error| panic!("{name}.out: {error}"));
        compare(&name, &played(&script), &stored);
    }
}

/// That the test above can fail: the script's heads with another number.
#[test]
fn another_script_prints_something_else() {
    let script = fs::read_to_string(scripts().join("rules.txt")).expect("it can be read");
    let stored = fs::read_to_string(scripts().join("rules.out")).expect("it can be read");
    let printed = played(script.replace("start 7 ", "start 8 ").as_bytes());
    assert!(printed != stored);
    assert_eq!(printed.replace("(node 8)", "(node 7)"), stored);
}
