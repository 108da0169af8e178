//! `src/raw/functions.rs` declares the functions of the header: the same names, with the same
//! parameters in the same order.

use std::fs;
use std::path::Path;

/// A function and the names of its parameters.
type Function = (String, Vec<String>);

fn read(path: &str) -> String {
    let path = Path::new(env!("CARGO_MANIFEST_DIR")).join(path);
    fs::read_to_string(&path).unwrap_or_else(|error| panic!("{}: {error}", path.display()))
}

/// A text with a semicolon for what stands from each of one mark to the next of the other.
fn without(text: &str, from: &str, to: &str) -> String {
    let mut rest = text;
    let mut kept = String::new();
    while let Some((before, behind)) = rest.split_once(from) {
        kept.push_str(before);
        kept.push(';');
        rest = behind.split_once(to).map_or("", |(_, behind)| behind);
    }
    kept + rest
}

/// The functions of the header. What is between braces declares none.
fn of_the_header() -> Vec<Function> {
    let text = without(&read("../include/powerlink_cn.h"), "/*", "*/");
    let code: String = text
        .lines()
        .filter(|line| !line.starts_with('#'))
        .collect::<Vec<_>>()
        .join(" ");
    let mut functions = Vec::new();
    for part in without(&code, "{", "}").split(';') {
        let Some((before, parameters)) = part.trim().split_once('(') else {
            continue;
        };
        let words: Vec<&str> = before.split_whitespace().collect();
        let [kind @ .., name] = &words[..] else {
            continue;
        };
        if !name.starts_with("plcn_") || kind.contains(&"static") {
            continue;
        }
        let (parameters, _) = parameters.split_once(')').expect("its parameters end");
        let parameters = parameters
            .split(',')
            .map(str::trim)
            .filter(|parameter| *parameter != "void");
        functions.push((name.to_string(), parameters.map(name_of).collect()));
    }
    functions
}

/// The name of a parameter of C: its last word, without an asterisk and a length.
fn name_of(parameter: &str) -> String {
    let name = parameter.split('[').next().unwrap_or(parameter);
    name.rsplit([' ', '*']).next().unwrap_or(name).to_string()
}

fn of_this_crate() -> Vec<Function> {
    let text = read("src/raw/functions.rs");
    let mut functions = Vec::new();
    for part in text.split(" fn ").skip(1) {
        let (name, rest) = part.split_once('(').expect("it has parameters");
        let (parameters, _) = rest.split_once(") -> ").expect("it answers something");
        let names = parameters
            .split(',')
            .filter_map(|parameter| parameter.split_once(':'));
        let names = names.map(|(name, _)| name.trim().to_string());
        functions.push((name.to_string(), names.collect()));
    }
    functions
}

#[test]
fn each_function_of_the_header_is_declared() {
    let mut header = of_the_header();
    let mut own = of_this_crate();
    assert!(
        header.len() > 60,
        "the header has functions: {}",
        header.len()
    );
    header.sort();
    own.sort();
    for (header, own) in header.iter().zip(&own) {
        assert_eq!(header, own);
    }
    assert_eq!(header.len(), own.len());
}
