//! Writes the numbers into docs/PERFORMANCE.md, and the plot beside it.

use crate::measure::Times;
use crate::memory::Facts;
use crate::{figure, table};
use std::fs;
use std::path::Path;

/// The lines between which the numbers stand.
const BEGIN: &str = "<!-- written by make bench -->\n";
const END: &str = "<!-- end -->\n";

pub fn store(folder: &Path, times: &Times, facts: &Facts) -> Result<(), String> {
    let page = folder.join("PERFORMANCE.md");
    let told = |path: &Path, error| format!("{}: {error}", path.display());
    let text = fs::read_to_string(&page).map_err(|error| told(&page, error))?;
    let parts = text
        .split_once(BEGIN)
        .and_then(|(before, rest)| Some((before, rest.split_once(END)?.1)));
    let Some((before, behind)) = parts else {
        return Err(format!(
            "{} lacks the line {BEGIN}or the line {END}",
            page.display()
        ));
    };
    let numbers = format!(
        "Measured on: {}.\n\n{}\n{}\n`{}`\n",
        processor(),
        table::beside_on_the_page(times, facts),
        table::as_markdown(times),
        table::worst(times)
    );
    fs::write(&page, format!("{before}{BEGIN}{numbers}{END}{behind}"))
        .map_err(|error| told(&page, error))?;
    let plot = folder.join("performance.svg");
    fs::write(&plot, figure::svg(times)).map_err(|error| told(&plot, error))
}

/// The kind of the machine's processor, as Linux tells it.
fn processor() -> String {
    let text = fs::read_to_string("/proc/cpuinfo").unwrap_or_default();
    let field = |name: &str| {
        let line = text.lines().find(|line| line.starts_with(name));
        let value = line.and_then(|line| line.split_once(": "));
        value.map_or("unknown", |(_, value)| value)
    };
    let (name, family, model) = (field("model name"), field("cpu family"), field("model\t"));
    format!("{name}, family {family}, model {model}")
}
