//! Prints what the original error counters answer to a sequence of errors and completed cycles, and
//! after each their levels, the errors that reached them, which are counted by looking at their
//! fields, and their cumulative values, which are the crossings; one form a line. Every answer is
//! computed by calling the original code.

mod forms;
mod generator;
mod occurrences;

use forms::{ERRORS, error_form, named_form};
use generator::Generator;
use occurrences::Occurrences;
use powerlink_rs::ErrorHandler;
use powerlink_rs::frame::DllError;
use powerlink_rs::frame::error::{CnErrorCounters, DllErrorManager, seven};

/// Keeps the errors that the counters log.
struct Recorder {
    logged: Vec<DllError>,
}

impl ErrorHandler for Recorder {
    fn log_error(&mut self, error: &DllError) {
        self.logged.push(*error);
    }
}

type Manager = DllErrorManager<CnErrorCounters, Recorder>;

fn main() {
    forms::check_order();
    let recorder = Recorder { logged: Vec::new() };
    let mut manager = Manager::new(CnErrorCounters::new(), recorder);
    let mut occurrences = Occurrences::new(&manager.counters);
    let mut generator = Generator::new();
    for _ in 0..2000 {
        // A third of the calls complete a cycle, so that levels both cross the threshold and come
        // down to 0.
        match ERRORS.get(generator.below(32) as usize) {
            Some(error) => print_error(&mut manager, &mut occurrences, *error),
            None => print_cycle(&mut manager, &mut occurrences),
        }
    }
}

fn print_error(manager: &mut Manager, occurrences: &mut Occurrences, error: DllError) {
    let (action, signal) = manager.handle_error(error);
    occurrences.handled(&manager.counters);
    println!(
        "(error {} (action {}) (signal {}) {} {})",
        forms::kind(&error),
        forms::action_number(action),
        signal as u8,
        named_form(
            "logged",
            manager.handler.logged.drain(..).map(|e| error_form(&e))
        ),
        counters_form(&manager.counters, occurrences),
    );
}

fn print_cycle(manager: &mut Manager, occurrences: &mut Occurrences) {
    let cleared = manager.on_cycle_complete();
    occurrences.cycle_completed(&manager.counters);
    assert_eq!(manager.handler.logged, [], "a cycle logs nothing");
    println!(
        "(cycle (cleared {}) {})",
        cleared as u8,
        counters_form(&manager.counters, occurrences),
    );
}

/// `(levels ..) (counts ..) (crossings ..) (links 0)`, with a number for each of the seven counters.
fn counters_form(counters: &CnErrorCounters, occurrences: &Occurrences) -> String {
    let seven = seven(counters);
    assert_eq!(seven.map(forms::threshold), [15; 7], "thresholds stay");
    let levels = seven
        .iter()
        .map(|counter| forms::level(counter).to_string());
    let counts = occurrences.counts.iter().map(u32::to_string);
    let crossings = seven
        .iter()
        .map(|counter| counter.cumulative_count().to_string());
    format!(
        "{} {} {} (links {})",
        named_form("levels", levels),
        named_form("counts", counts),
        named_form("crossings", crossings),
        counters.loss_of_link_cumulative,
    )
}
