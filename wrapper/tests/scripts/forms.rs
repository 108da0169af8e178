//! The lines that docs/CALLS.md gives for answers and for `show`.

use crate::run::Lent;
use powerlink_cn::{
    Bitmap, Component, DllError, DllErrorKind, Entry, ErrorAnswer, Errors, FrameAnswer, Head,
    NmtAction, NmtAnswer, Reset, Watched,
};

/// A form of a name and what stands behind it: `(name A B)`.
fn form(name: &str, parts: impl IntoIterator<Item = String>) -> String {
    let mut form = format!("({name}");
    for part in parts {
        form.push(' ');
        form.push_str(&part);
    }
    form + ")"
}

pub fn unreadable(line: u64) -> String {
    format!("(unreadable {line})")
}

pub fn refused(number: u32) -> String {
    format!("(refused {number})")
}

pub fn taken(parts: impl IntoIterator<Item = String>) -> String {
    form("taken", parts)
}

/// Two hexadecimal digits for each byte.
pub fn digits(bytes: &[u8]) -> String {
    bytes.iter().map(|byte| format!("{byte:02X}")).collect()
}

fn error(error: &DllError) -> String {
    let kind = error.kind().number();
    match (error.node(), error) {
        (Some(node), _) => format!("({kind} {node})"),
        (None, DllError::UnexpectedEventInState { state, event }) => {
            format!("({kind} 0x{state:02X} {event})")
        }
        (None, _) => format!("({kind})"),
    }
}

pub fn logged(errors: &Errors) -> String {
    form("logged", errors.iter().map(error))
}

pub fn errors(errors: &Errors) -> String {
    form("errors", errors.iter().map(error))
}

/// The errors of an NMT event, or what its reset passes.
pub fn nmt(answer: &NmtAnswer) -> Vec<String> {
    match answer.reset {
        None => vec![errors(&answer.errors)],
        Some(reset) => reset_parts(reset),
    }
}

fn reset_parts(reset: Reset) -> Vec<String> {
    let steps = reset.steps();
    let states = steps
        .states()
        .map(|state| format!("0x{:02X}", state.number()));
    let ranges = steps
        .ranges()
        .map(|range| format!("(0x{:04X} 0x{:04X})", range.first, range.last));
    vec![form("entered", states), form("restore", ranges)]
}

pub fn error_answer(answer: &ErrorAnswer) -> String {
    let action = match answer.action {
        None => 0,
        Some(NmtAction::ResetCommunication) => 1,
        Some(NmtAction::ResetNode(_)) => 2,
    };
    taken([
        format!("(action {action})"),
        format!("(signal {})", u8::from(answer.signal)),
        logged(&answer.logged),
    ])
}

pub fn frame(answer: &FrameAnswer) -> String {
    match answer {
        FrameAnswer::NotOurs => taken(["not_ours".to_string()]),
        FrameAnswer::Ours {
            logged: errors,
            nmt: None,
        } => taken([logged(errors), form("errors", [])]),
        FrameAnswer::Ours {
            logged: errors,
            nmt: Some(answer),
        } => taken([logged(errors)].into_iter().chain(nmt(answer))),
    }
}

pub fn handed_out(entry: Option<Entry>) -> String {
    taken([entry.map_or("none".to_string(), |entry| {
        form("entry", [entry_digits(&entry)])
    })])
}

fn entry_digits(entry: &Entry) -> String {
    digits(
        &entry
            .to_bytes()
            .expect("an entry that was read can be written"),
    )
}

pub fn entry_fields(entry: &Entry) -> String {
    taken([form(
        "entry",
        [
            format!("(status {})", u8::from(entry.is_status)),
            format!("(queue {})", u8::from(entry.send_to_queue)),
            format!("(mode {})", entry.mode.number()),
            format!("(profile {})", entry.profile),
            format!("(code 0x{:04X})", entry.code),
            format!("(seconds {})", entry.seconds),
            format!("(ns {})", entry.nanoseconds),
            format!("(additional {})", entry.additional),
        ],
    )])
}

pub fn bitmap(bitmap: &Bitmap) -> String {
    taken([
        format!("(nodes {})", bitmap.nodes()),
        digits(bitmap.bytes()),
    ])
}

/// A moment, or none.
pub fn or_none(moment: Option<u64>) -> String {
    moment.map_or("none".to_string(), |moment| moment.to_string())
}

fn or_missing(value: Option<u32>) -> String {
    value.map_or("missing".to_string(), |value| value.to_string())
}

/// The kinds that are counted, in the order of their lines, each with its line's name.
const COUNTED: [(&str, DllErrorKind); 7] = [
    ("collision", DllErrorKind::Collision),
    ("loss_of_soc", DllErrorKind::LossOfSoc),
    ("loss_of_soa", DllErrorKind::LossOfSoa),
    ("loss_of_preq", DllErrorKind::LossOfPreq),
    ("soc_jitter", DllErrorKind::SoCJitter),
    ("crc_errors", DllErrorKind::Crc),
    ("heartbeat_timeout", DllErrorKind::HeartbeatTimeout),
];

/// What `show` prints of a head and what is beside it.
pub struct Shown<'a> {
    pub head: &'a Head,
    pub queue: Vec<Entry>,
    pub history: Vec<Entry>,
    pub lent: &'a Lent,
    pub desk: &'a [u8],
    pub places: &'a [Component],
}

impl Shown<'_> {
    pub fn lines(&self) -> Vec<String> {
        let mut lines = vec![
            self.nmt(),
            format!("(dll {})", self.head.dll_state().number()),
        ];
        lines.extend(self.counters());
        lines.extend([
            format!("(loss_of_link {})", self.head.lost_links()),
            self.soc(),
            self.dictionary(),
            self.queue(),
            form("history", self.history.iter().map(entry_digits)),
            form("watched", self.lent.watched().iter().map(watched)),
            self.run(),
            format!("(earliest {})", or_none(self.head.earliest_us())),
            self.of_counters("crossings", |counter| counter.crossings),
            form("desk", (!self.desk.is_empty()).then(|| digits(self.desk))),
            self.of_counters("thresholds", |counter| counter.threshold),
            form(
                "recipe",
                self.places
                    .iter()
                    .map(|place| format!("({} {})", place.bin, place.grams)),
            ),
        ]);
        lines
    }

    fn nmt(&self) -> String {
        let head = self.head;
        format!(
            "(nmt (state 0x{:02X}) (enabled {}) (ready {}) (node {}) (flags {}) (timeout {}))",
            head.state().number(),
            u8::from(head.is_enabled()),
            u8::from(head.is_ready()),
            head.node(),
            head.feature_flags(),
            head.basic_timeout_us(),
        )
    }

    fn counters(&self) -> impl Iterator<Item = String> + '_ {
        COUNTED.iter().map(|(name, kind)| {
            let counter = self.head.counter(*kind).expect("it is counted");
            let (level, cumulative) = (counter.level, counter.cumulative);
            format!("({name} (level {level}) (cumulative {cumulative}))")
        })
    }

    fn of_counters(&self, name: &str, number: fn(&powerlink_cn::Counter) -> u32) -> String {
        let counters = COUNTED
            .iter()
            .filter_map(|(_, kind)| self.head.counter(*kind));
        form(name, counters.map(|counter| number(counter).to_string()))
    }

    fn soc(&self) -> String {
        format!(
            "(soc (last {}) (check {}) (deadline {}) (status_changed {}))",
            self.head.last_soc_us(),
            u8::from(self.head.is_check_on()),
            or_none(self.head.deadline_us()),
            u8::from(self.head.error_status_changed()),
        )
    }

    fn dictionary(&self) -> String {
        let [c1, c2, c3, c5] = self.head.statistics();
        format!(
            "(dictionary (register {}) (cycle {}) (tolerance {}) \
             (c1 {c1}) (c2 {c2}) (c3 {c3}) (c5 {c5}))",
            self.head.error_register(),
            or_missing(self.head.cycle_us()),
            or_missing(self.head.tolerance_ns()),
        )
    }

    fn queue(&self) -> String {
        let capacity = format!("(capacity {})", self.head.queue_capacity());
        form(
            "queue",
            [capacity]
                .into_iter()
                .chain(self.queue.iter().map(entry_digits)),
        )
    }

    fn run(&self) -> String {
        let rest = form("rest", self.lent.rest().iter().map(watched));
        let (places, number) = (self.lent.places().len(), self.lent.number());
        format!("(run (places {places}) (number {number}) {rest})")
    }
}

fn watched(watched: &Watched) -> String {
    format!(
        "({} {} {})",
        watched.node, watched.timeout_us, watched.last_heard_us
    )
}
