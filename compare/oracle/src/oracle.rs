//! The oracle: it takes the lines of a script one by one and answers with the lines to print.

use crate::desk;
use crate::dictionary::{self, Defaults};
use crate::head::{self, Answer, Head, Resets};
use crate::run::Run;
use crate::script::{self, Call, Line, Watched};
use crate::view::{Driven, Lent, View};
use crate::{forms, places};
use powerlink_rs::frame::error::seven;

pub struct Oracle {
    defaults: Defaults,
    resets: Resets,
    /// The number of the last line.
    line: u64,
    /// The run of watched nodes that is lent.
    run: Run,
    /// The desk's buffer.
    desk: Vec<u8>,
    /// None before the first accepted start.
    head: Option<Head>,
}

impl Oracle {
    pub fn new(defaults: Defaults, resets: Resets) -> Self {
        places::check_order();
        Self {
            defaults,
            resets,
            line: 0,
            run: Run::new(),
            desk: Vec::new(),
            head: None,
        }
    }

    /// Takes a line without its newline, which may be no text; what is printed for it.
    pub fn take(&mut self, line: &[u8]) -> Vec<String> {
        self.line += 1;
        let printed = script::read(line).and_then(|line| self.act(line));
        if let Some(head) = &self.head {
            head.check();
        }
        printed.unwrap_or_else(|| vec![forms::unreadable(self.line)])
    }

    /// None where the line is unreadable for what stood before it.
    fn act(&mut self, line: Line) -> Option<Vec<String>> {
        match line {
            Line::Passed => {}
            Line::Watch(record) => self.run.watch(record)?,
            Line::Unwatch => self.run = Run::new(),
            Line::Lend { places, number } => self.run.lend(places, number),
            Line::Desk(bytes) => self.desk = bytes,
            Line::Show => return self.show(),
            Line::Call(call) => {
                let answer = self.call(call)?;
                return Some(vec![answer.unwrap_or_else(forms::refused)]);
            }
        }
        Some(Vec::new())
    }

    fn call(&mut self, call: Call) -> Option<Answer> {
        if let Call::Start(start) = call {
            let started = Head::start(&start, &mut self.run, self.defaults, self.resets);
            return Some(started.map(|head| {
                self.head = Some(head);
                forms::taken(&[])
            }));
        }
        let head = self.head.as_mut()?;
        Some(match call {
            Call::Start(_) => unreachable!("a start needs no head"),
            Call::Nmt(event) => head.nmt(event),
            Call::Dll { event, expected } => head.dll(event, expected),
            Call::Error { kind, a, b } => head.error(kind, a, b),
            Call::Cycle => head.cycle(),
            Call::Tick(now) => head.tick(now, &mut self.run),
            Call::Withdraw => head.withdraw(),
            Call::Heard { node, time } => head.heard(node, time, &mut self.run),
            Call::Add { node, timeout } => head.add(node, timeout, &mut self.run),
            Call::Remove(node) => head.remove(node, &mut self.run),
            Call::Bitmap => head.bitmap(&self.run),
            Call::Due => head.due(&self.run),
            Call::HandOut => head.hand_out(),
            Call::Arm(time) => head.arm(time),
            Call::Frame { time, bytes } => head.frame(time, &bytes),
            Call::Load(load) => head.load(&load),
            Call::State(number) => head::read_state(number),
            Call::Command(number) => head::read_command(number),
            Call::EntryWrite(write) => desk::entry_write(&mut self.desk, &write),
            Call::EntryRead(bytes) => desk::entry_read(&bytes),
            Call::Kind(code) => head::read_kind(code),
            Call::Range { earliest, latest } => head.range(earliest, latest),
            Call::Margin(time) => head.margin(time),
            Call::Recipe(components) => head.load_recipe(components),
            Call::Weight(place) => head.weight(place),
        })
    }

    /// The lines of `show`; none before the first accepted start.
    pub fn show(&self) -> Option<Vec<String>> {
        let head = self.head.as_ref()?;
        Some(forms::show(head, &self.run, &self.desk, &head.recipe))
    }

    /// The load that names every value as it stands, except for the history.
    pub fn load_line(&self) -> Option<String> {
        let od = &self.head.as_ref()?.context.core.od;
        let or_missing =
            |value: Option<u32>| value.map_or("-".to_string(), |value| value.to_string());
        let [c1, c2, c3, c5] = dictionary::counters(od);
        Some(format!(
            "load register {} cycle {} tolerance {} c1 {c1} c2 {c2} c3 {c3} c5 {c5}",
            dictionary::register(od),
            or_missing(dictionary::cycle(od)),
            or_missing(dictionary::tolerance(od)),
        ))
    }

    /// Takes a line. If it is an accepted call that works out the earliest moment, that moment is held to the original's
    /// tick; then, whether there is one.
    pub fn take_and_check_earliest(&mut self, line: &[u8]) -> Option<bool> {
        let taken = self
            .take(line)
            .iter()
            .any(|form| form.starts_with("(taken"));
        let Line::Call(call) = script::read(line)? else {
            return None;
        };
        let works_it_out = matches!(
            call,
            Call::Start(_)
                | Call::Tick(_)
                | Call::Heard { .. }
                | Call::Add { .. }
                | Call::Remove(_)
        );
        let head = self.head.as_ref()?;
        (taken && works_it_out).then(|| head.check_earliest())
    }

    /// What the original says when it panics at a tick that this line calls, all refusals aside.
    pub fn panic_at(&mut self, line: &[u8]) -> Option<String> {
        let Some(Line::Call(Call::Tick(now))) = script::read(line) else {
            return None;
        };
        self.head.as_mut()?.panic_at_tick(now)
    }
}

impl Driven for Oracle {
    fn line(&mut self, line: &str) -> Vec<String> {
        self.take(line.as_bytes())
    }

    fn view(&self) -> Option<View> {
        let head = self.head.as_ref()?;
        let context = &head.context;
        let nmt = &context.nmt_state_machine;
        let counters = seven(&context.dll_error_manager.counters);
        let od = &context.core.od;
        Some(View {
            node: nmt.node_id.0,
            nmt: nmt.current_state as u8,
            enabled: nmt.ready_to_operate_enabled,
            ready: nmt.app_ready,
            basic_timeout: nmt.basic_ethernet_timeout,
            dll: context.dll_state_machine.current_state() as u8,
            levels: counters.map(places::level),
            thresholds: counters.map(places::threshold),
            occurrences: head.occurrences.counts,
            crossings: counters.map(|counter| counter.cumulative_count()),
            last_soc: context.last_soc_reception_time_us,
            check: context.soc_timeout_check_active,
            deadline: context.next_tick_us,
            cycle: dictionary::cycle(od),
            tolerance: dictionary::tolerance(od),
            counters: dictionary::counters(od),
            queue_capacity: context.emergency_queue.capacity(),
            queue_length: context.emergency_queue.len(),
            history_length: dictionary::history(od).len(),
            earliest: head.earliest,
            recipe: head.recipe.clone(),
        })
    }

    fn lent(&self) -> Lent {
        let record = |watched: &Watched| (watched.node, watched.timeout, watched.heard);
        Lent {
            places: self.run.lent().iter().map(record).collect(),
            number: self.run.number(),
        }
    }
}
