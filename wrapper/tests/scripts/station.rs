//! A node and a weigh head side by side, driven by the lines of a script. Every call is made on
//! both, and both have to answer the same and to be left the same.

use crate::forms;
use crate::over::Over;
use crate::run::Lent;
use crate::script::{self, Call, EntryWrite, Line, Load, Start};
use powerlink_cn::{
    Command, Component, DllErrorKind, DllEvent, Entry, EntryMode, NmtEvent, NmtState, Node,
    Refusal, Setup, Thresholds, Update, WeighHead,
};

/// What a call answers: a line, or the number of a refusal.
type Answer = Result<String, Refusal>;

pub struct Station {
    node: Node,
    weigh: WeighHead,
    /// Whether a start of the script was taken.
    started: bool,
    lent: Lent,
    desk: Vec<u8>,
    /// The number of the last line.
    line: u64,
}

/// Makes a call on the node and on the weigh head; their one answer.
macro_rules! both {
    ($station:ident, $head:ident => $call:expr) => {{
        let on_node = {
            let $head = &mut $station.node;
            $call
        };
        let on_weigh = {
            let $head = &mut $station.weigh;
            $call
        };
        assert_eq!(
            on_node, on_weigh,
            "line {}: both answer alike",
            $station.line
        );
        on_node
    }};
}

impl Station {
    /// Heads that no script sees: its first start starts them again.
    pub fn new() -> Self {
        let setup = Setup::new(1);
        Self {
            node: Node::start(&setup, &[]).expect("it is within its limits"),
            weigh: WeighHead::start(&setup, &[]).expect("it is within its limits"),
            started: false,
            lent: Lent::new(),
            desk: Vec::new(),
            line: 0,
        }
    }

    /// Takes a line without its newline; what is printed for it.
    pub fn take(&mut self, line: &[u8]) -> Vec<String> {
        self.line += 1;
        let printed = script::read(line).and_then(|line| self.act(line));
        printed.unwrap_or_else(|| vec![forms::unreadable(self.line)])
    }

    /// None where the line is unreadable for what stood before it.
    fn act(&mut self, line: Line) -> Option<Vec<String>> {
        match line {
            Line::Passed => {}
            Line::Watch(watched) => self.lent.watch(watched)?,
            Line::Unwatch => self.lent = Lent::new(),
            Line::Lend { places, number } => self.lent.lend(places, number),
            Line::Desk(bytes) => self.desk = bytes,
            Line::Show => return self.started.then(|| self.show()),
            Line::Call(call) => {
                let is_start = matches!(call, Call::Start(_));
                if !self.started && !is_start {
                    return None;
                }
                let answer = self.checked(call);
                self.started |= is_start && answer.is_ok();
                let refused = |refusal: Refusal| forms::refused(refusal.number());
                return Some(vec![answer.unwrap_or_else(refused)]);
            }
        }
        Some(Vec::new())
    }

    /// Makes a call; where it is refused, both heads are left as they were, and in any case alike.
    fn checked(&mut self, call: Call) -> Answer {
        if let Some(run) = self.lent.as_run() {
            *self.node.run_mut() = run;
            *self.weigh.run_mut() = run;
        }
        let before = (self.node.clone(), self.weigh.clone(), self.desk.clone());
        let over = Over::made(self.node.head(), &self.lent, &call);
        let answer = match &over {
            Some(over) if self.lent.as_run().is_none() => Err(refusal(over.refused)),
            _ => self.call(call),
        };
        if answer.is_err() {
            let after = (self.node.clone(), self.weigh.clone(), self.desk.clone());
            assert!(
                before == after,
                "line {}: a refused call changes nothing",
                self.line
            );
        }
        self.check_both_alike();
        if self.lent.as_run().is_some() {
            self.lent.become_run(self.node.run());
        }
        if let Some(over) = over {
            self.check_over(&over, &answer);
        }
        answer
    }

    fn check_both_alike(&self) {
        let (node, weigh) = (&self.node, &self.weigh);
        assert_eq!(*node.head(), weigh.head(), "line {}", self.line);
        assert_eq!(node.run(), weigh.run(), "line {}", self.line);
        assert!(node.queue().eq(weigh.queue()), "line {}", self.line);
        assert!(node.history().eq(weigh.history()), "line {}", self.line);
    }

    /// The call over places of the caller's answered the same, and left the same words and places.
    fn check_over(&self, over: &Over, answer: &Answer) {
        let refused = answer
            .as_ref()
            .map_or_else(|refusal| refusal.number(), |_| 0);
        assert_eq!(over.refused, refused, "line {}", self.line);
        assert_eq!(over.head, *self.node.head().raw(), "line {}", self.line);
        assert_eq!(over.places, self.lent.places(), "line {}", self.line);
        assert_eq!(over.number, self.lent.number(), "line {}", self.line);
    }

    fn call(&mut self, call: Call) -> Answer {
        match call {
            Call::Nmt(event) => self.nmt(event),
            Call::Dll { event, expected } => self.dll(event, expected),
            Call::Error { kind, a, b } => self.error(kind, a as u8, b as u8),
            Call::Cycle => Ok(self.cycle()),
            Call::Withdraw => both!(self, head => head.withdraw()).map(|()| taken()),
            Call::HandOut => Ok(forms::handed_out(both!(self, head => head.hand_out()))),
            Call::Arm(time) => both!(self, head => head.arm(time)).map(|()| taken()),
            Call::Frame { time, bytes } => {
                both!(self, head => head.frame(time, &bytes)).map(|answer| forms::frame(&answer))
            }
            Call::Load(load) => Ok(self.load(&load)),
            Call::EntryWrite(write) => self.entry_write(&write).map(|()| taken()),
            Call::Range { earliest, latest } => both!(self, head => head.range(earliest, latest))
                .map(|verdict| forms::taken([verdict.to_string()])),
            Call::Margin(time) => both!(self, head => head.margin(time))
                .map(|margin| forms::taken([margin.to_string()])),
            Call::Recipe(components) => self.recipe(&components).map(|()| taken()),
            Call::Weight(place) => self.weight(place),
            Call::State(_) | Call::Command(_) | Call::EntryRead(_) | Call::Kind(_) => {
                reading(&call)
            }
            call => self.call_with_the_run(&call),
        }
    }

    fn call_with_the_run(&mut self, call: &Call) -> Answer {
        match *call {
            Call::Start(ref start) => self.start(start).map(|()| taken()),
            Call::Tick(time) => both!(self, head => head.tick(time))
                .map(|errors| forms::taken([forms::logged(&errors)])),
            Call::Heard { node, time } => {
                both!(self, head => head.heard(node, time)).map(|()| taken())
            }
            Call::Add { node, timeout } => {
                both!(self, head => head.add(node, timeout)).map(|()| taken())
            }
            Call::Remove(node) => both!(self, head => head.remove(node)).map(|()| taken()),
            Call::Bitmap => both!(self, head => head.bitmap()).map(|bitmap| forms::bitmap(&bitmap)),
            Call::Due => {
                both!(self, head => head.next_due()).map(|due| forms::taken([forms::or_none(due)]))
            }
            _ => unreachable!("it is lent no run"),
        }
    }

    fn start(&mut self, start: &Start) -> Result<(), Refusal> {
        let setup = setup(start);
        both!(self, head => head.restart(&setup))
    }

    /// By its number on the node; on the weigh head by its name, where it has one.
    fn nmt(&mut self, event: u64) -> Answer {
        let answer = self.node.nmt_event_number(event);
        match NmtEvent::try_from(event) {
            Ok(event) => assert_eq!(answer, Ok(self.weigh.nmt_event(event))),
            Err(_) => assert_eq!(answer, self.weigh.nmt_event_number(event)),
        }
        Ok(forms::taken(forms::nmt(&answer?)))
    }

    /// By its number on the weigh head; on the node by its name, where it has one.
    fn dll(&mut self, event: u64, expected: bool) -> Answer {
        let answer = self.weigh.dll_event_number(event, expected);
        match DllEvent::try_from(event) {
            Ok(event) => assert_eq!(answer, Ok(self.node.dll_event(event, expected))),
            Err(_) => assert_eq!(answer, self.node.dll_event_number(event, expected)),
        }
        Ok(forms::taken([forms::errors(&answer?)]))
    }

    /// By its number on the node; on the weigh head as an error, where it is one.
    fn error(&mut self, kind: u64, a: u8, b: u8) -> Answer {
        let answer = self.node.handle_error_number(kind, a, b);
        match DllErrorKind::try_from(kind) {
            Ok(kind) => {
                let error = powerlink_cn::DllError::new(kind, a, b);
                assert_eq!(answer, self.weigh.handle_error(error));
            }
            Err(_) => assert_eq!(answer, self.weigh.handle_error_number(kind, a, b)),
        }
        Ok(forms::error_answer(&answer?))
    }

    fn cycle(&mut self) -> String {
        let cleared = both!(self, head => head.cycle_complete());
        forms::taken([format!("(cleared {})", u8::from(cleared))])
    }

    fn load(&mut self, load: &Load) -> String {
        let [counter_1, counter_2, counter_3, counter_5] = load.counters;
        let update = Update {
            error_register: load.register,
            cycle_us: load.cycle,
            tolerance_ns: load.tolerance,
            counter_1,
            counter_2,
            counter_3,
            counter_5,
            history: load.history.as_ref().map(|entries| entries.as_flattened()),
        };
        both!(self, head => head.load(&update));
        taken()
    }

    fn entry_write(&mut self, write: &EntryWrite) -> Result<(), Refusal> {
        let entry = Entry {
            is_status: write.status,
            send_to_queue: write.queue,
            mode: EntryMode::from_number(write.mode.into()).expect("the reader takes 0 to 3"),
            profile: write.profile,
            code: write.code,
            seconds: write.seconds,
            nanoseconds: write.nanoseconds,
            additional: write.additional,
        };
        entry.write(&mut self.desk, place(write.place))
    }

    /// What a load of a recipe does to a node: the ready word.
    fn recipe(&mut self, components: &[script::Component]) -> Result<(), Refusal> {
        let components: Vec<Component> = components
            .iter()
            .map(|(bin, grams)| Component::new(*bin, *grams))
            .collect();
        self.weigh.load_recipe(&components)?;
        self.node.nmt_event(NmtEvent::CnConfigurationComplete);
        Ok(())
    }

    fn weight(&self, number: u64) -> Answer {
        let grams = self.weigh.weight(place(number))?;
        Ok(forms::taken([grams.to_string()]))
    }

    fn show(&self) -> Vec<String> {
        let shown = forms::Shown {
            head: self.node.head(),
            queue: self.node.queue().collect(),
            history: self.node.history().collect(),
            lent: &self.lent,
            desk: &self.desk,
            places: &self.weigh.places(),
        };
        shown.lines()
    }
}

fn taken() -> String {
    forms::taken([])
}

/// The refusal of a number.
fn refusal(number: u32) -> Refusal {
    let all = Refusal::ALL.iter();
    let found = all.copied().find(|refusal| refusal.number() == number);
    found.unwrap_or_else(|| panic!("{number} is no refusal"))
}

/// A call that reads a number or bytes, and no head.
fn reading(call: &Call) -> Answer {
    let hex = |number: u8| format!("0x{number:02X}");
    Ok(match *call {
        Call::State(number) => forms::taken([hex(NmtState::try_from(number)?.number())]),
        Call::Command(number) => forms::taken([hex(Command::try_from(number)?.number())]),
        Call::Kind(code) => forms::taken([DllErrorKind::from_code(code)?.number().to_string()]),
        Call::EntryRead(bytes) => {
            let entry = Entry::read(&bytes, 0)?;
            assert_eq!(Entry::from_bytes(&bytes), entry);
            assert_eq!(entry.to_bytes(), Ok(bytes));
            forms::entry_fields(&entry)
        }
        _ => unreachable!("it reads nothing"),
    })
}

fn place(number: u64) -> usize {
    usize::try_from(number).expect("a place has 64 bits here")
}

pub fn setup(start: &Start) -> Setup {
    let [counter_1, counter_2, counter_3, counter_5] = start.counters;
    let [
        collision,
        loss_of_soc,
        loss_of_soa,
        loss_of_preq,
        soc_jitter,
        crc_errors,
        heartbeat_timeout,
    ] = start.thresholds.unwrap_or([15; 7]);
    Setup {
        node: start.node,
        error_register: start.register,
        feature_flags: start.flags,
        basic_timeout_us: start.timeout,
        cycle_us: start.cycle,
        tolerance_ns: start.tolerance,
        counter_1,
        counter_2,
        counter_3,
        counter_5,
        thresholds: Thresholds {
            collision,
            loss_of_soc,
            loss_of_soa,
            loss_of_preq,
            soc_jitter,
            crc_errors,
            heartbeat_timeout,
        },
        queue_capacity: place(start.queue),
    }
}
