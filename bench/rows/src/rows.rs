//! The rows.

use crate::side::{CYCLE, Component, Setup, Side, TOLERANCE};
use crate::timing::{Calls, Case};
use crate::view::View;

/// What the Rust's side of a row is.
#[derive(Debug, Clone, Copy, PartialEq, Eq)]
pub enum Work {
    /// The original's own call.
    Original,
    /// The same work by hand on the original's public fields and machines: it has no such call.
    ByHand,
    /// Less than ours does: the assignment alone.
    Bare,
    /// The same work, for a number of watched nodes: a point of the plot.
    Point(usize),
}

/// A row for one side.
pub struct Row {
    pub name: String,
    pub work: Work,
    /// A node before the row's calls and after them.
    pub views: Box<dyn Fn() -> (View, View)>,
    /// The row's calls, to be measured.
    pub case: Box<dyn Fn() -> Box<dyn Case>>,
}

const NO_COUNT: Setup = Setup {
    threshold: 1_000_000,
    queue: 32,
};
const EACH_CROSSES: Setup = Setup {
    threshold: 8,
    queue: 32,
};
const NO_QUEUE: Setup = Setup {
    threshold: 8,
    queue: 0,
};

const NOT_ACTIVE: &[u8] = &[5];
const PRE_OPERATIONAL_1: &[u8] = &[5, 13];
const PRE_OPERATIONAL_2: &[u8] = &[5, 13, 13];
const READY_TO_OPERATE: &[u8] = &[5, 13, 13, 15, 3];
const OPERATIONAL: &[u8] = &[5, 13, 13, 15, 3, 0];
const CS_STOPPED: &[u8] = &[5, 13, 13, 1];

/// When the last SoC came, in µs.
const LAST_SOC: u64 = 10_000;
/// Its limit.
const LIMIT: u64 = LAST_SOC + CYCLE as u64 + TOLERANCE as u64 / 1000;
/// When a node that is in time was last heard.
const HEARD: u64 = 9_000;
const TIMEOUT: u64 = 5_000;

/// A node behind these NMT events.
fn behind<S: Side>(setup: Setup, events: &[u8]) -> S {
    let mut node = S::start(setup);
    for event in events {
        node.nmt_event(S::event(*event));
    }
    node
}

/// An operational node that waits for an SoC, the check armed.
fn armed<S: Side>(setup: Setup) -> S {
    let mut node: S = behind(setup, OPERATIONAL);
    for event in [0, 1, 3] {
        node.dll_event_of(S::dll_event(event));
    }
    node.arm(LAST_SOC);
    node.keep_dll();
    node
}

/// An armed node that watches the nodes 1 to `number`.
fn watching<S: Side>(number: usize, timeout: u64, heard: u64) -> S {
    let mut node: S = armed(NO_COUNT);
    let nodes: Vec<(u8, u64, u64)> = (1..=number as u8).map(|n| (n, timeout, heard)).collect();
    node.watch(&nodes);
    node
}

/// An armed node whose history has this many entries.
fn with_history<S: Side>(setup: Setup, entries: usize) -> S {
    let mut node: S = armed(setup);
    node.load_history(&vec![[7; 20]; entries]);
    node.tick(LIMIT + 1);
    node
}

/// A weigh head behind these NMT events.
fn weighing<S: Side>(events: &[u8]) -> S {
    let mut node = S::start(NO_COUNT);
    for event in events {
        node.weigh_event(S::event(*event));
    }
    node
}

fn nothing<S>(_: &mut S) {}

/// A row of a call that is made `phases` times, in turn, behind each preparation.
fn in_turn<S: Side>(
    name: &str,
    work: Work,
    make: impl Fn() -> S + Copy + 'static,
    phases: usize,
    prepare: impl Fn(&mut S) + Copy + 'static,
    call: impl Fn(&mut S, usize) + Copy + 'static,
) -> Row {
    // The original's tick works out no earliest moment.
    let view = move |node: &S| View {
        earliest: node.view().earliest.filter(|_| work == Work::ByHand),
        ..node.view()
    };
    let views = move || {
        let mut node = make();
        prepare(&mut node);
        let before = view(&node);
        (0..phases).for_each(|phase| call(&mut node, phase));
        (before, view(&node))
    };
    Row {
        name: name.to_string(),
        work,
        views: Box::new(views),
        case: Box::new(move || Box::new(Calls::new(make, phases, prepare, call))),
    }
}

fn row<S: Side>(
    name: &str,
    work: Work,
    make: impl Fn() -> S + Copy + 'static,
    prepare: impl Fn(&mut S) + Copy + 'static,
    call: impl Fn(&mut S) + Copy + 'static,
) -> Row {
    in_turn(name, work, make, 1, prepare, move |node, _| call(node))
}

/// All rows, in the order of the table; then the points of the plot.
pub fn rows<S: Side>() -> Vec<Row> {
    let mut rows = machines::<S>();
    rows.extend(errors::<S>());
    rows.extend(by_hand::<S>());
    rows.extend(watched::<S>());
    rows.extend(ticks::<S>());
    rows.extend(frames::<S>());
    rows.extend(weigh_head::<S>());
    for number in std::iter::once(1).chain((0..=32).step_by(2)) {
        rows.push(tick_in_time::<S>("tick", Work::Point(number), number));
        if number > 0 {
            rows.push(heard::<S>("heard", Work::Point(number), number));
        }
    }
    rows
}

fn nmt<S: Side>(name: &str, events: &'static [u8], event: u8) -> Row {
    let event = S::event(event);
    let make = || behind::<S>(NO_COUNT, events);
    let call = move |node: &mut S| node.nmt_event(event);
    row(name, Work::Original, move || make(), nothing, call)
}

fn machines<S: Side>() -> Vec<Row> {
    let moves = [S::event(1), S::event(2)];
    let turn = [S::dll_event(0), S::dll_event(1), S::dll_event(3)];
    let (soc, soa) = (S::dll_event(0), S::dll_event(3));
    vec![
        in_turn(
            "NMT event, moves",
            Work::Original,
            || behind::<S>(NO_COUNT, PRE_OPERATIONAL_2),
            moves.len(),
            nothing,
            move |node, phase| node.nmt_event(moves[phase]),
        ),
        nmt::<S>("NMT event, enabled, stays", PRE_OPERATIONAL_2, 3),
        nmt::<S>("NMT event, ready, stays", READY_TO_OPERATE, 15),
        nmt::<S>("NMT event, no row", OPERATIONAL, 13),
        nmt::<S>("NMT event SwReset", OPERATIONAL, 5),
        nmt::<S>("NMT event ResetConfiguration", OPERATIONAL, 8),
        in_turn(
            "DLL event, in turn",
            Work::Original,
            || behind::<S>(NO_COUNT, OPERATIONAL),
            turn.len(),
            nothing,
            move |node, phase| node.dll_event_of(turn[phase]),
        ),
        row(
            "DLL event, one error",
            Work::Original,
            || armed::<S>(NO_COUNT),
            nothing,
            move |node| node.dll_event_of(soa),
        ),
        row(
            "DLL event, outside its states",
            Work::Original,
            || behind::<S>(NO_COUNT, PRE_OPERATIONAL_1),
            nothing,
            move |node| node.dll_event_of(soc),
        ),
    ]
}

fn error<S: Side>(name: &str, setup: Setup, kind: u8) -> Row {
    let kind = S::kind(kind);
    let call = move |node: &mut S| node.handle_error(kind);
    row(
        name,
        Work::Original,
        move || behind::<S>(setup, OPERATIONAL),
        nothing,
        call,
    )
}

fn cycle<S: Side>(name: &str, kinds: usize) -> Row {
    row(
        name,
        Work::Original,
        || behind::<S>(NO_COUNT, OPERATIONAL),
        move |node| node.set_levels(kinds),
        S::cycle_complete,
    )
}

fn errors<S: Side>() -> Vec<Row> {
    vec![
        error::<S>("error, no crossing", NO_COUNT, 6),
        error::<S>("error, crossing", EACH_CROSSES, 6),
        cycle::<S>("cycle complete, all levels 0", 0),
        cycle::<S>("cycle complete, no level 0", 7),
    ]
}

fn by_hand<S: Side>() -> Vec<Row> {
    let (register, cycle, tolerance, counter) = (1, CYCLE, TOLERANCE, 5);
    let time = LAST_SOC;
    let deadline = LIMIT;
    vec![
        row(
            "withdraw",
            Work::ByHand,
            || behind::<S>(NO_COUNT, PRE_OPERATIONAL_2),
            nothing,
            S::withdraw,
        ),
        row(
            "withdraw, bare",
            Work::Bare,
            || behind::<S>(NO_COUNT, PRE_OPERATIONAL_2),
            nothing,
            S::bare_withdraw,
        ),
        row(
            "hand out, none waits",
            Work::ByHand,
            || behind::<S>(EACH_CROSSES, OPERATIONAL),
            nothing,
            S::hand_out,
        ),
        row(
            "hand out, one waits",
            Work::ByHand,
            || with_history::<S>(EACH_CROSSES, 0),
            S::set_one_queued,
            S::hand_out,
        ),
        row(
            "load, one value",
            Work::ByHand,
            || behind::<S>(NO_COUNT, OPERATIONAL),
            nothing,
            move |node| node.load_register(register),
        ),
        row(
            "load, seven values",
            Work::ByHand,
            || behind::<S>(NO_COUNT, OPERATIONAL),
            nothing,
            move |node| node.load_values(register, cycle, tolerance, counter),
        ),
        row(
            "load, history of 8",
            Work::ByHand,
            || behind::<S>(NO_COUNT, OPERATIONAL),
            nothing,
            move |node| node.load_history(&[[7; 20]; 8]),
        ),
        row(
            "arm",
            Work::ByHand,
            || behind::<S>(NO_COUNT, OPERATIONAL),
            nothing,
            move |node| node.arm(time),
        ),
        row(
            "arm, bare",
            Work::Bare,
            || behind::<S>(NO_COUNT, OPERATIONAL),
            nothing,
            move |node| node.bare_arm(time, deadline),
        ),
    ]
}

fn heard<S: Side>(name: &str, work: Work, number: usize) -> Row {
    let (node, time) = (number as u8 / 2 + 1, HEARD + 100);
    let call = move |side: &mut S| side.heard(node.min(32), time);
    row(
        name,
        work,
        move || watching(number, TIMEOUT, HEARD),
        nothing,
        call,
    )
}

fn bare_heard<S: Side>(number: usize) -> Row {
    let (node, time) = (number as u8 / 2 + 1, HEARD + 100);
    row(
        &format!("heard, {number} watched, bare"),
        Work::Bare,
        move || watching(number, TIMEOUT, HEARD),
        nothing,
        move |side: &mut S| side.bare_heard(node, time),
    )
}

/// For a number of watched nodes, what is told of them.
fn of(number: usize) -> String {
    format!("{number} watched")
}

fn watched<S: Side>() -> Vec<Row> {
    let mut rows = Vec::new();
    for number in [1, 8, 32] {
        let name = format!("heard, {}", of(number));
        rows.push(heard::<S>(&name, Work::ByHand, number));
        rows.push(bare_heard::<S>(number));
    }
    for number in [8, 31] {
        let (node, timeout) = (number as u8 / 2 + 40, TIMEOUT);
        rows.push(in_turn(
            &format!("add or remove, {}", of(number)),
            Work::ByHand,
            move || watching(number, TIMEOUT, HEARD),
            2,
            nothing,
            move |side: &mut S, phase| match phase {
                0 => side.add(node, timeout),
                _ => side.remove(node),
            },
        ));
    }
    for number in [8, 32] {
        rows.push(row(
            &format!("next due, {}", of(number)),
            Work::ByHand,
            move || watching(number, TIMEOUT, HEARD),
            nothing,
            S::next_due,
        ));
    }
    rows
}

fn tick_in_time<S: Side>(name: &str, work: Work, number: usize) -> Row {
    let now = LAST_SOC + 500;
    let call = move |node: &mut S| node.tick(now);
    row(
        name,
        work,
        move || watching(number, TIMEOUT, HEARD),
        nothing,
        call,
    )
}

/// A tick of a node that is brought there by these events, before its deadline.
fn tick_at<S: Side>(name: &str, events: &'static [u8], deadline: u64) -> Row {
    let make = move || {
        let mut node: S = behind(NO_COUNT, events);
        node.set_deadline(deadline);
        node
    };
    let now = LAST_SOC + 500;
    row(name, Work::Original, make, nothing, move |node| {
        node.tick(now)
    })
}

/// A tick that finds a lost SoC, which crosses.
fn crossing<S: Side>(name: &str, setup: Setup, entries: usize) -> Row {
    let now = LIMIT + 1;
    let prepare = move |node: &mut S| {
        node.set_state(0xFD);
        node.set_deadline(LIMIT);
        if setup.queue > 0 {
            node.empty_queue();
        }
        if entries == 0 {
            node.clear_history();
        }
    };
    let make = move || with_history(setup, entries);
    row(name, Work::Original, make, prepare, move |node: &mut S| {
        node.tick(now)
    })
}

fn ticks<S: Side>() -> Vec<Row> {
    let (within, lost) = (LIMIT - 50, LIMIT + 1);
    let mut rows = vec![
        tick_in_time::<S>("tick, deadline ahead", Work::Original, 0),
        tick_at::<S>("tick in CsStopped", CS_STOPPED, LIMIT),
        tick_at::<S>("tick at NotActive", NOT_ACTIVE, LIMIT),
        row(
            "tick, within the limit",
            Work::Original,
            || armed::<S>(NO_COUNT),
            move |node| node.set_deadline(within - 1),
            move |node| node.tick(within),
        ),
        row(
            "tick, loss",
            Work::Original,
            || armed::<S>(NO_COUNT),
            |node| node.set_deadline(LIMIT),
            move |node| node.tick(lost),
        ),
        crossing::<S>("tick, crossing, history 0", EACH_CROSSES, 0),
        crossing::<S>("tick, crossing, history 254", EACH_CROSSES, 254),
        crossing::<S>("tick, crossing, queue full", NO_QUEUE, 254),
    ];
    for number in [1, 8, 32] {
        let name = format!("tick, {}, none late", of(number));
        rows.push(tick_in_time::<S>(&name, Work::Original, number));
    }
    for number in [1, 8, 32] {
        let now = LAST_SOC + 500;
        rows.push(row(
            &format!("tick, {}, all late", of(number)),
            Work::Original,
            move || watching(number, 50, HEARD),
            |node: &mut S| node.set_heard(HEARD),
            move |node| node.tick(now),
        ));
    }
    rows
}

/// A frame of 60 bytes, from its destination's address on.
fn bytes(message: u8, destination: u8, service: u8, command: u8) -> [u8; 60] {
    let mut bytes = [0; 60];
    bytes[12..19].copy_from_slice(&[0x88, 0xAB, message, destination, 240, service, command]);
    bytes
}

/// A frame that finds an operational node, the DLL machine behind these events.
fn frame<S: Side>(name: &str, dll: &'static [u8], bytes: [u8; 60]) -> Row {
    let make = move || {
        let mut node: S = behind(NO_COUNT, OPERATIONAL);
        for event in dll {
            node.dll_event_of(S::dll_event(*event));
        }
        node.arm(LAST_SOC);
        node.keep_dll();
        node
    };
    let time = LAST_SOC + 1000;
    row(
        name,
        Work::ByHand,
        make,
        |node| {
            node.set_state(0xFD);
            node.restore_dll();
        },
        move |node| node.frame(time, &bytes),
    )
}

fn frames<S: Side>() -> Vec<Row> {
    vec![
        frame::<S>("frame SoC", &[0, 1, 3], bytes(1, 255, 0, 0)),
        frame::<S>("frame PReq", &[0], bytes(3, 7, 0, 0)),
        frame::<S>("frame PRes", &[0], bytes(4, 255, 0, 0)),
        frame::<S>("frame SoA", &[0, 1], bytes(5, 255, 0, 0)),
        frame::<S>("frame ASnd, no command", &[0, 1, 3], bytes(6, 255, 2, 0)),
        frame::<S>("frame ASnd StopNode", &[0, 1, 3], bytes(6, 7, 4, 0x22)),
        frame::<S>("frame for another node", &[0], bytes(3, 9, 0, 0)),
        frame::<S>("frame PReq, lost SoC", &[0, 1, 3], bytes(3, 7, 0, 0)),
    ]
}

/// Replaces what is looked at by what the node as a weigh head keeps.
fn of_weigh<S: Side>(
    row: Row,
    make: impl Fn() -> S + 'static,
    call: impl Fn(&mut S) + 'static,
) -> Row {
    let views = move || {
        let mut node = make();
        let before = node.weigh_view();
        call(&mut node);
        (before, node.weigh_view())
    };
    Row {
        views: Box::new(views),
        ..row
    }
}

fn weigh_head<S: Side>() -> Vec<Row> {
    let components: [Component; 16] = std::array::from_fn(|n| Component {
        bin: n as u8 + 1,
        grams: 100 * (n as u16 + 1),
    });
    let mut rows = Vec::new();
    for number in [3, 16] {
        let make = || weighing::<S>(PRE_OPERATIONAL_2);
        let call = move |node: &mut S| node.load_recipe(&components[..number]);
        let name = format!("recipe of {number}");
        rows.push(of_weigh(
            row(&name, Work::ByHand, make, nothing, call),
            make,
            call,
        ));
    }
    let make = move || {
        let mut node: S = weighing(PRE_OPERATIONAL_2);
        node.load_recipe(&components[..3]);
        node.weigh_event(S::event(3));
        node.weigh_event(S::event(0));
        node
    };
    let place = 1;
    let call = move |node: &mut S| node.weight(place);
    rows.push(of_weigh(
        row("weight", Work::ByHand, make, nothing, call),
        make,
        call,
    ));
    rows
}

/// Calls that are made `phases` times, in turn, on a node that watches the nodes 1 to `number`, to
/// be measured.
pub fn calls<S: Side>(
    number: usize,
    phases: usize,
    call: impl Fn(&mut S, usize) + Copy + 'static,
) -> Box<dyn Case> {
    let make = move || watching::<S>(number, TIMEOUT, HEARD);
    Box::new(Calls::new(make, phases, nothing, call))
}
