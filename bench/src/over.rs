//! The calls over places of any length (`plcn_.._over`) beside those over a run.

use crate::ffi;
use crate::ours::Ours;
use rows::{Case, Side, keep, keep_number};
use std::mem::MaybeUninit;

const TIME: u64 = 10_500;
const NODE: u8 = 200;
const LENGTH: u64 = 32;

/// A call over a run, and the same over places.
pub struct Pair {
    /// Of the call.
    pub name: &'static str,
    /// How many nodes are watched.
    pub number: usize,
    pub cases: Box<dyn Fn() -> [Box<dyn Case>; 2]>,
}

fn pair(
    name: &'static str,
    number: usize,
    phases: usize,
    run: impl Fn(&mut Ours, usize) + Copy + 'static,
    places: impl Fn(&mut Ours, usize) + Copy + 'static,
) -> Pair {
    Pair {
        name,
        number,
        cases: Box::new(move || {
            [
                rows::calls(number, phases, run),
                rows::calls(number, phases, places),
            ]
        }),
    }
}

/// All pairs, in the order of the table.
pub fn pairs() -> Vec<Pair> {
    let mut pairs = Vec::new();
    for number in [1, 8, 32] {
        pairs.push(pair(
            "tick",
            number,
            1,
            |node, _| node.tick(TIME),
            |node, _| tick(node),
        ));
    }
    for number in [1, 8, 32] {
        let heard = |node: &mut Ours, _| node.heard(1, TIME);
        pairs.push(pair("heard", number, 1, heard, |node, _| heard_over(node)));
    }
    for number in [1, 8, 32] {
        let due = |node: &mut Ours, _| node.next_due();
        pairs.push(pair("next due", number, 1, due, |node, _| next_due(node)));
    }
    for number in [1, 8, 31] {
        let in_turn = |node: &mut Ours, phase| match phase {
            0 => node.add(NODE, TIME),
            _ => node.remove(NODE),
        };
        pairs.push(pair(
            "add or remove",
            number,
            2,
            in_turn,
            |node, phase| match phase {
                0 => add(node),
                _ => remove(node),
            },
        ));
    }
    pairs
}

// As in ours.rs: each pointer is to a field of its own, whole and aligned.

#[inline(always)]
fn tick(node: &mut Ours) {
    let (head, memory) = (&mut node.head, &mut node.memory);
    let (queue, history, run) = (&mut memory.queue, &mut memory.history, &mut memory.run);
    let (places, number) = (run.place.as_mut_ptr(), run.number);
    let mut logged = MaybeUninit::uninit();
    let refused = unsafe {
        let logged = logged.as_mut_ptr();
        ffi::plcn_tick_over(head, queue, history, places, LENGTH, number, TIME, logged)
    };
    keep_number(refused.into());
    keep(&logged);
}

#[inline(always)]
fn heard_over(node: &mut Ours) {
    let run = &mut node.memory.run;
    let (places, number) = (run.place.as_mut_ptr(), run.number);
    let head = &mut node.head;
    keep_number(unsafe { ffi::plcn_heard_over(head, places, LENGTH, number, 1, TIME) }.into());
}

#[inline(always)]
fn next_due(node: &mut Ours) {
    let run = &node.memory.run;
    let (places, number) = (run.place.as_ptr(), run.number);
    let mut due = MaybeUninit::uninit();
    let refused =
        unsafe { ffi::plcn_next_due_over(&node.head, places, LENGTH, number, due.as_mut_ptr()) };
    keep_number(refused.into());
    keep(&due);
}

#[inline(always)]
fn add(node: &mut Ours) {
    let run = &mut node.memory.run;
    let (places, number) = (run.place.as_mut_ptr(), &mut run.number);
    let head = &mut node.head;
    keep_number(unsafe { ffi::plcn_add_over(head, places, LENGTH, number, NODE, TIME) }.into());
}

#[inline(always)]
fn remove(node: &mut Ours) {
    let run = &mut node.memory.run;
    let (places, number) = (run.place.as_mut_ptr(), &mut run.number);
    let head = &mut node.head;
    keep_number(unsafe { ffi::plcn_remove_over(head, places, LENGTH, number, NODE) }.into());
}
