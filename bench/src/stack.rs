//! How deep a call goes: the call is made on a stack of its own that was painted, and the deepest
//! place that it wrote is looked for.

use crate::ffi;
use crate::ours::Ours;
use rows::{Component, Setup, Side};
use std::arch::asm;

const BYTES: usize = 16 * 1024;
const PAINT: u8 = 0xA5;

#[repr(align(64))]
struct Stack([u8; BYTES]);

/// The bytes below its caller's frame that a function of C used, its return address among them.
///
/// # Safety
///
/// The function takes at most eight arguments, which are numbers or pointers, and may be called
/// with these; it needs less than the bytes of the stack.
unsafe fn depth(function: *const (), arguments: [u64; 8]) -> usize {
    let mut stack = Box::new(Stack([PAINT; BYTES]));
    let top = unsafe { stack.0.as_mut_ptr().add(BYTES) };
    let [a, b, c, d, e, f, g, h] = arguments;
    // SAFETY: the stack is aligned as a call wants it, and the old one is taken again behind it.
    unsafe {
        asm!(
            "xchg rsp, r12",
            "push r14",
            "push r13",
            "call r15",
            "mov rsp, r12",
            inout("r12") top => _,
            in("r13") g,
            in("r14") h,
            in("r15") function,
            inout("rdi") a => _,
            inout("rsi") b => _,
            inout("rdx") c => _,
            inout("rcx") d => _,
            inout("r8") e => _,
            inout("r9") f => _,
            clobber_abi("C"),
        );
    }
    let pushed = 16;
    let deepest = stack.0.iter().position(|byte| *byte != PAINT);
    BYTES - deepest.unwrap_or(BYTES) - pushed
}

/// The deepest of the calls below, and its bytes.
pub fn deepest() -> (usize, &'static str) {
    let mut calls = Calls::new();
    calls.of_a_head();
    calls.of_watched_nodes();
    calls.of_a_crossing();
    calls.of_a_weigh_head();
    calls.deepest
}

/// A node, what is given to its calls, and the deepest call so far.
struct Calls {
    node: Box<Ours>,
    answer: [u64; 16],
    entries: [[u8; 20]; 254],
    update: ffi::Update,
    /// A PReq for the node.
    frame: [u8; 60],
    recipe: [Component; 16],
    deepest: (usize, &'static str),
}

/// A place as an argument.
fn at<T>(place: &mut T) -> u64 {
    std::ptr::from_mut(place) as u64
}

impl Calls {
    fn new() -> Self {
        let mut frame = [0; 60];
        frame[12..19].copy_from_slice(&[0x88, 0xAB, 3, 7, 240, 0, 0]);
        let setup = Setup {
            threshold: 8,
            queue: 32,
        };
        Self {
            node: Box::new(Ours::start(setup)),
            answer: [0; 16],
            entries: [[7; 20]; 254],
            update: ffi::Update {
                set_history: 1,
                ..Default::default()
            },
            frame,
            recipe: std::array::from_fn(|n| Component {
                bin: n as u8 + 1,
                grams: 100,
            }),
            deepest: (0, ""),
        }
    }

    /// Makes a call. Each line below names a function with the arguments that it takes.
    fn make(&mut self, name: &'static str, function: *const (), given: &[u64]) {
        let mut arguments = [0; 8];
        arguments[..given.len()].copy_from_slice(given);
        // SAFETY: as above; what the places are is written by nothing else meanwhile.
        let bytes = unsafe { depth(function, arguments) };
        self.deepest = self.deepest.max((bytes, name));
    }

    fn of_a_head(&mut self) {
        let (head, answer) = (at(&mut self.node.head), at(&mut self.answer));
        for event in [5, 13, 13, 15, 3, 0, 13] {
            self.make(
                "an NMT event",
                ffi::plcn_nmt_event as _,
                &[head, event, answer],
            );
        }
        for event in [0, 1, 3, 3] {
            self.make(
                "a DLL event",
                ffi::plcn_dll_event as _,
                &[head, event, 1, answer],
            );
        }
        self.make(
            "an error",
            ffi::plcn_handle_error as _,
            &[head, 6, 0, 0, answer],
        );
        self.make(
            "a complete cycle",
            ffi::plcn_cycle_complete as _,
            &[head, answer],
        );
        self.make("an arm", ffi::plcn_arm as _, &[head, 1000]);
        let (history, update) = (at(&mut self.node.memory.history), at(&mut self.update));
        let given = [head, history, update, at(&mut self.entries), 5080];
        self.make("a load", ffi::plcn_load as _, &given);
    }

    fn of_watched_nodes(&mut self) {
        let (head, run, answer) = (
            at(&mut self.node.head),
            at(&mut self.node.memory.run),
            at(&mut self.answer),
        );
        let number = at(&mut self.node.memory.run.number);
        for node in 1..=31 {
            self.make("an add", ffi::plcn_add as _, &[head, run, node, 50]);
        }
        self.make(
            "an add",
            ffi::plcn_add_over as _,
            &[head, run, 32, number, 32, 50],
        );
        self.make("a heard", ffi::plcn_heard as _, &[head, run, 5, 100]);
        self.make(
            "a heard",
            ffi::plcn_heard_over as _,
            &[head, run, 32, 32, 5, 100],
        );
        self.make("a next due", ffi::plcn_next_due as _, &[head, run, answer]);
        self.make(
            "a next due",
            ffi::plcn_next_due_over as _,
            &[head, run, 32, 32, answer],
        );
        self.make("a removal", ffi::plcn_remove as _, &[head, run, 5]);
        self.make(
            "a removal",
            ffi::plcn_remove_over as _,
            &[head, run, 32, number, 6],
        );
    }

    /// Each node is heard, late and crosses; so does the SoC, by a tick and by a frame.
    fn of_a_crossing(&mut self) {
        let (head, answer) = (at(&mut self.node.head), at(&mut self.answer));
        let memory = &mut self.node.memory;
        let (queue, history) = (at(&mut memory.queue), at(&mut memory.history));
        let run = at(&mut memory.run);
        let (bytes, length) = (at(&mut self.frame), 60);
        for time in [2000, 3000, 4000, 5000] {
            let over = [head, queue, history, run, 30, 30, time, answer];
            let frame = [head, queue, history, time, bytes, length, answer];
            for event in [5, 13, 13, 15, 3, 0] {
                self.make(
                    "an NMT event",
                    ffi::plcn_nmt_event as _,
                    &[head, event, answer],
                );
            }
            self.make(
                "a DLL event",
                ffi::plcn_dll_event as _,
                &[head, 0, 1, answer],
            );
            self.make("an arm", ffi::plcn_arm as _, &[head, time - 1500]);
            match time {
                2000 | 4000 => {
                    let given = [head, queue, history, run, time, answer];
                    self.make("a tick", ffi::plcn_tick as _, &given);
                }
                3000 => self.make("a tick over places", ffi::plcn_tick_over as _, &over),
                _ => self.make("a frame", ffi::plcn_frame as _, &frame),
            }
        }
        self.make(
            "a hand-out",
            ffi::plcn_hand_out as _,
            &[head, queue, answer],
        );
    }

    fn of_a_weigh_head(&mut self) {
        let (weigh, memory) = (at(&mut self.node.weigh), at(&mut self.node.memory));
        let (answer, recipe) = (at(&mut self.answer), at(&mut self.recipe));
        let event = ffi::plcn_weigh_nmt_event as *const ();
        for number in [5, 13, 13] {
            self.make(
                "an NMT event of a weigh head",
                event,
                &[weigh, memory, number, answer],
            );
        }
        let given = [weigh, memory, recipe, 16];
        self.make("a recipe", ffi::plcn_weigh_load_recipe as _, &given);
        for number in [3, 0] {
            self.make(
                "an NMT event of a weigh head",
                event,
                &[weigh, memory, number, answer],
            );
        }
        let given = [weigh, memory, at(&mut self.update), at(&mut self.entries), 5080];
        self.make("a load of a weigh head", ffi::plcn_weigh_load as _, &given);
        let given = [weigh, memory, 6000, at(&mut self.frame), 60, answer];
        self.make(
            "a frame of a weigh head",
            ffi::plcn_weigh_frame as _,
            &given,
        );
        let given = [weigh, memory, 9000, answer];
        self.make("a tick of a weigh head", ffi::plcn_weigh_tick as _, &given);
    }
}
