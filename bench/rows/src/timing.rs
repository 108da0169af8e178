//! How long a call takes: the time of preparation and call, and that of the preparation alone, to
//! be taken from it.

use std::arch::asm;

/// Nodes that are called in turn, so that what one call wrote is in the cache, and no longer on its
/// way there, when the next call on the node reads it.
const NODES: usize = 16;
/// How long a repetition takes at least, in ns.
const LONG_ENOUGH: u64 = 60_000;
/// The repetitions after which the nodes are made anew, so that no count comes near a limit.
const ANEW: u32 = 10;

/// The least time of a call, in ns.
#[derive(Debug, Clone, Copy)]
pub struct Measured {
    /// Of the preparation and the call.
    pub both: f64,
    /// Of the preparation.
    pub prepared: f64,
}

impl Measured {
    pub const NONE: Self = Self {
        both: f64::INFINITY,
        prepared: f64::INFINITY,
    };

    /// Of two, the least of each.
    pub fn least(self, other: Self) -> Self {
        Self {
            both: self.both.min(other.both),
            prepared: self.prepared.min(other.prepared),
        }
    }

    /// The time of the call.
    pub fn call(self) -> f64 {
        (self.both - self.prepared).max(0.0)
    }
}

/// Calls of one row on the nodes of one side.
pub trait Case {
    /// Measures once.
    fn measure(&mut self) -> Measured;
}

pub struct Calls<N, M, P, C> {
    nodes: Vec<N>,
    make: M,
    /// How often each node is called behind one preparation.
    phases: usize,
    prepare: P,
    call: C,
    repeats: u64,
    measured: u32,
}

impl<N, M, P, C> Calls<N, M, P, C>
where
    M: Fn() -> N,
    P: Fn(&mut N),
    C: Fn(&mut N, usize),
{
    pub fn new(make: M, phases: usize, prepare: P, call: C) -> Self {
        let mut calls = Self {
            nodes: Vec::new(),
            make,
            phases,
            prepare,
            call,
            repeats: 1,
            measured: 0,
        };
        calls.make_nodes();
        while calls.both() < LONG_ENOUGH {
            calls.repeats *= 2;
        }
        calls
    }

    fn make_nodes(&mut self) {
        self.nodes.clear();
        self.nodes.extend((0..NODES).map(|_| (self.make)()));
    }

    #[inline(never)]
    fn both(&mut self) -> u64 {
        let begun = processor_time();
        for _ in 0..self.repeats {
            for node in &mut self.nodes {
                keep(node);
                (self.prepare)(node);
            }
            for phase in 0..self.phases {
                for node in &mut self.nodes {
                    keep(node);
                    (self.call)(node, phase);
                }
            }
        }
        processor_time() - begun
    }

    #[inline(never)]
    fn prepared(&mut self) -> u64 {
        let begun = processor_time();
        for _ in 0..self.repeats {
            for node in &mut self.nodes {
                keep(node);
                (self.prepare)(node);
            }
            for phase in 0..self.phases {
                for node in &mut self.nodes {
                    keep(node);
                    keep_number(phase as u64);
                }
            }
        }
        processor_time() - begun
    }
}

impl<N, M, P, C> Case for Calls<N, M, P, C>
where
    M: Fn() -> N,
    P: Fn(&mut N),
    C: Fn(&mut N, usize),
{
    fn measure(&mut self) -> Measured {
        self.measured += 1;
        if self.measured % ANEW == 0 {
            self.make_nodes();
            // The first calls on new nodes find them outside of the cache.
            let repeats = std::mem::replace(&mut self.repeats, 1);
            self.both();
            self.repeats = repeats;
        }
        let calls = (self.repeats as usize * self.phases * NODES) as f64;
        let both = self.both() as f64 / calls;
        let prepared = self.prepared() as f64 / calls;
        Measured { both, prepared }
    }
}

/// The compiler takes it that the value is read and written here. It costs no instruction.
#[inline(always)]
pub fn keep<T: ?Sized>(value: &T) {
    let place = std::ptr::from_ref(value).cast::<u8>();
    // SAFETY: it has no instruction.
    unsafe { asm!("/* {0} */", in(reg) place, options(nostack, preserves_flags)) }
}

/// The compiler takes it that the number is read here.
#[inline(always)]
pub fn keep_number(number: u64) {
    // SAFETY: it has no instruction.
    unsafe { asm!("/* {0} */", in(reg) number, options(nostack, preserves_flags)) }
}

#[repr(C)]
struct Timespec {
    seconds: i64,
    nanoseconds: i64,
}

unsafe extern "C" {
    fn clock_gettime(clock: i32, time: *mut Timespec) -> i32;
}

const CLOCK_THREAD_CPUTIME_ID: i32 = 3;

/// The processor time of this thread, in ns.
fn processor_time() -> u64 {
    let mut time = Timespec {
        seconds: 0,
        nanoseconds: 0,
    };
    // SAFETY: it writes the time.
    let failed = unsafe { clock_gettime(CLOCK_THREAD_CPUTIME_ID, &mut time) };
    assert_eq!(failed, 0, "the thread has a clock");
    time.seconds as u64 * 1_000_000_000 + time.nanoseconds as u64
}
