//! How many errors reached each of the seven counters of the original. It keeps no such count: its cumulative value is that of
//! the crossings. So its counters are looked at again after each error, and one that holds something else than before got an
//! error, whatever its threshold: without a crossing its level is higher, at a crossing its cumulative value is. Only a number at
//! the 32-bit top stays as it is, so there is none in what is looked at.

use powerlink_rs::frame::error::{CnErrorCounters, Held, held};

const TOP: &str = "4294967295";

pub struct Occurrences {
    /// In the order of the counters' fields.
    pub counts: [u32; 7],
    /// What the counters held at the last look.
    pub seen: Held,
}

impl Occurrences {
    /// Of counters that got no error yet.
    pub fn new(counters: &CnErrorCounters) -> Self {
        Self {
            counts: [0; 7],
            seen: held(counters),
        }
    }

    /// Counts the errors since the last look, at most one for each counter; how many there were.
    pub fn look(&mut self, now: Held) -> usize {
        let mut reached = 0;
        for (place, count) in self.counts.iter_mut().enumerate() {
            assert!(!now[place].contains(TOP), "an error at the top is not seen");
            if now[place] != self.seen[place] {
                *count = count.saturating_add(1);
                reached += 1;
            }
        }
        self.seen = now;
        reached
    }

    /// Counts the one error that was handled.
    pub fn handled(&mut self, counters: &CnErrorCounters) {
        let reached = self.look(held(counters));
        assert!(reached <= 1, "an error reaches one counter or none");
    }

    /// A completed cycle lowers levels and is no error.
    pub fn cycle_completed(&mut self, counters: &CnErrorCounters) {
        self.seen = held(counters);
    }
}
