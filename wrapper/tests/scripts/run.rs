//! The run of watched nodes that a script lends: places, and the number watched beside them.

use crate::script;
use powerlink_cn::{Run, WATCHED_PLACES, Watched};

/// More can't be lent.
pub const MOST_PLACES: usize = 40;

pub struct Lent {
    /// Places that are not lent keep what stands in them.
    memory: [Watched; MOST_PLACES],
    places: usize,
    number: u64,
}

impl Lent {
    pub fn new() -> Self {
        Self {
            memory: [Watched::default(); MOST_PLACES],
            places: WATCHED_PLACES,
            number: 0,
        }
    }

    /// Writes the place behind the number watched; none: there is no such place.
    pub fn watch(&mut self, watched: script::Watched) -> Option<()> {
        let behind = usize::try_from(self.number).ok()?;
        *self.memory.get_mut(behind)? = Watched {
            node: watched.node.into(),
            timeout_us: watched.timeout,
            last_heard_us: watched.heard,
        };
        self.number += 1;
        self.places = self.places.max(behind + 1);
        Some(())
    }

    pub fn lend(&mut self, places: usize, number: u64) {
        (self.places, self.number) = (places, number);
    }

    pub fn places(&self) -> &[Watched] {
        &self.memory[..self.places]
    }

    pub fn number(&self) -> u64 {
        self.number
    }

    /// As the run of a node; none where it has not as many places.
    pub fn as_run(&self) -> Option<Run> {
        let place = self.places().try_into().ok()?;
        Some(Run {
            place,
            number: self.number,
        })
    }

    /// What a call has left.
    pub fn become_run(&mut self, run: &Run) {
        self.memory[..WATCHED_PLACES].copy_from_slice(&run.place);
        self.number = run.number;
    }

    fn up_to_the_number(&self) -> usize {
        usize::try_from(self.number).map_or(self.places, |number| number.min(self.places))
    }

    /// The places up to the number, or all where it is above them.
    pub fn watched(&self) -> &[Watched] {
        &self.places()[..self.up_to_the_number()]
    }

    /// The places past the number, up to the last one that is not all zeros.
    pub fn rest(&self) -> &[Watched] {
        let rest = &self.places()[self.up_to_the_number()..];
        let last = rest
            .iter()
            .rposition(|watched| *watched != Watched::default());
        &rest[..last.map_or(0, |last| last + 1)]
    }
}
