//! The run of watched nodes that a script lends: places, and the number watched beside them (RULES 8).

use crate::script::Watched;

/// The places of a run that number 3 takes.
pub const PLACES: usize = 32;

/// More can't be lent, so that a run that is too long can be tried.
pub const MOST_PLACES: usize = 40;

const ZEROS: Watched = Watched {
    node: 0,
    timeout: 0,
    heard: 0,
};

#[derive(Debug, Clone, PartialEq, Eq)]
pub struct Run {
    /// Those that are not lent keep what stands in them.
    memory: [Watched; MOST_PLACES],
    places: usize,
    number: u64,
}

impl Run {
    pub fn new() -> Self {
        Self {
            memory: [ZEROS; MOST_PLACES],
            places: PLACES,
            number: 0,
        }
    }

    /// Writes the place behind the number watched; none: no such place.
    pub fn watch(&mut self, record: Watched) -> Option<()> {
        let behind = usize::try_from(self.number).ok()?;
        *self.memory.get_mut(behind)? = record;
        self.number += 1;
        self.places = self.places.max(behind + 1);
        Some(())
    }

    /// Lends so many places, with this number, whatever stands in them.
    pub fn lend(&mut self, places: usize, number: u64) {
        (self.places, self.number) = (places, number);
    }

    pub fn places(&self) -> usize {
        self.places
    }

    pub fn number(&self) -> u64 {
        self.number
    }

    pub fn lent(&self) -> &[Watched] {
        &self.memory[..self.places]
    }

    /// How many of the lent places are up to the number.
    fn up_to_the_number(&self) -> usize {
        usize::try_from(self.number).map_or(self.places, |number| number.min(self.places))
    }

    /// The places up to the number, or all where it is above them.
    pub fn watched(&self) -> &[Watched] {
        &self.lent()[..self.up_to_the_number()]
    }

    pub fn watched_mut(&mut self) -> &mut [Watched] {
        let watched = self.up_to_the_number();
        &mut self.memory[..watched]
    }

    /// The places past the number, up to the last one that is not all zeros.
    pub fn rest(&self) -> &[Watched] {
        let rest = &self.lent()[self.up_to_the_number()..];
        let last = rest.iter().rposition(|record| *record != ZEROS);
        &rest[..last.map_or(0, |last| last + 1)]
    }

    /// The places past the number hold zeros behind an add or a removal that was taken.
    pub fn become_only(&mut self, watched: &[Watched]) {
        self.number = watched.len() as u64;
        self.memory[..watched.len()].copy_from_slice(watched);
        self.memory[watched.len()..self.places].fill(ZEROS);
    }
}
