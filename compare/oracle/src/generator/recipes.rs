//! Recipes (RULES 12): loads in every state, at and beyond their limits, weights of every place, and resets, errors and
//! withdrawals between a load and a weight.

use super::{
    ALL_STATES, CONFIGURATION_COMPLETE, CS_STOPPED, ENABLE_READY_TO_OPERATE, ERROR, OPERATIONAL,
    PRE_OPERATIONAL_2, READY_TO_OPERATE, RESET, START_NODE, Script,
};
use std::io;

const PLACES: u64 = 16;
const LAST_BIN: u64 = 64;
const MOST_GRAMS: u64 = 30_000;

/// Lines that are not to be read, as they stand.
const UNREADABLE: [&str; 16] = [
    "recipe ",
    "recipe 1",
    "recipe 1 100 2",
    "recipe 256 100",
    "recipe 1 65536",
    "recipe 1 -",
    "recipe -1 100",
    "recipe 1  100",
    "recipe 1 100 ",
    "Recipe 1 100",
    "recipe 1 1 2 1 3 1 4 1 5 1 6 1 7 1 8 1 9 1 10 1 11 1 12 1 13 1 14 1 15 1 16 1 17 1 18 1 19 1 20 1 21 1",
    "weight",
    "weight ",
    "weight 0 0",
    "weight -1",
    "weight 18446744073709551616",
];

impl Script<'_> {
    pub(super) fn recipes_before_the_first_start(&mut self) -> io::Result<()> {
        let lines = ["recipe 1 100", "weight 0"];
        lines.iter().try_for_each(|line| self.give(line))
    }

    pub(super) fn recipes(&mut self) -> io::Result<()> {
        match self.random.below(10) {
            0..4 => self.load_and_dose(),
            4 | 5 => self.reset_after_a_load(),
            6 => self.recipe_in_any_state(),
            7 => self.recipes_beyond_the_limits(),
            8 => self.ready_word_alone(),
            _ => self.unreadable_recipes(),
        }
    }

    fn length(&mut self) -> u64 {
        let any = 1 + self.random.below(PLACES);
        self.random.pick(&[1, 2, 3, any, any, 15, PLACES])
    }

    /// So many components, with bins in any order and none of them twice.
    fn components(&mut self, length: u64) -> Vec<(u64, u64)> {
        let mut bins: Vec<u64> = (1..=LAST_BIN).collect();
        let mut components = Vec::new();
        for _ in 0..length {
            let place = self.random.below(bins.len() as u64);
            let place = match self.random.below(6) {
                0 => 0,
                1 => bins.len() - 1,
                _ => place as usize,
            };
            let any = 1 + self.random.below(MOST_GRAMS);
            let grams = self.random.pick(&[1, 250, any, any, MOST_GRAMS]);
            components.push((bins.remove(place), grams));
        }
        components
    }

    fn load_of(&mut self, components: &[(u64, u64)]) -> io::Result<()> {
        let mut line = "recipe".to_string();
        for (bin, grams) in components {
            let (bin, grams) = (self.number(*bin), self.number(*grams));
            line.push_str(&format!(" {bin} {grams}"));
        }
        self.call(&line)
    }

    pub(super) fn recipe(&mut self) -> io::Result<()> {
        let length = self.length();
        let components = self.components(length);
        self.load_of(&components)
    }

    /// Components that are no recipe, for one reason.
    fn bad_recipe(&mut self) -> io::Result<()> {
        let length = self.length();
        let mut components = self.components(length);
        let place = self.random.below(length) as usize;
        match self.random.below(8) {
            0 => components = Vec::new(),
            1 => {
                let length = self.random.pick(&[17, 17, 18, 20]);
                components = self.components(length);
            }
            2 => components[place].0 = 0,
            3 => components[place].0 = self.random.pick(&[65, 65, 66, 128, 255]),
            4 => components[place].1 = 0,
            5 => components[place].1 = self.random.pick(&[30_001, 30_001, 32_768, 65_535]),
            _ => {
                if components.len() == 1 || self.random.one_in(3) {
                    components.truncate(15);
                    components.push(components[0]);
                } else {
                    let other = (place + 1) % components.len();
                    components[place].0 = components[other].0;
                }
            }
        }
        self.load_of(&components)
    }

    /// The weight for a place of the recipe, or for one at a limit.
    pub(super) fn weight(&mut self) -> io::Result<()> {
        let length = self.head.view().map_or(0, |view| view.recipe.len() as u64);
        let within = self.random.below(length.max(1));
        let last = length.saturating_sub(1);
        let place = self.random.pick(&[
            within,
            within,
            within,
            last,
            length,
            15,
            16,
            17,
            256,
            (1 << 32) + within,
            u64::MAX,
        ]);
        self.call1("weight", place)
    }

    fn weights(&mut self) -> io::Result<()> {
        (0..2 + self.random.below(4)).try_for_each(|_| self.weight())
    }

    /// To Operational, with the head as ready as it is.
    fn start_dosing(&mut self) -> io::Result<()> {
        if self.random.one_in(2) {
            self.nmt(ENABLE_READY_TO_OPERATE)?;
            if self.random.one_in(3) {
                self.weight()?;
            }
        }
        self.nmt(START_NODE)
    }

    fn load_and_dose(&mut self) -> io::Result<()> {
        for _ in 0..1 + self.random.below(3) {
            self.go_to(PRE_OPERATIONAL_2)?;
            if self.random.one_in(4) {
                self.call("withdraw")?;
                self.nmt(ENABLE_READY_TO_OPERATE)?;
            }
            if self.random.one_in(4) {
                self.bad_recipe()?;
            }
            self.recipe()?;
            if self.random.one_in(4) {
                self.recipe()?;
            }
            self.start_dosing()?;
            self.weights()?;
            self.without_a_reset()?;
            self.weights()?;
        }
        Ok(())
    }

    /// Ways out of Operational and back that leave the recipe.
    fn without_a_reset(&mut self) -> io::Result<()> {
        let state = self.random.pick(&[CS_STOPPED, PRE_OPERATIONAL_2, OPERATIONAL]);
        match self.random.below(5) {
            0 => self.nmt(ERROR)?,
            1 => self.call("withdraw")?,
            2 => self.bad_recipe()?,
            3 => self.recipe()?,
            _ => self.go_to(state)?,
        }
        self.go_to(OPERATIONAL)
    }

    /// A recipe, a reset behind it, and weights before and behind the next recipe, or the word alone.
    fn reset_after_a_load(&mut self) -> io::Result<()> {
        self.go_to(PRE_OPERATIONAL_2)?;
        self.recipe()?;
        let state = self
            .random
            .pick(&[PRE_OPERATIONAL_2, READY_TO_OPERATE, OPERATIONAL, OPERATIONAL, CS_STOPPED]);
        self.go_to(state)?;
        self.weight()?;
        let reset = RESET + self.random.below(5);
        self.nmt(reset)?;
        self.weight()?;
        self.go_to(PRE_OPERATIONAL_2)?;
        match self.random.below(3) {
            0 => self.recipe()?,
            1 => self.nmt(CONFIGURATION_COMPLETE)?,
            _ => self.bad_recipe()?,
        }
        self.start_dosing()?;
        self.weights()?;
        self.give("show")
    }

    fn recipe_in_any_state(&mut self) -> io::Result<()> {
        for _ in 0..1 + self.random.below(3) {
            let state = self.random.pick(&ALL_STATES);
            self.go_to(state)?;
            match self.random.below(3) {
                0 => self.bad_recipe()?,
                _ => self.recipe()?,
            }
            self.weight()?;
        }
        Ok(())
    }

    fn recipes_beyond_the_limits(&mut self) -> io::Result<()> {
        self.go_to(PRE_OPERATIONAL_2)?;
        for _ in 0..2 + self.random.below(4) {
            self.bad_recipe()?;
        }
        self.give("show")
    }

    /// Operational by the word alone, with a recipe or with none.
    fn ready_word_alone(&mut self) -> io::Result<()> {
        if self.random.one_in(3) {
            self.start()?;
        }
        self.go_to(OPERATIONAL)?;
        self.weights()
    }

    fn unreadable_recipes(&mut self) -> io::Result<()> {
        for _ in 0..1 + self.random.below(4) {
            let line = self.random.pick(&UNREADABLE);
            self.call(line)?;
        }
        Ok(())
    }
}
