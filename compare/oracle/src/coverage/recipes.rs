//! What a script reached of RULES 12: recipes at and beyond their limits, weights, and what came between a load and a weight.

use super::{Count, Group, PRE_OPERATIONAL_2, READY_TO_OPERATE, Step, counted, number, refusal};
use crate::view::View;

/// What a run of 200,000 calls has to reach of each case.
const CASE: u64 = 20;

const OPERATIONAL: u8 = 0xFD;
const RESETS: std::ops::RangeInclusive<u64> = 4..=8;

/// The lines of recipes, both of them calls.
pub const LINES: [&str; 2] = ["recipe", "weight"];

const CASES: [&str; 43] = [
    "recipe refused 15",
    "recipe refused 16",
    "recipe refused 15 where 16 would be next",
    "recipe refused 15 with one loaded",
    "recipe refused 16 with one loaded",
    "recipe refused 16 at ReadyToOperate",
    "recipe refused 16 in Operational",
    "no component, 15",
    "17 components, 15",
    "bin 0, 15",
    "bin 65, 15",
    "grams 0, 15",
    "grams 30001, 15",
    "a bin twice and nothing else, 15",
    "recipe taken",
    "recipe taken with one loaded",
    "recipe taken, to ReadyToOperate",
    "recipe taken, not enabled",
    "recipe taken of 1 component",
    "recipe taken of 16 components",
    "recipe taken with bin 64",
    "recipe taken with 30000 grams",
    "recipe taken, the bins not ascending",
    "weight told",
    "weight told for place 15",
    "weight told of a recipe not ascending",
    "weight told behind an event Error",
    "weight told behind a withdrawal",
    "weight told behind a refused recipe",
    "weight refused 17",
    "weight refused 17 at ReadyToOperate, of the recipe",
    "weight refused 17 in PreOperational2, of the recipe",
    "weight refused 17 in Operational, the place behind the recipe",
    "weight refused 17 in Operational, place 16 with 16 components",
    "weight refused 17 in Operational, a place above 2^32",
    "weight refused 17 in Operational, no recipe",
    "weight refused 17 in Operational, a reset behind the last recipe",
    "weight told of the first recipe behind a reset",
    "recipe ended by Reset",
    "recipe ended by SwReset",
    "recipe ended by ResetNode",
    "recipe ended by ResetCommunication",
    "recipe ended by ResetConfiguration",
];

#[derive(Debug, Clone)]
pub struct Recipes {
    lines: [u64; LINES.len()],
    cases: [u64; CASES.len()],
    /// What came behind the last recipe that was loaded: an event Error, a withdrawal, a refused recipe.
    error: bool,
    withdrawal: bool,
    refused: bool,
    /// A reset ended a recipe, and none was loaded since; and one that was is the first.
    ended: bool,
    again: bool,
}

impl Default for Recipes {
    fn default() -> Self {
        Self {
            lines: [0; LINES.len()],
            cases: [0; CASES.len()],
            error: false,
            withdrawal: false,
            refused: false,
            ended: false,
            again: false,
        }
    }
}

fn ascending(recipe: &[(u64, u64)]) -> bool {
    recipe.is_sorted_by(|one, next| one.0 < next.0)
}

fn bin_twice(recipe: &[(u64, u64)]) -> bool {
    let twice = |(place, component): (usize, &(u64, u64))| {
        recipe[..place].iter().any(|other| other.0 == component.0)
    };
    recipe.iter().enumerate().any(twice)
}

fn within(component: &(u64, u64)) -> bool {
    (1..=64).contains(&component.0) && (1..=30_000).contains(&component.1)
}

impl Recipes {
    pub fn total_calls(&self) -> u64 {
        self.lines.iter().sum()
    }

    fn mark(&mut self, holds: bool, case: &str) {
        if holds {
            let place = CASES.iter().position(|name| *name == case);
            self.cases[place.expect("a case has a name")] += 1;
        }
    }

    /// Counts one line.
    pub fn count(&mut self, step: &Step, answer: &str) {
        let mut words = step.line.split(' ');
        let call = words.next().unwrap_or("");
        let numbers: Vec<u64> = words.filter_map(|word| number(Some(word))).collect();
        let refused = refusal(answer);
        if let Some(place) = LINES.iter().position(|name| *name == call) {
            self.lines[place] += 1;
        }
        let Some(before) = step.before else {
            return;
        };
        match (call, &numbers[..]) {
            ("recipe", numbers) => self.count_recipe(numbers, before, step.after, refused),
            ("weight", [place]) => self.count_weight(*place, before, refused),
            ("nmt", [event]) => self.count_event(*event, before),
            ("withdraw", []) if refused == 0 => self.withdrawal = true,
            ("start", _) if refused == 0 => {
                *self = Self {
                    lines: self.lines,
                    cases: self.cases,
                    ..Self::default()
                }
            }
            _ => (),
        }
    }

    fn count_recipe(&mut self, numbers: &[u64], before: &View, after: Option<&View>, refused: usize) {
        let recipe: Vec<(u64, u64)> = numbers.chunks(2).map(|pair| (pair[0], pair[1])).collect();
        let loaded = !before.recipe.is_empty();
        let has = |fits: &dyn Fn(&(u64, u64)) -> bool| recipe.iter().any(fits);
        let fits = (1..=16).contains(&recipe.len()) && recipe.iter().all(within);
        let cases = [
            (15, true, "recipe refused 15"),
            (15, before.nmt != PRE_OPERATIONAL_2, "recipe refused 15 where 16 would be next"),
            (15, loaded, "recipe refused 15 with one loaded"),
            (15, recipe.is_empty(), "no component, 15"),
            (15, recipe.len() == 17 && recipe.iter().all(within), "17 components, 15"),
            (15, has(&|component| component.0 == 0), "bin 0, 15"),
            (15, has(&|component| component.0 == 65), "bin 65, 15"),
            (15, has(&|component| component.1 == 0), "grams 0, 15"),
            (15, has(&|component| component.1 == 30_001), "grams 30001, 15"),
            (15, fits && bin_twice(&recipe), "a bin twice and nothing else, 15"),
            (16, true, "recipe refused 16"),
            (16, loaded, "recipe refused 16 with one loaded"),
            (16, before.nmt == READY_TO_OPERATE, "recipe refused 16 at ReadyToOperate"),
            (16, before.nmt == OPERATIONAL, "recipe refused 16 in Operational"),
            (0, true, "recipe taken"),
            (0, loaded, "recipe taken with one loaded"),
            (0, after.is_some_and(|view| view.nmt == READY_TO_OPERATE), "recipe taken, to ReadyToOperate"),
            (0, !before.enabled, "recipe taken, not enabled"),
            (0, recipe.len() == 1, "recipe taken of 1 component"),
            (0, recipe.len() == 16, "recipe taken of 16 components"),
            (0, has(&|component| component.0 == 64), "recipe taken with bin 64"),
            (0, has(&|component| component.1 == 30_000), "recipe taken with 30000 grams"),
            (0, !ascending(&recipe), "recipe taken, the bins not ascending"),
        ];
        for (number, holds, case) in cases {
            self.mark(refused == number && holds, case);
        }
        if refused == 0 {
            self.again = self.ended;
            (self.error, self.withdrawal, self.refused, self.ended) = (false, false, false, false);
        } else {
            self.refused = true;
        }
    }

    fn count_weight(&mut self, place: u64, before: &View, refused: usize) {
        let length = before.recipe.len() as u64;
        let unsorted = !before.recipe.is_sorted_by(|one, next| one.0 < next.0);
        let dosing = before.nmt == OPERATIONAL;
        let cases = [
            (0, true, "weight told"),
            (0, place == 15, "weight told for place 15"),
            (0, unsorted, "weight told of a recipe not ascending"),
            (0, self.error, "weight told behind an event Error"),
            (0, self.withdrawal, "weight told behind a withdrawal"),
            (0, self.refused, "weight told behind a refused recipe"),
            (0, self.again, "weight told of the first recipe behind a reset"),
            (17, true, "weight refused 17"),
            (
                17,
                before.nmt == READY_TO_OPERATE && place < length,
                "weight refused 17 at ReadyToOperate, of the recipe",
            ),
            (
                17,
                before.nmt == PRE_OPERATIONAL_2 && place < length,
                "weight refused 17 in PreOperational2, of the recipe",
            ),
            (
                17,
                dosing && length > 0 && place == length,
                "weight refused 17 in Operational, the place behind the recipe",
            ),
            (
                17,
                dosing && length == 16 && place == 16,
                "weight refused 17 in Operational, place 16 with 16 components",
            ),
            (
                17,
                dosing && place > 1 << 32 && place % (1 << 32) < length,
                "weight refused 17 in Operational, a place above 2^32",
            ),
            (17, dosing && length == 0, "weight refused 17 in Operational, no recipe"),
            (
                17,
                dosing && self.ended,
                "weight refused 17 in Operational, a reset behind the last recipe",
            ),
        ];
        for (number, holds, case) in cases {
            self.mark(refused == number && holds, case);
        }
    }

    fn count_event(&mut self, event: u64, before: &View) {
        self.error |= event == 11;
        if RESETS.contains(&event) {
            let name = ["Reset", "SwReset", "ResetNode", "ResetCommunication", "ResetConfiguration"]
                [(event - 4) as usize];
            self.mark(!before.recipe.is_empty(), &format!("recipe ended by {name}"));
            self.ended |= !before.recipe.is_empty();
            self.again = false;
        }
    }

    pub fn groups(&self) -> Vec<Group> {
        let count = |names: &[&str], counts: &[u64], minimum| {
            let count = |(name, count): (&&str, &u64)| counted(*name, *count, minimum);
            names.iter().zip(counts).map(count).collect::<Vec<Count>>()
        };
        vec![
            ("Lines of recipes", count(&LINES, &self.lines, 500)),
            ("Recipes and weights", count(&CASES, &self.cases, CASE)),
        ]
    }
}
