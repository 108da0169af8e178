//! What is compared of a node of both sides, before a row's calls and after them.

use crate::side::Component;

/// What a node of either side keeps. Kinds of error are in the order of the counters' fields.
#[derive(Debug, Clone, PartialEq, Eq)]
pub struct View {
    pub state: u8,
    pub enabled: bool,
    pub ready: bool,
    pub dll: u8,
    pub levels: [u32; 7],
    pub crossings: [u32; 7],
    pub last_soc: u64,
    pub check: bool,
    pub deadline: Option<u64>,
    pub status_changed: bool,
    pub register: u8,
    pub cycle: u32,
    pub tolerance: u32,
    /// The counters 1, 2, 3 and 5 of object 0x1102.
    pub counters: [u32; 4],
    /// How many entries wait in the emergency queue.
    pub queue: usize,
    /// How many entries the error history has.
    pub history: usize,
    /// The watched nodes, each with its timeout and when it was last heard.
    pub watched: Vec<(u8, u64, u64)>,
    /// The earliest moment at which a watched node would be late, of a row whose calls work it out
    /// on both sides; of another row none.
    pub earliest: Option<u64>,
    /// The bin and the grams of each place of the recipe.
    pub recipe: [Component; 16],
    /// The last weight that was told, or the moment of the next tick; u64::MAX for none.
    pub told: u64,
}
