//! What the script generator sees of the oracle: it gives lines and looks at the head between them.

/// The names of the seven threshold counters, in the order of `View`'s levels and of what `show` prints.
pub const COUNTER_NAMES: [&str; 7] = [
    "collision",
    "loss_of_soc",
    "loss_of_soa",
    "loss_of_preq",
    "soc_jitter",
    "crc_errors",
    "heartbeat_timeout",
];

/// The place of the heartbeat counter among them, the last.
pub const HEARTBEAT: usize = 6;

/// Above it a threshold is declined.
pub const HIGHEST_THRESHOLD: u32 = 1_000_000;

/// The numbers of nodes.
pub fn is_node(number: u8) -> bool {
    matches!(number, 1..=240 | 253..=255)
}

/// The head between two lines of a script.
#[derive(Debug, Clone, PartialEq, Eq)]
pub struct View {
    pub node: u8,
    /// The number of the NMT state, as 0x1C.
    pub nmt: u8,
    pub enabled: bool,
    pub ready: bool,
    pub basic_timeout: u32,
    /// The place of the DLL state in its enum, from 0.
    pub dll: u8,
    /// In the order of `COUNTER_NAMES`.
    pub levels: [u32; 7],
    pub thresholds: [u32; 7],
    /// The errors that reached each counter, and the original's cumulative values.
    pub occurrences: [u32; 7],
    pub crossings: [u32; 7],
    pub last_soc: u64,
    pub check: bool,
    pub deadline: Option<u64>,
    pub cycle: Option<u32>,
    pub tolerance: Option<u32>,
    /// Counters 1, 2, 3 and 5 of 0x1102.
    pub counters: [u32; 4],
    pub queue_capacity: usize,
    pub queue_length: usize,
    pub history_length: usize,
    pub earliest: Option<u64>,
    /// Bin and grams of each component of the recipe that is loaded; empty where there is none.
    pub recipe: Vec<(u8, u16)>,
}

/// The run of watched nodes that is lent: each place has node, timeout and last heard.
#[derive(Debug, Clone, PartialEq, Eq)]
pub struct Lent {
    pub places: Vec<(u8, u64, u64)>,
    pub number: u64,
}

impl Lent {
    fn up_to_the_number(&self) -> usize {
        let most = self.places.len();
        usize::try_from(self.number).map_or(most, |number| number.min(most))
    }

    /// The places up to the number, or all where it is above them.
    pub fn watched(&self) -> &[(u8, u64, u64)] {
        &self.places[..self.up_to_the_number()]
    }

    /// The places past the number.
    pub fn rest(&self) -> &[(u8, u64, u64)] {
        &self.places[self.up_to_the_number()..]
    }
}

/// A head that is driven by the lines of a call script.
pub trait Driven {
    /// Takes a line, without its newline; what CALLS.md says is printed for it (no line, one, or those of `show`).
    fn line(&mut self, line: &str) -> Vec<String>;
    /// The head, if there was an accepted start.
    fn view(&self) -> Option<View>;
    fn lent(&self) -> Lent;
    /// The nodes watched: node, timeout, last heard.
    fn watched(&self) -> Vec<(u8, u64, u64)> {
        self.lent().watched().to_vec()
    }
}
