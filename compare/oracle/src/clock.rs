//! A clock known within a range (RULES 7.10). The original has no such call: the answers come from the rule's
//! sentences, in numbers of 128 bits.

/// Of the SoC watch: the last SoC time and the limit, in µs.
pub struct Watch {
    pub last_soc: u64,
    pub limit: u64,
}

impl Watch {
    /// The limit less what has elapsed, which is at least 0.
    pub fn margin(&self, reading: u64) -> i128 {
        let elapsed = (i128::from(reading) - i128::from(self.last_soc)).max(0);
        i128::from(self.limit) - elapsed
    }

    /// Lost where all readings from one to the other are losses, kept where none is: by how many
    /// readings there are, and how many of them are losses.
    pub fn verdict(&self, earliest: u64, latest: u64) -> &'static str {
        let first_loss = i128::from(self.last_soc) + i128::from(self.limit) + 1;
        let (earliest, latest) = (i128::from(earliest), i128::from(latest));
        let readings = latest - earliest + 1;
        let losses = (latest - earliest.max(first_loss) + 1).max(0);
        if losses == readings {
            return "lost";
        }
        if losses == 0 { "kept" } else { "open" }
    }
}
