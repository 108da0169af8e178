//! The numbers that choose the calls and bytes of a long comparison. They are the same in every run,
//! and in our programs.

pub struct Generator {
    x: u64,
}

impl Generator {
    pub fn new() -> Self {
        Self { x: 1 }
    }

    /// The next number, below `limit`. It is made of the upper bits of x, since the lower ones repeat
    /// soon.
    pub fn below(&mut self, limit: u64) -> u64 {
        self.x = (self.x * 1_103_515_245 + 12_345) % (1 << 31);
        self.x / 65_536 % limit
    }
}
