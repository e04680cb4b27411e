//! What the long runs have in common.

/// Numbers that look random, the same in every run.
pub struct Numbers(pub u64);

impl Numbers {
    /// The next one, below n.
    pub fn below(&mut self, n: usize) -> usize {
        self.0 ^= self.0 << 13;
        self.0 ^= self.0 >> 7;
        self.0 ^= self.0 << 17;
        (self.0 % n as u64) as usize
    }
}
