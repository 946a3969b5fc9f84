//! A small generator of whole numbers (Marsaglia's xorshift), the same on every machine.

pub struct Random(u64);

impl Random {
    /// The seed may not be 0.
    pub fn from_seed(seed: u64) -> Random {
        Random(seed)
    }

    /// Whether something that happens so many times in a thousand happens now.
    pub fn happens(&mut self, per_thousand: u64) -> bool {
        self.0 ^= self.0 << 13;
        self.0 ^= self.0 >> 7;
        self.0 ^= self.0 << 17;
        (self.0 >> 11) % 1000 < per_thousand
    }
}
