//! What the files that try histories draw at random; each adds draws of its
//! own.

/// A generator by shifts.
pub struct Random(u64);

impl Random {
    /// Always the same numbers, so that a failure comes back.
    pub fn new() -> Random {
        Random(0x9E37_79B9_7F4A_7C15)
    }

    pub fn below(&mut self, bound: usize) -> usize {
        self.0 ^= self.0 << 13;
        self.0 ^= self.0 >> 7;
        self.0 ^= self.0 << 17;
        (self.0 >> 20) as usize % bound
    }
}
