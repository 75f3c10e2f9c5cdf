//! Numbers that look drawn.

/// Draws from a seed, which isn't 0 (xorshift).
pub struct Draws(pub u64);

impl Draws {
    /// The next number, from 0 up to `end`, which it isn't.
    pub fn below(&mut self, end: usize) -> usize {
        self.0 ^= self.0 << 13;
        self.0 ^= self.0 >> 7;
        self.0 ^= self.0 << 17;
        (self.0 % end as u64) as usize
    }
}
