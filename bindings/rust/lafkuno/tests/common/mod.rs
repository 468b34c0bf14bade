//! What the tests over random columns share.

/// Random numbers (xorshift).
pub struct Random(pub u64);

impl Random {
    /// Any 64 bits but zero.
    pub fn next(&mut self) -> u64 {
        self.0 ^= self.0 << 13;
        self.0 ^= self.0 >> 7;
        self.0 ^= self.0 << 17;
        self.0
    }

    /// A number below n.
    pub fn below(&mut self, n: u64) -> u64 {
        self.next() % n
    }
}
