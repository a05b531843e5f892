//! Random numbers for the tests.

/// A small generator (xorshift): the same numbers every time.
pub struct Random(pub u64);

impl Random {
    pub fn next(&mut self) -> usize {
        self.0 ^= self.0 << 13;
        self.0 ^= self.0 >> 7;
        self.0 ^= self.0 << 17;
        self.0 as usize
    }

    /// A number below this one, or 0.
    pub fn below(&mut self, limit: usize) -> usize {
        self.next() % limit.max(1)
    }

    /// Around this number, far below it, or any at all.
    pub fn near(&mut self, number: usize) -> usize {
        match self.below(8) {
            0 => number,
            1 | 2 => number.saturating_sub(1),
            3 => number.saturating_add(1),
            4 => [usize::MAX, self.next(), self.next() >> self.below(64)][self.below(3)],
            _ => self.below(number),
        }
    }
}
