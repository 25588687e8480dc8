//! Numbers that look random and are the same in every run (xorshift, Marsaglia).

pub struct Rng(u64);

impl Rng {
    pub fn new(seed: u64) -> Rng {
        Rng(seed.wrapping_mul(0x9E37_79B9_7F4A_7C15) | 1)
    }

    pub fn next(&mut self) -> u64 {
        self.0 ^= self.0 << 13;
        self.0 ^= self.0 >> 7;
        self.0 ^= self.0 << 17;
        self.0
    }

    pub fn below(&mut self, n: usize) -> usize {
        (self.next() >> 11) as usize % n.max(1)
    }

    /// Once in n times.
    pub fn once_in(&mut self, n: usize) -> bool {
        self.below(n) == 0
    }

    pub fn of<'a, T>(&mut self, all: &'a [T]) -> &'a T {
        &all[self.below(all.len())]
    }

    /// A number of any size: near 0, near a power of two, or anything.
    pub fn number(&mut self) -> u64 {
        let edge = 1u64 << self.below(64);
        match self.below(4) {
            0 => self.below(4) as u64,
            1 => edge.wrapping_sub(self.below(3) as u64),
            2 => edge.wrapping_neg().wrapping_add(self.below(3) as u64),
            _ => self.next() >> self.below(64),
        }
    }
}
