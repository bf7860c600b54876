//! Seeded numbers, the same for a seed wherever they are drawn.

/// A 64-bit xorshift generator whose output is multiplied by an odd constant.
pub struct Random(u64);

impl Random {
    /// The generator of a seed; different seeds give different sequences.
    pub fn new(seed: u64) -> Random {
        let mut random = Random(seed ^ 0x9e37_79b9_7f4a_7c15);
        if random.0 == 0 {
            random.0 = 1;
        }
        (0..8).for_each(|_| {
            random.word();
        });
        random
    }

    /// The next word.
    pub fn word(&mut self) -> u64 {
        self.0 ^= self.0 >> 12;
        self.0 ^= self.0 << 25;
        self.0 ^= self.0 >> 27;
        self.0.wrapping_mul(0x2545_f491_4f6c_dd1d)
    }

    /// A number below a bound above 0.
    pub fn below(&mut self, bound: usize) -> usize {
        ((u128::from(self.word()) * bound as u128) >> 64) as usize
    }

    /// Two different numbers below a bound above 1.
    pub fn pair_below(&mut self, bound: usize) -> (usize, usize) {
        let a = self.below(bound);
        (a, (a + 1 + self.below(bound - 1)) % bound)
    }
}

/// The draws of a seed: a word of 64 bits, xored with itself shifted left 13, right 7 and left 17.
pub struct Draws(u64);

impl Draws {
    /// Panics where the seed is 0.
    pub fn new(seed: u64) -> Draws {
        assert_ne!(seed, 0, "a seed");
        Draws(seed)
    }
}

impl Iterator for Draws {
    type Item = u64;

    fn next(&mut self) -> Option<u64> {
        self.0 ^= self.0 << 13;
        self.0 ^= self.0 >> 7;
        self.0 ^= self.0 << 17;
        Some(self.0)
    }
}
