//! A small xorshift generator, so that every storm can be had again from its seed.

pub struct Rng(u64);

impl Rng {
    /// The seed must not be 0.
    pub fn new(seed: u64) -> Rng {
        assert_ne!(seed, 0);
        // Spreads neighbouring seeds; an odd factor keeps them from 0.
        Rng(seed.wrapping_mul(0x9E37_79B9_7F4A_7C15))
    }

    pub fn next(&mut self) -> u32 {
        self.0 ^= self.0 << 13;
        self.0 ^= self.0 >> 7;
        self.0 ^= self.0 << 17;
        (self.0 >> 16) as u32
    }

    /// A number below `bound`.
    pub fn below(&mut self, bound: u32) -> u32 {
        self.next() % bound
    }

    pub fn flip(&mut self) -> bool {
        self.below(2) == 1
    }
}
