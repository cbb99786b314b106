//! Numbers that look random and are the same in every run.

/// A linear congruential generator, with Knuth's multiplier for 64 bits.
pub struct Random(u64);

impl Random {
    pub fn new() -> Random {
        Random(0x0123_4567_89AB_CDEF)
    }

    /// A number below `bound`, which is at most 2^32.
    pub fn below(&mut self, bound: u64) -> u64 {
        self.0 = self.0.wrapping_mul(6_364_136_223_846_793_005).wrapping_add(1_442_695_040_888_963_407);
        ((self.0 >> 32) * bound) >> 32
    }

    pub fn fill(&mut self, bytes: &mut [u8]) {
        bytes.fill_with(|| self.below(256) as u8);
    }
}
