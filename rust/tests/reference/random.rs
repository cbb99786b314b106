//! Numbers that look random and are the same in every test run (SplitMix64).

pub struct Random {
    state: u64,
}

impl Random {
    /// The numbers of one case: they depend on the test's seed and the case's number alone.
    pub fn of_case(seed: u64, case: u64) -> Random {
        let mut seeded = Random { state: seed };
        Random { state: seeded.number() ^ case.wrapping_mul(0xD134_2543_DE82_EF95) }
    }

    pub fn number(&mut self) -> u64 {
        self.state = self.state.wrapping_add(0x9E37_79B9_7F4A_7C15);
        let mixed = (self.state ^ (self.state >> 30)).wrapping_mul(0xBF58_476D_1CE4_E5B9);
        let mixed = (mixed ^ (mixed >> 27)).wrapping_mul(0x94D0_49BB_1331_11EB);
        mixed ^ (mixed >> 31)
    }

    /// A number from 0 to `bound` - 1.
    pub fn below(&mut self, bound: u64) -> u64 {
        self.number() % bound
    }

    /// A number from `low` to `high`, both ends included.
    pub fn between(&mut self, low: u64, high: u64) -> u64 {
        low + self.below(high - low + 1)
    }

    pub fn chance(&mut self, percent: u64) -> bool {
        self.below(100) < percent
    }

    pub fn pick<T: Copy>(&mut self, choices: &[T]) -> T {
        choices[self.below(choices.len() as u64) as usize]
    }

    /// A number of any size: as often of few bits as of many.
    pub fn of_any_size(&mut self) -> u64 {
        let shift = self.below(64);
        self.number() >> shift
    }

    pub fn fill(&mut self, bytes: &mut [u8]) {
        for part in bytes.chunks_mut(8) {
            part.copy_from_slice(&self.number().to_le_bytes()[..part.len()]);
        }
    }
}
