//! Which sectors the reads and writes of a measurement start at.

use crate::random::Random;

pub trait Positions {
    /// The first user sector of the next call.
    fn next(&mut self) -> u64;
}

/// The same sector for every call.
pub struct Fixed(pub u64);

impl Positions for Fixed {
    fn next(&mut self) -> u64 {
        self.0
    }
}

/// Sectors that look random, over a whole volume.
pub struct Scattered {
    random: Random,
    bound: u64,
}

impl Scattered {
    /// Sectors below `bound`.
    pub fn new(bound: u64) -> Scattered {
        Scattered { random: Random::new(), bound }
    }
}

impl Positions for Scattered {
    fn next(&mut self) -> u64 {
        self.random.below(self.bound)
    }
}
