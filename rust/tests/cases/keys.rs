//! Keys and tweak numbers.

use crate::reference::random::Random;
use crate::reference::xts::Key;

/// Numbers on either side of those that fill a part of a tweak block, and the least and the largest.
pub const TWEAK_NUMBERS: [u64; 12] = [
    0,
    1,
    0xFF,
    0x100,
    0xFFFF_FFFF,
    1 << 32,
    (1 << 32) + 1,
    (1 << 41) - 1,
    1 << 56,
    1 << 63,
    u64::MAX - 1,
    u64::MAX,
];

/// A key: mostly of two halves that differ.
pub fn key(random: &mut Random) -> Key {
    if random.chance(75) {
        of_two_halves(random)
    } else {
        of_equal_halves(random)
    }
}

pub fn of_two_halves(random: &mut Random) -> Key {
    let mut key = [0; 64];
    random.fill(&mut key);
    key
}

pub fn of_equal_halves(random: &mut Random) -> Key {
    let mut key = of_two_halves(random);
    key.copy_within(..32, 32);
    key
}

/// A key for each of two views: now and then the same.
pub fn pair(random: &mut Random) -> [Key; 2] {
    let one = key(random);
    [one, if random.chance(25) { one } else { key(random) }]
}

/// A tweak number: one of the list, or any.
pub fn tweak_number(random: &mut Random) -> u64 {
    if random.chance(25) {
        random.pick(&TWEAK_NUMBERS)
    } else {
        random.of_any_size()
    }
}
