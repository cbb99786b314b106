//! Host sizes, and sizes of the sectors of a host's disk.

use crate::reference::layout::{HEADERS_SIZE, MAX_HOST_SIZE, MIN_HOST_SIZE, SECTOR_SIZES};
use crate::reference::random::Random;

/// Sizes at the ends of the rule and inside it.
pub const ALLOWED: [u64; 10] = [
    MIN_HOST_SIZE,
    MIN_HOST_SIZE + 512,
    MIN_HOST_SIZE + 4_096,
    1 << 19,
    1 << 20,
    (1 << 32) - 512,
    (1 << 32) + 512,
    1 << 40,
    MAX_HOST_SIZE - 512,
    MAX_HOST_SIZE,
];

/// Sizes that break the rule: too small, too large, no multiple of 512.
pub const WRONG: [u64; 20] = [
    0,
    1,
    512,
    131_072,
    262_144,
    262_143,
    MIN_HOST_SIZE - 1,
    MIN_HOST_SIZE + 1,
    MIN_HOST_SIZE + 256,
    MIN_HOST_SIZE + 511,
    (1 << 20) + 1,
    (1 << 20) - 256,
    MAX_HOST_SIZE - 1,
    MAX_HOST_SIZE + 1,
    MAX_HOST_SIZE + 512,
    1 << 51,
    1 << 63,
    u64::MAX - 511,
    u64::MAX - 131_071,
    u64::MAX,
];

/// Sizes with nothing wrong but that they are too large: they are of whole sectors of any disk's.
pub const TOO_LARGE: [u64; 4] = [MAX_HOST_SIZE + 4_096, 1 << 51, 1 << 63, 0u64.wrapping_sub(HEADERS_SIZE)];

/// Sizes that no disk's sectors may have: close to the four, powers of two beside them, and ones that would be one of
/// the four if they were cut short.
pub const WRONG_SECTOR_SIZES: [u64; 18] = [
    0,
    1,
    2,
    256,
    511,
    513,
    1_536,
    3_072,
    4_095,
    8_192,
    512 << 8,
    512 << 16,
    1 << 31,
    u32::MAX as u64,
    (1 << 32) + 512,
    (1 << 32) + 4_096,
    0u64.wrapping_sub(512),
    u64::MAX,
];

pub fn allowed(random: &mut Random) -> u64 {
    if random.chance(50) {
        return random.pick(&ALLOWED);
    }
    let bits = random.between(1, 20);
    2 * HEADERS_SIZE + random.pick(&SECTOR_SIZES) * random.between(1, 1 << bits)
}

/// A size of the disk's sectors that this host is made of, with at least one of them between its headers.
pub fn sector_size(host_size: u64, random: &mut Random) -> u64 {
    let is_whole = |size: &u64| host_size % size == 0 && sectors_between_headers(host_size, *size) > 0;
    let sizes: Vec<u64> = SECTOR_SIZES.into_iter().filter(is_whole).collect();
    random.pick(&sizes)
}

/// How many of the disk's sectors lie between the header areas.
pub fn sectors_between_headers(host_size: u64, sector_size: u64) -> u64 {
    (host_size - 2 * HEADERS_SIZE) / sector_size
}

/// A size of a disk's sectors: one of the four, or a wrong one.
pub fn any_sector_size(random: &mut Random) -> u64 {
    if random.chance(40) {
        return random.pick(&SECTOR_SIZES);
    }
    random.pick(&WRONG_SECTOR_SIZES)
}
