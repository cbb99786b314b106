//! Changes of single fields, to the values at the boundaries of each line of the header rules.

use std::ops::Range;

use super::candidates::Candidate;
use super::hosts;
use crate::reference::headers::Header;
use crate::reference::layout::HEADERS_SIZE;
use crate::reference::random::Random;

/// Changes one field; a size takes the other sizes along, but for the changes that are about those.
pub fn change_field(header: &mut Header, host_size: u64, random: &mut Random) {
    match random.below(12) {
        0 => header.version = version(random),
        1 => header.flags = flags(random),
        2 => header.sector_size = hosts::any_sector_size(random) as u32,
        3 => header.hidden_size = beside(header.data_size, random),
        4 => header.encrypted_size = beside(header.data_size, random),
        5 => header.data_size = beside(header.data_size, random),
        6 => resize(header, data_size(header.data_start, host_size, random)),
        7 => header.data_start = data_start(header.data_size, host_size, random),
        8 => wrap_sum(header, host_size, random),
        9 => header.reserved[random.below(16) as usize] = random.between(1, 255) as u8,
        10 => header.reserved_late[random.below(120) as usize] = random.between(1, 255) as u8,
        _ => header.magic = if header.magic == *b"VERA" { *b"TRUE" } else { *b"VERA" },
    }
}

/// Changes one byte in the range.
pub fn change_byte(bytes: &mut Candidate, range: Range<u64>, random: &mut Random) {
    let position = random.between(range.start, range.end - 1) as usize;
    bytes[position] ^= random.between(1, 255) as u8;
}

/// Versions on both sides of those that a magic has, some with their bytes exchanged.
pub fn version(random: &mut Random) -> u16 {
    if random.chance(20) {
        return random.number() as u16;
    }
    random.pick(&[0, 1, 2, 3, 4, 5, 6, 7, 0x0100, 0x0104, 0x0200, 0x0400, 0x0500, 0x0505, 0xFFFF])
}

fn flags(random: &mut Random) -> u32 {
    let one_bit = 1 << random.below(32);
    match random.below(8) {
        0 => one_bit | 1 << random.below(32),
        1 => random.number() as u32,
        2..=4 => random.pick(&[1, 2, 3]),
        _ => one_bit,
    }
}

/// A size close to another one, or far from it.
fn beside(size: u64, random: &mut Random) -> u64 {
    let any = random.of_any_size();
    random.pick(&[
        0,
        1,
        512,
        size,
        size.wrapping_add(1),
        size.wrapping_sub(1),
        size.wrapping_add(512),
        size.wrapping_sub(512),
        size.wrapping_sub(4_096),
        size.wrapping_add(1 << 32),
        size.swap_bytes(),
        u64::MAX,
        any,
    ])
}

/// Sets the data size, and the others that must equal it.
fn resize(header: &mut Header, size: u64) {
    header.data_size = size;
    header.encrypted_size = size;
    if header.hidden_size != 0 {
        header.hidden_size = size;
    }
}

/// Data sizes at the boundaries: the least, the largest that fits, and so large that sums wrap.
pub fn data_size(data_start: u64, host_size: u64, random: &mut Random) -> u64 {
    let largest = (host_size - HEADERS_SIZE).saturating_sub(data_start);
    let any = random.of_any_size();
    random.pick(&[
        0,
        1,
        256,
        511,
        512,
        513,
        1_024,
        4_096,
        largest,
        largest + 1,
        largest.wrapping_sub(1),
        largest + 512,
        largest.wrapping_sub(512),
        largest.wrapping_sub(1_024),
        largest.wrapping_sub(4_096),
        largest + HEADERS_SIZE,
        largest + 2 * HEADERS_SIZE,
        0u64.wrapping_sub(512),
        0u64.wrapping_sub(data_start),
        512u64.wrapping_sub(data_start),
        0u64.wrapping_sub(HEADERS_SIZE),
        0u64.wrapping_sub(2 * HEADERS_SIZE),
        1 << 63,
        any,
        any & !511,
    ])
}

/// Data starts at the boundaries: the earliest, the latest that fits, and so late that sums wrap.
pub fn data_start(data_size: u64, host_size: u64, random: &mut Random) -> u64 {
    let latest = (host_size - HEADERS_SIZE).saturating_sub(data_size);
    let any = random.of_any_size();
    random.pick(&[
        0,
        512,
        HEADERS_SIZE / 2,
        HEADERS_SIZE - 512,
        HEADERS_SIZE - 1,
        HEADERS_SIZE,
        HEADERS_SIZE + 1,
        HEADERS_SIZE + 256,
        HEADERS_SIZE + 512,
        HEADERS_SIZE + 4_096,
        2 * HEADERS_SIZE,
        latest,
        latest + 1,
        latest + 512,
        latest.wrapping_sub(512),
        latest.wrapping_sub(1_024),
        0u64.wrapping_sub(HEADERS_SIZE),
        0u64.wrapping_sub(data_size),
        0u64.wrapping_sub(512),
        u64::MAX,
        1 << 63,
        any,
        any & !511,
    ])
}

fn wrap_sum(header: &mut Header, host_size: u64, random: &mut Random) {
    let [start, size] = wrapping_area(header.hidden_size != 0, host_size, random);
    header.data_start = start;
    resize(header, size);
}

/// A start and a size near 2^64 whose sum, taken in 64 bits, is a number that fits.
pub fn wrapping_area(is_hidden: bool, host_size: u64, random: &mut Random) -> [u64; 2] {
    let fits = [0, 512, HEADERS_SIZE, HEADERS_SIZE + 512, host_size - HEADERS_SIZE, host_size];
    let sum = random.pick(&fits);
    let standard_start = [HEADERS_SIZE, 0u64.wrapping_sub(HEADERS_SIZE)];
    let huge_start = [0u64.wrapping_sub(HEADERS_SIZE), 0u64.wrapping_sub(512), 1 << 63, HEADERS_SIZE + 512];
    let start = if is_hidden { random.pick(&huge_start) } else { random.pick(&standard_start) };
    [start, sum.wrapping_sub(start)]
}

/// Four bytes close to a magic.
pub fn close_magic(random: &mut Random) -> [u8; 4] {
    let close = [b"VERa", b"vERA", b"TRUe", b"tRUE", b"VEUE", b"TRRA", b"AREV", b"EURT", b"\0ERA", b"VER\0"];
    *random.pick(&close)
}
