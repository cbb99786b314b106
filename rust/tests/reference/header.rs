//! One candidate: its fields, whether it is a header, and the first line that it fails (docs/RULES.md,
//! Header bytes).

use std::ops::Range;

use super::crc::crc32;
use super::layout::{sector_size_allowed, DataArea, Layout, STANDARD};

pub const HEADER_SIZE: usize = 512;

pub const SALT: Range<usize> = 0..64;
pub const MAGIC: Range<usize> = 64..68;
pub const VERSION: Range<usize> = 68..70;
pub const MIN_PROGRAM_VERSION: Range<usize> = 70..72;
pub const KEYS_CHECKSUM: Range<usize> = 72..76;
pub const RESERVED: Range<usize> = 76..92;
pub const HIDDEN_SIZE: Range<usize> = 92..100;
pub const DATA_SIZE: Range<usize> = 100..108;
pub const DATA_START: Range<usize> = 108..116;
pub const ENCRYPTED_SIZE: Range<usize> = 116..124;
pub const FLAGS: Range<usize> = 124..128;
pub const SECTOR_SIZE: Range<usize> = 128..132;
pub const RESERVED_LATE: Range<usize> = 132..252;
pub const HEADER_CHECKSUM: Range<usize> = 252..256;
pub const KEYS: Range<usize> = 256..512;

/// What the header checksum is taken of: all before it, but for the salt.
pub const CHECKED: Range<usize> = 64..252;

fn big_endian(bytes: &[u8]) -> u64 {
    bytes.iter().fold(0, |number, byte| number * 256 + u64::from(*byte))
}

fn field(candidate: &[u8], range: Range<usize>) -> u64 {
    big_endian(&candidate[range])
}

fn is_vera(candidate: &[u8]) -> bool {
    candidate[MAGIC] == *b"VERA"
}

fn is_true(candidate: &[u8]) -> bool {
    candidate[MAGIC] == *b"TRUE"
}

fn is_zero(bytes: &[u8]) -> bool {
    bytes.iter().all(|byte| *byte == 0)
}

pub fn is_header(candidate: &[u8]) -> bool {
    (is_vera(candidate) || is_true(candidate))
        && u64::from(crc32(&candidate[KEYS])) == field(candidate, KEYS_CHECKSUM)
        && u64::from(crc32(&candidate[CHECKED])) == field(candidate, HEADER_CHECKSUM)
}

/// The six lines of an accepted header, in their order: the number of the first that fails.
pub fn first_failing_line(candidate: &[u8], kind: u64, host_size: u64) -> Option<u64> {
    let lines = [
        (5, version_holds(candidate)),
        (6, reserved_holds(candidate)),
        (7, field(candidate, FLAGS) % 4 == 0),
        (8, sector_size_allowed(field(candidate, SECTOR_SIZE))),
        (9, hidden_size_holds(candidate, kind)),
        (10, data_area(candidate, host_size).is_allowed(kind)),
    ];
    lines.into_iter().find(|(_, holds)| !holds).map(|(number, _)| number)
}

fn version_holds(candidate: &[u8]) -> bool {
    version_allowed(&candidate[MAGIC], field(candidate, VERSION))
}

/// The versions that VERA has, or else TRUE.
pub fn version_allowed(magic: &[u8], version: u64) -> bool {
    if magic == b"VERA" {
        (2..=5).contains(&version)
    } else {
        version == 4 || version == 5
    }
}

fn reserved_holds(candidate: &[u8]) -> bool {
    let unused = is_true(candidate);
    field(candidate, FLAGS) / 4 == 0
        && (unused || is_zero(&candidate[RESERVED]))
        && (unused || is_zero(&candidate[RESERVED_LATE]))
}

fn hidden_size_holds(candidate: &[u8], kind: u64) -> bool {
    let hidden_size = field(candidate, HIDDEN_SIZE);
    if kind == STANDARD {
        hidden_size == 0
    } else {
        hidden_size != 0 && hidden_size == field(candidate, DATA_SIZE)
    }
}

fn data_area(candidate: &[u8], host_size: u64) -> DataArea {
    DataArea {
        start: field(candidate, DATA_START),
        size: field(candidate, DATA_SIZE),
        encrypted_size: field(candidate, ENCRYPTED_SIZE),
        host_size,
        sector_size: field(candidate, SECTOR_SIZE),
    }
}

/// What an accepted candidate tells.
pub fn layout(candidate: &[u8], kind: u64, host_size: u64, index: usize) -> Layout {
    Layout {
        host_size,
        kind,
        magic: if is_vera(candidate) { 0 } else { 1 },
        version: field(candidate, VERSION),
        min_program_version: field(candidate, MIN_PROGRAM_VERSION),
        data_start: field(candidate, DATA_START),
        data_size: field(candidate, DATA_SIZE),
        candidate: index as u64,
        sector_size: field(candidate, SECTOR_SIZE),
    }
}
