//! Candidates: headers that are accepted, headers that are refused, and bytes that are no header.

use super::changes;
use super::hosts::{self, sectors_between_headers};
use crate::reference::crc::crc32;
use crate::reference::header::{CHECKED, HEADER_CHECKSUM, HEADER_SIZE};
use crate::reference::headers::{write_checksums, write_header_checksum, write_keys_checksum, Header};
use crate::reference::layout::{HEADERS_SIZE, HIDDEN};
use crate::reference::opening::kind_of_code;
use crate::reference::random::Random;

pub type Candidate = [u8; HEADER_SIZE];

/// A header that keeps every rule at this location and host size.
pub fn accepted(code: u8, host_size: u64, random: &mut Random) -> Header {
    let sector_size = hosts::sector_size(host_size, random);
    let sectors = sectors_between_headers(host_size, sector_size);
    let is_hidden = kind_of_code(code) == HIDDEN;
    let is_true = random.chance(50);
    let before = if is_hidden { boundary_or_below(sectors, random) } else { 0 };
    let data_size = sector_size * (1 + boundary_or_below(sectors - before, random));
    let mut header = Header {
        salt: [0; 64],
        magic: if is_true { *b"TRUE" } else { *b"VERA" },
        version: if is_true { random.pick(&[4, 5]) } else { random.pick(&[2, 3, 4, 5]) },
        min_program_version: random.pick(&[7, 0x0700, 0x010B, 0x0B01, 0, 0xFFFF]),
        reserved: [0; 16],
        hidden_size: if is_hidden { data_size } else { 0 },
        data_size,
        data_start: HEADERS_SIZE + sector_size * before,
        encrypted_size: data_size,
        flags: 0,
        sector_size: sector_size as u32,
        reserved_late: [0; 120],
        keys: [0; 256],
    };
    fill_free_bytes(&mut header, random);
    header
}

/// 0, `bound` - 1 or a number between.
fn boundary_or_below(bound: u64, random: &mut Random) -> u64 {
    match random.below(4) {
        0 => 0,
        1 => bound - 1,
        _ => random.below(bound),
    }
}

/// Salt and keys may hold anything, and the reserved bytes of a TRUE header too.
fn fill_free_bytes(header: &mut Header, random: &mut Random) {
    random.fill(&mut header.salt);
    random.fill(&mut header.keys);
    if header.magic == *b"TRUE" && random.chance(50) {
        random.fill(&mut header.reserved);
        random.fill(&mut header.reserved_late);
    }
}

/// A header with one to three fields changed, its checksums redone.
pub fn changed(code: u8, host_size: u64, random: &mut Random) -> Candidate {
    let mut header = accepted(code, host_size, random);
    for _ in 0..random.pick(&[1, 1, 1, 2, 3]) {
        changes::change_field(&mut header, host_size, random);
    }
    header.bytes()
}

/// Bytes that are no header, or one whose checksums may have come to be wrong.
pub fn spoiled(code: u8, host_size: u64, random: &mut Random) -> Candidate {
    let header = accepted(code, host_size, random);
    let mut bytes = header.bytes();
    match random.below(7) {
        0 => random.fill(&mut bytes),
        1 => bytes = [random.pick(&[0, 0xFF]); HEADER_SIZE],
        2 => changes::change_byte(&mut bytes, 0..HEADER_SIZE as u64, random),
        3 => change_with_old_checksums(header, host_size, &mut bytes, random),
        4 => one_checksum_redone(&mut bytes, random),
        5 => mistaken_checksum(&mut bytes, random),
        _ => wrong_magic(header, &mut bytes, random),
    }
    bytes
}

fn change_with_old_checksums(mut header: Header, host_size: u64, bytes: &mut Candidate, random: &mut Random) {
    changes::change_field(&mut header, host_size, random);
    header.lay(bytes);
}

/// A byte of the fields and a byte of the keys change, and only one of the checksums follows.
fn one_checksum_redone(bytes: &mut Candidate, random: &mut Random) {
    changes::change_byte(bytes, 76..252, random);
    changes::change_byte(bytes, 256..512, random);
    if random.chance(50) {
        write_keys_checksum(bytes);
    } else {
        write_header_checksum(bytes);
    }
}

/// The header checksum with the salt taken in, little-endian, or the complement.
fn mistaken_checksum(bytes: &mut Candidate, random: &mut Random) {
    let with_salt = crc32(&bytes[..CHECKED.end]).to_be_bytes();
    let checksum = &mut bytes[HEADER_CHECKSUM];
    match random.below(3) {
        0 => checksum.copy_from_slice(&with_salt),
        1 => checksum.reverse(),
        _ => checksum.iter_mut().for_each(|byte| *byte = !*byte),
    }
}

/// Four bytes close to a magic, with right checksums.
fn wrong_magic(mut header: Header, bytes: &mut Candidate, random: &mut Random) {
    header.magic = changes::close_magic(random);
    header.lay(bytes);
    write_checksums(bytes);
}
