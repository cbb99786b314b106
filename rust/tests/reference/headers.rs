//! Header bytes made from fields, with both checksums (docs/RULES.md, Header bytes).

use std::ops::Range;

use super::crc::crc32;
use super::header::*;

#[derive(Clone, Debug)]
pub struct Header {
    pub salt: [u8; 64],
    pub magic: [u8; 4],
    pub version: u16,
    pub min_program_version: u16,
    pub reserved: [u8; 16],
    pub hidden_size: u64,
    pub data_size: u64,
    pub data_start: u64,
    pub encrypted_size: u64,
    pub flags: u32,
    pub sector_size: u32,
    pub reserved_late: [u8; 120],
    pub keys: [u8; 256],
}

impl Header {
    /// The 512 bytes, with both checksums.
    pub fn bytes(&self) -> [u8; HEADER_SIZE] {
        let mut bytes = [0; HEADER_SIZE];
        self.lay(&mut bytes);
        write_checksums(&mut bytes);
        bytes
    }

    /// Writes the fields over the header's bytes and leaves its checksums as they are.
    pub fn lay(&self, bytes: &mut [u8; HEADER_SIZE]) {
        put(bytes, SALT, &self.salt);
        put(bytes, MAGIC, &self.magic);
        put(bytes, VERSION, &self.version.to_be_bytes());
        put(bytes, MIN_PROGRAM_VERSION, &self.min_program_version.to_be_bytes());
        put(bytes, RESERVED, &self.reserved);
        put(bytes, HIDDEN_SIZE, &self.hidden_size.to_be_bytes());
        put(bytes, DATA_SIZE, &self.data_size.to_be_bytes());
        put(bytes, DATA_START, &self.data_start.to_be_bytes());
        put(bytes, ENCRYPTED_SIZE, &self.encrypted_size.to_be_bytes());
        put(bytes, FLAGS, &self.flags.to_be_bytes());
        put(bytes, SECTOR_SIZE, &self.sector_size.to_be_bytes());
        put(bytes, RESERVED_LATE, &self.reserved_late);
        put(bytes, KEYS, &self.keys);
    }
}

fn put(bytes: &mut [u8; HEADER_SIZE], range: Range<usize>, value: &[u8]) {
    bytes[range].copy_from_slice(value);
}

/// Both checksums, of the bytes as they now are: the header's takes in the keys' own.
pub fn write_checksums(bytes: &mut [u8; HEADER_SIZE]) {
    write_keys_checksum(bytes);
    write_header_checksum(bytes);
}

pub fn write_keys_checksum(bytes: &mut [u8; HEADER_SIZE]) {
    let checksum = crc32(&bytes[KEYS]);
    put(bytes, KEYS_CHECKSUM, &checksum.to_be_bytes());
}

pub fn write_header_checksum(bytes: &mut [u8; HEADER_SIZE]) {
    let checksum = crc32(&bytes[CHECKED]);
    put(bytes, HEADER_CHECKSUM, &checksum.to_be_bytes());
}
