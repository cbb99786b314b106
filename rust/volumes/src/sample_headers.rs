//! The sample's deciphered headers.

use ondristela::{Location, Magic, NewHeader, Refusal, HEADER_SIZE, KEYS_SIZE, SALT_SIZE, SECTOR_SIZE};

use crate::formats::{min_program_version, HEADER_VERSION};
use crate::noise::noise;

/// What tells the sample's two headers apart.
#[derive(Clone, Copy)]
pub struct Fields {
    location: Location,
    data_start: u64,
    data_size: u64,
    key_byte: u8,
}

/// The volume M of docs/RULES.md.
pub const OUTER: Fields =
    Fields { location: Location::Standard, data_start: 131_072, data_size: 786_432, key_byte: 0xA1 };

/// The volume N, hidden in it.
pub const HIDDEN: Fields =
    Fields { location: Location::Hidden, data_start: 655_360, data_size: 262_144, key_byte: 0xB2 };

/// A TrueCrypt header for a host of this size.
pub fn header(fields: Fields, host_size: u64) -> Result<[u8; HEADER_SIZE], Refusal> {
    let header = NewHeader {
        magic: Magic::True,
        version: HEADER_VERSION,
        min_program_version: min_program_version(Magic::True),
        location: fields.location,
        host_size,
        data_start: fields.data_start,
        data_size: fields.data_size,
        sector_size: SECTOR_SIZE as u64,
        // The salt is never enciphered, so the image has the same bytes there.
        salt: &noise(fields.location.code(), SALT_SIZE),
        keys: &[fields.key_byte; KEYS_SIZE],
    };
    header.bytes()
}
