//! Headers to be written: the answer, and the bytes (docs/RULES.md, Writing headers).

use super::header::{version_allowed, HEADER_SIZE, KEYS, SALT};
use super::headers::Header;
use super::layout::{host_size_allowed, sector_size_allowed, DataArea, HIDDEN};
use super::opening::kind_of_code;

/// What a caller asks for. Anything may be made up, and salt and keys may be of any length.
#[derive(Clone)]
pub struct NewHeader {
    pub magic: [u8; 4],
    pub version: u16,
    pub min_program_version: u16,
    pub code: u8,
    pub host_size: u64,
    pub data_start: u64,
    pub data_size: u64,
    pub sector_size: u64,
    pub salt: Vec<u8>,
    pub keys: Vec<u8>,
}

impl NewHeader {
    /// Asks for what this header tells, at a location and in a host of this size.
    pub fn of(header: &Header, code: u8, host_size: u64) -> NewHeader {
        NewHeader {
            magic: header.magic,
            version: header.version,
            min_program_version: header.min_program_version,
            code,
            host_size,
            data_start: header.data_start,
            data_size: header.data_size,
            sector_size: header.sector_size.into(),
            salt: header.salt.to_vec(),
            keys: header.keys.to_vec(),
        }
    }

    /// The numbers of the rules that are broken, in the order in which they are tested.
    pub fn broken_rules(&self, header_size: usize) -> Vec<u64> {
        let rules = [
            (1, self.lengths_hold(header_size)),
            (19, self.magic == *b"VERA" || self.magic == *b"TRUE"),
            (2, self.code <= 3),
            (3, host_size_allowed(self.host_size)),
            (5, version_allowed(&self.magic, self.version.into())),
            (8, sector_size_allowed(self.sector_size)),
            (10, self.data_area().is_allowed(kind_of_code(self.code))),
        ];
        rules.into_iter().filter(|(_, holds)| !holds).map(|(number, _)| number).collect()
    }

    fn lengths_hold(&self, header_size: usize) -> bool {
        self.salt.len() == SALT.len() && self.keys.len() == KEYS.len() && header_size == HEADER_SIZE
    }

    fn data_area(&self) -> DataArea {
        DataArea {
            start: self.data_start,
            size: self.data_size,
            encrypted_size: self.data_size,
            host_size: self.host_size,
            sector_size: self.sector_size,
        }
    }

    /// The fields, where no rule is broken. Those that nothing is asked for are zero.
    fn header(&self) -> Header {
        let is_hidden = kind_of_code(self.code) == HIDDEN;
        Header {
            salt: self.salt[..].try_into().expect("64 bytes"),
            magic: self.magic,
            version: self.version,
            min_program_version: self.min_program_version,
            reserved: [0; 16],
            hidden_size: if is_hidden { self.data_size } else { 0 },
            data_size: self.data_size,
            data_start: self.data_start,
            encrypted_size: self.data_size,
            flags: 0,
            sector_size: self.sector_size.try_into().expect("one of the four sizes"),
            reserved_late: [0; 120],
            keys: self.keys[..].try_into().expect("256 bytes"),
        }
    }
}

/// The number of the first rule that is broken; or 0, with the header written.
pub fn write(asked: &NewHeader, header: &mut [u8]) -> u64 {
    if let Some(refusal) = asked.broken_rules(header.len()).first() {
        return *refusal;
    }
    header.copy_from_slice(&asked.header().bytes());
    0
}
