//! One call of the header writer, made by the library and by the reference.

use std::fmt;

use crate::reference::header::HEADER_SIZE;
use crate::reference::header_writing::{write, NewHeader};
use ondristela::raw;

/// What is asked for, and how many bytes are handed in to be written over.
#[derive(Clone)]
pub struct HeaderWriting {
    pub asked: NewHeader,
    pub header_size: usize,
}

/// So many bytes before and behind those that are handed in must stay as they are.
const MARGIN: usize = 32;

impl HeaderWriting {
    pub fn of(asked: NewHeader) -> HeaderWriting {
        HeaderWriting { asked, header_size: HEADER_SIZE }
    }

    /// The answer, after both have written over the same bytes: they answer alike and leave alike.
    pub fn check(&self, context: impl Fn() -> String) -> u64 {
        let (mut given, mut expected) = (self.memory(), self.memory());
        let answer = self.by_library(self.header_in(&mut given));
        let expected_answer = write(&self.asked, self.header_in(&mut expected));
        assert_eq!(answer, expected_answer, "{}: {self:?}", context());
        assert_eq!(given, expected, "the bytes left, {}: {self:?}", context());
        answer
    }

    /// The header as the library writes it, for what it accepts.
    pub fn written(&self) -> [u8; HEADER_SIZE] {
        let mut header = [0xA5; HEADER_SIZE];
        assert_eq!(self.by_library(&mut header), 0, "{self:?}");
        header
    }

    fn by_library(&self, header: &mut [u8]) -> u64 {
        let NewHeader { magic, version, min_program_version, code, .. } = &self.asked;
        let NewHeader { host_size, data_start, data_size, sector_size, salt, keys, .. } = &self.asked;
        raw::write_header(
            magic,
            *version,
            *min_program_version,
            *code,
            *host_size,
            *data_start,
            *data_size,
            *sector_size,
            salt,
            keys,
            header,
        )
    }

    fn memory(&self) -> Vec<u8> {
        (0..MARGIN + self.header_size + MARGIN).map(|index| (index * 37 + 11) as u8).collect()
    }

    fn header_in<'a>(&self, memory: &'a mut [u8]) -> &'a mut [u8] {
        &mut memory[MARGIN..MARGIN + self.header_size]
    }
}

/// All but the bytes of salt and keys.
impl fmt::Debug for HeaderWriting {
    fn fmt(&self, out: &mut fmt::Formatter) -> fmt::Result {
        let NewHeader { magic, version, min_program_version, code, .. } = &self.asked;
        let NewHeader { host_size, data_start, data_size, sector_size, salt, keys, .. } = &self.asked;
        let (magic, lengths) = (magic.escape_ascii(), [salt.len(), keys.len(), self.header_size]);
        write!(out, "{magic} version {version} needs {min_program_version} code {code}")?;
        write!(out, ", host {host_size} start {data_start} size {data_size}, sectors of {sector_size}")?;
        write!(out, ", lengths {lengths:?}")
    }
}
