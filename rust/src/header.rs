//! Writing headers.

use crate::{key_bytes, open, raw, Location, Magic, Refusal, HEADER_SIZE, SALT_SIZE};

/// A header to be written: what it tells, and the salt and the keys that it carries, random bytes of the caller's.
/// It cannot be printed, since keys are secret.
///
/// ```
/// use ondristela::{open, Location, Magic, NewHeader};
///
/// # let (salt, keys) = ([0x5A; 64], [0xC3; 256]);
/// let header = NewHeader {
///     magic: Magic::True,
///     version: 5,
///     min_program_version: 0x0700,
///     location: Location::Standard,
///     host_size: 1_048_576,
///     data_start: 131_072,
///     data_size: 786_432,
///     sector_size: 512,
///     salt: &salt,
///     keys: &keys,
/// };
/// let layout = open(&header.bytes()?, &[header.location.code()], header.host_size)?;
/// assert_eq!(layout.data_size, header.data_size);
/// # Ok::<(), ondristela::Refusal>(())
/// ```
#[derive(Clone, Copy)]
pub struct NewHeader<'a> {
    /// Which program's format it has.
    pub magic: Magic,
    /// The header's version.
    pub version: u16,
    /// The least version of the program that may open the volume; `0x0700` is 7.0.
    pub min_program_version: u16,
    /// Where the header is to lie, which makes the volume standard or hidden.
    pub location: Location,
    /// The host's bytes.
    pub host_size: u64,
    /// The data area's first byte in the host.
    pub data_start: u64,
    /// The data area's bytes.
    pub data_size: u64,
    /// The bytes of the disk's own sectors: 512, 1,024, 2,048 or 4,096.
    pub sector_size: u64,
    /// The salt, 64 bytes.
    pub salt: &'a [u8],
    /// The keys, 256 bytes.
    pub keys: &'a [u8],
}

impl<'a> NewHeader<'a> {
    /// What a header tells and carries, taken apart, so that it can be written anew with a salt, keys or numbers of
    /// one's own. Left as it is, it gives the same 512 bytes, but for what a TRUE header has in its unused ones.
    /// Refusals are those of [`open`](crate::open).
    pub fn from_header(
        header: &'a [u8],
        location: Location,
        host_size: u64,
    ) -> Result<NewHeader<'a>, Refusal> {
        let codes = [location.code()];
        let layout = open(header, &codes, host_size)?;
        Ok(NewHeader {
            magic: layout.magic,
            // Both fields are 16 bits wide.
            version: layout.version as u16,
            min_program_version: layout.min_program_version as u16,
            location,
            host_size,
            data_start: layout.data_start,
            data_size: layout.data_size,
            sector_size: layout.sector_size,
            salt: &header[..SALT_SIZE],
            keys: key_bytes(header, &codes, host_size)?,
        })
    }

    /// The header's bytes, deciphered, with both checksums. [`open`](crate::open) accepts them, for the location's
    /// code and the host's size. Refusals are those of [`write`](NewHeader::write).
    pub fn bytes(&self) -> Result<[u8; HEADER_SIZE], Refusal> {
        let mut header = [0; HEADER_SIZE];
        self.write(&mut header)?;
        Ok(header)
    }

    /// Writes these bytes over `header`, which is 512 bytes long. Refusals are `Lengths`, `HostSize`, `Version`,
    /// `SectorSize` and `DataArea`, tested in this order; they leave `header` as it was.
    pub fn write(&self, header: &mut [u8]) -> Result<(), Refusal> {
        let answer = raw::write_header(
            &self.magic.letters(),
            self.version,
            self.min_program_version,
            self.location.code(),
            self.host_size,
            self.data_start,
            self.data_size,
            self.sector_size,
            self.salt,
            self.keys,
            header,
        );
        Refusal::check(answer, None)
    }
}
