//! Where headers lie, and opening a volume by them.

use crate::layout::{Kind, Layout};
use crate::{raw, Refusal};

/// Where a header lies in its host.
#[derive(Clone, Copy, Debug, PartialEq, Eq, Hash)]
pub enum Location {
    /// The standard volume's header, at the host's start.
    Standard,
    /// The hidden volume's header, at 65,536.
    Hidden,
    /// The backup of the standard volume's header, 131,072 bytes before the host's end.
    StandardBackup,
    /// The backup of the hidden volume's header, 65,536 bytes before the host's end.
    HiddenBackup,
}

impl Location {
    /// All four, in the order of their codes.
    pub const ALL: [Location; 4] =
        [Location::Standard, Location::Hidden, Location::StandardBackup, Location::HiddenBackup];

    /// The location's code, 0 to 3.
    pub fn code(self) -> u8 {
        self as u8
    }

    /// The kind of volume that a header there makes.
    pub fn kind(self) -> Kind {
        match self {
            Location::Standard | Location::StandardBackup => Kind::Standard,
            Location::Hidden | Location::HiddenBackup => Kind::Hidden,
        }
    }

    /// The header's first byte in a host of this size.
    pub fn offset(self, host_size: u64) -> Result<u64, Refusal> {
        let mut offset = [0];
        Refusal::check(raw::location(self.code(), host_size, &mut offset), None)?;
        Ok(offset[0])
    }
}

/// Opens a volume. `candidates` holds deciphered headers of 512 bytes, from 1 to 64, and `codes` the code
/// of each one's location. The first that is accepted gives the layout; without one, the first that is a
/// header gives the refusal.
pub fn open(candidates: &[u8], codes: &[u8], host_size: u64) -> Result<Layout, Refusal> {
    let mut numbers = [0; 9];
    Refusal::check(raw::open(candidates, codes, host_size, &mut numbers), None)?;
    Ok(Layout::opened(&numbers))
}

/// The 256 key bytes of the candidate that `open` accepts: a part of `candidates`, not a copy.
pub fn key_bytes<'a>(candidates: &'a [u8], codes: &[u8], host_size: u64) -> Result<&'a [u8], Refusal> {
    let mut range = [0; 2];
    Refusal::check(raw::keys(candidates, codes, host_size, &mut range), None)?;
    let [offset, size] = range.map(|number| number as usize);
    Ok(&candidates[offset..offset + size])
}
