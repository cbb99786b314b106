//! A volume's layout, and the map between its sectors and the host's.

use crate::raw::{self, LayoutNumbers};
use crate::{Refusal, SECTOR_SIZE};

/// The kind of a volume.
#[derive(Clone, Copy, Debug, PartialEq, Eq, Hash)]
pub enum Kind {
    /// A volume that fills the host between its header areas.
    Standard,
    /// A volume inside the data area of a standard one.
    Hidden,
}

/// The magic of a header: which program's format it has.
#[derive(Clone, Copy, Debug, PartialEq, Eq, Hash)]
pub enum Magic {
    /// VeraCrypt.
    Vera,
    /// TrueCrypt.
    True,
}

impl Magic {
    /// The four letters that a header has.
    pub fn letters(self) -> [u8; 4] {
        match self {
            Magic::Vera => *b"VERA",
            Magic::True => *b"TRUE",
        }
    }
}

/// Where a volume lies in its host, and what its header tells. Anybody may make one up: each call checks
/// that it is sound.
#[derive(Clone, Copy, Debug, PartialEq, Eq, Hash)]
pub struct Layout {
    /// The host's bytes.
    pub host_size: u64,
    /// Standard or hidden.
    pub kind: Kind,
    /// The header's magic.
    pub magic: Magic,
    /// The header's version.
    pub version: u64,
    /// The least version of the program that may open the volume; `0x0700` is 7.0.
    pub min_program_version: u64,
    /// The data area's first byte in the host.
    pub data_start: u64,
    /// The data area's bytes.
    pub data_size: u64,
    /// Which of the candidates was accepted.
    pub candidate: u64,
    /// The bytes of the disk's own sectors: 512, 1,024, 2,048 or 4,096. The sectors of this crate have 512 bytes
    /// on every disk.
    pub sector_size: u64,
}

impl Layout {
    /// The layout as the library's nine numbers.
    pub fn numbers(&self) -> LayoutNumbers {
        [
            self.host_size,
            self.kind as u64,
            self.magic as u64,
            self.version,
            self.min_program_version,
            self.data_start,
            self.data_size,
            self.candidate,
            self.sector_size,
        ]
    }

    // An accepted layout has no kind and no magic but 0 and 1.
    pub(crate) fn opened(numbers: &LayoutNumbers) -> Layout {
        let [host_size, kind, magic, version, min_program_version, ..] = *numbers;
        let [.., data_start, data_size, candidate, sector_size] = *numbers;
        Layout {
            host_size,
            kind: if kind == 0 { Kind::Standard } else { Kind::Hidden },
            magic: if magic == 0 { Magic::Vera } else { Magic::True },
            version,
            min_program_version,
            data_start,
            data_size,
            candidate,
            sector_size,
        }
    }

    /// How many sectors the volume has.
    pub fn sector_count(&self) -> u64 {
        self.data_size / SECTOR_SIZE as u64
    }

    /// How many sectors make one of the disk's own: 1, 2, 4 or 8 in a sound layout. A read or write is refused
    /// `Unaligned` unless its first sector and its count are multiples of it.
    pub fn alignment(&self) -> u64 {
        self.sector_size / SECTOR_SIZE as u64
    }

    /// The host sector that holds a user sector.
    pub fn host_sector(&self, user: u64) -> Result<u64, Refusal> {
        let mut host = [0];
        Refusal::check(raw::host_sector(&self.numbers(), user, &mut host), None)?;
        Ok(host[0])
    }

    /// The user sector that a host sector holds.
    pub fn user_sector(&self, host: u64) -> Result<u64, Refusal> {
        let mut user = [0];
        Refusal::check(raw::user_sector(&self.numbers(), host, &mut user), None)?;
        Ok(user[0])
    }

    /// The tweak block of a user sector: its host sector's number, little-endian, in 16 bytes.
    pub fn tweak(&self, user: u64) -> Result<[u8; 16], Refusal> {
        let mut block = [0; 16];
        Refusal::check(raw::tweak(&self.numbers(), user, &mut block), None)?;
        Ok(block)
    }
}
