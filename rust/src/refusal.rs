//! The refusals. What stands between markers is in refusals.txt: edit that file, and run tools/refusals.py.

use std::fmt;

/// Why a call was refused. A refused call has changed nothing, except that `Protected` locks the view.
/// docs/RULES.md has the table of refusals, and the order in which a call tests them.
///
/// Reads, writes and extents that are refused `Outside` or `Protected` tell the sector in the way: the first user
/// sector that kept them from being done.
///
/// ```
/// use ondristela::{Location, Refusal};
///
/// let refusal = Location::Standard.offset(1000).unwrap_err();
/// assert_eq!(refusal, Refusal::HostSize);
/// assert_eq!(
///     refusal.to_string(),
///     "the host_size is below 262,656, above 2^50, or no multiple of 512 (refusal 3)"
/// );
///
/// let refusal = Refusal::Protected { sector: 1024 };
/// assert_eq!((refusal.number(), refusal.sector()), (18, Some(1024)));
/// assert!(refusal.to_string().ends_with("; the sector in the way is user sector 1024 (refusal 18)"));
/// ```
#[derive(Clone, Copy, Debug, PartialEq, Eq, Hash)]
pub enum Refusal {
    // variants: written by tools/refusals.py from refusals.txt
    /// The candidates are not 1 to 64 headers of 512 bytes, with one location code for each; for a header
    /// to be written, the salt is not 64 bytes long, the keys are not 256, or the header is not 512.
    Lengths,
    /// A location code is above 3; the codes are 0 standard, 1 hidden, 2 standard backup, 3 hidden
    /// backup.
    Code,
    /// The host_size is below 262,656, above 2^50, or no multiple of 512.
    HostSize,
    /// No candidate is a header: each has a magic other than VERA and TRUE, or a wrong checksum, as after
    /// deciphering with a wrong password or cipher.
    NoHeader,
    /// The header's version is not supported; for VERA it must be 2 to 5, for TRUE 4 or 5.
    Version,
    /// A reserved flag of the header (bits 2 to 31) is set, or in a VERA header a reserved byte (76 to
    /// 91, 132 to 251) is not zero.
    Reserved,
    /// Flag bit 0 or 1 of the header is set, which tells of a system volume or one encrypted in place;
    /// neither is supported.
    Flags,
    /// The sector_size, in the header or for one to be written, is none of 512, 1,024, 2,048 and 4,096.
    SectorSize,
    /// The header's hidden_size does not fit its location code; it must be 0 for a standard volume, and
    /// for a hidden one equal to data_size and not 0.
    HiddenSize,
    /// The header's data area does not fit the host; host_size, data_start and data_size must be
    /// multiples of sector_size, data_size must equal encrypted_size and not be 0, and the data area must
    /// start at 131,072 (for a hidden volume there or later) and end at least 131,072 bytes before the
    /// host's end.
    DataArea,
    /// The layout or view is unsound: its host_size is refused 3, its sector_size 8, its kind is neither
    /// standard nor hidden, its data area does not fit the host as 10 has it, or its protected range is
    /// empty, not of whole 512-byte sectors, outside the data area or in a hidden volume; use one that an
    /// accepted call gave.
    Unsound,
    /// The layouts do not nest; the first must be standard and the second hidden, with the same host_size
    /// and sector_size and its data area inside the first's.
    NotNested,
    /// The image is not host_size bytes long; pass the whole host.
    ImageSize,
    /// The count is above 128; split the extent over several calls.
    Count,
    /// The buffer is not 512 bytes long for each sector of the count.
    BufferSize,
    /// First and count add up to more sectors than the volume has; in the map, the user sector is not
    /// below that number, or the host sector lies outside the data area.
    Outside {
        /// The sector in the way: the first user sector past the volume's end, or first itself if that is
        /// later; the map tells none.
        sector: Option<u64>,
    },
    /// The view's write lock is closed, as refusal 18 leaves it; nothing was written, and reads still
    /// work.
    Locked,
    /// A sector of the write lies in the protected range, which holds the hidden volume; nothing was
    /// written, and the view now refuses every write.
    Protected {
        /// The sector in the way: the first user sector of the protected range, or first itself if that
        /// is later.
        sector: u64,
    },
    /// The magic of the header to be written is neither VERA nor TRUE.
    Magic,
    /// First or count is no multiple of sector_size / 512, how many sectors of 512 bytes make one of the
    /// disk's own; widen the extent to whole ones.
    Unaligned,
    // end of variants
}

impl Refusal {
    /// Its number, from 1 on.
    pub fn number(self) -> u8 {
        // numbers: written by tools/refusals.py from refusals.txt
        match self {
            Refusal::Lengths => 1,
            Refusal::Code => 2,
            Refusal::HostSize => 3,
            Refusal::NoHeader => 4,
            Refusal::Version => 5,
            Refusal::Reserved => 6,
            Refusal::Flags => 7,
            Refusal::SectorSize => 8,
            Refusal::HiddenSize => 9,
            Refusal::DataArea => 10,
            Refusal::Unsound => 11,
            Refusal::NotNested => 12,
            Refusal::ImageSize => 13,
            Refusal::Count => 14,
            Refusal::BufferSize => 15,
            Refusal::Outside { .. } => 16,
            Refusal::Locked => 17,
            Refusal::Protected { .. } => 18,
            Refusal::Magic => 19,
            Refusal::Unaligned => 20,
        }
        // end of numbers
    }

    /// The refusal that has this number, if one has. `sector` is what the call stored as the sector in the way, if
    /// it takes a place for one: there is no `Protected` without it, and a refusal that tells no sector passes it
    /// over.
    pub fn from_number(number: u64, sector: Option<u64>) -> Option<Refusal> {
        // refusals: written by tools/refusals.py from refusals.txt
        match number {
            1 => Some(Refusal::Lengths),
            2 => Some(Refusal::Code),
            3 => Some(Refusal::HostSize),
            4 => Some(Refusal::NoHeader),
            5 => Some(Refusal::Version),
            6 => Some(Refusal::Reserved),
            7 => Some(Refusal::Flags),
            8 => Some(Refusal::SectorSize),
            9 => Some(Refusal::HiddenSize),
            10 => Some(Refusal::DataArea),
            11 => Some(Refusal::Unsound),
            12 => Some(Refusal::NotNested),
            13 => Some(Refusal::ImageSize),
            14 => Some(Refusal::Count),
            15 => Some(Refusal::BufferSize),
            16 => Some(Refusal::Outside { sector }),
            17 => Some(Refusal::Locked),
            18 => Some(Refusal::Protected { sector: sector? }),
            19 => Some(Refusal::Magic),
            20 => Some(Refusal::Unaligned),
            _ => None,
        }
        // end of refusals
    }

    /// The sector in the way, if the refusal tells one: a user sector, which for `Outside` the volume does not have.
    pub fn sector(self) -> Option<u64> {
        // sectors: written by tools/refusals.py from refusals.txt
        match self {
            Refusal::Outside { sector } => sector,
            Refusal::Protected { sector } => Some(sector),
            _ => None,
        }
        // end of sectors
    }

    /// When the refusal is given, and what can be done about it.
    fn sentence(self) -> &'static str {
        // sentences: written by tools/refusals.py from refusals.txt
        match self {
            Refusal::Lengths => {
                "the candidates are not 1 to 64 headers of 512 bytes, with one location code for each; for \
                 a header to be written, the salt is not 64 bytes long, the keys are not 256, or the header \
                 is not 512"
            }
            Refusal::Code => {
                "a location code is above 3; the codes are 0 standard, 1 hidden, 2 standard backup, 3 \
                 hidden backup"
            }
            Refusal::HostSize => "the host_size is below 262,656, above 2^50, or no multiple of 512",
            Refusal::NoHeader => {
                "no candidate is a header: each has a magic other than VERA and TRUE, or a wrong checksum, \
                 as after deciphering with a wrong password or cipher"
            }
            Refusal::Version => {
                "the header's version is not supported; for VERA it must be 2 to 5, for TRUE 4 or 5"
            }
            Refusal::Reserved => {
                "a reserved flag of the header (bits 2 to 31) is set, or in a VERA header a reserved byte \
                 (76 to 91, 132 to 251) is not zero"
            }
            Refusal::Flags => {
                "flag bit 0 or 1 of the header is set, which tells of a system volume or one encrypted in \
                 place; neither is supported"
            }
            Refusal::SectorSize => {
                "the sector_size, in the header or for one to be written, is none of 512, 1,024, 2,048 and \
                 4,096"
            }
            Refusal::HiddenSize => {
                "the header's hidden_size does not fit its location code; it must be 0 for a standard \
                 volume, and for a hidden one equal to data_size and not 0"
            }
            Refusal::DataArea => {
                "the header's data area does not fit the host; host_size, data_start and data_size must be \
                 multiples of sector_size, data_size must equal encrypted_size and not be 0, and the data \
                 area must start at 131,072 (for a hidden volume there or later) and end at least 131,072 \
                 bytes before the host's end"
            }
            Refusal::Unsound => {
                "the layout or view is unsound: its host_size is refused 3, its sector_size 8, its kind is \
                 neither standard nor hidden, its data area does not fit the host as 10 has it, or its \
                 protected range is empty, not of whole 512-byte sectors, outside the data area or in a \
                 hidden volume; use one that an accepted call gave"
            }
            Refusal::NotNested => {
                "the layouts do not nest; the first must be standard and the second hidden, with the same \
                 host_size and sector_size and its data area inside the first's"
            }
            Refusal::ImageSize => "the image is not host_size bytes long; pass the whole host",
            Refusal::Count => "the count is above 128; split the extent over several calls",
            Refusal::BufferSize => "the buffer is not 512 bytes long for each sector of the count",
            Refusal::Outside { .. } => {
                "first and count add up to more sectors than the volume has; in the map, the user sector is \
                 not below that number, or the host sector lies outside the data area"
            }
            Refusal::Locked => {
                "the view's write lock is closed, as refusal 18 leaves it; nothing was written, and reads \
                 still work"
            }
            Refusal::Protected { .. } => {
                "a sector of the write lies in the protected range, which holds the hidden volume; nothing \
                 was written, and the view now refuses every write"
            }
            Refusal::Magic => "the magic of the header to be written is neither VERA nor TRUE",
            Refusal::Unaligned => {
                "first or count is no multiple of sector_size / 512, how many sectors of 512 bytes make one \
                 of the disk's own; widen the extent to whole ones"
            }
        }
        // end of sentences
    }

    /// What an answer of the library says: 0 is an acceptance, any other number a refusal. `sector` is as for
    /// [`from_number`](Refusal::from_number).
    ///
    /// The library is proved to answer nothing but 0 and these numbers. Another number can only come from
    /// a library that this crate was not made for, and panics.
    pub(crate) fn check(answer: u64, sector: Option<u64>) -> Result<(), Refusal> {
        if answer == 0 {
            return Ok(());
        }
        match Refusal::from_number(answer, sector) {
            Some(refusal) => Err(refusal),
            None => panic!("libondristela.a answered {answer}: it and this crate do not fit together"),
        }
    }
}

impl fmt::Display for Refusal {
    fn fmt(&self, formatter: &mut fmt::Formatter<'_>) -> fmt::Result {
        formatter.write_str(self.sentence())?;
        if let Some(sector) = self.sector() {
            write!(formatter, "; the sector in the way is user sector {sector}")?;
        }
        write!(formatter, " (refusal {})", self.number())
    }
}

impl std::error::Error for Refusal {}
