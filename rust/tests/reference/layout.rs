//! Layouts, and when one is sound (docs/RULES.md, Opening, Header bytes and Views).

pub const SECTOR: u64 = 512;
pub const STANDARD: u64 = 0;
pub const HIDDEN: u64 = 1;

/// The header areas at either end of the host.
pub const HEADERS_SIZE: u64 = 131_072;
pub const MIN_HOST_SIZE: u64 = 262_656;
pub const MAX_HOST_SIZE: u64 = 1 << 50;

/// The sizes that the disk's own sectors may have.
pub const SECTOR_SIZES: [u64; 4] = [512, 1_024, 2_048, 4_096];

pub type LayoutNumbers = [u64; 9];

#[derive(Clone, Copy, Debug, PartialEq, Eq)]
pub struct Layout {
    pub host_size: u64,
    pub kind: u64,
    pub magic: u64,
    pub version: u64,
    pub min_program_version: u64,
    pub data_start: u64,
    pub data_size: u64,
    pub candidate: u64,
    pub sector_size: u64,
}

impl Layout {
    pub fn numbers(&self) -> LayoutNumbers {
        [
            self.host_size,
            self.kind,
            self.magic,
            self.version,
            self.min_program_version,
            self.data_start,
            self.data_size,
            self.candidate,
            self.sector_size,
        ]
    }

    /// Sound: the rules for the host's size, the disk's sectors and the data area hold.
    pub fn is_sound(&self) -> bool {
        self.kind <= HIDDEN
            && host_size_allowed(self.host_size)
            && sector_size_allowed(self.sector_size)
            && self.data_area().is_allowed(self.kind)
    }

    /// The encrypted size is taken as the data size.
    fn data_area(&self) -> DataArea {
        DataArea {
            start: self.data_start,
            size: self.data_size,
            encrypted_size: self.data_size,
            host_size: self.host_size,
            sector_size: self.sector_size,
        }
    }

    pub fn sector_count(&self) -> u64 {
        self.data_size / SECTOR
    }

    pub fn data_end(&self) -> u128 {
        u128::from(self.data_start) + u128::from(self.data_size)
    }
}

/// The rule for the host's size.
pub fn host_size_allowed(host_size: u64) -> bool {
    host_size % SECTOR == 0 && (MIN_HOST_SIZE..=MAX_HOST_SIZE).contains(&host_size)
}

/// The rule for the disk's own sectors.
pub fn sector_size_allowed(sector_size: u64) -> bool {
    SECTOR_SIZES.contains(&sector_size)
}

/// What the last line of an accepted header looks at.
pub struct DataArea {
    pub start: u64,
    pub size: u64,
    pub encrypted_size: u64,
    pub host_size: u64,
    pub sector_size: u64,
}

impl DataArea {
    /// The last line of an accepted header, for a kind.
    pub fn is_allowed(&self, kind: u64) -> bool {
        let starts_right =
            if kind == STANDARD { self.start == HEADERS_SIZE } else { self.start >= HEADERS_SIZE };
        self.size >= SECTOR
            && self.encrypted_size == self.size
            && self.is_of_whole_sectors()
            && starts_right
            && self.fits_host()
    }

    /// The data area and the host are both made of whole sectors of the disk's. A size of those that is not allowed
    /// breaks a rule of its own; for this one they are then taken as the smallest.
    fn is_of_whole_sectors(&self) -> bool {
        let unit = if sector_size_allowed(self.sector_size) { self.sector_size } else { SECTOR };
        [self.start, self.size, self.host_size].iter().all(|size| size % unit == 0)
    }

    /// The sum is a whole number: it never wraps.
    fn fits_host(&self) -> bool {
        let parts = [self.start, self.size, HEADERS_SIZE];
        parts.map(u128::from).iter().sum::<u128>() <= u128::from(self.host_size)
    }
}
