//! The library's functions as they are: numbers and slices, and a refusal number as the answer.
//!
//! Each returns 0 where it accepts and else a refusal number (docs/RULES.md), but for the checksum and the two that
//! work on a unit alone, which refuse nothing. A refusal changes nothing that was passed for writing, but for two: 16
//! and 18 store the sector in the way in `sector`, where a call has it, and 18 sets the view's last number. Every other
//! answer leaves `sector` as it was. The functions are safe for any arguments: every one is proved with no condition
//! on them.

/// A layout's numbers: host size, kind, magic, version, min program version, data start, data size,
/// candidate, sector size.
pub type LayoutNumbers = [u64; 9];

/// A view's numbers: its layout's, then whether a range is protected, the range's first byte and the byte
/// past its end, and whether writes are locked.
pub type ViewNumbers = [u64; 13];

mod library {
    use super::{LayoutNumbers, ViewNumbers};

    // These declarations must be those of include/ondristela.h. A slice is a pointer and a length.
    #[rustfmt::skip]
    extern "C" {
        pub fn ondristela_location(code: u8, host_size: u64, offset: *mut [u64; 1]) -> u64;
        pub fn ondristela_open(candidates: *const u8, candidates_size: usize, codes: *const u8, codes_size: usize, host_size: u64, layout: *mut LayoutNumbers) -> u64;
        pub fn ondristela_keys(candidates: *const u8, candidates_size: usize, codes: *const u8, codes_size: usize, host_size: u64, range: *mut [u64; 2]) -> u64;
        pub fn ondristela_write_header(magic: *const [u8; 4], version: u16, min_program_version: u16, code: u8, host_size: u64, data_start: u64, data_size: u64, sector_size: u64, salt: *const u8, salt_size: usize, keys: *const u8, keys_size: usize, header: *mut u8, header_size: usize) -> u64;
        pub fn ondristela_host_sector(layout: *const LayoutNumbers, user: u64, host: *mut [u64; 1]) -> u64;
        pub fn ondristela_user_sector(layout: *const LayoutNumbers, host: u64, user: *mut [u64; 1]) -> u64;
        pub fn ondristela_tweak(layout: *const LayoutNumbers, user: u64, block: *mut [u8; 16]) -> u64;
        pub fn ondristela_view_plain(layout: *const LayoutNumbers, view: *mut ViewNumbers) -> u64;
        pub fn ondristela_view_protected(outer: *const LayoutNumbers, hidden: *const LayoutNumbers, view: *mut ViewNumbers) -> u64;
        pub fn ondristela_read(view: *const ViewNumbers, image: *const u8, image_size: usize, first: u64, count: u64, buffer: *mut u8, buffer_size: usize, sector: *mut [u64; 1]) -> u64;
        pub fn ondristela_write(view: *mut ViewNumbers, image: *mut u8, image_size: usize, first: u64, count: u64, buffer: *const u8, buffer_size: usize, sector: *mut [u64; 1]) -> u64;
        pub fn ondristela_read_extent(view: *const ViewNumbers, image_size: u64, first: u64, count: u64, buffer_size: u64, offset: *mut [u64; 1], sector: *mut [u64; 1]) -> u64;
        pub fn ondristela_write_extent(view: *mut ViewNumbers, image_size: u64, first: u64, count: u64, buffer_size: u64, offset: *mut [u64; 1], sector: *mut [u64; 1]) -> u64;
        pub fn ondristela_encipher(key: *const [u8; 64], tweak_number: u64, unit: *mut [u8; 512]);
        pub fn ondristela_decipher(key: *const [u8; 64], tweak_number: u64, unit: *mut [u8; 512]);
        pub fn ondristela_read_plaintext(view: *const ViewNumbers, key: *const [u8; 64], image: *const u8, image_size: usize, first: u64, count: u64, buffer: *mut u8, buffer_size: usize, sector: *mut [u64; 1]) -> u64;
        pub fn ondristela_write_plaintext(view: *mut ViewNumbers, key: *const [u8; 64], image: *mut u8, image_size: usize, first: u64, count: u64, buffer: *const u8, buffer_size: usize, sector: *mut [u64; 1]) -> u64;
        pub fn ondristela_crc32(bytes: *const u8, bytes_size: usize) -> u32;
    }
}

// SAFETY, for every call below: the pointers and lengths come from borrows that live through the call,
// and the library is proved to stay within them.

/// Where the header of a location code lies in a host of this size.
pub fn location(code: u8, host_size: u64, offset: &mut [u64; 1]) -> u64 {
    unsafe { library::ondristela_location(code, host_size, offset) }
}

/// The layout of the first candidate that is accepted.
pub fn open(candidates: &[u8], codes: &[u8], host_size: u64, layout: &mut LayoutNumbers) -> u64 {
    unsafe {
        library::ondristela_open(
            candidates.as_ptr(),
            candidates.len(),
            codes.as_ptr(),
            codes.len(),
            host_size,
            layout,
        )
    }
}

/// The offset and the length of the accepted candidate's key bytes, within the candidates.
pub fn keys(candidates: &[u8], codes: &[u8], host_size: u64, range: &mut [u64; 2]) -> u64 {
    unsafe {
        library::ondristela_keys(
            candidates.as_ptr(),
            candidates.len(),
            codes.as_ptr(),
            codes.len(),
            host_size,
            range,
        )
    }
}

/// Writes the header of a volume over all of `header`.
#[allow(clippy::too_many_arguments)]
pub fn write_header(
    magic: &[u8; 4],
    version: u16,
    min_program_version: u16,
    code: u8,
    host_size: u64,
    data_start: u64,
    data_size: u64,
    sector_size: u64,
    salt: &[u8],
    keys: &[u8],
    header: &mut [u8],
) -> u64 {
    unsafe {
        library::ondristela_write_header(
            magic,
            version,
            min_program_version,
            code,
            host_size,
            data_start,
            data_size,
            sector_size,
            salt.as_ptr(),
            salt.len(),
            keys.as_ptr(),
            keys.len(),
            header.as_mut_ptr(),
            header.len(),
        )
    }
}

/// The host sector that holds a user sector.
pub fn host_sector(layout: &LayoutNumbers, user: u64, host: &mut [u64; 1]) -> u64 {
    unsafe { library::ondristela_host_sector(layout, user, host) }
}

/// The user sector that a host sector holds.
pub fn user_sector(layout: &LayoutNumbers, host: u64, user: &mut [u64; 1]) -> u64 {
    unsafe { library::ondristela_user_sector(layout, host, user) }
}

/// The tweak block of a user sector.
pub fn tweak(layout: &LayoutNumbers, user: u64, block: &mut [u8; 16]) -> u64 {
    unsafe { library::ondristela_tweak(layout, user, block) }
}

/// A view of a volume alone.
pub fn view_plain(layout: &LayoutNumbers, view: &mut ViewNumbers) -> u64 {
    unsafe { library::ondristela_view_plain(layout, view) }
}

/// A view of an outer volume whose writes may not touch a hidden volume's data area.
pub fn view_protected(outer: &LayoutNumbers, hidden: &LayoutNumbers, view: &mut ViewNumbers) -> u64 {
    unsafe { library::ondristela_view_protected(outer, hidden, view) }
}

/// Fills the buffer with `count` sectors of the image, from user sector `first` on.
pub fn read(
    view: &ViewNumbers,
    image: &[u8],
    first: u64,
    count: u64,
    buffer: &mut [u8],
    sector: &mut [u64; 1],
) -> u64 {
    unsafe {
        library::ondristela_read(
            view,
            image.as_ptr(),
            image.len(),
            first,
            count,
            buffer.as_mut_ptr(),
            buffer.len(),
            sector,
        )
    }
}

/// Copies the buffer into `count` sectors of the image, from user sector `first` on.
pub fn write(
    view: &mut ViewNumbers,
    image: &mut [u8],
    first: u64,
    count: u64,
    buffer: &[u8],
    sector: &mut [u64; 1],
) -> u64 {
    unsafe {
        library::ondristela_write(
            view,
            image.as_mut_ptr(),
            image.len(),
            first,
            count,
            buffer.as_ptr(),
            buffer.len(),
            sector,
        )
    }
}

/// Where a read takes its bytes: the extent's first byte in the host. It is judged as the read is.
pub fn read_extent(
    view: &ViewNumbers,
    image_size: u64,
    first: u64,
    count: u64,
    buffer_size: u64,
    offset: &mut [u64; 1],
    sector: &mut [u64; 1],
) -> u64 {
    unsafe { library::ondristela_read_extent(view, image_size, first, count, buffer_size, offset, sector) }
}

/// Where a write puts its bytes: the extent's first byte in the host. It is judged as the write is.
pub fn write_extent(
    view: &mut ViewNumbers,
    image_size: u64,
    first: u64,
    count: u64,
    buffer_size: u64,
    offset: &mut [u64; 1],
    sector: &mut [u64; 1],
) -> u64 {
    unsafe { library::ondristela_write_extent(view, image_size, first, count, buffer_size, offset, sector) }
}

/// Enciphers a unit with AES-256 in XTS.
pub fn encipher(key: &[u8; 64], tweak_number: u64, unit: &mut [u8; 512]) {
    unsafe { library::ondristela_encipher(key, tweak_number, unit) }
}

/// Deciphers a unit with AES-256 in XTS.
pub fn decipher(key: &[u8; 64], tweak_number: u64, unit: &mut [u8; 512]) {
    unsafe { library::ondristela_decipher(key, tweak_number, unit) }
}

/// Fills the buffer as `read` does, and deciphers each sector in it.
pub fn read_plaintext(
    view: &ViewNumbers,
    key: &[u8; 64],
    image: &[u8],
    first: u64,
    count: u64,
    buffer: &mut [u8],
    sector: &mut [u64; 1],
) -> u64 {
    unsafe {
        library::ondristela_read_plaintext(
            view,
            key,
            image.as_ptr(),
            image.len(),
            first,
            count,
            buffer.as_mut_ptr(),
            buffer.len(),
            sector,
        )
    }
}

/// Stores the buffer as `write` does, each sector enciphered.
pub fn write_plaintext(
    view: &mut ViewNumbers,
    key: &[u8; 64],
    image: &mut [u8],
    first: u64,
    count: u64,
    buffer: &[u8],
    sector: &mut [u64; 1],
) -> u64 {
    unsafe {
        library::ondristela_write_plaintext(
            view,
            key,
            image.as_mut_ptr(),
            image.len(),
            first,
            count,
            buffer.as_ptr(),
            buffer.len(),
            sector,
        )
    }
}

/// CRC-32 of ITU-T V.42.
pub fn crc32(bytes: &[u8]) -> u32 {
    unsafe { library::ondristela_crc32(bytes.as_ptr(), bytes.len()) }
}
