//! Headers to open: of a standard VeraCrypt volume in a host of 1 MiB, with right checksums.

use crate::byte_table::crc32;
use crate::random::Random;

pub const HOST_SIZE: u64 = 1 << 20;
const DATA_START: u64 = 131_072;
const DATA_SIZE: u64 = HOST_SIZE - 2 * DATA_START;

pub type Header = [u8; 512];

/// A header that is accepted.
pub fn accepted(random: &mut Random) -> Header {
    with_data_size(random, DATA_SIZE)
}

/// A header that keeps every rule but the last: its data area is one sector too long for the host.
pub fn refused(random: &mut Random) -> Header {
    with_data_size(random, DATA_SIZE + 512)
}

/// Bytes that are no header, as a wrong password gives them.
pub fn no_header(random: &mut Random) -> Header {
    let mut bytes = [0; 512];
    random.fill(&mut bytes);
    bytes
}

fn with_data_size(random: &mut Random, data_size: u64) -> Header {
    let mut header = [0; 512];
    random.fill(&mut header[..64]);
    random.fill(&mut header[256..]);
    header[64..68].copy_from_slice(b"VERA");
    header[68..70].copy_from_slice(&5u16.to_be_bytes());
    header[70..72].copy_from_slice(&[0x01, 0x0B]);
    header[100..108].copy_from_slice(&data_size.to_be_bytes());
    header[108..116].copy_from_slice(&DATA_START.to_be_bytes());
    header[116..124].copy_from_slice(&data_size.to_be_bytes());
    header[128..132].copy_from_slice(&512u32.to_be_bytes());
    set_checksums(&mut header);
    header
}

pub fn set_checksums(header: &mut Header) {
    let keys = crc32(&header[256..]).to_be_bytes();
    header[72..76].copy_from_slice(&keys);
    let fields = crc32(&header[64..252]).to_be_bytes();
    header[252..256].copy_from_slice(&fields);
}
