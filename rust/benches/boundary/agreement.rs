//! Whether the library and the peer give the same answers, so that like is measured with like.

use ondristela::raw::{self, LayoutNumbers};

use crate::headers::{self, Header, HOST_SIZE};
use crate::peer::{self, Kind, Layout, Magic};
use crate::random::Random;

const HOST_SIZES: [u64; 6] = [0, 262_144, 262_656, HOST_SIZE + 1, 1 << 50, (1 << 50) + 512];

/// Compares the answers for every header that differs from one of four that are accepted in a single byte,
/// at each location, with checksums of the changed bytes and with those from before; and for sizes and
/// lengths on either side of the rules.
pub fn check() {
    let standard = headers::accepted(&mut Random::new());
    let mut hidden = standard;
    hidden.copy_within(100..108, 92);
    let mut truecrypt = standard;
    truecrypt[64..68].copy_from_slice(b"TRUE");
    let mut larger_sectors = standard;
    larger_sectors[128..132].copy_from_slice(&4_096_u32.to_be_bytes());
    for mut header in [standard, hidden, truecrypt, larger_sectors] {
        headers::set_checksums(&mut header);
        check_changes(&header);
        for host_size in HOST_SIZES {
            check_opening(&header, &[0], host_size);
        }
    }
    for count in [0, 1, 2, 64, 65] {
        check_opening(&standard.repeat(count), &vec![1; count], HOST_SIZE);
        check_opening(&standard, &vec![0; count], HOST_SIZE);
    }
}

fn check_changes(header: &Header) {
    for offset in 0..header.len() {
        for change in [0x01, 0x02, 0x80, 0xFF] {
            let mut changed = *header;
            changed[offset] ^= change;
            check_locations(&changed);
            headers::set_checksums(&mut changed);
            check_locations(&changed);
        }
    }
}

fn check_locations(header: &Header) {
    for code in 0..=4 {
        check_opening(header, &[code], HOST_SIZE);
    }
}

/// Compares the answers for some candidates.
pub fn check_opening(candidates: &[u8], codes: &[u8], host_size: u64) {
    let mut numbers = [0; 9];
    let answer = raw::open(candidates, codes, host_size, &mut numbers);
    match peer::open(candidates, codes, host_size) {
        Ok(layout) => assert_eq!((answer, numbers), (0, layout_numbers(&layout))),
        Err(refusal) => assert_eq!(answer, u64::from(refusal)),
    }
}

fn layout_numbers(layout: &Layout) -> LayoutNumbers {
    [
        layout.host_size,
        if layout.kind == Kind::Standard { 0 } else { 1 },
        if layout.magic == Magic::Vera { 0 } else { 1 },
        u64::from(layout.version),
        u64::from(layout.min_program_version),
        layout.data_start,
        layout.data_size,
        layout.candidate as u64,
        layout.sector_size,
    ]
}
