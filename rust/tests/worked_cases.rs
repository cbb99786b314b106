//! The worked cases of docs/RULES.md, and real headers: the library and the reference both give the
//! numbers that are printed there.

mod reference;

use ondristela::raw::{self, ViewNumbers};
use reference::access::{self, Answer, Extent, View};
use reference::headers::{write_checksums, Header};
use reference::layout::Layout;
use reference::{opening, sector_map};

const HOST_SIZE: u64 = 1_048_576;

/// The standard volume M and the hidden volume N in it.
const M: Layout = Layout {
    host_size: HOST_SIZE,
    kind: 0,
    magic: 1,
    version: 5,
    min_program_version: 1_792,
    data_start: 131_072,
    data_size: 786_432,
    candidate: 0,
    sector_size: 512,
};
const N: Layout = Layout { kind: 1, data_start: 655_360, data_size: 262_144, ..M };

/// The same two on a disk with sectors of 4,096 bytes.
const WIDE_M: Layout = Layout { sector_size: 4_096, ..M };
const WIDE_N: Layout = Layout { sector_size: 4_096, ..N };

/// Headers of M and N that tcplay made, by location code.
const REAL_HEADERS: [&[u8; 512]; 4] = [
    include_bytes!("../../samples/tcplay-1048576-code0.header"),
    include_bytes!("../../samples/tcplay-1048576-code1.header"),
    include_bytes!("../../samples/tcplay-1048576-code2.header"),
    include_bytes!("../../samples/tcplay-1048576-code3.header"),
];

/// The header of a standard volume of this size.
fn header(data_size: u64) -> Header {
    Header {
        salt: [0; 64],
        magic: *b"VERA",
        version: 2,
        min_program_version: 1_792,
        reserved: [0; 16],
        hidden_size: 0,
        data_size,
        data_start: 131_072,
        encrypted_size: data_size,
        flags: 0,
        sector_size: 512,
        reserved_late: [0; 120],
        keys: [0x4B; 256],
    }
}

fn assert_opens(candidates: &[u8], codes: &[u8], host_size: u64, expected: u64) {
    let answer = raw::open(candidates, codes, host_size, &mut [0; 9]);
    let reference = opening::open(candidates, codes, host_size).err().unwrap_or(0);
    assert_eq!([answer, reference], [expected; 2], "codes {codes:?}, host size {host_size}");
}

#[test]
fn real_headers() {
    for (code, candidate) in REAL_HEADERS.iter().enumerate() {
        let layout = if code % 2 == 0 { M } else { N };
        let mut numbers = [0; 9];
        assert_eq!(raw::open(*candidate, &[code as u8], HOST_SIZE, &mut numbers), 0);
        assert_eq!(numbers, layout.numbers(), "code {code}");
        assert_eq!(opening::open(*candidate, &[code as u8], HOST_SIZE), Ok(layout), "code {code}");
    }
}

/// The bytes at 70 of VeraCrypt's own headers and of TrueCrypt's, and what they are read as.
#[test]
fn min_program_versions() {
    for (magic, bytes, expected) in [(*b"VERA", [0x01, 0x0B], 267), (*b"TRUE", [0x07, 0x00], 1_792)] {
        let mut candidate = Header { magic, version: 5, ..header(512) }.bytes();
        candidate[70..72].copy_from_slice(&bytes);
        write_checksums(&mut candidate);
        let mut numbers = [0; 9];
        assert_eq!(raw::open(&candidate, &[0], HOST_SIZE, &mut numbers), 0);
        let reference = opening::open(&candidate, &[0], HOST_SIZE).unwrap();
        assert_eq!([numbers[4], reference.min_program_version], [expected; 2], "{bytes:02X?}");
    }
}

#[test]
fn host_and_data_sizes() {
    assert_opens(&header(512).bytes(), &[0], 262_656, 0);
    assert_opens(&header(512).bytes(), &[0], 262_144, 3);
    assert_opens(&header(786_432).bytes(), &[0], HOST_SIZE, 0);
    assert_opens(&header(786_944).bytes(), &[0], HOST_SIZE, 10);
    assert_opens(&header(0u64.wrapping_sub(512)).bytes(), &[0], HOST_SIZE, 10);
    assert_opens(&header(512).bytes(), &[0], 1 << 50, 0);
    assert_opens(&header(512).bytes(), &[0], (1 << 50) + 512, 3);
}

/// The four sizes of the disk's sectors are told, and others are refused; and on a disk with larger sectors the host
/// and the data area must be made of whole ones.
#[test]
fn sector_sizes() {
    for sector_size in [512, 1_024, 2_048, 4_096] {
        let candidate = Header { sector_size, ..header(786_432) }.bytes();
        let mut numbers = [0; 9];
        assert_eq!(raw::open(&candidate, &[0], HOST_SIZE, &mut numbers), 0);
        assert_eq!(numbers[8], u64::from(sector_size));
        assert_opens(&candidate, &[0], HOST_SIZE, 0);
    }
    for sector_size in [0, 513, 1_536, 8_192, u32::MAX] {
        assert_opens(&Header { sector_size, ..header(786_432) }.bytes(), &[0], HOST_SIZE, 8);
    }
    let wide = |data_size| Header { sector_size: 4_096, ..header(data_size) }.bytes();
    assert_opens(&wide(786_432), &[0], HOST_SIZE + 512, 10);
    assert_opens(&wide(786_432), &[0], HOST_SIZE + 4_096, 0);
    assert_opens(&wide(786_432 - 512), &[0], HOST_SIZE, 10);
    assert_opens(&wide(786_432 - 4_096), &[0], HOST_SIZE, 0);
    assert_opens(&wide(4_096), &[0], 262_144 + 4_096, 0);
    assert_opens(&wide(512), &[0], 262_656, 10);
}

#[test]
fn numbers_of_candidates() {
    for (count, answer) in [(0, 1), (1, 0), (64, 0), (65, 1)] {
        let candidates = header(512).bytes().repeat(count);
        assert_opens(&candidates, &vec![0; count], HOST_SIZE, answer);
    }
}

fn assert_tweak(layout: &Layout, user: u64, expected: Result<[u8; 2], u64>) {
    let mut block = [0; 16];
    let answer = raw::tweak(&layout.numbers(), user, &mut block);
    let whole = expected.map(|[low, high]| {
        let mut block = [0; 16];
        block[..2].copy_from_slice(&[low, high]);
        block
    });
    assert_eq!((answer, block), (whole.err().unwrap_or(0), whole.unwrap_or_default()), "sector {user}");
    assert_eq!(sector_map::tweak_block(layout, user), whole, "sector {user}");
}

#[test]
fn tweaks() {
    assert_tweak(&M, 0, Ok([0x00, 0x01]));
    assert_tweak(&M, 1_535, Ok([0xFF, 0x06]));
    assert_tweak(&M, 1_536, Err(16));
    assert_tweak(&N, 0, Ok([0x00, 0x05]));
}

/// Tweaks count sectors of 512 bytes on a disk with larger ones too.
#[test]
fn tweaks_of_larger_sectors() {
    assert_tweak(&WIDE_M, 0, Ok([0x00, 0x01]));
    assert_tweak(&WIDE_M, 1, Ok([0x01, 0x01]));
    assert_tweak(&WIDE_M, 1_535, Ok([0xFF, 0x06]));
    assert_tweak(&WIDE_M, 1_536, Err(16));
    assert_tweak(&WIDE_N, 0, Ok([0x00, 0x05]));
}

#[test]
fn user_sectors() {
    for (host, expected) in [(255, Err(16)), (256, Ok(0)), (1_791, Ok(1_535)), (1_792, Err(16))] {
        let mut user = [0];
        let answer = raw::user_sector(&M.numbers(), host, &mut user);
        assert_eq!((answer, user[0]), (expected.err().unwrap_or(0), expected.unwrap_or(0)), "host {host}");
        assert_eq!(sector_map::user_sector(&M, host), expected, "host {host}");
    }
}

/// One view of the library's and the reference's, on an image of zeros.
struct Both {
    numbers: ViewNumbers,
    view: View,
    image: Vec<u8>,
}

impl Both {
    fn new(view: View) -> Both {
        Both { numbers: view.numbers(), view, image: vec![0; HOST_SIZE as usize] }
    }

    fn assert_write(&mut self, first: u64, count: u64, expected: Answer) {
        let (buffer, mut sector) = (vec![0; 512 * count as usize], [UNTOLD]);
        let answer = raw::write(&mut self.numbers, &mut self.image, first, count, &buffer, &mut sector);
        let reference = access::write(&mut self.view, &mut self.image, Extent { first, count }, &buffer);
        assert_told((answer, sector), reference, expected, &format!("write {first} count {count}"));
    }

    fn assert_read(&mut self, first: u64, count: u64, expected: Answer) {
        let (mut buffer, mut sector) = (vec![0; 512 * count as usize], [UNTOLD]);
        let answer = raw::read(&self.numbers, &self.image, first, count, &mut buffer, &mut sector);
        let reference = access::read(&self.view, &self.image, Extent { first, count }, &mut buffer);
        assert_told((answer, sector), reference, expected, &format!("read {first} count {count}"));
    }
}

/// What stands in a sector before a call.
const UNTOLD: u64 = 0xA5A5_5A5A_0FF0_F00F;

fn assert_told((answer, sector): (u64, [u64; 1]), reference: Answer, expected: Answer, call: &str) {
    assert_eq!((answer, sector[0]), expected.stored_over(UNTOLD), "{call}");
    assert_eq!(reference, expected, "{call}");
}

#[test]
fn protected_writes() {
    let mut both = Both::new(access::protected(&M, &N).unwrap());
    both.assert_write(1_023, 1, Answer::ACCEPTED);
    both.assert_write(1_023, 2, Answer::telling(18, 1_024));
    both.assert_write(0, 1, Answer::silent(17));
    both.assert_read(0, 1, Answer::ACCEPTED);
}

#[test]
fn writes_at_the_end_and_counts() {
    let mut both = Both::new(access::plain(&M).unwrap());
    both.assert_write(1_536, 0, Answer::ACCEPTED);
    both.assert_write(1_536, 1, Answer::telling(16, 1_536));
    both.assert_write(1_537, 0, Answer::telling(16, 1_537));
    both.assert_write(1_500, 100, Answer::telling(16, 1_536));
    both.assert_read(1_500, 100, Answer::telling(16, 1_536));
    both.assert_write(u64::MAX, 128, Answer::telling(16, u64::MAX));
    both.assert_read(u64::MAX, 128, Answer::telling(16, u64::MAX));
    both.assert_write(0, 128, Answer::ACCEPTED);
    both.assert_read(0, 128, Answer::ACCEPTED);
    both.assert_write(0, 129, Answer::silent(14));
    both.assert_read(0, 129, Answer::silent(14));
}

#[test]
fn extents_of_larger_sectors() {
    let mut both = Both::new(access::plain(&WIDE_M).unwrap());
    for (first, count) in [(1, 1), (0, 1), (0, 7), (4, 8), (1, 0), (1_529, 8), (1_537, 0), (u64::MAX, 128)] {
        both.assert_write(first, count, Answer::silent(20));
        both.assert_read(first, count, Answer::silent(20));
    }
    for (first, count) in [(0, 0), (0, 8), (8, 8), (1_528, 8), (1_536, 0), (1_408, 128)] {
        both.assert_write(first, count, Answer::ACCEPTED);
        both.assert_read(first, count, Answer::ACCEPTED);
    }
    both.assert_write(1_536, 8, Answer::telling(16, 1_536));
    both.assert_read(1_544, 0, Answer::telling(16, 1_544));
    both.assert_write(u64::MAX, 129, Answer::silent(14));
}

/// A write that is not of whole sectors of the disk's leaves the lock open, wherever it would go.
#[test]
fn protected_writes_of_larger_sectors() {
    let mut both = Both::new(access::protected(&WIDE_M, &WIDE_N).unwrap());
    both.assert_write(1_023, 2, Answer::silent(20));
    both.assert_write(1_016, 8, Answer::ACCEPTED);
    both.assert_write(1_016, 16, Answer::telling(18, 1_024));
    both.assert_write(1_023, 2, Answer::silent(20));
    both.assert_write(0, 8, Answer::silent(17));
    both.assert_read(1_016, 16, Answer::ACCEPTED);
}

#[test]
fn pairs_of_other_sector_sizes() {
    for sector_size in [512, 1_024, 2_048] {
        let hidden = Layout { sector_size, ..N };
        let answer = raw::view_protected(&WIDE_M.numbers(), &hidden.numbers(), &mut [0; 13]);
        assert_eq!((answer, access::protected(&WIDE_M, &hidden)), (12, Err(12)), "{sector_size}");
    }
}
