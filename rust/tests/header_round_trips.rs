//! From a header to be written to an opened volume, and from an opened volume back to its header's bytes.

mod cases;
mod reference;

use std::collections::BTreeMap;
use std::fmt::Debug;

use cases::header_writings::HeaderWriting;
use cases::{candidates, hosts, new_headers};
use ondristela::{key_bytes, open, Kind, Layout, Location, Magic, NewHeader};
use reference::header::{HEADER_SIZE, RESERVED, RESERVED_LATE, SALT};
use reference::headers::{write_checksums, Header};
use reference::random::Random;

const SEED: u64 = 71;
const CASES: u64 = 20_000;

/// What opening must tell of a header that was asked for.
fn told(writing: &HeaderWriting) -> Layout {
    let asked = &writing.asked;
    Layout {
        host_size: asked.host_size,
        kind: if asked.code % 2 == 0 { Kind::Standard } else { Kind::Hidden },
        magic: if asked.magic == *b"VERA" { Magic::Vera } else { Magic::True },
        version: asked.version.into(),
        min_program_version: asked.min_program_version.into(),
        data_start: asked.data_start,
        data_size: asked.data_size,
        candidate: 0,
        sector_size: asked.sector_size,
    }
}

/// Both magics at all four locations, with all four sizes of the disk's sectors.
#[test]
fn written_headers_open() {
    let mut reached = BTreeMap::new();
    for case in 0..CASES {
        let writing = new_headers::accepted(&mut Random::of_case(SEED, case));
        let (asked, header) = (&writing.asked, writing.written());
        let opened = open(&header, &[asked.code], asked.host_size);
        let keys = key_bytes(&header, &[asked.code], asked.host_size);
        assert_eq!(opened, Ok(told(&writing)), "seed {SEED} case {case}: {writing:?}");
        assert_eq!(keys, Ok(&asked.keys[..]), "seed {SEED} case {case}: {writing:?}");
        assert_eq!(header[SALT], asked.salt[..], "seed {SEED} case {case}: {writing:?}");
        *reached.entry((letters(asked.magic), asked.code, asked.sector_size)).or_insert(0) += 1;
    }
    assert_reached(32, &reached, 200);
}

fn letters(magic: [u8; 4]) -> String {
    magic.escape_ascii().to_string()
}

/// So many sorts of headers were tried, and each of them often enough.
fn assert_reached<Sort: Debug>(sorts: usize, reached: &BTreeMap<Sort, u64>, at_least: u64) {
    println!("{reached:?}");
    assert!(reached.len() == sorts && reached.values().all(|count| *count >= at_least), "{reached:?}");
}

/// The header that is written by what the library tells of this one, which it accepts.
fn written_again(header: &[u8; HEADER_SIZE], location: Location, host_size: u64) -> [u8; HEADER_SIZE] {
    let again = NewHeader::from_header(header, location, host_size).expect("an accepted header");
    again.bytes().expect("a header that opening accepts")
}

/// The same header with zeros in its reserved bytes.
fn cleared(header: &Header) -> Header {
    Header { reserved: [0; 16], reserved_late: [0; 120], ..header.clone() }
}

/// What is written again is the same exactly if the reserved bytes were zero, as those of a VERA header that is
/// accepted are. Those that were not become so.
#[test]
fn accepted_headers_written_again() {
    let mut reached = BTreeMap::new();
    for case in 0..CASES {
        let mut random = Random::of_case(SEED, CASES + case);
        let (location, host_size) = (random.pick(&Location::ALL), hosts::allowed(&mut random));
        let header = candidates::accepted(location.code(), host_size, &mut random);
        let is_clear = header.reserved == [0; 16] && header.reserved_late == [0; 120];
        let again = written_again(&header.bytes(), location, host_size);
        assert_eq!(again == header.bytes(), is_clear, "seed {SEED} case {case}: {header:?}");
        assert_eq!(again, cleared(&header).bytes(), "seed {SEED} case {case}: {header:?}");
        *reached.entry((letters(header.magic), is_clear, header.sector_size)).or_insert(0) += 1;
    }
    assert_reached(12, &reached, 200);
}

/// One reserved byte of a TRUE header is enough for it not to be the same.
#[test]
fn each_reserved_byte_set() {
    let mut random = Random::of_case(SEED, 2 * CASES);
    for location in Location::ALL {
        let made = candidates::accepted(location.code(), 1 << 20, &mut random);
        let header = Header { magic: *b"TRUE", version: 5, ..cleared(&made) };
        assert_eq!(written_again(&header.bytes(), location, 1 << 20), header.bytes());
        for position in RESERVED.chain(RESERVED_LATE) {
            let mut bytes = header.bytes();
            bytes[position] = random.between(1, 255) as u8;
            write_checksums(&mut bytes);
            let again = written_again(&bytes, location, 1 << 20);
            assert_ne!(again, bytes, "byte {position}");
            assert_eq!(again, header.bytes(), "byte {position}");
        }
    }
}

/// The headers that tcplay made, by location code.
const REAL_HEADERS: [&[u8; HEADER_SIZE]; 4] = [
    include_bytes!("../../samples/tcplay-1048576-code0.header"),
    include_bytes!("../../samples/tcplay-1048576-code1.header"),
    include_bytes!("../../samples/tcplay-1048576-code2.header"),
    include_bytes!("../../samples/tcplay-1048576-code3.header"),
];

#[test]
fn real_headers_written_again() {
    for (location, header) in Location::ALL.into_iter().zip(REAL_HEADERS) {
        assert_eq!(written_again(header, location, 1_048_576), *header, "{location:?}");
    }
}
