//! CRC-32, compared with the definition bit by bit in `reference`.

mod reference;

use ondristela::raw;
use reference::crc::crc32;
use reference::random::Random;

/// The published check value, of the nine ASCII digits.
#[test]
fn check_value() {
    assert_eq!(raw::crc32(b"123456789"), 0xCBF4_3926);
    assert_eq!(crc32(b"123456789"), 0xCBF4_3926);
}

/// Every length up to 1,200, at a start that is not aligned.
#[test]
fn every_length() {
    let mut bytes = [0; 1_208];
    Random::of_case(41, 0).fill(&mut bytes);
    for size in 0..=1_200 {
        let part = &bytes[size % 8..size % 8 + size];
        assert_eq!(raw::crc32(part), crc32(part), "the first {size} bytes");
    }
}

/// Every single byte after every other.
#[test]
fn every_pair_of_bytes() {
    for pair in 0..=u16::MAX {
        let bytes = pair.to_be_bytes();
        assert_eq!(raw::crc32(&bytes), crc32(&bytes), "{bytes:?}");
    }
}
