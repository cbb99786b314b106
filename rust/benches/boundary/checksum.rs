//! CRC-32, against zlib's and against a byte-table loop in Rust.

use std::ffi::{c_uchar, c_uint, c_ulong};
use std::hint::black_box;

use ondristela::raw;

use crate::byte_table;
use crate::random::Random;
use crate::report::{Report, Row};
use crate::timing::{take_turns, Timing};

// A header's two checksums have 188 and 256 bytes.
const SIZES: [usize; 6] = [188, 256, 512, 4 << 10, 64 << 10, 1 << 20];

#[link(name = "z")]
extern "C" {
    #[link_name = "crc32"]
    fn zlib_crc32(crc: c_ulong, bytes: *const c_uchar, size: c_uint) -> c_ulong;
}

fn zlib(bytes: &[u8]) -> u32 {
    // SAFETY: the pointer and the length are a slice's.
    unsafe { zlib_crc32(0, bytes.as_ptr(), bytes.len() as c_uint) as u32 }
}

/// Measures checksums of all sizes.
pub fn measure(report: &mut Report) {
    check(b"123456789", 0xCBF4_3926);
    report.section("CRC-32");
    for size in SIZES {
        let mut bytes = vec![0; size];
        Random::new().fill(&mut bytes);
        check(&bytes, byte_table::crc32(&bytes));
        let [ours, zlib, table] = take_turns(&mut bytes[..], [sum_ours, sum_zlib, sum_table]);
        report.add(row(size, ours, "byte table", table));
        report.add(row(size, ours, "zlib", zlib));
    }
}

fn check(bytes: &[u8], crc: u32) {
    assert_eq!([raw::crc32(bytes), zlib(bytes), byte_table::crc32(bytes)], [crc; 3]);
}

fn row(bytes: usize, ours: Timing, peer_name: &'static str, peer: Timing) -> Row {
    Row {
        series: "crc32",
        operation: "checksum",
        case: format!("{bytes} bytes"),
        bytes,
        image_size: 0,
        ours,
        peer_name,
        peer,
    }
}

fn sum_ours(bytes: &mut [u8], calls: u64) {
    for _ in 0..calls {
        black_box(raw::crc32(black_box(bytes)));
    }
}

fn sum_zlib(bytes: &mut [u8], calls: u64) {
    for _ in 0..calls {
        black_box(zlib(black_box(bytes)));
    }
}

fn sum_table(bytes: &mut [u8], calls: u64) {
    for _ in 0..calls {
        black_box(byte_table::crc32(black_box(bytes)));
    }
}
