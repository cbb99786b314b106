//! The header writer, compared with the rules in `reference`.

mod cases;
mod reference;

use std::collections::{BTreeMap, BTreeSet};

use cases::coverage::Coverage;
use cases::header_writings::HeaderWriting;
use cases::hosts;
use cases::new_headers::{accepted, changed};
use reference::header_writing::NewHeader;
use reference::layout::{HEADERS_SIZE, SECTOR, SECTOR_SIZES};
use reference::random::Random;

const SEED: u64 = 61;
const CASES: u64 = 60_000;

/// The answers, in the order in which the rules are tested.
const ANSWERS: [u64; 8] = [0, 1, 19, 2, 3, 5, 8, 10];

#[test]
fn generated_calls() {
    let mut coverage = Coverage::new("header writing");
    for case in 0..CASES {
        let writing = changed(&mut Random::of_case(SEED, case));
        coverage.count(writing.check(|| format!("seed {SEED} case {case}")));
    }
    coverage.assert_exactly(&ANSWERS, 3_000);
}

/// The calls above hold each pair of rules broken at once and no third one, so that the earlier must win.
#[test]
fn calls_break_each_pair_of_rules() {
    let mut pairs = BTreeMap::new();
    for case in 0..CASES {
        let HeaderWriting { asked, header_size } = changed(&mut Random::of_case(SEED, case));
        if let [earlier, later] = asked.broken_rules(header_size)[..] {
            *pairs.entry([earlier, later]).or_insert(0) += 1;
        }
    }
    println!("two rules broken: {pairs:?}");
    assert_eq!(pairs.len(), 21, "pairs of seven rules: {pairs:?}");
    assert!(pairs.values().all(|count| *count >= 200), "a pair was reached too seldom: {pairs:?}");
}

/// A call that asks for one sector at the start of the data area, which fits every allowed host.
fn one_sector() -> HeaderWriting {
    let mut writing = accepted(&mut Random::of_case(SEED, CASES));
    writing.asked.data_start = HEADERS_SIZE;
    writing.asked.data_size = SECTOR;
    writing.asked.sector_size = SECTOR;
    writing
}

#[test]
fn each_magic_version_code_and_host_size() {
    let mut coverage = Coverage::new("magics, versions, codes and host sizes");
    let (mut writing, fixed) = (one_sector(), one_sector().asked);
    for magic in [*b"VERA", *b"TRUE", *b"VERE", *b"TRUA", *b"AREV"] {
        for version in [0, 1, 2, 3, 4, 5, 6, 7, 0x0104, 0x0400, 0xFFFF] {
            for code in [0, 1, 2, 3, 4, 5, 8, 255] {
                for host_size in hosts::ALLOWED.into_iter().chain(hosts::WRONG) {
                    writing.asked = NewHeader { magic, version, code, host_size, ..fixed.clone() };
                    coverage.count(writing.check(String::new));
                }
            }
        }
    }
    coverage.assert_exactly(&[0, 19, 2, 3, 5], 200);
}

/// Data starts on either side of each bound.
fn starts(host_size: u64, sector_size: u64) -> Vec<u64> {
    let end = host_size - HEADERS_SIZE;
    let bounds = [0, HEADERS_SIZE, end, host_size, 1 << 63, 0u64.wrapping_sub(HEADERS_SIZE)];
    bounds.into_iter().flat_map(|bound| beside(bound, sector_size)).collect()
}

/// Data sizes on either side of each bound. The last three bounds are those whose sum with the start, taken in 64
/// bits, is 0, the most that fits, and the host's size.
fn sizes(data_start: u64, host_size: u64, sector_size: u64) -> Vec<u64> {
    let end = host_size - HEADERS_SIZE;
    let sums = [0, end, host_size].map(|sum| sum.wrapping_sub(data_start));
    let bounds = [0, sector_size, 1 << 63].into_iter().chain(sums);
    bounds.flat_map(|bound| beside(bound, sector_size)).collect()
}

/// The bound, and the numbers that are a byte, a sector or one of the disk's sectors away from it.
fn beside(bound: u64, sector_size: u64) -> Vec<u64> {
    let steps = BTreeSet::from([1, SECTOR, sector_size]);
    let away = steps.into_iter().flat_map(|step| [bound.wrapping_add(step), bound.wrapping_sub(step)]);
    away.chain([bound]).collect()
}

/// Counts the answers for all of them, with this size of the disk's sectors.
fn count_areas(sector_size: u64, coverage: &mut Coverage) {
    let mut writing = one_sector();
    writing.asked.sector_size = sector_size;
    for (code, host_size) in (0..4).flat_map(|code| hosts::ALLOWED.map(|host_size| (code, host_size))) {
        (writing.asked.code, writing.asked.host_size) = (code, host_size);
        for data_start in starts(host_size, sector_size) {
            for data_size in sizes(data_start, host_size, sector_size) {
                (writing.asked.data_start, writing.asked.data_size) = (data_start, data_size);
                coverage.count(writing.check(String::new));
            }
        }
    }
}

#[test]
fn each_data_start_and_size() {
    for sector_size in SECTOR_SIZES {
        let mut coverage = Coverage::new("data starts and sizes");
        count_areas(sector_size, &mut coverage);
        coverage.assert_exactly(&[0, 10], 50);
    }
}

/// Every power of two and the numbers beside it. Only the four are accepted, at any width.
#[test]
fn each_sector_size() {
    let mut coverage = Coverage::new("sector sizes");
    let mut writing = one_sector();
    (writing.asked.host_size, writing.asked.data_size) = (1 << 20, 4_096);
    for bit in 0..64 {
        for sector_size in beside(1 << bit, 4_096) {
            writing.asked.sector_size = sector_size;
            coverage.count(writing.check(String::new));
        }
    }
    coverage.assert_exactly(&[0, 8], 4);
}

/// A header of every length up to 514, with a salt and keys that are right, none, or one byte too short or long.
#[test]
fn each_length() {
    let mut coverage = Coverage::new("lengths");
    for salt_size in [0, 63, 64, 65] {
        for keys_size in [0, 255, 256, 257] {
            for header_size in 0..=514 {
                let mut writing = HeaderWriting { header_size, ..one_sector() };
                writing.asked.salt.resize(salt_size, 0xA5);
                writing.asked.keys.resize(keys_size, 0xA5);
                coverage.count(writing.check(String::new));
            }
        }
    }
    coverage.assert_exactly(&[0, 1], 1);
}
