//! Openings, compared with the rules in `reference`.

mod cases;
mod reference;

use std::collections::BTreeMap;

use cases::candidates::{accepted, Candidate};
use cases::coverage::Coverage;
use cases::hosts;
use cases::openings::{list, odd, single, Opening};
use ondristela::raw;
use reference::header::{HEADER_SIZE, MAGIC, SECTOR_SIZE};
use reference::headers::{write_checksums, Header};
use reference::opening::{key_range, kind_of_code, location, open};
use reference::random::Random;

/// What the outputs hold before a call: a refusal must leave it.
const UNTOUCHED: u64 = 0xA5A5_5A5A_0FF0_F00F;

/// Compares `open` and `keys` with the reference, and gives the answer.
fn check(opening: &Opening, context: impl Fn() -> String) -> u64 {
    let Opening { candidates, codes, host_size } = opening;
    let (answer, layout, range) = match open(candidates, codes, *host_size) {
        Ok(layout) => (0, layout.numbers(), key_range(&layout)),
        Err(refusal) => (refusal, [UNTOUCHED; 9], [UNTOUCHED; 2]),
    };
    let mut opened = [UNTOUCHED; 9];
    let open_answer = raw::open(candidates, codes, *host_size, &mut opened);
    assert_eq!((open_answer, opened), (answer, layout), "open, {}: {opening:?}", context());
    let mut keys = [UNTOUCHED; 2];
    let keys_answer = raw::keys(candidates, codes, *host_size, &mut keys);
    assert_eq!((keys_answer, keys), (answer, range), "keys, {}: {opening:?}", context());
    answer
}

fn check_cases(test: &'static str, seed: u64, cases: u64, make: fn(&mut Random) -> Opening) -> Coverage {
    let mut coverage = Coverage::new(test);
    for case in 0..cases {
        let opening = make(&mut Random::of_case(seed, case));
        coverage.count(check(&opening, || format!("{test}, seed {seed} case {case}")));
    }
    coverage
}

#[test]
fn single_candidates() {
    let coverage = check_cases("single candidates", 1, 60_000, single);
    coverage.assert_exactly(&[0, 4, 5, 6, 7, 8, 9, 10], 500);
}

#[test]
fn lists_of_candidates() {
    let coverage = check_cases("lists of candidates", 2, 25_000, list);
    coverage.assert_exactly(&[0, 4, 5, 6, 7, 8, 9, 10], 300);
}

#[test]
fn odd_lengths_codes_and_host_sizes() {
    let coverage = check_cases("odd arguments", 3, 20_000, odd);
    coverage.assert_exactly(&[0, 1, 2, 3, 4, 5, 6, 7, 8, 9, 10], 50);
    coverage.assert_reached(&[1, 2, 3], 2_000);
}

/// How the lists come out that have several headers, by what decides them: a later candidate than the
/// first header is accepted; refusals differ and the first one counts.
#[test]
fn lists_show_what_decides() {
    let (mut later_accepted, mut refusals_differ) = (0, 0);
    for case in 0..2_000 {
        let opening = list(&mut Random::of_case(2, case));
        let judged = judged_alone(&opening);
        let refusals: Vec<u64> = judged.iter().copied().filter(|answer| *answer != 4).collect();
        later_accepted += u64::from(refusals.contains(&0) && refusals[0] != 0);
        refusals_differ += u64::from(!refusals.contains(&0) && refusals.first() != refusals.last());
    }
    println!("of 2000 lists: {later_accepted} later accepted, {refusals_differ} with other refusals");
    assert!(later_accepted >= 100 && refusals_differ >= 100);
}

fn judged_alone(opening: &Opening) -> Vec<u64> {
    let candidates = opening.candidates.chunks_exact(HEADER_SIZE);
    let answers = candidates.zip(&opening.codes);
    answers.map(|(bytes, code)| open(bytes, &[*code], opening.host_size).err().unwrap_or(0)).collect()
}

/// How single headers come out by the disk's sectors: each size is accepted with each magic and for each kind, and each
/// larger one is refused 10 where 512 would have been accepted.
#[test]
fn headers_show_every_sector_size() {
    let mut reached = BTreeMap::new();
    for case in 0..30_000 {
        let opening = single(&mut Random::of_case(1, case));
        if let Some(sort) = sort_by_sector_size(&opening) {
            *reached.entry(sort).or_insert(0) += 1;
        }
    }
    println!("by answer, magic, kind and sector size: {reached:?}");
    assert_eq!(reached.len(), 2 * 2 * (4 + 3), "{reached:?}");
    assert!(reached.values().all(|count| *count >= 20), "{reached:?}");
}

/// The answer, the magic, the kind and the sector size of a header that is accepted, or would be with 512.
fn sort_by_sector_size(opening: &Opening) -> Option<(u64, String, u64, u32)> {
    let Opening { candidates, codes, host_size } = opening;
    let sector_size = u32::from_be_bytes(candidates[SECTOR_SIZE].try_into().unwrap());
    let mut fine: Candidate = candidates[..].try_into().unwrap();
    fine[SECTOR_SIZE].copy_from_slice(&512_u32.to_be_bytes());
    write_checksums(&mut fine);
    let answer = open(candidates, codes, *host_size).err().unwrap_or(0);
    let is_told = (answer == 0 || answer == 10) && open(&fine, codes, *host_size).is_ok();
    let magic = candidates[MAGIC].escape_ascii().to_string();
    is_told.then_some((answer, magic, kind_of_code(codes[0]), sector_size))
}

/// Two headers, one of each magic, for each location code.
fn one_of_each() -> Vec<(u8, Header)> {
    let mut random = Random::of_case(4, 0);
    let mut made: Vec<(u8, Header)> = Vec::new();
    while made.len() < 8 {
        let code = (made.len() / 2) as u8;
        let header = accepted(code, 1 << 20, &mut random);
        let is_new = made.iter().all(|(old, known)| *old != code || known.magic != header.magic);
        made.extend(is_new.then_some((code, header)));
    }
    made
}

/// Every bit of a header changed, with the checksums as they were and redone.
#[test]
fn each_bit_changed() {
    let mut coverage = Coverage::new("each bit changed");
    for (code, header) in one_of_each() {
        for bit in 0..8 * HEADER_SIZE {
            coverage.count(check_bit_changed(code, &header, bit, false));
            coverage.count(check_bit_changed(code, &header, bit, true));
        }
    }
    coverage.assert_exactly(&[0, 4, 5, 6, 7, 8, 9, 10], 16);
}

fn check_bit_changed(code: u8, header: &Header, bit: usize, redone: bool) -> u64 {
    let mut bytes = header.bytes();
    bytes[bit / 8] ^= 1 << (bit % 8);
    if redone {
        write_checksums(&mut bytes);
    }
    check(&Opening::of_one(&bytes, code, 1 << 20), || format!("bit {bit} changed"))
}

/// Every version up to 1,023, and the same with its bytes exchanged.
#[test]
fn each_version() {
    let mut coverage = Coverage::new("each version");
    for (code, header) in one_of_each() {
        for version in (0..1_024).flat_map(|version: u16| [version, version.swap_bytes()]) {
            let changed = Header { version, ..header.clone() };
            let opening = Opening::of_one(&changed.bytes(), code, 1 << 20);
            coverage.count(check(&opening, || format!("version {version}")));
        }
    }
    coverage.assert_exactly(&[0, 5], 24);
}

#[test]
fn locations() {
    let mut coverage = Coverage::new("locations");
    for host_size in hosts::ALLOWED.into_iter().chain(hosts::WRONG) {
        for code in 0..=255 {
            coverage.count(check_location(code, host_size));
        }
    }
    coverage.assert_exactly(&[0, 2, 3], 40);
}

fn check_location(code: u8, host_size: u64) -> u64 {
    let (answer, offset) = match location(code, host_size) {
        Ok(offset) => (0, offset),
        Err(refusal) => (refusal, UNTOUCHED),
    };
    let mut given = [UNTOUCHED];
    let given_answer = raw::location(code, host_size, &mut given);
    assert_eq!((given_answer, given), (answer, [offset]), "code {code}, host size {host_size}");
    answer
}
