//! The sector map, compared with the rules in `reference`.

mod cases;
mod reference;

use cases::coverage::Coverage;
use cases::layouts;
use ondristela::raw;
use reference::layout::{Layout, SECTOR};
use reference::random::Random;
use reference::sector_map::{host_sector, tweak_block, user_sector};

const SEED: u64 = 11;
const CASES: u64 = 100_000;

/// What the outputs hold before a call: a refusal must leave it.
const UNTOUCHED: u64 = 0xA5A5_5A5A_0FF0_F00F;

/// Sectors at the ends of a range of sectors, inside it and far from it.
fn sector(first: u64, count: u64, random: &mut Random) -> u64 {
    let end = first.wrapping_add(count);
    let ends =
        [first, first.wrapping_add(1), first.wrapping_sub(1), end, end.wrapping_sub(1), end.wrapping_add(1)];
    let far = [0, 255, 256, count, 1 << 55, 1 << 63, (1 << 63) - 1, u64::MAX, 0u64.wrapping_sub(first)];
    match random.below(5) {
        0 => random.pick(&ends),
        1 => random.pick(&far),
        2 => random.of_any_size(),
        _ => first.wrapping_add(random.below(count.max(1))),
    }
}

fn layout(random: &mut Random) -> Layout {
    let mut layout = layouts::sound(random);
    if random.chance(30) {
        layouts::change_one_number(&mut layout, random);
    }
    layout
}

/// The answer, and the output as the call must leave it.
fn expected<T>(answer: Result<T, u64>, untouched: T) -> (u64, T) {
    match answer {
        Ok(value) => (0, value),
        Err(refusal) => (refusal, untouched),
    }
}

fn check_host_sector(layout: &Layout, user: u64, case: u64) -> u64 {
    let mut host = [UNTOUCHED];
    let answer = raw::host_sector(&layout.numbers(), user, &mut host);
    let expected = expected(host_sector(layout, user), UNTOUCHED);
    assert_eq!((answer, host[0]), expected, "host sector of {user}, seed {SEED} case {case}: {layout:?}");
    answer
}

fn check_user_sector(layout: &Layout, host: u64, case: u64) -> u64 {
    let mut user = [UNTOUCHED];
    let answer = raw::user_sector(&layout.numbers(), host, &mut user);
    let expected = expected(user_sector(layout, host), UNTOUCHED);
    assert_eq!((answer, user[0]), expected, "user sector of {host}, seed {SEED} case {case}: {layout:?}");
    answer
}

fn check_tweak(layout: &Layout, user: u64, case: u64) -> u64 {
    let mut block = [0xA5; 16];
    let answer = raw::tweak(&layout.numbers(), user, &mut block);
    let expected = expected(tweak_block(layout, user), [0xA5; 16]);
    assert_eq!((answer, block), expected, "tweak of {user}, seed {SEED} case {case}: {layout:?}");
    answer
}

fn coverage_of(
    name: &'static str,
    check: fn(&Layout, u64, u64) -> u64,
    sector_of: fn(&Layout, &mut Random) -> u64,
) -> Coverage {
    let mut coverage = Coverage::new(name);
    for case in 0..CASES {
        let mut random = Random::of_case(SEED, case);
        let layout = layout(&mut random);
        let sector = sector_of(&layout, &mut random);
        coverage.count(check(&layout, sector, case));
    }
    coverage
}

fn a_user_sector(layout: &Layout, random: &mut Random) -> u64 {
    sector(0, layout.sector_count(), random)
}

fn a_host_sector(layout: &Layout, random: &mut Random) -> u64 {
    sector(layout.data_start / SECTOR, layout.sector_count(), random)
}

#[test]
fn host_sectors() {
    coverage_of("host sector", check_host_sector, a_user_sector).assert_exactly(&[0, 11, 16], 10_000);
}

#[test]
fn user_sectors() {
    coverage_of("user sector", check_user_sector, a_host_sector).assert_exactly(&[0, 11, 16], 10_000);
}

#[test]
fn tweaks() {
    coverage_of("tweak", check_tweak, a_user_sector).assert_exactly(&[0, 11, 16], 10_000);
}

/// From the user's sector to the host's and back, and the tweak's number is the host sector's.
#[test]
fn round_trips() {
    let mut accepted = 0;
    for case in 0..CASES {
        let mut random = Random::of_case(SEED, case);
        let layout = layout(&mut random);
        let user = a_user_sector(&layout, &mut random);
        accepted += u64::from(round_trip(&layout, user, case));
    }
    println!("round trips: {accepted}");
    assert!(accepted >= 30_000);
}

fn round_trip(layout: &Layout, user: u64, case: u64) -> bool {
    let numbers = layout.numbers();
    let (mut host, mut back, mut block) = ([0], [0], [0; 16]);
    if raw::host_sector(&numbers, user, &mut host) != 0 {
        return false;
    }
    let answers = [raw::user_sector(&numbers, host[0], &mut back), raw::tweak(&numbers, user, &mut block)];
    assert_eq!((answers, back[0]), ([0, 0], user), "seed {SEED} case {case}: {layout:?}");
    assert_eq!(u128::from_le_bytes(block), u128::from(host[0]), "seed {SEED} case {case}: {layout:?}");
    true
}

/// The map goes by sectors of 512 bytes: those of the disk make no difference to it.
#[test]
fn every_sector_size_is_mapped_alike() {
    let mut larger = 0;
    for case in 0..CASES {
        let mut random = Random::of_case(SEED, case);
        let layout = layouts::sound(&mut random);
        let user = a_user_sector(&layout, &mut random);
        let [given, fine] =
            [layout, Layout { sector_size: 512, ..layout }].map(|layout| mapped(&layout, user));
        assert_eq!(given, fine, "sector {user}, seed {SEED} case {case}: {layout:?}");
        larger += u64::from(layout.sector_size > 512);
    }
    println!("layouts with larger sectors: {larger}");
    assert!(larger >= 30_000);
}

/// What the map stores for a user sector, with its answers.
fn mapped(layout: &Layout, user: u64) -> ([u64; 3], [u64; 2], [u8; 16]) {
    let (numbers, host_sector) = (layout.numbers(), (layout.data_start / SECTOR).wrapping_add(user));
    let ([mut host, mut back], mut block) = ([[UNTOUCHED]; 2], [0xA5; 16]);
    let answers = [
        raw::host_sector(&numbers, user, &mut host),
        raw::user_sector(&numbers, host_sector, &mut back),
        raw::tweak(&numbers, user, &mut block),
    ];
    (answers, [host[0], back[0]], block)
}

/// Every number above 1 that is a power of two, or one beside it, is no kind: 11.
#[test]
fn kinds_that_are_none() {
    let sound = layouts::sound_on(1 << 20, &mut Random::of_case(SEED, 0));
    for bit in 1..64 {
        for kind in [1 << bit, (1 << bit) + 1, u64::MAX - (1 << bit) + 1] {
            let answer = check_host_sector(&Layout { kind, ..sound }, 0, kind);
            assert_eq!(answer, 11, "kind {kind}");
        }
    }
}
