//! What the cases of accesses.rs hold, counted by the rules in `reference`.

mod cases;
mod reference;

use std::collections::BTreeMap;

use cases::accesses::{access, Access, CASES, SEED};
use cases::extents::disk_unit;
use reference::access::{self, Answer, Extent};
use reference::random::Random;

/// The writes of these cases hold those that known mistakes would judge otherwise: an extent whose first and
/// last sectors are not protected, but one between them; one that reaches past the volume's end and touches
/// the range before it; one whose sum wraps to a number that fits.
#[test]
fn writes_show_what_decides() {
    let (mut straddling, mut past_end, mut wrapping) = (0, 0, 0);
    for case in 0..20_000 {
        let access = access(&mut Random::of_case(SEED, case));
        let Extent { first, count } = access.extent;
        match judged(&access, access.extent).number {
            18 => straddling += u64::from(ends_are_free(&access)),
            16 if first.checked_add(count).is_none() => wrapping += u64::from(first.wrapping_add(count) <= 1),
            16 => past_end += u64::from(rest_is_protected(&access)),
            _ => {}
        }
    }
    println!("of 20000 writes: {straddling} straddle, {past_end} touch and go past the end, {wrapping} wrap");
    assert!(straddling >= 50 && past_end >= 20 && wrapping >= 20);
}

/// The writes of these cases hold every place of the sector in the way: it is the extent's first, or a later one;
/// and for 16, the extent may have no sectors at all.
#[test]
fn writes_show_every_sector_in_the_way() {
    let mut reached = [[0; 3]; 2];
    for case in 0..20_000 {
        let access = access(&mut Random::of_case(SEED, case));
        let Extent { first, count } = access.extent;
        let Answer { number, sector: Some(sector) } = judged(&access, access.extent) else { continue };
        let place = if count == 0 { 2 } else { usize::from(sector > first) };
        reached[usize::from(number == 18)][place] += 1;
    }
    let [[past, past_later, past_empty], [protected, protected_later, protected_empty]] = reached;
    println!("of 20000 writes, 16 tells the first sector {past} times, a later one {past_later} times");
    println!("and {past_empty} times with no sectors; 18: {protected} times, {protected_later} times");
    assert!(past >= 100 && past_later >= 100 && past_empty >= 50, "{reached:?}");
    assert!(protected >= 100 && protected_later >= 100 && protected_empty == 0, "{reached:?}");
}

/// The answer to a write of this access's view over this extent, with a buffer that fits.
fn judged(access: &Access, extent: Extent) -> Answer {
    let buffer_size = extent.count.wrapping_mul(512) as usize;
    access::write_answer(&access.view, access.image_size, extent, buffer_size)
}

/// The first and the last of the disk's sectors that the extent has would be written alone.
fn ends_are_free(access: &Access) -> bool {
    let (Extent { first, count }, unit) = (access.extent, disk_unit(&access.view.layout));
    [first, first + count - unit]
        .iter()
        .all(|sector| judged(access, Extent { first: *sector, count: unit }) == Answer::ACCEPTED)
}

/// The part of the extent that lies in the volume would be refused 18.
fn rest_is_protected(access: &Access) -> bool {
    let first = access.extent.first;
    let rest = access.view.layout.sector_count().saturating_sub(first);
    judged(access, Extent { first, count: rest }).number == 18
}

/// The disk's sectors of an access that is refused 20, with what of its extent is not of whole ones of them, and what
/// the answer would be on a disk with sectors of 512 bytes.
fn unaligned(access: &Access) -> Option<(u64, &'static str, u64)> {
    if judged(access, access.extent).number != 20 {
        return None;
    }
    let (Extent { first, count }, unit) = (access.extent, disk_unit(&access.view.layout));
    let part = match (first % unit, count % unit) {
        (0, _) => "count",
        (_, 0) => "first",
        _ => "both",
    };
    let mut fine = access.view;
    fine.layout.sector_size = 512;
    let otherwise = judged(&Access { view: fine, ..*access }, access.extent).number;
    Some((unit, part, otherwise))
}

/// The writes of these cases hold every way to be refused 20, on disks with each of the three larger sectors and on no
/// other: by the first sector, by the count and by both, where the write would have been accepted otherwise, and where
/// it would have been refused 16, 17 or 18.
#[test]
fn writes_show_every_way_to_be_unaligned() {
    let mut reached = BTreeMap::new();
    for case in 0..CASES {
        let access = access(&mut Random::of_case(SEED, case));
        if let Some(way) = unaligned(&access) {
            *reached.entry(way).or_insert(0) += 1;
        }
    }
    println!("refused 20, by the disk's sector, the part and the other answer: {reached:?}");
    assert_eq!(reached.len(), 3 * 3 * 4, "sectors, parts and other answers: {reached:?}");
    assert!(reached.values().all(|count| *count >= 15), "a way was reached too seldom: {reached:?}");
}
