//! Layouts that a caller may make up: sound ones, and ones with a rule broken.

use super::hosts::{self, sectors_between_headers};
use crate::reference::layout::{Layout, HEADERS_SIZE, HIDDEN, SECTOR_SIZES, STANDARD};
use crate::reference::random::Random;

/// A sound layout on a host of any allowed size.
pub fn sound(random: &mut Random) -> Layout {
    let host_size = hosts::allowed(random);
    sound_on(host_size, random)
}

/// A sound layout on this host.
pub fn sound_on(host_size: u64, random: &mut Random) -> Layout {
    let sector_size = hosts::sector_size(host_size, random);
    sound_of(host_size, sector_size, random)
}

/// A sound layout on this host, which is made of such sectors of its disk. The numbers that soundness does not look
/// at may be anything.
fn sound_of(host_size: u64, sector_size: u64, random: &mut Random) -> Layout {
    let kind = random.pick(&[STANDARD, HIDDEN]);
    let sectors = sectors_between_headers(host_size, sector_size);
    let before = if kind == HIDDEN && random.chance(80) { random.below(sectors) } else { 0 };
    let largest = sectors - before;
    let count = if random.chance(40) { largest } else { random.between(1, largest) };
    Layout {
        host_size,
        kind,
        magic: random.pick(&[0, 1, 2, u64::MAX]),
        version: random.of_any_size(),
        min_program_version: random.of_any_size(),
        data_start: HEADERS_SIZE + sector_size * before,
        data_size: sector_size * count,
        candidate: random.of_any_size(),
        sector_size,
    }
}

/// Changes one of the numbers that soundness looks at, mostly so that one rule is broken.
pub fn change_one_number(layout: &mut Layout, random: &mut Random) {
    match random.below(5) {
        0 => layout.host_size = host_size(layout, random),
        1 => layout.kind = kind(random),
        2 => layout.data_start = data_start(layout, random),
        3 => layout.sector_size = hosts::any_sector_size(random),
        _ => layout.data_size = data_size(layout, random),
    }
}

fn host_size(layout: &Layout, random: &mut Random) -> u64 {
    let least = layout.data_start + layout.data_size + HEADERS_SIZE;
    if random.chance(40) {
        return random.pick(&[least - 1, least - 512, least - 256, least, least + 1, least + 512]);
    }
    random.pick(&hosts::WRONG)
}

fn kind(random: &mut Random) -> u64 {
    let any = random.of_any_size();
    random.pick(&[0, 1, 2, 3, 255, 256, 257, 1 << 32, (1 << 32) + 1, 1 << 63, u64::MAX - 1, u64::MAX, any])
}

fn data_start(layout: &Layout, random: &mut Random) -> u64 {
    let latest = layout.host_size - HEADERS_SIZE - layout.data_size;
    let any = random.of_any_size();
    random.pick(&[
        0,
        512,
        HEADERS_SIZE - 512,
        HEADERS_SIZE - 1,
        HEADERS_SIZE + 1,
        HEADERS_SIZE + 512,
        layout.data_start + 256,
        layout.data_start + 512,
        latest,
        latest + 1,
        latest + 512,
        latest + HEADERS_SIZE,
        0u64.wrapping_sub(layout.data_size),
        HEADERS_SIZE.wrapping_sub(layout.data_size),
        0u64.wrapping_sub(HEADERS_SIZE),
        0u64.wrapping_sub(512),
        u64::MAX,
        any,
    ])
}

fn data_size(layout: &Layout, random: &mut Random) -> u64 {
    let largest = layout.host_size - HEADERS_SIZE - layout.data_start;
    let any = random.of_any_size();
    random.pick(&[
        0,
        1,
        511,
        512,
        513,
        layout.sector_size,
        largest - 1,
        largest - 256,
        largest - 512,
        largest,
        largest + 1,
        largest + 512,
        largest + HEADERS_SIZE,
        0u64.wrapping_sub(layout.data_start),
        512u64.wrapping_sub(layout.data_start),
        0u64.wrapping_sub(512),
        u64::MAX,
        any,
    ])
}

/// An outer and a hidden layout, mostly a pair that nests.
pub fn pair(random: &mut Random) -> [Layout; 2] {
    let host_size = hosts::allowed(random);
    let sector_size = hosts::sector_size(host_size, random);
    let [mut outer, mut hidden] =
        [STANDARD, HIDDEN].map(|kind| Layout { kind, ..sound_of(host_size, sector_size, random) });
    outer.data_start = HEADERS_SIZE;
    match random.below(12) {
        0 => hidden = sound(random),
        1 => outer.kind = HIDDEN,
        2 => change_one_number(&mut outer, random),
        3 => change_one_number(&mut hidden, random),
        4 => hidden = Layout { kind: HIDDEN, ..outer },
        5..=7 => fit(&outer, &mut hidden, random),
        8 | 9 => {
            fit(&outer, &mut hidden, random);
            hidden.sector_size = random.pick(&SECTOR_SIZES);
        }
        _ => {}
    }
    [outer, hidden]
}

/// Moves the hidden data area so that it ends at the outer's end, or a sector of the disk's before it or past it.
fn fit(outer: &Layout, hidden: &mut Layout, random: &mut Random) {
    let sectors = outer.data_size / outer.sector_size;
    let before = random.below(sectors);
    let count = sectors - before + random.pick(&[0, 0, 1]) - random.below(2);
    hidden.data_start = HEADERS_SIZE + outer.sector_size * before;
    hidden.data_size = outer.sector_size * count;
}
