//! Views that a caller may make up, on small hosts.

use super::layouts;
use crate::reference::access::View;
use crate::reference::layout::{Layout, HEADERS_SIZE, SECTOR, SECTOR_SIZES, STANDARD};
use crate::reference::random::Random;

/// The largest host of these views: its data area holds more sectors than a call may name.
pub const MAX_HOST_SIZE: usize = (2 * HEADERS_SIZE + 144 * SECTOR) as usize;

/// A view that is mostly sound.
pub fn view(random: &mut Random) -> View {
    let mut layout = layouts::sound_on(host_size(random), random);
    if random.chance(60) && layout.data_start == 131_072 {
        layout.kind = STANDARD;
    }
    if random.chance(8) {
        layouts::change_one_number(&mut layout, random);
    }
    let lock = if random.chance(80) { 0 } else { random.pick(&[1, 2, 1 << 32, u64::MAX]) };
    let mut view = View { layout, protected: 0, protected_start: 0, protected_end: 0, write_lock: lock };
    protect(&mut view, random);
    view
}

/// The host is made of sectors that may be larger than ours, and has at least one between its headers.
fn host_size(random: &mut Random) -> u64 {
    let sectors = if random.chance(85) { random.below(20) } else { random.below(140) };
    let sector_size = random.pick(&SECTOR_SIZES);
    2 * HEADERS_SIZE + sector_size * (1 + SECTOR * sectors / sector_size)
}

/// A range that is protected, or numbers of a range that is not.
fn protect(view: &mut View, random: &mut Random) {
    let mostly_none = if view.layout.kind == STANDARD { 20 } else { 90 };
    view.protected = if random.chance(mostly_none) { 0 } else { random.pick(&[1, 1, 2, 1 << 32, u64::MAX]) };
    let [start, end] =
        if random.chance(80) { range(&view.layout, random) } else { odd_range(&view.layout, random) };
    view.protected_start = start;
    view.protected_end = end;
}

fn byte_range(layout: &Layout, first: u64, end: u64) -> [u64; 2] {
    [first, end].map(|sector| layout.data_start.wrapping_add(sector.wrapping_mul(SECTOR)))
}

/// A range of the data area: one sector, all of them, from the start, up to the end, or any.
fn range(layout: &Layout, random: &mut Random) -> [u64; 2] {
    let sectors = layout.sector_count().max(1);
    let first = random.below(sectors);
    match random.below(6) {
        0 => byte_range(layout, 0, sectors),
        1 => byte_range(layout, 0, first + 1),
        2 => byte_range(layout, first, sectors),
        3 => byte_range(layout, first, random.between(first + 1, sectors)),
        _ => byte_range(layout, first, first + 1),
    }
}

/// A range that is empty, reversed, unaligned, or outside of the data area.
fn odd_range(layout: &Layout, random: &mut Random) -> [u64; 2] {
    let sectors = layout.sector_count();
    let [start, end] = range(layout, random);
    match random.below(10) {
        0 => [start, start],
        1 => [end, start],
        2 => [start.wrapping_add(random.between(1, 511)), end],
        3 => [start, end.wrapping_sub(random.between(1, 511))],
        4 => byte_range(layout, 0u64.wrapping_sub(1), 1),
        5 => byte_range(layout, 0, sectors.wrapping_add(1)),
        6 => byte_range(layout, sectors, sectors.wrapping_add(1)),
        7 => [start, 0u64.wrapping_sub(512)],
        8 => [0, 0],
        _ => [random.of_any_size(), random.of_any_size()],
    }
}
