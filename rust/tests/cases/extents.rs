//! Extents: first sectors and counts, the huge ones included whose sums wrap. They are drawn in units of some
//! sectors, one or as many as make a sector of the disk's, so that those are hit whole as often as is wanted.

use crate::reference::access::{Extent, MAX_COUNT};
use crate::reference::layout::{Layout, SECTOR};
use crate::reference::random::Random;

/// An extent for this volume, mostly inside it and mostly of whole sectors of the disk's.
pub fn for_layout(layout: &Layout, random: &mut Random) -> Extent {
    let unit = if random.chance(80) { disk_unit(layout) } else { 1 };
    let extent = scaled(for_units(layout.sector_count() / unit, unit, random), unit);
    if random.chance(85) {
        return extent;
    }
    one_off(extent, random)
}

/// The first sector or the count is one more or one less.
fn one_off(extent: Extent, random: &mut Random) -> Extent {
    let (Extent { first, count }, step) = (extent, random.pick(&[1, u64::MAX]));
    if random.chance(50) {
        return Extent { first: first.wrapping_add(step), count };
    }
    Extent { first, count: count.wrapping_add(step) }
}

/// How many sectors make one of the disk's. Where those are too small, which is unsound, it is one.
pub fn disk_unit(layout: &Layout) -> u64 {
    (layout.sector_size / SECTOR).max(1)
}

/// The extent in sectors, of one in such units.
pub fn scaled(extent: Extent, unit: u64) -> Extent {
    Extent { first: extent.first.wrapping_mul(unit), count: extent.count.wrapping_mul(unit) }
}

/// An extent in units, for a volume of so many units.
pub fn for_units(units: u64, unit: u64, random: &mut Random) -> Extent {
    let largest = MAX_COUNT / unit;
    match random.below(20) {
        0 => near_end(units, random),
        1 => huge(random),
        2 => Extent { first: random.of_any_size(), count: random.of_any_size() },
        3 => Extent { first: 0, count: random.pick(&[largest.saturating_sub(1), largest, largest + 1]) },
        4 => Extent { first: units, count: 0 },
        5 => Extent { first: 0, count: units },
        _ => inside(units, unit, random),
    }
}

/// An extent in units inside the volume, of up to as many as there are and as a call may name.
pub fn inside(units: u64, unit: u64, random: &mut Random) -> Extent {
    let first = random.below(units.max(1));
    let largest = units.saturating_sub(first).min(MAX_COUNT / unit);
    Extent { first, count: random.between(0, largest) }
}

fn near_end(units: u64, random: &mut Random) -> Extent {
    let count = random.between(0, 4);
    let first = units.wrapping_sub(count).wrapping_add(random.between(0, 2));
    Extent { first, count }
}

/// First sectors and counts near 2^64. In 64 bits, the sum wraps to a small number and 512 times the
/// count to a small size.
fn huge(random: &mut Random) -> Extent {
    let count = random.between(0, 130);
    match random.below(4) {
        0 => Extent { first: 0u64.wrapping_sub(random.between(1, 130)), count },
        1 => Extent { first: random.between(0, 3), count: (1 << 55) + random.between(0, 3) },
        2 => Extent { first: random.between(0, 3), count: 0u64.wrapping_sub(random.between(0, 3)) },
        _ => Extent { first: 0u64.wrapping_sub(count), count },
    }
}

/// A buffer's size for a count: mostly the right one.
pub fn buffer_size(count: u64, largest: usize, random: &mut Random) -> usize {
    let right = (count.wrapping_mul(512) as usize).min(largest - 512);
    if random.chance(93) {
        return right;
    }
    random.pick(&[0, 1, right + 1, right.saturating_sub(1), right + 512, right.saturating_sub(512)])
}
