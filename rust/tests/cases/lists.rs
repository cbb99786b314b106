//! Two lists of calls on one image: those of an outer view that protects a hidden volume, and those of the
//! hidden volume's own view; and orders in which they may come.

use std::fmt;

use super::{extents, keys};
use crate::reference::access::{self, Extent, View};
use crate::reference::layout::{Layout, HEADERS_SIZE, HIDDEN, SECTOR, STANDARD};
use crate::reference::model::{Call, INNER, OUTER};
use crate::reference::random::Random;
use crate::reference::xts::Key;

/// Each view has one key for all calls of its list.
pub struct Lists {
    pub layouts: [Layout; 2],
    pub locks: [u64; 2],
    pub keys: [Key; 2],
    pub image: Vec<u8>,
    pub calls: [Vec<Call>; 2],
}

/// Up to so many calls in a list.
const MAX_CALLS: u64 = 12;

impl Lists {
    /// Lists of calls on a disk with sectors of this size.
    pub fn new(sector_size: u64, random: &mut Random) -> Lists {
        let layouts = nested(sector_size, random);
        let locks = [random.pick(&[0, 0, 0, 1]), random.pick(&[0, 0, 0, 0, 1, 7])];
        let calls = [calls_on(&layouts, OUTER, random), calls_on(&layouts, INNER, random)];
        let (image, keys) = (image(layouts[OUTER].host_size, random), keys::pair(random));
        Lists { layouts, locks, keys, image, calls }
    }

    /// The outer and the hidden view as the reference makes them, with the locks that they start with.
    pub fn views(&self) -> [View; 2] {
        let [outer, hidden] = &self.layouts;
        let mut views =
            [access::protected(outer, hidden), access::plain(hidden)].map(|view| view.expect("a sound view"));
        views[OUTER].write_lock = self.locks[OUTER];
        views[INNER].write_lock = self.locks[INNER];
        views
    }

    /// An order that keeps each list's own: whose call comes at each step.
    pub fn random_order(&self, random: &mut Random) -> Vec<usize> {
        let mut left = [self.calls[OUTER].len(), self.calls[INNER].len()];
        let mut order = Vec::new();
        while left[OUTER] + left[INNER] > 0 {
            let drawn = random.below((left[OUTER] + left[INNER]) as u64) as usize;
            let side = if drawn < left[OUTER] { OUTER } else { INNER };
            left[side] -= 1;
            order.push(side);
        }
        order
    }

    /// All calls of one list, then all of the other.
    pub fn order_from(&self, first: usize) -> Vec<usize> {
        let second = 1 - first;
        [vec![first; self.calls[first].len()], vec![second; self.calls[second].len()]].concat()
    }
}

/// The layouts, the locks, whether the keys are the same, the image's size and each list's calls without their bytes.
impl fmt::Debug for Lists {
    fn fmt(&self, out: &mut fmt::Formatter) -> fmt::Result {
        let Lists { layouts, locks, keys, image, calls } = self;
        write!(out, "{layouts:?}, locks {locks:?}, same key {}", keys[OUTER] == keys[INNER])?;
        write!(out, ", image of {} bytes", image.len())?;
        write!(out, ", outer calls: {}", summary(&calls[OUTER]))?;
        write!(out, ", hidden calls: {}", summary(&calls[INNER]))
    }
}

fn summary(calls: &[Call]) -> String {
    calls.iter().map(call_summary).collect::<Vec<_>>().join("; ")
}

fn call_summary(call: &Call) -> String {
    let kind = if call.writes { "write" } else { "read" };
    let form = if call.on_plaintext { "plaintext" } else { "raw" };
    format!("{form} {kind} {} count {} buffer {}", call.extent.first, call.extent.count, call.buffer.len())
}

/// An outer and a hidden layout that nest, on a host with few sectors of data area, which are the disk's.
fn nested(sector_size: u64, random: &mut Random) -> [Layout; 2] {
    let sectors = random.between(1, 8 + 32 * SECTOR / sector_size);
    let outer_sectors = random.between(1, sectors);
    let before = random.below(outer_sectors);
    let hidden_sectors = random.between(1, outer_sectors - before);
    let outer = Layout {
        host_size: 2 * HEADERS_SIZE + sector_size * sectors,
        kind: STANDARD,
        magic: random.below(2),
        version: 5,
        min_program_version: 0x0700,
        data_start: HEADERS_SIZE,
        data_size: sector_size * outer_sectors,
        candidate: random.below(64),
        sector_size,
    };
    let (data_start, data_size) = (HEADERS_SIZE + sector_size * before, sector_size * hidden_sectors);
    [outer, Layout { kind: HIDDEN, data_start, data_size, ..outer }]
}

/// An image of random bytes, now and then of another size than the host's.
fn image(host_size: u64, random: &mut Random) -> Vec<u8> {
    let size = host_size as usize;
    let odd = random.pick(&[0, size - 1, size - 512, size + 512]);
    let mut image = vec![0; if random.chance(4) { odd } else { size }];
    random.fill(&mut image);
    image
}

fn calls_on(layouts: &[Layout; 2], side: usize, random: &mut Random) -> Vec<Call> {
    let count = if random.chance(5) { 0 } else { random.between(1, MAX_CALLS) };
    let avoids_hidden = random.chance(70);
    (0..count).map(|_| call(layouts, side, avoids_hidden, random)).collect()
}

fn call(layouts: &[Layout; 2], side: usize, avoids_hidden: bool, random: &mut Random) -> Call {
    let unit = if random.chance(85) { extents::disk_unit(&layouts[side]) } else { 1 };
    let units = layouts[side].sector_count() / unit;
    let writes = random.chance(60);
    let extent = match random.below(10) {
        0 => extents::for_units(units, unit, random),
        _ if side == OUTER && writes && avoids_hidden => outside_hidden(layouts, unit, random),
        _ => short(extents::inside(units, unit, random), random),
    };
    let extent = extents::scaled(extent, unit);
    let mut buffer = vec![0; extents::buffer_size(extent.count, 2 * 65_536, random)];
    random.fill(&mut buffer);
    Call { writes, on_plaintext: random.chance(50), extent, buffer, sector: random.number() }
}

fn short(extent: Extent, random: &mut Random) -> Extent {
    Extent { first: extent.first, count: extent.count.min(random.between(0, 6)) }
}

/// An extent in units of the outer volume, before the hidden data area or behind it.
fn outside_hidden(layouts: &[Layout; 2], unit: u64, random: &mut Random) -> Extent {
    let [outer, hidden] = layouts;
    let before = (hidden.data_start - outer.data_start) / (SECTOR * unit);
    let behind = before + hidden.sector_count() / unit;
    if random.chance(50) {
        return short(extents::inside(before, unit, random), random);
    }
    let extent = short(extents::inside(outer.sector_count() / unit - behind, unit, random), random);
    Extent { first: behind + extent.first, count: extent.count }
}
