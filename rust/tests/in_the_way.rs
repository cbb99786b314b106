//! The sector in the way: every extent on a small volume, with every protected range that it can have, through the
//! six calls that tell it. The library and the rules in `reference` must both tell the larger of two sectors: the
//! extent's first, and the first that is past the volume's end or protected.

mod cases;
mod reference;

use cases::calls::{reads, writes, UNTOLD};
use ondristela::raw;
use reference::access::{self, Answer, Extent, View};
use reference::layout::{Layout, HEADERS_SIZE, HIDDEN, SECTOR, STANDARD};

/// The volume's sectors, in a host that has room for five more.
const SECTORS: u64 = 6;
const HOST_SIZE: u64 = 2 * HEADERS_SIZE + SECTOR * (SECTORS + 5);

fn layout(kind: u64, data_start: u64) -> Layout {
    Layout {
        host_size: HOST_SIZE,
        kind,
        magic: 0,
        version: 5,
        min_program_version: 0x0700,
        data_start,
        data_size: SECTOR * SECTORS,
        candidate: 0,
        sector_size: 512,
    }
}

/// Views of a standard and a hidden volume alone, and of the standard one with each range.
fn views() -> Vec<View> {
    let standard = access::plain(&layout(STANDARD, HEADERS_SIZE)).unwrap();
    let hidden = access::plain(&layout(HIDDEN, HEADERS_SIZE + 3 * SECTOR)).unwrap();
    let mut views = vec![standard, hidden];
    for first in 0..SECTORS {
        views.extend((first + 1..=SECTORS).map(|end| protecting(standard, first, end)));
    }
    views
}

/// The view with these user sectors protected. Any number but 0 stands for a range.
fn protecting(view: View, first: u64, end: u64) -> View {
    let [protected_start, protected_end] = [first, end].map(|sector| HEADERS_SIZE + SECTOR * sector);
    View { protected: end << (8 * first), protected_start, protected_end, ..view }
}

/// Extents on either side of the volume's end, and as far from it as there are numbers.
fn extents() -> Vec<Extent> {
    let firsts = (0..=SECTORS + 2).chain([1 << 32, 1 << 55, 1 << 63, u64::MAX - 127, u64::MAX - 1, u64::MAX]);
    let counts = || (0..=SECTORS + 2).chain([127, 128, 129]);
    firsts.flat_map(|first| counts().map(move |count| Extent { first, count })).collect()
}

/// The sector that must be told with this number. Here it is a formula; the reference looks at each sector.
fn expected_sector(view: &View, extent: Extent, number: u64) -> Option<u64> {
    match number {
        16 => Some(extent.first.max(SECTORS)),
        18 => Some(extent.first.max((view.protected_start - view.layout.data_start) / SECTOR)),
        _ => None,
    }
}

fn check(view: &View, image: &mut [u8], extent: Extent) {
    let (image_size, buffer_size) = (image.len(), (extent.count * SECTOR) as usize);
    let read = access::answer(view, image_size, extent, buffer_size);
    let write = access::write_answer(view, image_size, extent, buffer_size);
    for Answer { number, sector } in [read, write] {
        assert_eq!(sector, expected_sector(view, extent, number), "{number}: {view:?} {extent:?}");
    }
    assert_eq!(reads(view, image, extent), [read.stored_over(UNTOLD); 3], "read {view:?} {extent:?}");
    assert_eq!(writes(view, image, extent), [write.stored_over(UNTOLD); 3], "write {view:?} {extent:?}");
}

#[test]
fn every_extent_and_range() {
    let mut image = vec![0; HOST_SIZE as usize];
    for view in views() {
        for write_lock in [0, 1, u64::MAX] {
            extents().into_iter().for_each(|extent| check(&View { write_lock, ..view }, &mut image, extent));
        }
    }
}

/// An accepted write, a closed lock, and every refusal that is tested before 16: the sector is left as it was.
#[test]
fn other_answers_tell_no_sector() {
    let view = protecting(access::plain(&layout(STANDARD, HEADERS_SIZE)).unwrap(), 2, 4);
    let (locked, unsound) = (View { write_lock: 1, ..view }, View { protected_end: HOST_SIZE, ..view });
    for (view, image_size, first, count, buffer_size, expected) in [
        (view, HOST_SIZE, 0, 2, 1_024, 0),
        (view, HOST_SIZE, SECTORS, 0, 0, 0),
        (unsound, HOST_SIZE, 2, 1, 512, 11),
        (view, HOST_SIZE - 512, 2, 1, 512, 13),
        (view, HOST_SIZE, 2, 129, 129 * 512, 14),
        (view, HOST_SIZE, 2, 1, 511, 15),
        (view, HOST_SIZE, u64::MAX, 128, 0, 15),
        (locked, HOST_SIZE, 2, 1, 512, 17),
    ] {
        let [mut sector, mut offset] = [[UNTOLD]; 2];
        let mut numbers = view.numbers();
        let answer =
            raw::write_extent(&mut numbers, image_size, first, count, buffer_size, &mut offset, &mut sector);
        assert_eq!((answer, sector), (expected, [UNTOLD]), "{view:?}, {count} sectors from {first} on");
    }
}
