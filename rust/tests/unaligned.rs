//! Extents on disks whose own sectors are larger than 512 bytes: those that are not of whole ones are refused 20. Every
//! extent on a small volume through the six calls, compared with the rules in `reference`; the order of the checks;
//! and what 20 leaves.

mod cases;
mod reference;

use cases::calls::{reads, writes, UNTOLD};
use ondristela::raw;
use reference::access::{self, Extent, View};
use reference::layout::{Layout, HEADERS_SIZE, HIDDEN, SECTOR, SECTOR_SIZES, STANDARD};

/// The disk's sectors of the volume, in a host that has room for one more.
const DISK_SECTORS: u64 = 3;

fn layout(kind: u64, sector_size: u64) -> Layout {
    Layout {
        host_size: 2 * HEADERS_SIZE + sector_size * (DISK_SECTORS + 1),
        kind,
        magic: 0,
        version: 5,
        min_program_version: 0x010B,
        data_start: if kind == STANDARD { HEADERS_SIZE } else { HEADERS_SIZE + sector_size },
        data_size: sector_size * DISK_SECTORS,
        candidate: 0,
        sector_size,
    }
}

/// The plain view of the standard volume.
fn plain(sector_size: u64) -> View {
    access::plain(&layout(STANDARD, sector_size)).unwrap()
}

/// The view with these user sectors protected.
fn protecting(view: View, first: u64, end: u64) -> View {
    let [protected_start, protected_end] = [first, end].map(|sector| HEADERS_SIZE + SECTOR * sector);
    View { protected: 1, protected_start, protected_end, ..view }
}

/// Views of both volumes alone, and of the standard one with ranges that begin or end inside a sector of the disk's or
/// between two.
fn views(sector_size: u64) -> Vec<View> {
    let (plain, unit) = (plain(sector_size), sector_size / SECTOR);
    let mut views = vec![plain, access::plain(&layout(HIDDEN, sector_size)).unwrap()];
    for (first, end) in [(0, 1), (unit - 1, unit), (unit, 2 * unit), (2 * unit - 1, 3 * unit), (0, 3 * unit)]
    {
        views.push(protecting(plain, first, end));
    }
    views
}

/// Extents on either side of the volume's end, and as far from it as there are numbers.
fn extents(sector_size: u64) -> Vec<Extent> {
    let near = 0..=DISK_SECTORS * sector_size / SECTOR + 2;
    let firsts =
        near.clone().chain([1 << 32, (1 << 55) + 4, 1 << 63, u64::MAX - 127, u64::MAX - 1, u64::MAX]);
    let counts = || near.clone().chain([120, 124, 127, 128, 129, 136]);
    firsts.flat_map(|first| counts().map(move |count| Extent { first, count })).collect()
}

/// The answers to a read and to a write, the same from the library and the reference.
fn answers(view: &View, image: &mut [u8], extent: Extent) -> [u64; 2] {
    let (image_size, buffer_size) = (image.len(), (extent.count * SECTOR) as usize);
    let read = access::answer(view, image_size, extent, buffer_size);
    let write = access::write_answer(view, image_size, extent, buffer_size);
    assert_eq!(reads(view, image, extent), [read.stored_over(UNTOLD); 3], "read {view:?} {extent:?}");
    assert_eq!(writes(view, image, extent), [write.stored_over(UNTOLD); 3], "write {view:?} {extent:?}");
    [read.number, write.number]
}

/// Whether a call with the right lengths must be refused 20.
fn is_unaligned(sector_size: u64, extent: Extent) -> bool {
    let unit = sector_size / SECTOR;
    extent.count <= 128 && (extent.first % unit != 0 || extent.count % unit != 0)
}

/// Checks every extent through this view, and counts those that are refused 20.
fn count_unaligned(view: &View, image: &mut [u8]) -> usize {
    let sector_size = view.layout.sector_size;
    let mut unaligned = 0;
    for extent in extents(sector_size) {
        let expected = is_unaligned(sector_size, extent);
        let refused = answers(view, image, extent).map(|answer| answer == 20);
        assert_eq!(refused, [expected; 2], "{view:?} {extent:?}");
        unaligned += usize::from(expected);
    }
    unaligned
}

/// With the lock open and closed. On a disk with sectors of 512 bytes nothing is refused 20.
#[test]
fn every_extent() {
    for sector_size in SECTOR_SIZES {
        let mut image = vec![0; layout(STANDARD, sector_size).host_size as usize];
        for (view, write_lock) in views(sector_size).into_iter().flat_map(|view| [(view, 0), (view, 1)]) {
            let unaligned = count_unaligned(&View { write_lock, ..view }, &mut image);
            assert_eq!(unaligned > 0, sector_size > 512, "{unaligned}");
        }
    }
}

/// A write with every mistake, and then with one mistake fewer each time.
#[test]
fn order_of_checks() {
    let view = View { write_lock: 1, ..protecting(plain(4_096), 8, 24) };
    let (unsound, open) = (View { protected_end: 0, ..view }, View { write_lock: 0, ..view });
    let host_size = view.layout.host_size;
    for (view, image_size, first, count, buffer_size, expected, sector) in [
        (unsound, 0, 25, 129, 1, 11, UNTOLD),
        (view, 0, 25, 129, 1, 13, UNTOLD),
        (view, host_size, 25, 129, 1, 14, UNTOLD),
        (view, host_size, 25, 9, 1, 15, UNTOLD),
        (view, host_size, 25, 9, 9 * 512, 20, UNTOLD),
        (view, host_size, 24, 9, 9 * 512, 20, UNTOLD),
        (view, host_size, 25, 8, 8 * 512, 20, UNTOLD),
        (view, host_size, 25, 0, 0, 20, UNTOLD),
        (view, host_size, 24, 8, 8 * 512, 16, 24),
        (view, host_size, 16, 7, 7 * 512, 20, UNTOLD),
        (view, host_size, 16, 8, 8 * 512, 17, UNTOLD),
        (open, host_size, 16, 7, 7 * 512, 20, UNTOLD),
        (open, host_size, 16, 8, 8 * 512, 18, 16),
        (open, host_size, 0, 16, 16 * 512, 18, 8),
        (open, host_size, 1, 0, 0, 20, UNTOLD),
        (open, host_size, 0, 8, 8 * 512, 0, UNTOLD),
        (open, host_size, 24, 0, 0, 0, UNTOLD),
    ] {
        let ([mut told, mut offset], mut numbers) = ([[UNTOLD]; 2], view.numbers());
        let answer =
            raw::write_extent(&mut numbers, image_size, first, count, buffer_size, &mut offset, &mut told);
        assert_eq!((answer, told), (expected, [sector]), "{view:?}, {count} sectors from {first} on");
    }
}

/// What a call is passed for writing, with a pattern in it.
#[derive(Clone, PartialEq)]
struct Passed {
    view: raw::ViewNumbers,
    image: Vec<u8>,
    buffer: Vec<u8>,
    offset: [u64; 1],
    sector: [u64; 1],
}

impl Passed {
    fn new(view: &View, count: u64) -> Passed {
        let pattern = |size: u64| (0..size).map(|index| (index * 37 + 11) as u8).collect();
        Passed {
            view: view.numbers(),
            image: pattern(view.layout.host_size),
            buffer: pattern(count * SECTOR),
            offset: [UNTOLD],
            sector: [UNTOLD],
        }
    }

    /// The answers of all six calls.
    fn call(&mut self, first: u64, count: u64) -> [u64; 6] {
        let Passed { view, image, buffer, offset, sector } = self;
        let [image_size, size] = [image.len(), buffer.len()].map(|size| size as u64);
        [
            raw::read(view, image, first, count, buffer, sector),
            raw::write(view, image, first, count, buffer, sector),
            raw::read_plaintext(view, &[0x4B; 64], image, first, count, buffer, sector),
            raw::write_plaintext(view, &[0x4B; 64], image, first, count, buffer, sector),
            raw::read_extent(view, image_size, first, count, size, offset, sector),
            raw::write_extent(view, image_size, first, count, size, offset, sector),
        ]
    }
}

/// Image, buffer, offset, sector and view are as they were, the lock too, even where the extent touches the protected
/// range or reaches past the volume's end.
#[test]
fn refused_calls_change_nothing() {
    for view in [1_024, 2_048, 4_096].into_iter().flat_map(views) {
        let unit = view.layout.sector_size / SECTOR;
        for (first, count) in
            [(1, 1), (0, unit - 1), (unit - 1, unit), (1, 0), (3 * unit + 1, unit), (0, 127)]
        {
            let passed = Passed::new(&view, count);
            let mut left = passed.clone();
            assert_eq!(left.call(first, count), [20; 6], "{view:?}, {count} sectors from {first} on");
            assert!(left == passed, "changed: {view:?}, {count} sectors from {first} on");
        }
    }
}

/// A range in a view that was made up need not be of whole sectors of the disk's. An extent that touches it is refused
/// 18, and the sector in the way is the range's first.
#[test]
fn ranges_inside_a_disks_sector() {
    let view = protecting(plain(4_096), 11, 13);
    let mut image = vec![0; view.layout.host_size as usize];
    for (first, count, expected) in
        [(0, 8, (0, UNTOLD)), (8, 8, (18, 11)), (0, 24, (18, 11)), (16, 8, (0, UNTOLD))]
    {
        let written = writes(&view, &mut image, Extent { first, count });
        assert_eq!(written, [expected; 3], "{count} sectors from {first} on");
    }
}
