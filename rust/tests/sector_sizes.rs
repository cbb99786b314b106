//! The sizes that a disk's own sectors may have, from a header to reads and writes, and the sizes that they may not.

mod cases;
mod reference;

use cases::hosts::WRONG_SECTOR_SIZES;
use ondristela::raw::{self, LayoutNumbers, ViewNumbers};
use reference::access;
use reference::headers::Header;
use reference::layout::{Layout, HIDDEN, SECTOR_SIZES, STANDARD};
use reference::opening::{kind_of_code, open};
use reference::sector_map::host_sector;

const HOST_SIZE: u64 = 1_048_576;

/// What outputs hold before a call: a refusal must leave it.
const UNTOUCHED: u64 = 0xA5A5_5A5A_0FF0_F00F;

/// The volumes M and N of docs/RULES.md, by their kind, on a disk with sectors of this size.
fn layout(kind: u64, sector_size: u64) -> Layout {
    let [data_start, data_size] = if kind == STANDARD { [131_072, 786_432] } else { [655_360, 262_144] };
    Layout {
        host_size: HOST_SIZE,
        kind,
        magic: 0,
        version: 5,
        min_program_version: 0x010B,
        data_start,
        data_size,
        candidate: 0,
        sector_size,
    }
}

/// A header that tells this layout.
fn header(layout: &Layout) -> Header {
    Header {
        salt: [0x5A; 64],
        magic: if layout.magic == 0 { *b"VERA" } else { *b"TRUE" },
        version: 5,
        min_program_version: 0x010B,
        reserved: [0; 16],
        hidden_size: if layout.kind == HIDDEN { layout.data_size } else { 0 },
        data_size: layout.data_size,
        data_start: layout.data_start,
        encrypted_size: layout.data_size,
        flags: 0,
        sector_size: layout.sector_size as u32,
        reserved_late: [0; 120],
        keys: [0xC3; 256],
    }
}

/// The answer of opening, from the library and the reference.
#[track_caller]
fn assert_opens(header: &Header, code: u8, host_size: u64, expected: Result<LayoutNumbers, u64>) {
    let mut numbers = [UNTOUCHED; 9];
    let answer = raw::open(&header.bytes(), &[code], host_size, &mut numbers);
    let opened = if answer == 0 { Ok(numbers) } else { Err(answer) };
    let reference = open(&header.bytes(), &[code], host_size).map(|layout| layout.numbers());
    assert_eq!([opened, reference], [expected; 2], "code {code}, host size {host_size}: {header:?}");
    assert!(answer == 0 || numbers == [UNTOUCHED; 9], "a refused opening stored a number");
}

/// Both magics and all four codes: opened, the layout tells the size, and what is written can be read.
#[test]
fn all_four_open_and_round_trip() {
    for (sector_size, code) in SECTOR_SIZES.into_iter().flat_map(|size| [0, 1, 2, 3].map(|code| (size, code)))
    {
        for magic in [0, 1] {
            let layout = Layout { magic, ..layout(kind_of_code(code), sector_size) };
            assert_opens(&header(&layout), code, HOST_SIZE, Ok(layout.numbers()));
            assert_round_trip(&layout);
        }
    }
}

/// Writes two of the disk's sectors, the last ones of the volume, and reads them. They lie where the map says.
fn assert_round_trip(layout: &Layout) {
    let (mut view, mut image, mut sector) = ([0; 13], vec![0; HOST_SIZE as usize], [UNTOUCHED]);
    let count = 2 * layout.sector_size / 512;
    let first = layout.sector_count() - count;
    let written: Vec<u8> = (0..count * 512).map(|index| (index % 251) as u8 + 1).collect();
    let mut read = vec![0; written.len()];
    assert_eq!(raw::view_plain(&layout.numbers(), &mut view), 0);
    assert_eq!(raw::write(&mut view, &mut image, first, count, &written, &mut sector), 0, "{layout:?}");
    assert_eq!(raw::read(&view, &image, first, count, &mut read, &mut sector), 0, "{layout:?}");
    assert!(read == written, "other bytes read: {layout:?}");
    let start = 512 * host_sector(layout, first).unwrap() as usize;
    assert!(image[start..start + written.len()] == written, "other bytes of the image: {layout:?}");
    assert_eq!(image.iter().filter(|byte| **byte != 0).count(), written.len(), "{layout:?}");
}

/// In a header: the sizes that are none, on 32 bits. 8 comes after 7 and before 9 and 10.
#[test]
fn wrong_sizes_in_headers() {
    for sector_size in WRONG_SECTOR_SIZES.into_iter().filter_map(|size| u32::try_from(size).ok()) {
        for code in 0..4 {
            let wrong = Header { sector_size, ..header(&layout(kind_of_code(code), 512)) };
            assert_opens(&wrong, code, HOST_SIZE, Err(8));
            assert_opens(&Header { flags: 1, ..wrong.clone() }, code, HOST_SIZE, Err(7));
            assert_opens(&Header { hidden_size: 1, ..wrong.clone() }, code, HOST_SIZE, Err(8));
            assert_opens(&Header { encrypted_size: 1, ..wrong }, code, HOST_SIZE, Err(8));
        }
    }
}

/// Layouts with a host, a data size or a data start that is so many bytes off whole sectors of the disk's.
fn off_by(part: u64, whole: &Layout) -> Vec<Layout> {
    let mut layouts = vec![
        Layout { host_size: whole.host_size + part, ..*whole },
        Layout { data_size: whole.data_size - part, ..*whole },
    ];
    if whole.kind == HIDDEN {
        layouts.push(Layout { data_start: whole.data_start - part, ..*whole });
    }
    layouts
}

/// As a header it is refused 10, after 9; made up as a layout, 11. With sectors of 512 bytes it opens.
#[track_caller]
fn assert_not_whole(layout: &Layout) {
    let (header, host_size, fine) =
        (header(layout), layout.host_size, Layout { sector_size: 512, ..*layout });
    for code in (0..4).filter(|code| kind_of_code(*code) == layout.kind) {
        assert_opens(&header, code, host_size, Err(10));
        assert_opens(&Header { hidden_size: 1, ..header.clone() }, code, host_size, Err(9));
        assert_opens(&Header { sector_size: 512, ..header.clone() }, code, host_size, Ok(fine.numbers()));
    }
    assert_unsound(layout);
}

#[test]
fn parts_of_a_disks_sector() {
    for sector_size in SECTOR_SIZES {
        for part in (512..sector_size).step_by(512) {
            let whole = [STANDARD, HIDDEN].map(|kind| layout(kind, sector_size));
            whole.iter().flat_map(|whole| off_by(part, whole)).for_each(|layout| assert_not_whole(&layout));
        }
    }
}

/// The library and the reference make a view of the pair, or both refuse with this number.
#[track_caller]
fn assert_pair(outer: &Layout, hidden: &Layout, expected: u64) {
    let mut view = [UNTOUCHED; 13];
    let answer = raw::view_protected(&outer.numbers(), &hidden.numbers(), &mut view);
    let reference = access::protected(outer, hidden);
    assert_eq!([answer, reference.err().unwrap_or(0)], [expected; 2], "{outer:?} {hidden:?}");
    assert_eq!(view, reference.map_or([UNTOUCHED; 13], |view| view.numbers()), "{outer:?} {hidden:?}");
}

#[test]
fn pairs_of_sizes() {
    for outer in SECTOR_SIZES {
        for hidden in SECTOR_SIZES {
            let expected = if outer == hidden { 0 } else { 12 };
            assert_pair(&layout(STANDARD, outer), &layout(HIDDEN, hidden), expected);
        }
    }
}

/// Every call that takes this layout, or a view with it, refuses 11 and stores nothing.
#[track_caller]
fn assert_unsound(layout: &Layout) {
    let numbers = layout.numbers();
    let (mut sector, mut block, mut view) = ([UNTOUCHED], [0xA5; 16], [UNTOUCHED; 13]);
    let answers = [
        raw::host_sector(&numbers, 0, &mut sector),
        raw::user_sector(&numbers, layout.data_start / 512, &mut sector),
        raw::tweak(&numbers, 0, &mut block),
        raw::view_plain(&numbers, &mut view),
    ];
    assert_eq!(answers, [11; 4], "{layout:?}");
    assert_eq!((sector, block, view), ([UNTOUCHED], [0xA5; 16], [UNTOUCHED; 13]), "{layout:?}");
    assert_pair(layout, &self::layout(HIDDEN, 512), 11);
    assert_pair(&self::layout(STANDARD, 512), layout, 11);
    assert_unsound_view(layout);
}

/// Extents that are of whole sectors of any disk's, and others.
#[track_caller]
fn assert_unsound_view(layout: &Layout) {
    let mut view: ViewNumbers = [0; 13];
    view[..9].copy_from_slice(&layout.numbers());
    let (made_up, size) = (view, layout.host_size);
    for (first, count) in [(0, 8), (1, 1), (0, 0), (1_536, 1)] {
        let ([mut offset, mut sector], bytes) = ([[UNTOUCHED]; 2], 512 * count);
        let answers = [
            raw::read_extent(&view, size, first, count, bytes, &mut offset, &mut sector),
            raw::write_extent(&mut view, size, first, count, bytes, &mut offset, &mut sector),
            raw::read(&view, &[], first, count, &mut [], &mut sector),
            raw::write(&mut view, &mut [], first, count, &[], &mut sector),
            raw::read_plaintext(&view, &[0x4B; 64], &[], first, count, &mut [], &mut sector),
            raw::write_plaintext(&mut view, &[0x4B; 64], &mut [], first, count, &[], &mut sector),
        ];
        assert_eq!(answers, [11; 6], "{layout:?}, {count} sectors from {first} on");
        assert_eq!((offset, sector, view), ([UNTOUCHED], [UNTOUCHED], made_up), "{layout:?}");
    }
}

#[test]
fn wrong_sizes_made_up() {
    for sector_size in WRONG_SECTOR_SIZES {
        assert_unsound(&layout(STANDARD, sector_size));
        assert_unsound(&layout(HIDDEN, sector_size));
    }
}
