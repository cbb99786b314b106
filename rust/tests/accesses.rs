//! Reads and writes on views that a caller made up, and those whose bytes the caller moves itself at the extent
//! that the library tells, compared with the rules in `reference`.

mod cases;
mod reference;

use cases::accesses::{access, Access, CASES, SEED};
use cases::coverage::Coverage;
use cases::memory::{refresh_buffers, Memory};
use ondristela::raw;
use reference::access::{self, Answer, Extent, View};
use reference::random::Random;

fn read_by_reference(access: &Access, memory: &mut Memory) -> Answer {
    let Access { view, image_size, extent, buffer_size } = access;
    access::read(view, &memory.image[..*image_size], *extent, &mut memory.buffer[..*buffer_size])
}

/// The answer, and the view as it is left.
fn write_by_reference(access: &Access, memory: &mut Memory) -> (Answer, View) {
    let Access { view, image_size, extent, buffer_size } = access;
    let mut left = *view;
    let buffer = &memory.buffer[..*buffer_size];
    (access::write(&mut left, &mut memory.image[..*image_size], *extent, buffer), left)
}

/// What stands in an offset and in a sector before a call.
const UNTOLD: u64 = 0xABCD_EF01_2345_6789;

/// Reads from the library into `given` and from the reference into `expected`.
fn check_read(access: &Access, given: &mut Memory, expected: &mut Memory, case: u64) -> u64 {
    let Access { view, image_size, extent, buffer_size } = access;
    let expected_answer = read_by_reference(access, expected);
    let numbers = view.numbers();
    let image = &given.image[..*image_size];
    let buffer = &mut given.buffer[..*buffer_size];
    let mut sector = [UNTOLD];
    let answer = raw::read(&numbers, image, extent.first, extent.count, buffer, &mut sector);
    assert_told((answer, sector), expected_answer, || format!("read, seed {SEED} case {case}: {access:?}"));
    assert_eq!(numbers, view.numbers(), "read changed its view, seed {SEED} case {case}: {access:?}");
    answer
}

/// Writes with the library to `given` and with the reference to `expected`.
fn check_write(access: &Access, given: &mut Memory, expected: &mut Memory, case: u64) -> u64 {
    let Access { view, image_size, extent, buffer_size } = access;
    let (expected_answer, expected_view) = write_by_reference(access, expected);
    let mut numbers = view.numbers();
    let image = &mut given.image[..*image_size];
    let buffer = &given.buffer[..*buffer_size];
    let mut sector = [UNTOLD];
    let answer = raw::write(&mut numbers, image, extent.first, extent.count, buffer, &mut sector);
    assert_told((answer, sector), expected_answer, || format!("write, seed {SEED} case {case}: {access:?}"));
    assert_eq!(numbers, expected_view.numbers(), "write's view, seed {SEED} case {case}: {access:?}");
    answer
}

/// The answer is the reference's, and so is the sector; where none is told, what stood there must be left.
fn assert_told((answer, sector): (u64, [u64; 1]), expected: Answer, context: impl Fn() -> String) {
    assert_eq!((answer, sector[0]), expected.stored_over(UNTOLD), "{}", context());
}

/// The offset where a call accepts. A refusal must leave what stood there.
fn told(answer: u64, offset: [u64; 1]) -> Option<usize> {
    assert!(answer == 0 || offset == [UNTOLD], "a refused extent stored an offset");
    (answer == 0).then_some(offset[0] as usize)
}

/// Asks the library for the read's extent and takes the bytes from there, and reads with the reference.
fn check_read_extent(access: &Access, given: &mut Memory, expected: &mut Memory, case: u64) -> u64 {
    let Access { view, image_size, extent, buffer_size } = access;
    let expected_answer = read_by_reference(access, expected);
    let (numbers, mut offset, mut sector) = (view.numbers(), [UNTOLD], [UNTOLD]);
    let (image, buffer) = (*image_size as u64, *buffer_size as u64);
    let Extent { first, count } = *extent;
    let answer = raw::read_extent(&numbers, image, first, count, buffer, &mut offset, &mut sector);
    let context = || format!("read's extent, seed {SEED} case {case}: {access:?}");
    assert_told((answer, sector), expected_answer, context);
    if let Some(start) = told(answer, offset) {
        given.buffer[..*buffer_size].copy_from_slice(&given.image[start..start + *buffer_size]);
    }
    answer
}

/// Asks the library for the write's extent and stores the bytes there, and writes with the reference.
fn check_write_extent(access: &Access, given: &mut Memory, expected: &mut Memory, case: u64) -> u64 {
    let Access { view, image_size, extent, buffer_size } = access;
    let (expected_answer, expected_view) = write_by_reference(access, expected);
    let (mut numbers, mut offset, mut sector) = (view.numbers(), [UNTOLD], [UNTOLD]);
    let (image, buffer) = (*image_size as u64, *buffer_size as u64);
    let Extent { first, count } = *extent;
    let answer = raw::write_extent(&mut numbers, image, first, count, buffer, &mut offset, &mut sector);
    let context = || format!("write's extent, seed {SEED} case {case}: {access:?}");
    assert_told((answer, sector), expected_answer, context);
    assert_eq!(
        numbers,
        expected_view.numbers(),
        "write's extent's view, seed {SEED} case {case}: {access:?}"
    );
    if let Some(start) = told(answer, offset) {
        given.image[start..start + *buffer_size].copy_from_slice(&given.buffer[..*buffer_size]);
    }
    answer
}

type Check = fn(&Access, &mut Memory, &mut Memory, u64) -> u64;

/// Checks the cases on one pair of memories that live through all of them.
fn check_cases(name: &'static str, check: Check) -> Coverage {
    let (mut given, mut expected) = (Memory::new(), Memory::new());
    let mut coverage = Coverage::new(name);
    for case in 0..CASES {
        let mut random = Random::of_case(SEED, case);
        let access = access(&mut random);
        refresh_buffers(&mut given, &mut expected, &mut random);
        coverage.count(check(&access, &mut given, &mut expected, case));
        let same = given.image == expected.image && given.buffer == expected.buffer;
        assert!(same, "{name} left other bytes, seed {SEED} case {case}: {access:?}");
    }
    coverage
}

#[test]
fn reads() {
    check_cases("read", check_read).assert_exactly(&[0, 11, 13, 14, 15, 16, 20], 1_000);
}

#[test]
fn writes() {
    check_cases("write", check_write).assert_exactly(&[0, 11, 13, 14, 15, 16, 17, 18, 20], 1_000);
}

#[test]
fn read_extents() {
    check_cases("read_extent", check_read_extent).assert_exactly(&[0, 11, 13, 14, 15, 16, 20], 1_000);
}

#[test]
fn write_extents() {
    let coverage = check_cases("write_extent", check_write_extent);
    coverage.assert_exactly(&[0, 11, 13, 14, 15, 16, 17, 18, 20], 1_000);
}

/// Hosts that no memory holds: the largest, and the last sectors of the volume that fills it.
#[test]
fn extents_of_the_largest_host() {
    let host_size = 1_u64 << 50;
    let (data_start, data_size) = (131_072, host_size - 262_144);
    let view = [host_size, 0, 0, 5, 7, data_start, data_size, 0, 512, 0, 0, 0, 0];
    let sectors = data_size / 512;
    for (first, count, expected) in [
        (0, 1, Ok(data_start)),
        (sectors - 128, 128, Ok(host_size - 131_072 - 65_536)),
        (sectors, 0, Ok(host_size - 131_072)),
        (sectors - 127, 128, Err((16, sectors))),
        (sectors, 1, Err((16, sectors))),
        (sectors + 1, 0, Err((16, sectors + 1))),
        (u64::MAX, 0, Err((16, u64::MAX))),
        (u64::MAX, 1, Err((16, u64::MAX))),
        (u64::MAX, 128, Err((16, u64::MAX))),
    ] {
        let size = count * 512;
        let (mut offset, mut sector) = ([UNTOLD], [UNTOLD]);
        let answer = raw::read_extent(&view, host_size, first, count, size, &mut offset, &mut sector);
        let read = if answer == 0 { Ok(offset[0]) } else { Err((answer, sector[0])) };
        assert_eq!(read, expected, "read's extent of {count} sectors from {first} on");
        let (mut offset, mut sector) = ([UNTOLD], [UNTOLD]);
        let answer =
            raw::write_extent(&mut view.clone(), host_size, first, count, size, &mut offset, &mut sector);
        let written = if answer == 0 { Ok(offset[0]) } else { Err((answer, sector[0])) };
        assert_eq!(written, expected, "write's extent of {count} sectors from {first} on");
    }
}
