//! Reads and writes of plaintext on views that a caller made up, compared with the rules in `reference`. Images and
//! buffers begin at any address.

mod cases;
mod reference;

use std::ops::Range;

use cases::accesses::{access, Access};
use cases::coverage::Coverage;
use cases::keys;
use cases::memory::{refresh_buffers, Memory, MAX_DISTANCE};
use ondristela::raw::{self, ViewNumbers};
use reference::access::{Answer, Extent};
use reference::plaintext;
use reference::random::Random;
use reference::xts::Key;

const SEED: u64 = 91;
const CASES: u64 = 20_000;

/// One read or write of plaintext, and how far from their starts its image and its buffer begin.
#[derive(Debug)]
struct Case {
    access: Access,
    key: Key,
    image_start: usize,
    buffer_start: usize,
}

impl Case {
    fn new(random: &mut Random) -> Case {
        Case {
            access: access(random),
            key: keys::key(random),
            image_start: random.below(MAX_DISTANCE as u64) as usize,
            buffer_start: random.below(MAX_DISTANCE as u64) as usize,
        }
    }

    /// The parts of the memory that the call gets: the image's and the buffer's.
    fn parts(&self) -> [Range<usize>; 2] {
        let (image, buffer) = (self.image_start, self.buffer_start);
        [image..image + self.access.image_size, buffer..buffer + self.access.buffer_size]
    }
}

/// What a call answers, what it leaves in its sector, and its view's numbers as it leaves them.
type Left = (u64, u64, ViewNumbers);

/// What stands in a sector before a call.
const UNTOLD: u64 = 0xABCD_EF01_2345_6789;

fn left(answer: Answer, view: ViewNumbers) -> Left {
    let (number, sector) = answer.stored_over(UNTOLD);
    (number, sector, view)
}

fn read_by_reference(case: &Case, memory: &mut Memory) -> Left {
    let (Access { view, extent, .. }, [image, buffer]) = (&case.access, case.parts());
    let answer = plaintext::read(view, &case.key, &memory.image[image], *extent, &mut memory.buffer[buffer]);
    left(answer, view.numbers())
}

fn read_by_library(case: &Case, memory: &mut Memory) -> Left {
    let (Extent { first, count }, [image, buffer]) = (case.access.extent, case.parts());
    let (view, mut sector) = (case.access.view.numbers(), [UNTOLD]);
    let (image, buffer) = (&memory.image[image], &mut memory.buffer[buffer]);
    let answer = raw::read_plaintext(&view, &case.key, image, first, count, buffer, &mut sector);
    (answer, sector[0], view)
}

fn write_by_reference(case: &Case, memory: &mut Memory) -> Left {
    let (Access { view, extent, .. }, [image, buffer]) = (&case.access, case.parts());
    let mut view = *view;
    let (image, buffer) = (&mut memory.image[image], &memory.buffer[buffer]);
    let answer = plaintext::write(&mut view, &case.key, image, *extent, buffer);
    left(answer, view.numbers())
}

fn write_by_library(case: &Case, memory: &mut Memory) -> Left {
    let (Extent { first, count }, [image, buffer]) = (case.access.extent, case.parts());
    let (mut view, mut sector) = (case.access.view.numbers(), [UNTOLD]);
    let (image, buffer) = (&mut memory.image[image], &memory.buffer[buffer]);
    let answer = raw::write_plaintext(&mut view, &case.key, image, first, count, buffer, &mut sector);
    (answer, sector[0], view)
}

type Step = fn(&Case, &mut Memory) -> Left;

/// Checks the cases on one pair of memories that live through all of them: answers, sectors and views, and all bytes
/// of image and buffer, those around the parts too.
fn check_cases(name: &'static str, [by_library, by_reference]: [Step; 2]) -> Coverage {
    let (mut given, mut expected) = (Memory::new(), Memory::new());
    let mut coverage = Coverage::new(name);
    for number in 0..CASES {
        let mut random = Random::of_case(SEED, number);
        let case = Case::new(&mut random);
        refresh_buffers(&mut given, &mut expected, &mut random);
        let left = by_library(&case, &mut given);
        assert_eq!(left, by_reference(&case, &mut expected), "{name}, seed {SEED} case {number}: {case:?}");
        let same = given.image == expected.image && given.buffer == expected.buffer;
        assert!(same, "{name} left other bytes, seed {SEED} case {number}: {case:?}");
        coverage.count(left.0);
    }
    coverage
}

#[test]
fn reads() {
    let coverage = check_cases("read of plaintext", [read_by_library, read_by_reference]);
    coverage.assert_exactly(&[0, 11, 13, 14, 15, 16, 20], 200);
}

#[test]
fn writes() {
    let coverage = check_cases("write of plaintext", [write_by_library, write_by_reference]);
    coverage.assert_exactly(&[0, 11, 13, 14, 15, 16, 17, 18, 20], 200);
}
