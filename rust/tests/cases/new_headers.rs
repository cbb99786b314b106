//! Calls of the header writer: ones that are accepted, and ones with values at the edges of each rule.

use super::header_writings::HeaderWriting;
use super::{candidates, changes, hosts};
use crate::reference::header_writing::NewHeader;
use crate::reference::layout::{HEADERS_SIZE, HIDDEN};
use crate::reference::opening::kind_of_code;
use crate::reference::random::Random;

/// Asks for what a header tells that keeps every rule, at any location and in a host of any allowed size.
pub fn accepted(random: &mut Random) -> HeaderWriting {
    let (code, host_size) = (random.below(4) as u8, hosts::allowed(random));
    let header = candidates::accepted(code, host_size, random);
    HeaderWriting::of(NewHeader::of(&header, code, host_size))
}

/// Up to three changes of a call that is accepted, so that some break no rule and some break several.
pub fn changed(random: &mut Random) -> HeaderWriting {
    let mut writing = accepted(random);
    let host_size = writing.asked.host_size;
    for _ in 0..random.pick(&[0, 1, 1, 2, 2, 3]) {
        change_one(&mut writing, host_size, random);
    }
    writing
}

/// Changes what one rule looks at. The data area's edges are those in a host of this size, which is allowed.
fn change_one(writing: &mut HeaderWriting, host_size: u64, random: &mut Random) {
    let asked = &mut writing.asked;
    match random.below(8) {
        0 => change_length(writing, random),
        1 => asked.magic = magic(random),
        2 => asked.code = code(random),
        3 => asked.host_size = host_size_beside(asked, random),
        4 => asked.version = changes::version(random),
        5 => asked.sector_size = hosts::any_sector_size(random),
        _ => change_area(asked, host_size, random),
    }
}

fn change_length(writing: &mut HeaderWriting, random: &mut Random) {
    match random.below(3) {
        0 => writing.asked.salt.resize(length_beside(64, random), 0xA5),
        1 => writing.asked.keys.resize(length_beside(256, random), 0xA5),
        _ => writing.header_size = length_beside(512, random),
    }
}

fn length_beside(right: usize, random: &mut Random) -> usize {
    random.pick(&[0, 1, right - 1, right + 1, right / 2, 2 * right, 64, 256, 512])
}

fn magic(random: &mut Random) -> [u8; 4] {
    let close = changes::close_magic(random);
    random.pick(&[*b"VERA", *b"TRUE", close, close, close, [0; 4], [0xFF; 4]])
}

fn code(random: &mut Random) -> u8 {
    let any = random.number() as u8;
    random.pick(&[0, 1, 2, 3, 4, 4, 5, 5, 128, 255, any])
}

/// A host of another size, or one that ends where the backups behind the data area do, or a little off it.
fn host_size_beside(asked: &NewHeader, random: &mut Random) -> u64 {
    let end = asked.data_start.wrapping_add(asked.data_size).wrapping_add(HEADERS_SIZE);
    let beside =
        [end, end.wrapping_sub(1), end.wrapping_add(1), end.wrapping_sub(512), end.wrapping_add(512)];
    match random.below(6) {
        0 => random.pick(&beside),
        1 => random.pick(&hosts::ALLOWED),
        2 => random.pick(&hosts::WRONG),
        _ => random.pick(&hosts::TOO_LARGE),
    }
}

fn change_area(asked: &mut NewHeader, host_size: u64, random: &mut Random) {
    match random.below(5) {
        0 | 1 => asked.data_size = changes::data_size(asked.data_start, host_size, random),
        2 | 3 => asked.data_start = changes::data_start(asked.data_size, host_size, random),
        _ => {
            let is_hidden = kind_of_code(asked.code) == HIDDEN;
            [asked.data_start, asked.data_size] = changes::wrapping_area(is_hidden, host_size, random);
        }
    }
}
