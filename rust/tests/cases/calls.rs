//! A read or a write, the same of plaintext, and its extent call, made by the library.

use crate::reference::access::{Extent, View};
use crate::reference::layout::SECTOR;
use crate::reference::xts::Key;
use ondristela::raw;

/// What stands in a sector and in an offset before a call.
pub const UNTOLD: u64 = 0xA5A5_5A5A_0FF0_F00F;

/// The key of the calls on plaintext: what they answer does not depend on it.
const KEY: Key = [0x4B; 64];

/// What three calls answer, and what each leaves in its sector.
pub type Answers = [(u64, u64); 3];

/// What a read, one of plaintext and the extent answer.
pub fn reads(view: &View, image: &[u8], extent: Extent) -> Answers {
    let Extent { first, count } = extent;
    let (numbers, mut buffer) = (view.numbers(), vec![0; (count * SECTOR) as usize]);
    let ([mut sector, mut plain, mut other], mut offset) = ([[UNTOLD]; 3], [UNTOLD]);
    let (image_size, size) = (image.len() as u64, buffer.len() as u64);
    let answers = [
        raw::read(&numbers, image, first, count, &mut buffer, &mut sector),
        raw::read_plaintext(&numbers, &KEY, image, first, count, &mut buffer, &mut plain),
        raw::read_extent(&numbers, image_size, first, count, size, &mut offset, &mut other),
    ];
    told(answers, [sector, plain, other])
}

/// What a write, one of plaintext and the extent answer, each on a view of its own.
pub fn writes(view: &View, image: &mut [u8], extent: Extent) -> Answers {
    let Extent { first, count } = extent;
    let [mut numbers, mut again, mut asked] = [view.numbers(); 3];
    let buffer = vec![0; (count * SECTOR) as usize];
    let ([mut sector, mut plain, mut other], mut offset) = ([[UNTOLD]; 3], [UNTOLD]);
    let (image_size, size) = (image.len() as u64, buffer.len() as u64);
    let answers = [
        raw::write(&mut numbers, image, first, count, &buffer, &mut sector),
        raw::write_plaintext(&mut again, &KEY, image, first, count, &buffer, &mut plain),
        raw::write_extent(&mut asked, image_size, first, count, size, &mut offset, &mut other),
    ];
    assert_eq!([again, asked], [numbers; 2], "{view:?} {extent:?}");
    told(answers, [sector, plain, other])
}

fn told(answers: [u64; 3], sectors: [[u64; 1]; 3]) -> Answers {
    std::array::from_fn(|index| (answers[index], sectors[index][0]))
}
