//! The reference model of two views on one image, with a key for each (docs/RULES.md, Interleavings).
//! It keeps its own copy of the image and its own views, and sees nothing of the library's.

use super::access::{self, Answer, Extent, View};
use super::plaintext;
use super::xts::Key;

/// Whose calls: an index into the two views and the two lists.
pub const OUTER: usize = 0;
pub const INNER: usize = 1;

/// One call of a list. A read has a buffer's bytes too: those that it is given. `sector` is what stands where the
/// sector in the way is told. The buffer of a call on plaintext is in the clear, any other is as the host has it.
#[derive(Clone, Debug)]
pub struct Call {
    pub writes: bool,
    pub on_plaintext: bool,
    pub extent: Extent,
    pub buffer: Vec<u8>,
    pub sector: u64,
}

/// What a call did: its answer, and its buffer and its sector as they were left.
#[derive(Clone, Debug, PartialEq, Eq)]
pub struct Outcome {
    pub answer: u64,
    pub buffer: Vec<u8>,
    pub sector: u64,
}

pub struct ReferenceModel {
    pub image: Vec<u8>,
    pub views: [View; 2],
    pub keys: [Key; 2],
}

impl ReferenceModel {
    pub fn step(&mut self, side: usize, call: &Call) -> Outcome {
        let mut buffer = call.buffer.clone();
        let answer = self.answer(side, call, &mut buffer);
        let (answer, sector) = answer.stored_over(call.sector);
        Outcome { answer, buffer, sector }
    }

    fn answer(&mut self, side: usize, call: &Call, buffer: &mut [u8]) -> Answer {
        let (view, key, image) = (&mut self.views[side], &self.keys[side], &mut self.image);
        match (call.writes, call.on_plaintext) {
            (false, false) => access::read(view, image, call.extent, buffer),
            (true, false) => access::write(view, image, call.extent, buffer),
            (false, true) => plaintext::read(view, key, image, call.extent, buffer),
            (true, true) => plaintext::write(view, key, image, call.extent, buffer),
        }
    }
}
