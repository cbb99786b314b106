//! Reads and writes of plaintext (docs/RULES.md). They are judged as raw ones are; on the host each sector stands
//! enciphered, with its host sector as the tweak number.

use super::access::{answer, bytes_of, covered, write_answer, Answer, Extent, View};
use super::layout::SECTOR;
use super::xts::{deciphered, enciphered, Key};

/// Where a read is accepted, the buffer is filled with the covered sectors, one after the other, each deciphered.
pub fn read(view: &View, key: &Key, image: &[u8], extent: Extent, buffer: &mut [u8]) -> Answer {
    let answer = answer(view, image.len(), extent, buffer.len());
    if answer == Answer::ACCEPTED {
        let sectors = buffer.chunks_mut(SECTOR as usize);
        for (bytes, host) in sectors.zip(covered(&view.layout, extent)) {
            bytes.copy_from_slice(&deciphered(key, host, &image[bytes_of(host)]));
        }
    }
    answer
}

/// An accepted write stores each sector enciphered, in order, in the covered sectors; 18 closes the lock.
pub fn write(view: &mut View, key: &Key, image: &mut [u8], extent: Extent, buffer: &[u8]) -> Answer {
    let answer = write_answer(view, image.len(), extent, buffer.len());
    if answer == Answer::ACCEPTED {
        let sectors = buffer.chunks(SECTOR as usize);
        for (bytes, host) in sectors.zip(covered(&view.layout, extent)) {
            image[bytes_of(host)].copy_from_slice(&enciphered(key, host, bytes));
        }
    }
    if answer.number == 18 {
        view.write_lock = 1;
    }
    answer
}
