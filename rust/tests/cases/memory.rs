//! The bytes that generated reads and writes work on.

use super::accesses::{CASES, MAX_BUFFER, SEED};
use super::views;
use crate::reference::random::Random;

/// How far from their starts the parts may begin that a call gets.
pub const MAX_DISTANCE: usize = 16;

/// The library's bytes or the reference's. Each call gets parts of them, and after each both are equal.
pub struct Memory {
    pub image: Vec<u8>,
    pub buffer: Vec<u8>,
}

impl Memory {
    pub fn new() -> Memory {
        let mut memory = Memory {
            image: vec![0; views::MAX_HOST_SIZE + 512 + MAX_DISTANCE],
            buffer: vec![0; MAX_BUFFER + MAX_DISTANCE],
        };
        let mut random = Random::of_case(SEED, CASES);
        random.fill(&mut memory.image);
        random.fill(&mut memory.buffer);
        memory
    }
}

/// New bytes at the start of each sector of the buffers, so that every call carries its own.
pub fn refresh_buffers(given: &mut Memory, expected: &mut Memory, random: &mut Random) {
    let stamp = random.number();
    for start in (0..MAX_BUFFER).step_by(512) {
        let bytes = (stamp ^ start as u64).to_le_bytes();
        given.buffer[start..start + 8].copy_from_slice(&bytes);
        expected.buffer[start..start + 8].copy_from_slice(&bytes);
    }
}
