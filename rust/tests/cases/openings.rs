//! Whole openings: candidates, their location codes and a host size.

use std::fmt;

use super::candidates::{accepted, changed, spoiled, Candidate};
use super::hosts;
use crate::reference::header::{first_failing_line, is_header, HEADER_SIZE};
use crate::reference::layout::MAX_HOST_SIZE;
use crate::reference::opening::kind_of_code;
use crate::reference::random::Random;

pub struct Opening {
    pub candidates: Vec<u8>,
    pub codes: Vec<u8>,
    pub host_size: u64,
}

impl Opening {
    pub fn of_one(candidate: &Candidate, code: u8, host_size: u64) -> Opening {
        Opening { candidates: candidate.to_vec(), codes: vec![code], host_size }
    }
}

/// The host size, the lengths, and each candidate's code, bytes 64 to 131 and line.
impl fmt::Debug for Opening {
    fn fmt(&self, out: &mut fmt::Formatter) -> fmt::Result {
        let (size, count) = (self.candidates.len(), self.codes.len());
        writeln!(out, "host size {}, {size} candidate bytes, {count} codes", self.host_size)?;
        for (candidate, code) in self.candidates.chunks_exact(HEADER_SIZE).zip(&self.codes) {
            let line = first_failing_line(candidate, kind_of_code(*code), self.host_size);
            let bytes: String = candidate[64..132].iter().map(|byte| format!("{byte:02X}")).collect();
            writeln!(out, "code {code} header {} fails {line:?} {bytes}", is_header(candidate))?;
        }
        Ok(())
    }
}

fn code(random: &mut Random) -> u8 {
    random.below(4) as u8
}

/// One candidate: accepted, changed or spoiled; sometimes judged for a location that it wasn't made for, or in a host
/// that is a little larger.
pub fn single(random: &mut Random) -> Opening {
    let host_size = hosts::allowed(random);
    let made_for = code(random);
    let candidate = match random.below(20) {
        0..=2 => accepted(made_for, host_size, random).bytes(),
        3..=5 => spoiled(made_for, host_size, random),
        _ => changed(made_for, host_size, random),
    };
    let judged_for = if random.chance(5) { code(random) } else { made_for };
    let judged_in = if random.chance(10) { larger(host_size, random) } else { host_size };
    Opening::of_one(&candidate, judged_for, judged_in)
}

/// A host with some sectors more, so that it may no longer be made of the disk's.
fn larger(host_size: u64, random: &mut Random) -> u64 {
    MAX_HOST_SIZE.min(host_size + random.pick(&[512, 1_024, 2_048, 4_096]))
}

/// From 1 to 64 candidates. Each list has its own share of headers and of accepted ones, none included.
pub fn list(random: &mut Random) -> Opening {
    let host_size = hosts::allowed(random);
    let count = if random.chance(4) { random.between(9, 64) } else { random.between(1, 8) };
    let percent_spoiled = random.pick(&[0, 20, 60, 90, 100]);
    let percent_accepted = random.pick(&[0, 0, 5, 30]);
    let mut opening = Opening { candidates: Vec::new(), codes: Vec::new(), host_size };
    for _ in 0..count {
        let code = code(random);
        let candidate = if random.chance(percent_spoiled) {
            spoiled(code, host_size, random)
        } else if random.chance(percent_accepted) {
            accepted(code, host_size, random).bytes()
        } else {
            changed(code, host_size, random)
        };
        opening.candidates.extend_from_slice(&candidate);
        opening.codes.push(code);
    }
    opening
}

/// Lengths, codes and a host size that may each be wrong, around a candidate that is accepted or refused.
pub fn odd(random: &mut Random) -> Opening {
    let mut opening = single(random);
    repeat(&mut opening, random.pick(&[0, 1, 1, 1, 2, 3, 64, 65, 66]));
    if random.chance(30) {
        odd_lengths(&mut opening, random);
    }
    if random.chance(40) {
        odd_code(&mut opening, random);
    }
    if random.chance(50) {
        opening.host_size = random.pick(&hosts::WRONG);
    }
    opening
}

fn repeat(opening: &mut Opening, count: usize) {
    opening.candidates = opening.candidates.repeat(count);
    opening.codes = opening.codes.repeat(count);
}

/// One of the two lengths is made longer or shorter.
fn odd_lengths(opening: &mut Opening, random: &mut Random) {
    let (size, count) = (opening.candidates.len(), opening.codes.len());
    match random.below(4) {
        0 => opening.codes.resize(random.pick(&[0, 1, 2, count + 1, count + 256]), 0),
        1 => opening.codes.truncate(count.saturating_sub(1)),
        2 => opening.candidates.resize(random.pick(&[0, 1, 511, 513, size + 1, size + 512]), 0),
        _ => opening.candidates.truncate(size.saturating_sub(random.pick(&[1, 256, 512]))),
    }
}

fn odd_code(opening: &mut Opening, random: &mut Random) {
    let code = random.between(4, 255) as u8;
    if let Some(last) = opening.codes.len().checked_sub(1) {
        let position = random.between(0, last as u64) as usize;
        opening.codes[position] = code;
    }
}
