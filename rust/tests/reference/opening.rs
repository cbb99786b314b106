//! Header locations, and the search over the candidates (docs/RULES.md, Header locations and Opening).

use super::header::{first_failing_line, is_header, layout, HEADER_SIZE, KEYS};
use super::layout::{host_size_allowed, Layout, HIDDEN, STANDARD};

/// Where the header of a location code lies, or 2, then 3.
pub fn location(code: u8, host_size: u64) -> Result<u64, u64> {
    if code > 3 {
        return Err(2);
    }
    if !host_size_allowed(host_size) {
        return Err(3);
    }
    let offsets = [0, 65_536, host_size - 131_072, host_size - 65_536];
    Ok(offsets[usize::from(code)])
}

/// A header at an even code makes a standard volume, at an odd one a hidden volume.
pub fn kind_of_code(code: u8) -> u64 {
    match code {
        0 | 2 => STANDARD,
        _ => HIDDEN,
    }
}

fn lengths_allowed(candidates: &[u8], codes: &[u8]) -> bool {
    (1..=64).contains(&codes.len()) && candidates.len() == codes.len() * HEADER_SIZE
}

/// The layout of the first accepted candidate; else the refusal of the first that is a header; else 4.
pub fn open(candidates: &[u8], codes: &[u8], host_size: u64) -> Result<Layout, u64> {
    if !lengths_allowed(candidates, codes) {
        return Err(1);
    }
    if codes.iter().any(|code| *code > 3) {
        return Err(2);
    }
    if !host_size_allowed(host_size) {
        return Err(3);
    }
    search(candidates, codes, host_size)
}

fn search(candidates: &[u8], codes: &[u8], host_size: u64) -> Result<Layout, u64> {
    let judged: Vec<Result<Layout, u64>> =
        (0..codes.len()).filter_map(|index| judge(candidates, codes, host_size, index)).collect();
    let accepted = judged.iter().find(|answer| answer.is_ok());
    let first_header = judged.first();
    *accepted.or(first_header).unwrap_or(&Err(4))
}

/// Nothing for a candidate that is no header; else its layout or its refusal.
fn judge(candidates: &[u8], codes: &[u8], host_size: u64, index: usize) -> Option<Result<Layout, u64>> {
    let candidate = &candidates[index * HEADER_SIZE..(index + 1) * HEADER_SIZE];
    let kind = kind_of_code(codes[index]);
    if !is_header(candidate) {
        return None;
    }
    Some(match first_failing_line(candidate, kind, host_size) {
        Some(refusal) => Err(refusal),
        None => Ok(layout(candidate, kind, host_size, index)),
    })
}

/// The offset and the length of an accepted candidate's key bytes within the candidates.
pub fn key_range(layout: &Layout) -> [u64; 2] {
    [layout.candidate * HEADER_SIZE as u64 + KEYS.start as u64, KEYS.len() as u64]
}
