//! A straightforward program for the same work: opening (docs/RULES.md), as one would write it in Rust.

use crate::byte_table::crc32;

const HEADER_SIZE: usize = 512;
const SECTOR_SIZE: u64 = 512;
const HEADERS_SIZE: u64 = 131_072;

#[derive(Clone, Copy, PartialEq, Eq)]
pub enum Kind {
    Standard,
    Hidden,
}

#[derive(Clone, Copy, PartialEq, Eq)]
pub enum Magic {
    Vera,
    True,
}

pub struct Layout {
    pub host_size: u64,
    pub kind: Kind,
    pub magic: Magic,
    pub version: u16,
    pub min_program_version: u16,
    pub data_start: u64,
    pub data_size: u64,
    pub candidate: usize,
    pub sector_size: u64,
}

/// The layout of the first candidate that is accepted, or the refusal number.
pub fn open(candidates: &[u8], codes: &[u8], host_size: u64) -> Result<Layout, u8> {
    if codes.is_empty() || codes.len() > 64 || candidates.len() != codes.len() * HEADER_SIZE {
        return Err(1);
    }
    if codes.iter().any(|&code| code > 3) {
        return Err(2);
    }
    if host_size % SECTOR_SIZE != 0 || !(262_656..=1 << 50).contains(&host_size) {
        return Err(3);
    }
    let mut refusal = 4;
    for (candidate, header) in candidates.chunks_exact(HEADER_SIZE).enumerate() {
        let kind = if codes[candidate] % 2 == 0 { Kind::Standard } else { Kind::Hidden };
        match judge(header, kind, host_size, candidate) {
            Ok(layout) => return Ok(layout),
            Err(number) if refusal == 4 => refusal = number,
            Err(_) => {}
        }
    }
    Err(refusal)
}

fn judge(header: &[u8], kind: Kind, host_size: u64, candidate: usize) -> Result<Layout, u8> {
    let magic = match &header[64..68] {
        b"VERA" => Magic::Vera,
        b"TRUE" => Magic::True,
        _ => return Err(4),
    };
    if crc32(&header[256..512]) != be32(header, 72) || crc32(&header[64..252]) != be32(header, 252) {
        return Err(4);
    }
    let version = be16(header, 68);
    let oldest = if magic == Magic::Vera { 2 } else { 4 };
    if version < oldest || version > 5 {
        return Err(5);
    }
    let flags = be32(header, 124);
    if flags >> 2 != 0 || magic == Magic::Vera && !reserved_are_zero(header) {
        return Err(6);
    }
    if flags != 0 {
        return Err(7);
    }
    let sector_size = u64::from(be32(header, 128));
    if ![512, 1_024, 2_048, 4_096].contains(&sector_size) {
        return Err(8);
    }
    let hidden_size = be64(header, 92);
    let data_size = be64(header, 100);
    if hidden_size != if kind == Kind::Hidden { data_size } else { 0 } {
        return Err(9);
    }
    if kind == Kind::Hidden && hidden_size == 0 {
        return Err(9);
    }
    let data_start = be64(header, 108);
    let is_whole = [host_size, data_start, data_size].iter().all(|size| size % sector_size == 0);
    if be64(header, 116) != data_size || !is_whole || !fits(kind, host_size, data_start, data_size) {
        return Err(10);
    }
    let min_program_version = u16::from_be_bytes([header[70], header[71]]);
    Ok(Layout {
        host_size,
        kind,
        magic,
        version,
        min_program_version,
        data_start,
        data_size,
        candidate,
        sector_size,
    })
}

fn reserved_are_zero(header: &[u8]) -> bool {
    header[76..92].iter().all(|&byte| byte == 0) && header[132..252].iter().all(|&byte| byte == 0)
}

fn fits(kind: Kind, host_size: u64, data_start: u64, data_size: u64) -> bool {
    if data_size == 0 || data_start < HEADERS_SIZE || kind == Kind::Standard && data_start != HEADERS_SIZE {
        return false;
    }
    match data_start.checked_add(data_size) {
        Some(end) => end <= host_size - HEADERS_SIZE,
        None => false,
    }
}

fn be16(bytes: &[u8], offset: usize) -> u16 {
    u16::from_be_bytes(bytes[offset..offset + 2].try_into().unwrap())
}

fn be32(bytes: &[u8], offset: usize) -> u32 {
    u32::from_be_bytes(bytes[offset..offset + 4].try_into().unwrap())
}

fn be64(bytes: &[u8], offset: usize) -> u64 {
    u64::from_be_bytes(bytes[offset..offset + 8].try_into().unwrap())
}
