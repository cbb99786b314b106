//! The map between a volume's sectors and the host's (docs/RULES.md, Sector map). Each call tests 11, then 16.

use super::layout::{Layout, SECTOR};

/// The host sector that holds a user sector.
pub fn host_sector(layout: &Layout, user: u64) -> Result<u64, u64> {
    if !layout.is_sound() {
        return Err(11);
    }
    if user >= layout.sector_count() {
        return Err(16);
    }
    Ok(layout.data_start / SECTOR + user)
}

/// The user sector that a host sector holds.
pub fn user_sector(layout: &Layout, host: u64) -> Result<u64, u64> {
    if !layout.is_sound() {
        return Err(11);
    }
    let first = layout.data_start / SECTOR;
    let end = first + layout.sector_count();
    if !(first..end).contains(&host) {
        return Err(16);
    }
    Ok(host - first)
}

/// The tweak block: the 8 bytes of the host sector's number, the least significant first, then 8 zeros.
pub fn tweak_block(layout: &Layout, user: u64) -> Result<[u8; 16], u64> {
    let mut number = host_sector(layout, user)?;
    let mut block = [0; 16];
    for byte in &mut block[..8] {
        *byte = (number % 256) as u8;
        number /= 256;
    }
    Ok(block)
}
