//! AES-256 in XTS, on units of 512 bytes.

use crate::{raw, KEY_SIZE, SECTOR_SIZE};

/// Enciphers a unit in place, with AES-256 (FIPS 197) in XTS (IEEE 1619). The first 32 bytes of the key are the data's,
/// the next 32 the tweak's; keys with two equal halves are taken too. The unit is a sector, and its tweak number the
/// host sector, as [`Layout::host_sector`](crate::Layout::host_sector) tells it; any number is taken.
///
/// Of a volume that is enciphered with AES alone, the key is the first 64 of the header's
/// [`key_bytes`](crate::key_bytes).
///
/// ```
/// use ondristela::{decipher, encipher, key_bytes, open, Location, KEY_SIZE};
///
/// # let header = include_bytes!("../../samples/tcplay-1048576-code1.header");
/// let (codes, host_size) = ([Location::Hidden.code()], 1_048_576);
/// let layout = open(header, &codes, host_size)?;
/// let keys = key_bytes(header, &codes, host_size)?;
/// let key = keys[..KEY_SIZE].try_into().expect("64 of 256 bytes");
///
/// let mut sector = [0x5A; 512];
/// encipher(key, layout.host_sector(7)?, &mut sector);
/// assert_ne!(sector, [0x5A; 512]);
/// decipher(key, layout.host_sector(7)?, &mut sector);
/// assert_eq!(sector, [0x5A; 512]);
/// # Ok::<(), ondristela::Refusal>(())
/// ```
///
/// # Timing
///
/// Bytes are looked up in tables, at places that depend on the key and the data, here and wherever this crate enciphers
/// or deciphers. This is not constant-time: whoever runs programs on the same machine at the time, or shares its
/// processor's caches, may learn something of the keys by timing. Run it on a machine that nobody else uses. Nothing
/// is learnt in this way from the disk alone.
pub fn encipher(key: &[u8; KEY_SIZE], tweak_number: u64, unit: &mut [u8; SECTOR_SIZE]) {
    raw::encipher(key, tweak_number, unit)
}

/// Deciphers a unit in place. With one key and one tweak number this and [`encipher`] undo each other. What `encipher`
/// says of timing is true here too.
pub fn decipher(key: &[u8; KEY_SIZE], tweak_number: u64, unit: &mut [u8; SECTOR_SIZE]) {
    raw::decipher(key, tweak_number, unit)
}
