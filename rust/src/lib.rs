//! Where VeraCrypt and TrueCrypt volumes lie on their disk, and reads and writes that stay there.
//!
//! A volume's place comes from its deciphered header, checked against the size of the host: the disk or
//! file that holds it. The work is done by a library written in Rattle, in which every function is proved
//! to meet its contract for any arguments; this crate gives it Rust's types. Data is read and written as
//! it stands on the host, enciphered, or as plaintext, with AES-256 in XTS on the way.
//!
//! ```
//! # fn record(image: &mut [u8], outer_header: &[u8], hidden_header: &[u8]) -> Result<(), ondristela::Refusal> {
//! use ondristela::{open, Location, View};
//!
//! let host_size = image.len() as u64;
//! let outer = open(outer_header, &[Location::Standard.code()], host_size)?;
//! let hidden = open(hidden_header, &[Location::Hidden.code()], host_size)?;
//! let mut view = View::protected(&outer, &hidden)?;
//! view.write(image, 0, 1, &[0x5A; 512])?;
//! # Ok(())
//! # }
//! ```
//!
//! A read or write that reaches past the volume's end, and a write that would touch the hidden volume, are refused
//! with the sector in the way: [`Refusal::Outside`], [`Refusal::Protected`].
//!
//! A sector has 512 bytes here, whatever the disk's own have. On a disk with larger ones, up to 4,096 bytes, a read or
//! write must be of whole ones, which [`Layout::alignment`] tells, or it is refused [`Refusal::Unaligned`].
//!
//! [`View::read_plaintext`] and [`View::write_plaintext`] take a key of 64 bytes and decipher and encipher each sector.
//! They are refused as reads and writes are. [`encipher`] and [`decipher`] do the same to a single sector, for a caller
//! that moves the bytes itself. This is not constant-time; [`encipher`] tells what that means.
//!
//! [`NewHeader`] writes the header of a new volume, which [`open`] then accepts.
//!
//! A disk that is too large to map is read and written by the caller itself, where the view says. A write asks
//! [`View::write_extent`] each time, and so is refused what [`View::write`] would be.
//!
//! ```
//! # fn record(disk: &std::fs::File, disk_size: u64, view: &mut ondristela::View) -> Result<(), Box<dyn std::error::Error>> {
//! use std::os::unix::fs::FileExt;
//!
//! let sectors = [0x5A; 8 * 512];
//! let offset = view.write_extent(disk_size, 0, 8, sectors.len() as u64)?;
//! disk.write_all_at(&sectors, offset)?;
//! # Ok(())
//! # }
//! ```

mod cipher;
mod header;
mod layout;
mod opening;
pub mod raw;
mod refusal;
mod view;

pub use cipher::{decipher, encipher};
pub use header::NewHeader;
pub use layout::{Kind, Layout, Magic};
pub use opening::{key_bytes, open, Location};
pub use refusal::Refusal;
pub use view::View;

/// A sector's bytes, on every disk. [`Layout::sector_size`] has those of the disk's own sectors.
pub const SECTOR_SIZE: usize = 512;

/// A header's bytes.
pub const HEADER_SIZE: usize = 512;

/// The bytes of a header's salt, its first ones.
pub const SALT_SIZE: usize = 64;

/// The bytes of a header's keys, its last ones.
pub const KEYS_SIZE: usize = 256;

/// The bytes of the key that sectors are enciphered with: 32 for the data, then 32 for the tweak.
pub const KEY_SIZE: usize = 64;

/// At most so many candidates in one opening.
pub const MAX_CANDIDATES: usize = 64;

/// At most so many sectors in one read or write.
pub const MAX_COUNT: u64 = 128;

/// CRC-32 of ITU-T V.42.
pub fn crc32(bytes: &[u8]) -> u32 {
    raw::crc32(bytes)
}
