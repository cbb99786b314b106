//! The S-box of AES and its inverse (FIPS 197, sections 5.1.1 and 5.3.2), made of their rule.

use std::array;
use std::sync::OnceLock;

use super::field::inverse;

type Table = [u8; 256];

/// The S-box of a byte.
pub fn substituted(byte: u8) -> u8 {
    static TABLE: OnceLock<Table> = OnceLock::new();
    TABLE.get_or_init(|| array::from_fn(|index| affine(inverse(index as u8))))[usize::from(byte)]
}

/// The byte whose S-box this is.
pub fn unsubstituted(byte: u8) -> u8 {
    static TABLE: OnceLock<Table> = OnceLock::new();
    TABLE.get_or_init(|| array::from_fn(|index| preimage(index as u8)))[usize::from(byte)]
}

/// Each bit is a sum of five and of one of the constant's.
fn affine(byte: u8) -> u8 {
    let bit = |index: u32| byte.rotate_right(index) & 1;
    let sum = |index| bit(index) ^ bit(index + 4) ^ bit(index + 5) ^ bit(index + 6) ^ bit(index + 7);
    (0..8).fold(0x63, |mapped, index| mapped ^ sum(index) << index)
}

fn preimage(byte: u8) -> u8 {
    (0..=0xFF).find(|other| substituted(*other) == byte).expect("the S-box reaches every byte")
}
