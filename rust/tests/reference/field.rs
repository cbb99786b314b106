//! The field of 256 elements that AES works in (FIPS 197, section 4). A byte's bits are a polynomial's coefficients.

use std::array;
use std::sync::OnceLock;

/// The byte times x, modulo x^8 + x^4 + x^3 + x + 1.
pub fn times_x(byte: u8) -> u8 {
    let doubled = u16::from(byte) << 1;
    (if doubled > 0xFF { doubled ^ 0x11B } else { doubled }) as u8
}

/// The product of two bytes: the sum of the first times each power of x that the second has.
fn multiplied(byte: u8, other: u8) -> u8 {
    let (mut sum, mut power) = (0, byte);
    for bit in 0..8 {
        if other >> bit & 1 == 1 {
            sum ^= power;
        }
        power = times_x(power);
    }
    sum
}

/// The product of two bytes, out of a table of all, since tests ask for so many.
pub fn product(byte: u8, other: u8) -> u8 {
    static TABLE: OnceLock<[[u8; 256]; 256]> = OnceLock::new();
    let table = TABLE
        .get_or_init(|| array::from_fn(|other| array::from_fn(|byte| multiplied(byte as u8, other as u8))));
    table[usize::from(other)][usize::from(byte)]
}

/// The byte that makes 1 of this one; 0 for 0, as AES has it.
pub fn inverse(byte: u8) -> u8 {
    (1..=0xFF).find(|other| product(byte, *other) == 1).unwrap_or(0)
}
