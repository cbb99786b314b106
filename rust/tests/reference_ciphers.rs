//! Whether the second implementation of AES-256 in XTS gives the values that the standards publish, and undoes itself.

mod cases;
mod reference;

use cases::published;
use reference::aes::{expanded, Aes256};
use reference::field::{inverse, product};
use reference::substitution::{substituted, unsubstituted};
use reference::xts;

/// The products of FIPS 197, section 4.2, and the rule of an inverse.
#[test]
fn field() {
    assert_eq!([product(0x57, 0x83), product(0x57, 0x13)], [0xC1, 0xFE]);
    assert_eq!(inverse(0), 0);
    assert!((1..=0xFF).all(|byte| product(byte, inverse(byte)) == 1));
}

/// The example of FIPS 197, section 5.1.1, and the table's corners.
#[test]
fn substitution() {
    assert_eq!([0x53, 0x00, 0x0F, 0xF0, 0xFF].map(substituted), [0xED, 0x63, 0x76, 0x8C, 0x16]);
    assert!((0..=0xFF).all(|byte| unsubstituted(substituted(byte)) == byte));
}

#[test]
fn schedule() {
    let [key, early, late] = published::SCHEDULE.map(published::bytes);
    let words = expanded(&key.try_into().unwrap());
    assert_eq!((words.len(), words[8..12].concat(), words[56..60].concat()), (60, early, late));
}

#[test]
fn block() {
    let [key, block, stored] = published::BLOCK.map(published::bytes);
    let cipher = Aes256::new(&key.try_into().unwrap());
    assert_eq!(cipher.enciphered(block.clone().try_into().unwrap())[..], stored);
    assert_eq!(cipher.deciphered(stored.try_into().unwrap())[..], block);
}

#[test]
fn units() {
    let (key, unit) = (published::unit_key(), published::unit());
    for (number, digits) in published::UNITS {
        let stored = published::bytes(digits);
        assert_eq!(xts::enciphered(&key, number, &unit), stored, "{number:#x}");
        assert_eq!(xts::deciphered(&key, number, &stored), unit, "{number:#x}");
    }
}
