//! AES-256 in XTS on single units: those that were published or that other programs enciphered, and generated ones,
//! compared with the second implementation in `reference`.

mod cases;
mod reference;

use std::collections::BTreeSet;

use cases::keys::{self, TWEAK_NUMBERS};
use cases::published;
use ondristela::{decipher, encipher};
use reference::random::Random;
use reference::xts::{self, Key};

const SEED: u64 = 81;
const CASES: u64 = 4_000;

type Unit = [u8; 512];

fn enciphered(key: &Key, tweak_number: u64, mut unit: Unit) -> Unit {
    encipher(key, tweak_number, &mut unit);
    unit
}

fn deciphered(key: &Key, tweak_number: u64, mut unit: Unit) -> Unit {
    decipher(key, tweak_number, &mut unit);
    unit
}

#[test]
fn published_units() {
    let (key, unit) = (published::unit_key(), published::unit());
    for (number, digits) in published::UNITS {
        let expected: Unit = published::bytes(digits).try_into().unwrap();
        assert_eq!(enciphered(&key, number, unit), expected, "{number:#x}");
        assert_eq!(deciphered(&key, number, expected), unit, "{number:#x}");
    }
}

/// Units that OpenSSL enciphered, and ones with keys of two equal halves, which it does not take, that Nettle did. Each
/// is a key, a tweak number, big-endian, a unit and the unit enciphered (tests/make_units.py).
const OTHERS: [&[u8]; 2] =
    [include_bytes!("../../tests/vectors/openssl.units"), include_bytes!("../../tests/vectors/nettle.units")];

#[test]
fn units_of_other_programs() {
    for bytes in OTHERS.iter().flat_map(|units| units.chunks(64 + 8 + 2 * 512)) {
        let (key, rest) = bytes.split_at(64);
        let (number, units) = rest.split_at(8);
        let (key, number) = (key.try_into().unwrap(), u64::from_be_bytes(number.try_into().unwrap()));
        let [unit, expected] = [0, 512].map(|start| units[start..][..512].try_into().unwrap());
        assert_eq!(enciphered(key, number, unit), expected, "key {key:02x?}, tweak number {number:#x}");
        assert_eq!(deciphered(key, number, expected), unit, "key {key:02x?}, tweak number {number:#x}");
    }
}

/// Both calls give the second implementation's bytes, and undo each other in either order.
#[track_caller]
fn check(key: &Key, tweak_number: u64, unit: Unit) {
    let (stored, read) = (enciphered(key, tweak_number, unit), deciphered(key, tweak_number, unit));
    let context = || format!("key {key:02x?}, tweak number {tweak_number:#x}, unit {unit:02x?}");
    assert!(stored[..] == xts::enciphered(key, tweak_number, &unit), "enciphered, {}", context());
    assert!(read[..] == xts::deciphered(key, tweak_number, &unit), "deciphered, {}", context());
    assert!(deciphered(key, tweak_number, stored) == unit, "there and back, {}", context());
    assert!(enciphered(key, tweak_number, read) == unit, "back and there, {}", context());
}

fn random_unit(random: &mut Random) -> Unit {
    let mut unit = [0; 512];
    random.fill(&mut unit);
    unit
}

#[test]
fn generated_units() {
    for case in 0..CASES {
        let mut random = Random::of_case(SEED, case);
        let (key, unit) = (keys::key(&mut random), random_unit(&mut random));
        check(&key, keys::tweak_number(&mut random), unit);
    }
}

/// Each of these with halves that differ and with two that are equal, and with units of one byte alone.
#[test]
fn tweak_numbers() {
    let mut random = Random::of_case(SEED, CASES);
    for number in TWEAK_NUMBERS {
        for key in [keys::of_two_halves(&mut random), keys::of_equal_halves(&mut random), [0; 64], [0xFF; 64]]
        {
            for unit in [random_unit(&mut random), [0; 512], [0xFF; 512]] {
                check(&key, number, unit);
            }
        }
    }
}

/// Every bit of the key, of the tweak number and of the unit counts, and no two of them alike.
#[test]
fn every_bit() {
    let (key, number, unit) = (published::unit_key(), 0x0123_4567_89AB_CDEF, published::unit());
    let mut seen = BTreeSet::from([enciphered(&key, number, unit)]);
    let keys = changed(key).map(|key| (key, number, unit));
    let numbers = (0..64).map(|bit| (key, number ^ 1 << bit, unit));
    let units = changed(unit).map(|unit| (key, number, unit));
    for (key, number, unit) in keys.chain(numbers).chain(units) {
        check(&key, number, unit);
        seen.insert(enciphered(&key, number, unit));
    }
    assert_eq!(seen.len(), 1 + 512 + 64 + 4_096);
}

/// The same bytes with one bit changed, for each of them.
fn changed<const SIZE: usize>(bytes: [u8; SIZE]) -> impl Iterator<Item = [u8; SIZE]> {
    (0..8 * SIZE).map(move |bit| {
        let mut other = bytes;
        other[bit / 8] ^= 1 << (bit % 8);
        other
    })
}

/// A key and a unit at addresses of any remainder. What lies around the unit is left.
#[test]
fn any_address() {
    let (key, unit) = (published::unit_key(), published::unit());
    let (number, digits) = published::UNITS[0];
    for distance in 0..32 {
        let mut keys = [0; 96];
        keys[distance..][..64].copy_from_slice(&key);
        let mut bytes = [0xA5; 544];
        bytes[31 - distance..][..512].copy_from_slice(&unit);
        let expected =
            [&bytes[..31 - distance], &published::bytes(digits), &bytes[543 - distance..]].concat();
        let passed = (&mut bytes[31 - distance..][..512]).try_into().unwrap();
        encipher(keys[distance..][..64].try_into().unwrap(), number, passed);
        assert!(bytes[..] == expected, "distance {distance}");
    }
}
