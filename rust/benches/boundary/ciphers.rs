//! AES-256 in XTS on 64 KiB, 128 units, against a straightforward Rust program.

use std::hint::black_box;

use ondristela::raw;
use ondristela::{MAX_COUNT, SECTOR_SIZE};

use crate::memory::Memory;
use crate::plain_aes::{Key, Xts};
use crate::random::Random;
use crate::report::{Report, Row};
use crate::timing::{take_turns, Timing};

const SIZE: usize = MAX_COUNT as usize * SECTOR_SIZE;

// The first unit's tweak number; the others count on.
const FIRST: u64 = 256;

struct Inputs {
    key: Key,
    units: Memory,
}

/// Measures enciphering and deciphering.
pub fn measure(report: &mut Report) {
    let mut inputs = Inputs { key: [0; 64], units: Memory::new(SIZE, 0) };
    Random::new().fill(&mut inputs.key);
    Random::new().fill(inputs.units.bytes_mut());
    check_published();
    check(&mut inputs);
    report.section("AES-256 in XTS, 64 KiB");
    let [ours, peer] = take_turns(&mut inputs, [encipher_ours, encipher_peer]);
    report.add(row("encipher", ours, peer));
    let [ours, peer] = take_turns(&mut inputs, [decipher_ours, decipher_peer]);
    report.add(row("decipher", ours, peer));
}

fn row(operation: &'static str, ours: Timing, peer: Timing) -> Row {
    Row {
        series: "cipher",
        operation,
        case: format!("{MAX_COUNT} units"),
        bytes: SIZE,
        image_size: 0,
        ours,
        peer_name: "Rust program",
        peer,
    }
}

// The first and the last block of IEEE 1619's vector 10.
const FIRST_BLOCK: u128 = 0x1c3b_3a10_2f77_0386_e483_6c99_e370_cf9b;
const LAST_BLOCK: u128 = 0xc4f3_6ffd_a9fc_ea70_b9c6_e693_e148_c151;

fn check_published() {
    let mut key = [0; 64];
    key[..16].copy_from_slice(&0x2718_2818_2845_9045_2353_6028_7471_3526_u128.to_be_bytes());
    key[16..32].copy_from_slice(&0x6249_7757_2470_9369_9959_5749_6696_7627_u128.to_be_bytes());
    key[32..48].copy_from_slice(&0x3141_5926_5358_9793_2384_6264_3383_2795_u128.to_be_bytes());
    key[48..].copy_from_slice(&0x0288_4197_1693_9937_5105_8209_7494_4592_u128.to_be_bytes());
    let mut unit: [u8; SECTOR_SIZE] = std::array::from_fn(|index| index as u8);
    Xts::new(&key).encipher(0xFF, &mut unit);
    assert_eq!(unit[..16], FIRST_BLOCK.to_be_bytes());
    assert_eq!(unit[SECTOR_SIZE - 16..], LAST_BLOCK.to_be_bytes());
}

// Both programs give the same bytes, and each undoes itself.
fn check(inputs: &mut Inputs) {
    let before = inputs.units.bytes().to_vec();
    let stored = after(inputs, encipher_ours);
    assert!(after(inputs, decipher_ours) == before && stored != before);
    assert!(after(inputs, encipher_peer) == stored);
    assert!(after(inputs, decipher_peer) == before);
    let read = after(inputs, decipher_ours);
    assert!(after(inputs, encipher_ours) == before && after(inputs, decipher_peer) == read);
    assert!(after(inputs, encipher_peer) == before);
}

fn after(inputs: &mut Inputs, program: fn(&mut Inputs, u64)) -> Vec<u8> {
    program(inputs, 1);
    inputs.units.bytes().to_vec()
}

fn encipher_ours(inputs: &mut Inputs, calls: u64) {
    each_unit(inputs, calls, raw::encipher)
}

fn decipher_ours(inputs: &mut Inputs, calls: u64) {
    each_unit(inputs, calls, raw::decipher)
}

#[inline(always)]
fn each_unit(inputs: &mut Inputs, calls: u64, step: fn(&Key, u64, &mut [u8; SECTOR_SIZE])) {
    for _ in 0..calls {
        let Inputs { key, units } = black_box(&mut *inputs);
        for (unit, number) in units.bytes_mut().chunks_exact_mut(SECTOR_SIZE).zip(FIRST..) {
            step(key, number, unit.try_into().unwrap());
        }
    }
}

// The peer expands its key once for all units.
fn encipher_peer(inputs: &mut Inputs, calls: u64) {
    for _ in 0..calls {
        let Inputs { key, units } = black_box(&mut *inputs);
        let cipher = Xts::new(key);
        for (unit, number) in units.bytes_mut().chunks_exact_mut(SECTOR_SIZE).zip(FIRST..) {
            cipher.encipher(number, unit);
        }
    }
}

fn decipher_peer(inputs: &mut Inputs, calls: u64) {
    for _ in 0..calls {
        let Inputs { key, units } = black_box(&mut *inputs);
        let cipher = Xts::new(key);
        for (unit, number) in units.bytes_mut().chunks_exact_mut(SECTOR_SIZE).zip(FIRST..) {
            cipher.decipher(number, unit);
        }
    }
}
