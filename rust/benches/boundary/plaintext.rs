//! Reads and writes of plaintext, and the raw ones of the same sectors.

use std::hint::black_box;

use ondristela::raw;
use ondristela::{MAX_COUNT, SECTOR_SIZE};

use crate::copy::{self, Inputs};
use crate::memory::Memory;
use crate::plain_aes::{Key, Xts};
use crate::positions::Fixed;
use crate::report::{Report, Row};
use crate::timing::{take_turns, Timing};

const IMAGE_SIZE: usize = 1 << 20;

// In the middle of the image, and its host sector.
const MIDDLE: u64 = 512;
const HOST_SECTOR: u64 = 256 + MIDDLE;

const KEY: Key = key();

const fn key() -> Key {
    let mut key = [0; 64];
    let mut index = 0;
    while index < key.len() {
        key[index] = (index as u8).wrapping_mul(151);
        index += 1;
    }
    key
}

/// Measures calls on one sector and on as many as a call may name.
pub fn measure(report: &mut Report) {
    report.section("Reads and writes of plaintext, image of 1 MiB");
    let mut image = Memory::new(IMAGE_SIZE, 0);
    for count in [1, MAX_COUNT] {
        let (view, buffer) = (copy::view(IMAGE_SIZE), Memory::new(count as usize * SECTOR_SIZE, 0));
        let mut inputs = Inputs { view, image, buffer, count, positions: Fixed(MIDDLE) };
        check(&mut inputs);
        let reads = take_turns(&mut inputs, [read_plaintext, copy::read_ours]);
        report.add(row("read", "raw read", count, reads));
        let writes = take_turns(&mut inputs, [write_plaintext, copy::write_ours]);
        report.add(row("write", "raw write", count, writes));
        image = inputs.image;
    }
}

fn row(operation: &'static str, peer_name: &'static str, count: u64, [ours, peer]: [Timing; 2]) -> Row {
    let sectors = if count == 1 { "sector" } else { "sectors" };
    Row {
        series: "plaintext",
        operation,
        case: format!("{count} {sectors} of plaintext"),
        bytes: count as usize * SECTOR_SIZE,
        image_size: IMAGE_SIZE,
        ours,
        peer_name,
        peer,
    }
}

fn read_plaintext(inputs: &mut Inputs<Fixed>, calls: u64) {
    let Inputs { view, image, buffer, count, positions: Fixed(first) } = inputs;
    let (image, buffer, mut sector) = (image.bytes(), buffer.bytes_mut(), [0]);
    for _ in 0..calls {
        let (image, buffer) = black_box((image, &mut *buffer));
        let (view, key, sector) = black_box((&*view, &KEY, &mut sector));
        black_box(raw::read_plaintext(view, key, image, *first, *count, buffer, sector));
    }
}

fn write_plaintext(inputs: &mut Inputs<Fixed>, calls: u64) {
    let Inputs { view, image, buffer, count, positions: Fixed(first) } = inputs;
    let (image, buffer, mut sector) = (image.bytes_mut(), buffer.bytes(), [0]);
    for _ in 0..calls {
        let (image, buffer) = black_box((&mut *image, buffer));
        let (view, key, sector) = black_box((&mut *view, &KEY, &mut sector));
        black_box(raw::write_plaintext(view, key, image, *first, *count, buffer, sector));
    }
}

// What is written stands as the straightforward program enciphers it, and is read again.
fn check(inputs: &mut Inputs<Fixed>) {
    let plaintext: Vec<u8> = (0..inputs.buffer.bytes().len()).map(|index| (index % 251) as u8).collect();
    inputs.buffer.bytes_mut().copy_from_slice(&plaintext);
    write_plaintext(inputs, 1);
    copy::read_ours(inputs, 1);
    let mut expected = plaintext.clone();
    for (sector, host) in expected.chunks_exact_mut(SECTOR_SIZE).zip(HOST_SECTOR..) {
        Xts::new(&KEY).encipher(host, sector);
    }
    assert!(inputs.buffer.bytes() == expected);
    read_plaintext(inputs, 1);
    assert!(inputs.buffer.bytes() == plaintext);
}
