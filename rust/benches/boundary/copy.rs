//! Reads and writes of sectors, and the C library's memcpy of the same bytes between the same buffers.
//! `copy_from_slice` calls it, since the compiler cannot know the length of a slice out of `black_box`.

use std::hint::black_box;

use ondristela::raw::{self, ViewNumbers};
use ondristela::SECTOR_SIZE;

use crate::memory::Memory;
use crate::positions::Positions;
use crate::timing::{take_turns, Timing};

const DATA_START: usize = 131_072;

/// What reads and writes work on.
pub struct Inputs<P> {
    pub view: ViewNumbers,
    pub image: Memory,
    pub buffer: Memory,
    pub count: u64,
    pub positions: P,
}

/// The sectors of the standard volume that fills a host of this size.
pub fn sector_count(host_size: usize) -> u64 {
    ((host_size - 2 * DATA_START) / SECTOR_SIZE) as u64
}

/// A plain view of that volume.
pub fn view(host_size: usize) -> ViewNumbers {
    let data_size = (host_size - 2 * DATA_START) as u64;
    let layout = [host_size as u64, 0, 0, 5, 0, DATA_START as u64, data_size, 0, 512];
    let mut view = [0; 13];
    assert_eq!(raw::view_plain(&layout, &mut view), 0);
    view
}

/// Reads, ours and the peer's.
pub fn measure_reads<P: Positions>(inputs: &mut Inputs<P>) -> [Timing; 2] {
    check_read(inputs);
    take_turns(inputs, [read_ours, read_peer])
}

/// Writes, ours and the peer's.
pub fn measure_writes<P: Positions>(inputs: &mut Inputs<P>) -> [Timing; 2] {
    check_write(inputs);
    take_turns(inputs, [write_ours, write_peer])
}

/// Reads, so many times.
pub fn read_ours<P: Positions>(inputs: &mut Inputs<P>, calls: u64) {
    let Inputs { view, image, buffer, count, positions } = inputs;
    let (image, buffer, mut sector) = (image.bytes(), buffer.bytes_mut(), [0]);
    for _ in 0..calls {
        let (image, buffer) = black_box((image, &mut *buffer));
        let sector = black_box(&mut sector);
        black_box(raw::read(black_box(view), image, positions.next(), *count, buffer, sector));
    }
}

fn read_peer<P: Positions>(inputs: &mut Inputs<P>, calls: u64) {
    let Inputs { image, buffer, positions, .. } = inputs;
    let (image, buffer) = (image.bytes(), buffer.bytes_mut());
    for _ in 0..calls {
        let (image, buffer) = black_box((image, &mut *buffer));
        let start = start(positions.next());
        buffer.copy_from_slice(&image[start..start + buffer.len()]);
    }
}

/// Writes, so many times.
pub fn write_ours<P: Positions>(inputs: &mut Inputs<P>, calls: u64) {
    let Inputs { view, image, buffer, count, positions } = inputs;
    let (image, buffer, mut sector) = (image.bytes_mut(), buffer.bytes(), [0]);
    for _ in 0..calls {
        let (image, buffer) = black_box((&mut *image, buffer));
        let sector = black_box(&mut sector);
        black_box(raw::write(black_box(view), image, positions.next(), *count, buffer, sector));
    }
}

fn write_peer<P: Positions>(inputs: &mut Inputs<P>, calls: u64) {
    let Inputs { image, buffer, positions, .. } = inputs;
    let (image, buffer) = (image.bytes_mut(), buffer.bytes());
    for _ in 0..calls {
        let (image, buffer) = black_box((&mut *image, buffer));
        let start = start(positions.next());
        image[start..start + buffer.len()].copy_from_slice(buffer);
    }
}

// The byte of the host where a user sector starts.
fn start(sector: u64) -> usize {
    DATA_START + sector as usize * SECTOR_SIZE
}

fn check_read<P: Positions>(inputs: &mut Inputs<P>) {
    let Inputs { view, image, buffer, count, positions } = inputs;
    let (sector, size) = (positions.next(), buffer.bytes().len());
    image.bytes_mut()[start(sector)..start(sector) + size].fill(0x5A);
    assert_eq!(raw::read(view, image.bytes(), sector, *count, buffer.bytes_mut(), &mut [0]), 0);
    assert!(buffer.bytes().iter().all(|&byte| byte == 0x5A));
}

fn check_write<P: Positions>(inputs: &mut Inputs<P>) {
    let Inputs { view, image, buffer, count, positions } = inputs;
    let (sector, size) = (positions.next(), buffer.bytes().len());
    buffer.bytes_mut().fill(0xA5);
    assert_eq!(raw::write(view, image.bytes_mut(), sector, *count, buffer.bytes(), &mut [0]), 0);
    assert!(image.bytes()[start(sector)..start(sector) + size].iter().all(|&byte| byte == 0xA5));
}
