//! Views, and reads and writes on them (docs/RULES.md, Views, Reads and writes).

use std::ops::Range;

use super::layout::{Layout, HIDDEN, SECTOR, STANDARD};
use super::sector_map::host_sector;

pub const MAX_COUNT: u64 = 128;

pub type ViewNumbers = [u64; 13];

/// A view as a caller may make it up. `protected` 0 is no range and `write_lock` 0 is open; any other
/// number is a range, and closed.
#[derive(Clone, Copy, Debug, PartialEq, Eq)]
pub struct View {
    pub layout: Layout,
    pub protected: u64,
    pub protected_start: u64,
    pub protected_end: u64,
    pub write_lock: u64,
}

/// The extent of a read or a write: a first user sector and a count.
#[derive(Clone, Copy, Debug, PartialEq, Eq)]
pub struct Extent {
    pub first: u64,
    pub count: u64,
}

/// What a read or a write answers: 0 or a refusal's number, and the sector in the way that it tells, if it does.
#[derive(Clone, Copy, Debug, PartialEq, Eq)]
pub struct Answer {
    pub number: u64,
    pub sector: Option<u64>,
}

impl Answer {
    pub const ACCEPTED: Answer = Answer::silent(0);

    /// An answer that tells no sector.
    pub const fn silent(number: u64) -> Answer {
        Answer { number, sector: None }
    }

    /// An answer that tells the sector in the way.
    pub const fn telling(number: u64, sector: u64) -> Answer {
        Answer { number, sector: Some(sector) }
    }

    /// The number, and what a call leaves where it stores the sector: what stood there, unless it tells one.
    pub fn stored_over(self, stood: u64) -> (u64, u64) {
        (self.number, self.sector.unwrap_or(stood))
    }
}

impl View {
    pub fn numbers(&self) -> ViewNumbers {
        let mut numbers = [0; 13];
        numbers[..9].copy_from_slice(&self.layout.numbers());
        numbers[9] = self.protected;
        numbers[10] = self.protected_start;
        numbers[11] = self.protected_end;
        numbers[12] = self.write_lock;
        numbers
    }

    pub fn is_sound(&self) -> bool {
        self.layout.is_sound() && (self.protected == 0 || self.range_is_sound())
    }

    /// One or more whole sectors of the data area of a standard volume.
    fn range_is_sound(&self) -> bool {
        self.layout.kind == STANDARD
            && self.protected_start % SECTOR == 0
            && self.protected_end % SECTOR == 0
            && self.protected_start >= self.layout.data_start
            && u128::from(self.protected_end) <= self.layout.data_end()
            && self.protected_start < self.protected_end
    }

    fn protects(&self, host: u64) -> bool {
        self.protected != 0 && (self.protected_start..self.protected_end).contains(&(host * SECTOR))
    }
}

/// The view of a volume alone.
pub fn plain(layout: &Layout) -> Result<View, u64> {
    if !layout.is_sound() {
        return Err(11);
    }
    Ok(View { layout: *layout, protected: 0, protected_start: 0, protected_end: 0, write_lock: 0 })
}

/// The view of an outer volume that protects a hidden volume's data area.
pub fn protected(outer: &Layout, hidden: &Layout) -> Result<View, u64> {
    if !outer.is_sound() || !hidden.is_sound() {
        return Err(11);
    }
    if !nests(outer, hidden) {
        return Err(12);
    }
    let protected_end = hidden.data_start + hidden.data_size;
    Ok(View {
        layout: *outer,
        protected: 1,
        protected_start: hidden.data_start,
        protected_end,
        write_lock: 0,
    })
}

fn nests(outer: &Layout, hidden: &Layout) -> bool {
    outer.kind == STANDARD
        && hidden.kind == HIDDEN
        && outer.host_size == hidden.host_size
        && outer.sector_size == hidden.sector_size
        && outer.data_start <= hidden.data_start
        && hidden.data_end() <= outer.data_end()
}

/// The checks that reads and writes share, in order.
pub fn answer(view: &View, image_size: usize, extent: Extent, buffer_size: usize) -> Answer {
    if !view.is_sound() {
        return Answer::silent(11);
    }
    if image_size as u128 != u128::from(view.layout.host_size) {
        return Answer::silent(13);
    }
    if extent.count > MAX_COUNT {
        return Answer::silent(14);
    }
    if buffer_size as u128 != u128::from(SECTOR) * u128::from(extent.count) {
        return Answer::silent(15);
    }
    if !is_of_whole_sectors(&view.layout, extent) {
        return Answer::silent(20);
    }
    if u128::from(extent.first) + u128::from(extent.count) > u128::from(view.layout.sector_count()) {
        return Answer::telling(16, first_outside(&view.layout, extent));
    }
    Answer::ACCEPTED
}

/// The extent's bytes, counted from the data area's start, begin and end between two of the disk's own sectors.
fn is_of_whole_sectors(layout: &Layout, extent: Extent) -> bool {
    let start = u128::from(SECTOR) * u128::from(extent.first);
    let end = start + u128::from(SECTOR) * u128::from(extent.count);
    [start, end].iter().all(|byte| byte % u128::from(layout.sector_size) == 0)
}

/// The checks of a write: those, then 17 and 18.
pub fn write_answer(view: &View, image_size: usize, extent: Extent, buffer_size: usize) -> Answer {
    let shared = answer(view, image_size, extent, buffer_size);
    if shared != Answer::ACCEPTED {
        return shared;
    }
    if view.write_lock != 0 {
        return Answer::silent(17);
    }
    match first_protected(view, extent) {
        Some(sector) => Answer::telling(18, sector),
        None => Answer::ACCEPTED,
    }
}

/// The extent's user sectors, one after the other. The sum cannot wrap for one who stops at the volume's end.
fn users(extent: Extent) -> impl Iterator<Item = u64> {
    (0..extent.count).map(move |index| extent.first + index)
}

/// The sector in the way of an extent that reaches past the volume's end: the first of its sectors that the map
/// refuses, or where it has none, the one at which it lies.
fn first_outside(layout: &Layout, extent: Extent) -> u64 {
    if extent.count == 0 {
        return extent.first;
    }
    users(extent).find(|user| host_sector(layout, *user) == Err(16)).expect("a sector that the map refuses")
}

/// The first user sector of the extent whose host sector is protected.
fn first_protected(view: &View, extent: Extent) -> Option<u64> {
    users(extent).find(|user| host_sector(&view.layout, *user).is_ok_and(|host| view.protects(host)))
}

/// The host sectors that the map gives for the extent's user sectors.
pub fn covered(layout: &Layout, extent: Extent) -> Vec<u64> {
    users(extent).map(|user| host_sector(layout, user).expect("a sector of the data area")).collect()
}

/// A host sector's bytes in the image.
pub fn bytes_of(host: u64) -> Range<usize> {
    let start = (host * SECTOR) as usize;
    start..start + SECTOR as usize
}

/// Where a read is accepted, the buffer is filled with the covered sectors, one after the other.
pub fn read(view: &View, image: &[u8], extent: Extent, buffer: &mut [u8]) -> Answer {
    let answer = answer(view, image.len(), extent, buffer.len());
    if answer == Answer::ACCEPTED {
        let sectors = buffer.chunks_mut(SECTOR as usize);
        for (bytes, host) in sectors.zip(covered(&view.layout, extent)) {
            bytes.copy_from_slice(&image[bytes_of(host)]);
        }
    }
    answer
}

/// An accepted write copies each sector's bytes, in order, into the covered sectors; 18 closes the lock.
pub fn write(view: &mut View, image: &mut [u8], extent: Extent, buffer: &[u8]) -> Answer {
    let answer = write_answer(view, image.len(), extent, buffer.len());
    if answer == Answer::ACCEPTED {
        let sectors = buffer.chunks(SECTOR as usize);
        for (bytes, host) in sectors.zip(covered(&view.layout, extent)) {
            image[bytes_of(host)].copy_from_slice(bytes);
        }
    }
    if answer.number == 18 {
        view.write_lock = 1;
    }
    answer
}
