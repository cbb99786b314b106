//! Extents of whole sectors of the disk, which may be larger than the 512 bytes that sectors have here.

use ondristela::{Layout, SECTOR_SIZE};

use crate::extent::Extent;
use crate::thousands::thousands;
use crate::volume::Volume;

/// What is wrong with an extent that is refused 20, and the whole sectors of the disk around it.
pub fn facts(layout: &Layout, extent: Extent) -> Vec<String> {
    let volume = Volume::of(layout.kind).name();
    let multiple = layout.alignment();
    let bytes = thousands(layout.sector_size);
    let mut facts = vec![
        format!("asked for: {volume} {extent}"),
        format!("disk's sectors: {bytes} bytes each, which are {multiple} sectors here"),
    ];
    facts.extend(faults(extent, multiple));
    facts.push(format!("widened: {}", in_volume(layout, extent.widened(multiple))));
    facts
}

fn faults(extent: Extent, multiple: u64) -> impl Iterator<Item = String> {
    let [first, count] = [extent.first, extent.count].map(thousands);
    // A count that a caller makes up may have more bytes than 2^64.
    let bytes = thousands(u128::from(extent.count) * SECTOR_SIZE as u128);
    let numbers = [
        (extent.first, format!("the first sector, {first}")),
        (extent.count, format!("the count, {count} ({bytes} bytes)")),
    ];
    let is_fault = move |(number, _): &(u64, String)| number % multiple != 0;
    let told = move |(_, named)| format!("at fault: {named}, which is no multiple of {multiple}");
    numbers.into_iter().filter(is_fault).map(told)
}

// A widened extent as far as the volume goes, which is of whole sectors of the disk itself.
fn in_volume(layout: &Layout, widened: Extent) -> String {
    let volume = Volume::of(layout.kind).name();
    let sectors = layout.sector_count();
    if widened.first >= sectors {
        let [count, last] = [sectors, sectors - 1].map(thousands);
        return format!("past the end of the {volume} volume, which has {count} sectors, 0 to {last}");
    }
    let part = Extent { count: widened.count.min(sectors - widened.first), ..widened };
    let ends = if part.count < widened.count { ", where the volume ends" } else { "" };
    format!("{volume} {part} ({} bytes){ends}", thousands(part.size()))
}
