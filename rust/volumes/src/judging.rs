//! The library's refusals of an extent, with the facts that tell what to change.

use ondristela::{Refusal, View, MAX_COUNT, SECTOR_SIZE};

use crate::alignment;
use crate::extent::Extent;
use crate::image::Image;
use crate::problem::Problem;
use crate::sizes::size;
use crate::thousands::thousands;
use crate::volume::Volume;

/// Whether a volume has all sectors of an extent, and they are whole sectors of the disk, however many calls it takes.
/// It is refused 20 and 16 as one call for all of it would be, be it a read or a write. Nothing is asked of the lock
/// and the protected range.
pub fn judge_extent(view: &View, image: &Image, extent: Extent) -> Result<(), Problem> {
    for part in [rest(extent), past_end(view, extent)] {
        view.read_extent(image.size()?, part.first, part.count, part.size())
            .map_err(|refusal| refused(refusal, view, image, extent))?;
    }
    Ok(())
}

/// Whether every call of a write is accepted, asked before the first byte is written, so that a write of several
/// calls is never refused part-way.
pub fn judge_write(view: &mut View, image: &Image, extent: Extent) -> Result<(), Problem> {
    judge_extent(view, image, extent)?;
    let host_size = image.size()?;
    for call in extent.calls() {
        let answer = view.write_extent(host_size, call.first, call.count, call.size());
        answer.map_err(|refusal| refused(refusal, view, image, extent))?;
    }
    Ok(())
}

// An extent without as many full calls as its count has. These are of whole sectors of any disk, so it is refused 20
// exactly where the whole extent would be; and 16 only where that would be, with the same sector in the way.
fn rest(extent: Extent) -> Extent {
    Extent { count: extent.count % MAX_COUNT, ..extent }
}

// The part of an extent past the volume's end, as far as one call takes it: no sectors, where there is none. Of an
// extent that is not refused 20, it is refused 16 exactly where the whole would be, and with the same sector in the
// way.
fn past_end(view: &View, extent: Extent) -> Extent {
    let first = extent.first.max(view.layout.sector_count());
    let before = first - extent.first;
    Extent { first, count: extent.count.saturating_sub(before).min(MAX_COUNT) }
}

/// A refusal of an extent, or of a call for a part of it.
pub fn refused(refusal: Refusal, view: &View, image: &Image, extent: Extent) -> Problem {
    let facts = match refusal {
        Refusal::ImageSize => {
            vec![image.fact(), format!("opened with: {}", size(view.layout.host_size))]
        }
        Refusal::Outside { sector: Some(sector) } => outside(view, extent, sector),
        Refusal::Protected { sector } => {
            protected(view, extent, sector).unwrap_or_else(|other| vec![other.to_string()])
        }
        Refusal::Unaligned => alignment::facts(&view.layout, extent),
        _ => Vec::new(),
    };
    facts.into_iter().fold(Problem::refused(refusal), Problem::fact)
}

/// A view's volume, as the command line has it.
pub fn volume_name(view: &View) -> &'static str {
    Volume::of(view.layout.kind).name()
}

/// An extent's first and last sector, for a message.
pub fn sectors(view: &View, extent: Extent) -> String {
    let [first, last] = [extent.first, extent.end() - 1].map(thousands);
    format!("{} sectors {first} to {last}", volume_name(view))
}

// The facts where a sector is in the way that the volume does not have.
fn outside(view: &View, extent: Extent, sector: u64) -> Vec<String> {
    let volume = volume_name(view);
    let count = view.layout.sector_count();
    // No call of the library maps such a sector; far enough out, its number in the host is above 2^64.
    let host = u128::from(view.layout.data_start / SECTOR_SIZE as u64) + u128::from(sector);
    let (user, place) = (thousands(sector), place(host));
    vec![
        format!("asked for: {volume} {extent}"),
        format!("{volume} volume: {} sectors, 0 to {}", thousands(count), thousands(count - 1)),
        format!("in the way: {volume} sector {user}, which the volume does not have; it would be {place}"),
        match before(extent, sector) {
            Some(part) => format!("before it: the volume has {part}"),
            None => NOTHING_BEFORE.to_string(),
        },
    ]
}

// The facts where a protected sector is in the way.
fn protected(view: &View, extent: Extent, sector: u64) -> Result<Vec<String>, Refusal> {
    let volume = volume_name(view);
    let place = place(view.layout.host_sector(sector)?.into());
    Ok(vec![
        format!("asked for: {volume} {extent}"),
        format!("protected: {}", protected_sectors(view)?),
        format!("in the way: {volume} sector {}, which is the hidden volume's: {place}", thousands(sector)),
        match before(extent, sector) {
            Some(part) => format!("before it: {part} would have fit"),
            None => NOTHING_BEFORE.to_string(),
        },
    ])
}

const NOTHING_BEFORE: &str = "before it: none of what was asked for";

// How much of an extent lies before a sector of it, if anything does.
fn before(extent: Extent, sector: u64) -> Option<String> {
    let part = Extent { count: sector - extent.first, ..extent };
    let [count, bytes, all] = [part.count, part.size(), extent.count].map(thousands);
    match part.count {
        0 => None,
        1 => Some(format!("1 sector ({bytes} bytes) of the {all}")),
        _ => Some(format!("{count} sectors ({bytes} bytes) of the {all}")),
    }
}

fn place(host: u128) -> String {
    let [sector, byte] = [host, host * SECTOR_SIZE as u128].map(thousands);
    format!("host sector {sector}, from byte {byte} on")
}

// The protected range, as sectors of the volume.
fn protected_sectors(view: &View) -> Result<String, Refusal> {
    let Some(range) = &view.protected else { return Ok("nothing".to_string()) };
    let sector_size = SECTOR_SIZE as u64;
    let first = view.layout.user_sector(range.start / sector_size)?;
    let last = view.layout.user_sector(range.end / sector_size - 1)?;
    Ok(sectors(view, Extent { first, count: last - first + 1 }))
}

#[cfg(test)]
mod tests {
    use ondristela::{Kind, Layout, Magic, Refusal, View, MAX_COUNT};

    use super::{past_end, rest};
    use crate::extent::Extent;

    // A volume of six sectors of the disk, all of them protected.
    fn view(sector_size: u64) -> View {
        let layout = Layout {
            host_size: 262_144 + 6 * sector_size,
            kind: Kind::Standard,
            magic: Magic::Vera,
            version: 5,
            min_program_version: 267,
            data_start: 131_072,
            data_size: 6 * sector_size,
            candidate: 0,
            sector_size,
        };
        View { layout, protected: Some(131_072..131_072 + 6 * sector_size), locked: false }
    }

    fn judged(view: &View, extent: Extent) -> Option<Refusal> {
        let host_size = view.layout.host_size;
        let read = |part: Extent| view.read_extent(host_size, part.first, part.count, part.size()).err();
        read(rest(extent)).or_else(|| read(past_end(view, extent)))
    }

    // How a write of one call is refused, if not for what is protected.
    fn written(mut view: View, extent: Extent) -> Option<Refusal> {
        let host_size = view.layout.host_size;
        let answer = view.write_extent(host_size, extent.first, extent.count, extent.size());
        answer.err().filter(|refusal| refusal.number() != 18)
    }

    /// The two parts are refused as the whole is, but for what lies in the volume.
    #[test]
    fn the_parts_speak_for_the_whole() {
        let firsts = || (0..50).chain([1 << 55, u64::MAX - 7, u64::MAX - 1, u64::MAX]);
        let extents = || firsts().flat_map(|first| (0..=MAX_COUNT).map(move |count| Extent { first, count }));
        let views = [512, 1_024, 2_048, 4_096].map(view);
        for (view, extent) in views.iter().flat_map(|view| extents().map(move |extent| (view, extent))) {
            assert_eq!(judged(view, extent), written(view.clone(), extent), "{extent}");
        }
    }

    /// Extents of more sectors than a call takes, up to the last that can be told.
    #[test]
    fn long_extents_reach_the_end_at_the_same_sector() {
        let outside = |sector| Some(Refusal::Outside { sector: Some(sector) });
        let extents = [
            (512, 0, 129, outside(6)),
            (512, 5, u64::MAX, outside(6)),
            (512, 1, 1 << 34, outside(6)),
            (512, 6, u64::MAX - 6, outside(6)),
            (512, 7, 1 << 34, outside(7)),
            (4_096, 40, 136, outside(48)),
            (4_096, 8, u64::MAX - 7, outside(48)),
            (4_096, u64::MAX - 7, u64::MAX - 7, outside(u64::MAX - 7)),
            (4_096, 0, 129, Some(Refusal::Unaligned)),
            (4_096, 4, 1 << 34, Some(Refusal::Unaligned)),
            (4_096, 0, u64::MAX, Some(Refusal::Unaligned)),
        ];
        for (sector_size, first, count, refusal) in extents {
            let extent = Extent { first, count };
            assert_eq!(judged(&view(sector_size), extent), refusal, "{extent}");
        }
    }
}
