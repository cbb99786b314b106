//! A disk drawn as a row of boxes, one for each region.
//!
//! Between the header areas the boxes are as wide as their regions are large, but at least one column. The
//! header areas have boxes of a fixed width: on a large disk nothing would be seen of them.

use crate::regions::{Region, Use};

const WIDTH: usize = 72;
const HEADER_BOX: usize = 3;

/// The picture: the outer volume's extent above the numbered boxes, the hidden one's below.
pub fn picture(regions: &[Region]) -> String {
    let boxes: Vec<(&Region, usize)> = regions.iter().zip(widths(regions)).collect();
    [above(&boxes), numbered(&boxes), below(&boxes)].concat()
}

// Each box has a least width, and its share of the columns that remain. The shares are cut off the running
// sum of the sizes, so that together they fill the picture.
fn widths(regions: &[Region]) -> Vec<usize> {
    let least = |region: &Region| if region.used == Use::Headers { HEADER_BOX } else { 1 };
    let size = |region: &Region| if region.used == Use::Headers { 0 } else { region.end - region.start };
    let borders = regions.len() + 1;
    let free = (WIDTH - borders - regions.iter().map(least).sum::<usize>()) as u64;
    let total: u64 = regions.iter().map(size).sum();
    let mut before = 0;
    let mut share = |size: u64| {
        let start = before * free / total;
        before += size;
        (before * free / total - start) as usize
    };
    regions.iter().map(|region| least(region) + share(size(region))).collect()
}

// The outer volume is undivided here, since the hidden one lies inside it.
fn above(boxes: &[(&Region, usize)]) -> String {
    let mut spans: Vec<(&str, usize)> = Vec::new();
    for &(region, width) in boxes {
        let volume = if region.in_outer { "outer" } else { "" };
        match spans.last_mut() {
            Some((last, span)) if !volume.is_empty() && *last == volume => *span += 1 + width,
            _ => spans.push((volume, width)),
        }
    }
    framed('+', spans.into_iter().map(|(volume, width)| labelled(volume, width)))
}

fn numbered(boxes: &[(&Region, usize)]) -> String {
    let drawn = |(&(region, width), number): (&(&Region, usize), usize)| {
        centred(&number.to_string(), width, fill(region.used))
    };
    framed('|', boxes.iter().zip(1..).map(drawn))
}

fn below(boxes: &[(&Region, usize)]) -> String {
    let volume = |region: &Region| if region.used == Use::Hidden { "hidden" } else { "" };
    framed('+', boxes.iter().map(|&(region, width)| labelled(volume(region), width)))
}

// A border that names a volume, in full where there is room.
fn labelled(volume: &str, width: usize) -> String {
    let full = format!("{volume} volume");
    let label = if !volume.is_empty() && full.len() <= width { &full } else { volume };
    centred(label, width, '-')
}

fn fill(used: Use) -> char {
    match used {
        Use::Headers | Use::Unused => ' ',
        Use::Unknown => '?',
        Use::Outer => '.',
        Use::Hidden => '#',
    }
}

fn framed(border: char, parts: impl Iterator<Item = String>) -> String {
    let line: String = parts.map(|part| format!("{border}{part}")).collect();
    format!("{line}{border}\n")
}

// With a space on either side where there is room; a text that has no room at all is left out.
fn centred(text: &str, width: usize, fill: char) -> String {
    let text = match text.len() {
        0 => String::new(),
        length if length > width => String::new(),
        length if length + 2 > width => text.to_string(),
        _ => format!(" {text} "),
    };
    let left = (width - text.len()) / 2;
    let right = width - text.len() - left;
    let filled = |count| String::from(fill).repeat(count);
    format!("{}{text}{}", filled(left), filled(right))
}
