//! What the parts of a disk with volumes are for.

use std::ops::Range;

use ondristela::{Layout, Location, Refusal};

use crate::thousands::thousands;

/// Each header lies at the start of an area of so many bytes.
pub const HEADER_AREA_SIZE: u64 = 65_536;

/// The bytes between the two header areas at a disk's start and the two at its end: the room for data. The library
/// judges what lies there; this is for what a command leaves out, and for messages.
pub fn room(host_size: u64) -> Range<u64> {
    2 * HEADER_AREA_SIZE..host_size.saturating_sub(2 * HEADER_AREA_SIZE)
}

/// The use of a region.
#[derive(Clone, Copy, PartialEq)]
pub enum Use {
    Headers,
    Outer,
    Hidden,
    Unused,
    Unknown,
}

/// A range of the disk's bytes that has one use.
pub struct Region {
    pub name: &'static str,
    pub used: Use,
    /// Whether it lies in the outer volume, as the hidden one does.
    pub in_outer: bool,
    pub start: u64,
    pub end: u64,
}

/// The regions from the disk's start to its end. Those without a byte are left out.
pub fn regions(
    host_size: u64,
    outer: Option<Layout>,
    hidden: Option<Layout>,
) -> Result<Vec<Region>, Refusal> {
    let starts = starts(host_size, outer, hidden)?;
    let ends = starts.iter().skip(1).map(|next| next.0).chain([host_size]);
    let in_outer = |used| outer.is_some() && matches!(used, Use::Outer | Use::Hidden);
    let region = |(&(start, used, name), end): (&Start, u64)| {
        let in_outer = in_outer(used);
        Region { name, used, in_outer, start, end }
    };
    Ok(starts.iter().zip(ends).map(region).filter(|region| region.start < region.end).collect())
}

type Start = (u64, Use, &'static str);

// Where each region begins. Without an outer volume nothing is known of what lies around the hidden one.
fn starts(host_size: u64, outer: Option<Layout>, hidden: Option<Layout>) -> Result<Vec<Start>, Refusal> {
    let [header, hidden_header, backup, hidden_backup] =
        Location::ALL.map(|location| location.offset(host_size));
    let mut starts = vec![
        (header?, Use::Headers, "outer header area"),
        (hidden_header?, Use::Headers, "hidden header area"),
    ];
    let around = |start| match outer {
        Some(_) => (start, Use::Outer, "outer data"),
        None => (start, Use::Unknown, "not known"),
    };
    starts.push(around(outer.map_or(hidden_header? + HEADER_AREA_SIZE, |outer| outer.data_start)));
    if let Some(hidden) = hidden {
        starts.push((hidden.data_start, Use::Hidden, "hidden data"));
        starts.push(around(hidden.data_start + hidden.data_size));
    }
    starts.extend(outer.map(|outer| (outer.data_start + outer.data_size, Use::Unused, "unused")));
    starts.push((backup?, Use::Headers, "outer backup area"));
    starts.push((hidden_backup?, Use::Headers, "hidden backup area"));
    Ok(starts)
}

/// The regions' names and bytes, numbered from 1.
pub fn list(regions: &[Region]) -> String {
    let heading = row("", "region", "first byte", "last byte", width(regions));
    let rows = regions.iter().zip(1..).map(|(region, number)| {
        let (first, last) = (thousands(region.start), thousands(region.end - 1));
        row(&number.to_string(), region.name, &first, &last, width(regions))
    });
    [heading].into_iter().chain(rows).collect()
}

fn width(regions: &[Region]) -> usize {
    regions.iter().map(|region| thousands(region.end - 1).len()).max().unwrap_or(0).max("first byte".len())
}

fn row(number: &str, name: &str, first: &str, last: &str, width: usize) -> String {
    format!("{number:>3}  {name:<18}  {first:>width$}  {last:>width$}\n")
}
