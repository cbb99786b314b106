//! What `show` prints: where each volume lies, as a table and as a picture.

use std::path::Path;

use ondristela::{Kind, Layout, Location, Refusal};

use crate::formats::magic_name;
use crate::names::shown;
use crate::picture::picture;
use crate::problem::Problem;
use crate::regions::{list, regions};
use crate::sizes::{short, size};
use crate::thousands::thousands;
use crate::volumes::{Opened, Volumes};

/// Where the volumes of an image lie.
pub fn show(image: &Path, host_size: u64, volumes: &Volumes) -> Result<String, Problem> {
    let name = shown(Path::new(image.file_name().unwrap_or(image.as_os_str())));
    let layout = |opened: &Option<Opened>| opened.as_ref().map(|opened| opened.view.layout);
    let regions = regions(host_size, layout(&volumes.outer), layout(&volumes.hidden))?;
    let told = disk_sectors(volumes) + &table(volumes)?;
    let drawn = picture(&regions) + &list(&regions);
    Ok(format!("{name}, {}\n{told}\n{drawn}", size(host_size)))
}

// A line on the disk's sectors, where they are larger than those that are counted here. Both volumes tell the same of
// them, or they would not nest.
fn disk_sectors(volumes: &Volumes) -> String {
    let opened = volumes.outer.as_ref().or(volumes.hidden.as_ref());
    let larger = opened.map(|opened| opened.view.layout).filter(|layout| layout.alignment() > 1);
    larger.map_or(String::new(), |layout| {
        let (bytes, multiple) = (thousands(layout.sector_size), layout.alignment());
        format!("disk's sectors: {bytes} bytes, {multiple} of those below; FIRST and COUNT are multiples of {multiple}\n")
    })
}

// A column of labels and one for each volume.
fn table(volumes: &Volumes) -> Result<String, Refusal> {
    let mut columns = Vec::new();
    for (name, opened) in [("outer", &volumes.outer), ("hidden", &volumes.hidden)] {
        columns.extend(opened.iter().map(|opened| facts(name, opened)));
    }
    let columns = columns.into_iter().collect::<Result<Vec<_>, Refusal>>()?;
    let width = columns.iter().flatten().map(|fact| fact.len()).max().unwrap_or(0);
    let row = |(index, label): (usize, &&str)| {
        let cells: Vec<_> = columns.iter().map(|column| format!("{:>width$}", column[index])).collect();
        format!("{label:<23}{}\n", cells.join("  "))
    };
    Ok(LABELS.iter().enumerate().map(row).collect())
}

const LABELS: [&str; 11] = [
    "",
    "kind",
    "magic",
    "version",
    "header",
    "size",
    "data area, first byte",
    "data area, last byte",
    "sectors",
    "first host sector",
    "last host sector",
];

// What is told of a volume, in the order of the labels.
fn facts(name: &str, opened: &Opened) -> Result<[String; 11], Refusal> {
    let layout: &Layout = &opened.view.layout;
    let last = layout.sector_count() - 1;
    Ok([
        name.to_string(),
        kind_name(layout.kind).to_string(),
        magic_name(layout.magic).to_string(),
        layout.version.to_string(),
        opened.header.map_or("not on it", header_name).to_string(),
        short(layout.data_size),
        thousands(layout.data_start),
        thousands(layout.data_start + layout.data_size - 1),
        thousands(layout.sector_count()),
        thousands(layout.host_sector(0)?),
        thousands(layout.host_sector(last)?),
    ])
}

fn kind_name(kind: Kind) -> &'static str {
    match kind {
        Kind::Standard => "standard",
        Kind::Hidden => "hidden",
    }
}

/// Which of its volume's two headers lies there.
pub fn header_name(location: Location) -> &'static str {
    match location {
        Location::Standard | Location::Hidden => "main",
        Location::StandardBackup | Location::HiddenBackup => "backup",
    }
}
