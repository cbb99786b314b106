//! A sample to work on: the volume M of docs/RULES.md, with N hidden in it.

use std::fs::{self, File, OpenOptions};
use std::io::{self, Write};
use std::os::unix::fs::FileExt;
use std::path::Path;

use ondristela::{Location, Refusal};

use crate::arguments::Files;
use crate::noise::noise;
use crate::problem::Problem;
use crate::regions::HEADER_AREA_SIZE;
use crate::sample_headers::{self, header};
use crate::small_file;

const HOST_SIZE: u64 = 1_048_576;

// The image and the two headers.
const NAMES: [&str; 3] = ["disk.img", "outer.header", "hidden.header"];

/// Makes a folder with the sample. No file is overwritten but those of an earlier sample.
pub fn make(folder: &Path) -> Result<Files, Problem> {
    let [image, outer_header, hidden_header] = NAMES.map(|name| folder.join(name));
    let outer = header(sample_headers::OUTER, HOST_SIZE)?;
    let hidden = header(sample_headers::HIDDEN, HOST_SIZE)?;
    let areas = header_areas()?;
    let again = small_file::read(&outer_header).is_ok_and(|earlier| earlier == outer);
    fs::create_dir_all(folder).map_err(Problem::file(folder))?;
    make_file(&image, again, |file| fill_image(file, &areas))?;
    make_file(&outer_header, again, |file| file.write_all(&outer))?;
    make_file(&hidden_header, again, |file| file.write_all(&hidden))?;
    Ok(Files {
        image,
        outer_header: Some(outer_header),
        hidden_header: Some(hidden_header),
        risk_wrong_disk: false,
    })
}

/// What was made.
pub fn made() -> String {
    format!("made {}\n", NAMES.join(", "))
}

fn make_file(path: &Path, again: bool, fill: impl Fn(&mut File) -> io::Result<()>) -> Result<(), Problem> {
    let mut options = OpenOptions::new();
    options.write(true).create_new(!again).create(again).truncate(again);
    options.open(path).and_then(|mut file| fill(&mut file)).map_err(Problem::file(path))
}

// Where each header area begins, and its bytes. In a real image a header stands enciphered at the start of
// its area, and looks like these.
fn header_areas() -> Result<Vec<(u64, Vec<u8>)>, Refusal> {
    let area = |location: Location| {
        let offset = location.offset(HOST_SIZE)?;
        Ok((offset, noise(location.code(), HEADER_AREA_SIZE as usize)))
    };
    Location::ALL.into_iter().map(area).collect()
}

// The data areas are left as holes.
fn fill_image(file: &File, areas: &[(u64, Vec<u8>)]) -> io::Result<()> {
    file.set_len(HOST_SIZE)?;
    areas.iter().try_for_each(|(offset, bytes)| file.write_all_at(bytes, *offset))
}
