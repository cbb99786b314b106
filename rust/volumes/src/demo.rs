//! A tour of what the library does, on the sample.

use std::path::Path;

use ondristela::{crc32, Refusal, View};

use crate::extent::Extent;
use crate::form::Form;
use crate::image::Image;
use crate::judging::volume_name;
use crate::noise::noise;
use crate::problem::Problem;
use crate::reading::read_call;
use crate::sample;
use crate::show::show;
use crate::volumes::{Opened, Volumes};
use crate::wrapping::wrapped;

/// Makes the sample, shows it, then writes and reads both volumes, refusals included. Tells what happened.
pub fn run(folder: &Path) -> Result<String, Problem> {
    let files = sample::make(folder)?;
    let image = Image::to_write(&files.image)?;
    let volumes = Volumes::open(&files, &image)?;
    let shown = show(&files.image, image.size()?, &volumes)?;
    let Volumes { outer: Some(outer), hidden: Some(hidden) } = volumes else { return Ok(shown) };
    let told = tour(outer, hidden, &image)?;
    image.sync()?;
    Ok(format!("{}{shown}\n{told}", sample::made()))
}

// The outer writes are worked cases of docs/RULES.md, M protecting N: outer sector 1,023 is the last before N.
fn tour(outer: Opened, hidden: Opened, image: &Image) -> Result<String, Problem> {
    let (mut outer, mut hidden) = (outer.view, hidden.view);
    let start = Extent { first: 0, count: 1 };
    let before_hidden = Extent { first: 1_023, count: 1 };
    let into_hidden = Extent { first: 1_023, count: 2 };
    let steps = [
        write(&mut outer, image, start, &result(1, start)),
        read(&outer, image, start, &result(1, start)),
        write(&mut hidden, image, start, &result(2, start)),
        write(&mut outer, image, before_hidden, &result(3, before_hidden)),
        write(&mut outer, image, into_hidden, &result(4, into_hidden)),
        write(&mut outer, image, start, &result(5, start)),
        read(&outer, image, start, &result(1, start)),
        read(&hidden, image, start, &result(2, start)),
    ];
    steps.into_iter().collect()
}

// A result as a cipher would hand it over. The four lowest seeds are those of the header areas.
fn result(number: u8, extent: Extent) -> Vec<u8> {
    noise(number + 3, extent.buffer().len())
}

fn write(view: &mut View, image: &Image, extent: Extent, bytes: &[u8]) -> Result<String, Problem> {
    let before = checksum(image)?;
    match view.write_extent(image.size()?, extent.first, extent.count, bytes.len() as u64) {
        Ok(offset) => {
            image.write_at(bytes, offset)?;
            Ok(line("write", view, extent, "accepted"))
        }
        Err(refusal) => {
            let unchanged = if checksum(image)? == before { "image unchanged" } else { "image CHANGED" };
            Ok(line("write", view, extent, unchanged) + &refused(refusal))
        }
    }
}

fn checksum(image: &Image) -> Result<u32, Problem> {
    let mut bytes = vec![0; image.size()? as usize];
    image.read_at(&mut bytes, 0)?;
    Ok(crc32(&bytes))
}

fn read(view: &View, image: &Image, extent: Extent, expected: &[u8]) -> Result<String, Problem> {
    let same = match read_call(view, image, extent, &Form::AsTheyStand)? == expected {
        true => "accepted, as written",
        false => "accepted, NOT as written",
    };
    Ok(line("read", view, extent, same))
}

fn line(verb: &str, view: &View, extent: Extent, outcome: &str) -> String {
    format!("{verb:<5} {:<6} {extent}: {outcome}\n", volume_name(view))
}

fn refused(refusal: Refusal) -> String {
    wrapped(&format!("refused: {refusal}"), 68).into_iter().map(|line| format!("    {line}\n")).collect()
}
