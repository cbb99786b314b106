//! Copies a file into a volume's sectors.

use std::path::Path;

use ondristela::{Kind, View};

use crate::arguments::Files;
use crate::extent::Extent;
use crate::form::Form;
use crate::image::Image;
use crate::judging::{judge_extent, judge_write, refused, sectors};
use crate::names::is_stream;
use crate::notes::note;
use crate::problem::Problem;
use crate::progress::Progress;
use crate::source::Source;
use crate::system;
use crate::volume::Volume;
use crate::volumes::{Opened, Volumes};

/// Copies a whole file, or standard input, into a volume, from sector `first` on, enciphered if it is plaintext. A write
/// that is refused changes nothing.
pub fn write(
    files: &Files,
    volume: Volume,
    first: u64,
    path: &Path,
    plaintext: bool,
) -> Result<String, Problem> {
    let image = Image::to_write(&files.image)?;
    let Opened { mut view, key, .. } = Volumes::open(files, &image)?.into_opened(volume)?;
    let (layout, form) = (view.layout, Form::of(plaintext, key));
    let source = match is_stream(path) {
        true => Source::spool(first, &layout, |extent| judge_input(&view, &image, extent))?,
        false => Source::open(path, first, &layout)?,
    };
    judge_write(&mut view, &image, source.extent)?;
    if view.layout.kind == Kind::Standard && view.protected.is_none() {
        note(
            "note: no --hidden header is given, so nothing is protected: a hidden volume may be overwritten",
        );
    }
    copy_and_sync(&mut view, &image, &source, &form)?;
    let (name, done) = (volume.name(), form.told("enciphered"));
    Ok(format!("wrote {name} {}{done}, from {}\n", source.extent, source.name()))
}

// Of standard input that goes on, no more is known than what has come so far.
fn judge_input(view: &View, image: &Image, so_far: Extent) -> Result<(), Problem> {
    judge_extent(view, image, so_far)
        .map_err(|problem| problem.fact("standard input was read no further".to_string()))
}

// Signals are caught from here on, so that none ends the program within a call.
fn copy_and_sync(view: &mut View, image: &Image, source: &Source, form: &Form) -> Result<(), Problem> {
    system::catch_signals();
    let mut progress = Progress::new("written", source.extent);
    let copied = copy(view, image, source, form, &mut progress);
    progress.wait();
    let uncertain = format!("uncertain: {}, which may not be on the disk", sectors(view, source.extent));
    match (copied, image.sync()) {
        (copied, Ok(())) => copied,
        (Ok(()), Err(problem)) => Err(problem.part_way().fact(uncertain)),
        (Err(problem), Err(_)) => Err(problem.fact(uncertain)),
    }
}

fn copy(
    view: &mut View,
    image: &Image,
    source: &Source,
    form: &Form,
    progress: &mut Progress,
) -> Result<(), Problem> {
    let extent = source.extent;
    for call in extent.calls() {
        let written = Extent { count: call.first - extent.first, ..extent };
        let copied = copy_call(view, image, source, form, call);
        copied.map_err(|problem| part_way(problem, view, written, extent))?;
        progress.add(call);
    }
    // Once more at the end: the image may have been cut short during the last call.
    judge_extent(view, image, extent).map_err(|problem| part_way(problem, view, extent, extent))
}

// Writes the bytes to an extent that one call takes. Nothing is enciphered before the call is accepted.
fn copy_call(
    view: &mut View,
    image: &Image,
    source: &Source,
    form: &Form,
    call: Extent,
) -> Result<(), Problem> {
    if system::caught() {
        return Err(Problem::interrupted());
    }
    let mut bytes = source.bytes(call)?;
    let answer = view.write_extent(image.size()?, call.first, call.count, bytes.len() as u64);
    let offset = answer.map_err(|refusal| refused(refusal, view, image, call))?;
    form.encipher(&mut bytes, offset);
    image.write_at(&bytes, offset).map_err(|problem| {
        problem.fact(format!("uncertain: {}, which may be written in part", sectors(view, call)))
    })
}

fn part_way(problem: Problem, view: &View, written: Extent, all: Extent) -> Problem {
    let all = sectors(view, all);
    let fact = match written.count {
        0 => format!("written: none of {all}"),
        _ => format!("written: {}, of {all}", sectors(view, written)),
    };
    problem.part_way().fact(fact).next("the same command, given again, writes all of them once more")
}
