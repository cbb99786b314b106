//! Copies a volume's sectors into a file.

use std::path::Path;

use ondristela::View;

use crate::arguments::Files;
use crate::extent::Extent;
use crate::form::Form;
use crate::image::Image;
use crate::judging::{judge_extent, refused, sectors};
use crate::names::destination;
use crate::new_file::SHARED;
use crate::notes::reported;
use crate::problem::Problem;
use crate::progress::Progress;
use crate::system;
use crate::target::Target;
use crate::volume::Volume;
use crate::volumes::{Opened, Volumes};

/// Copies an extent into a new file, or to standard output, deciphered if plaintext is asked for. A read that is refused
/// makes no file.
pub fn read(
    files: &Files,
    volume: Volume,
    extent: Extent,
    path: &Path,
    plaintext: bool,
) -> Result<String, Problem> {
    let image = Image::to_read(&files.image)?;
    let Opened { view, key, .. } = Volumes::open(files, &image)?.into_opened(volume)?;
    let form = Form::of(plaintext, key);
    judge_extent(&view, &image, extent)?;
    copy(&view, &image, extent, Target::open(path, SHARED)?, &form)?;
    let (name, done) = (volume.name(), form.told("deciphered"));
    Ok(reported(format!("read {name} {extent}{done}, {}\n", destination(path)), path))
}

fn copy(view: &View, image: &Image, extent: Extent, mut target: Target, form: &Form) -> Result<(), Problem> {
    let mut progress = Progress::new("read", extent);
    for call in extent.calls() {
        if system::caught() {
            return Err(Problem::interrupted().fact("the copy, which was not whole, is removed".to_string()));
        }
        target.write(&read_call(view, image, call, form)?)?;
        progress.add(call);
    }
    progress.wait();
    target.finish()
}

/// The bytes of an extent that one call takes.
pub fn read_call(view: &View, image: &Image, call: Extent, form: &Form) -> Result<Vec<u8>, Problem> {
    let mut buffer = call.buffer();
    let offset = view
        .read_extent(image.size()?, call.first, call.count, buffer.len() as u64)
        .map_err(|refusal| refused(refusal, view, image, call))?;
    let unread = |problem: Problem| problem.fact(format!("not read: {}", sectors(view, call)));
    image.read_at(&mut buffer, offset).map_err(unread)?;
    form.decipher(&mut buffer, offset);
    Ok(buffer)
}
