//! Where a write takes its bytes: a file, or standard input, kept in a file without a name.

use std::env;
use std::fs::{self, File};
use std::io::{self, Read, Write};
use std::os::unix::fs::FileExt;
use std::path::{Path, PathBuf};

use ondristela::{Layout, SECTOR_SIZE};

use crate::extent::Extent;
use crate::image::cut_short;
use crate::names::shown;
use crate::new_file::create_nameless;
use crate::problem::Problem;
use crate::sizes::size;
use crate::thousands::thousands;

/// Bytes, and the extent that they are to fill.
pub struct Source {
    path: PathBuf,
    file: File,
    pub extent: Extent,
}

impl Source {
    /// A regular file. Others are turned away, because their size is not known beforehand.
    pub fn open(path: &Path, first: u64, layout: &Layout) -> Result<Source, Problem> {
        // Looked at before it is opened: a pipe would wait for its other end.
        let metadata = fs::metadata(path).map_err(Problem::file(path))?;
        if !metadata.is_file() {
            return Err(Problem::file(path)("not a regular file; a pipe is taken from standard input, as -"));
        }
        let file = File::open(path).map_err(Problem::file(path))?;
        let bytes = file.metadata().map_err(Problem::file(path))?.len();
        Source::of_size(path, file, first, bytes, layout)
    }

    /// Standard input, copied to its end before anything is written, as long as `fits` has no objection to its
    /// extent so far, as many whole sectors of the disk as there are. So all of a pipe is judged first, as all of a
    /// file is, and an endless one ends.
    pub fn spool(
        first: u64,
        layout: &Layout,
        mut fits: impl FnMut(Extent) -> Result<(), Problem>,
    ) -> Result<Source, Problem> {
        let folder = env::temp_dir();
        let mut file = create_nameless(&folder).map_err(Problem::file(&folder))?;
        let so_far = |bytes| Extent { first, count: bytes / layout.sector_size * layout.alignment() };
        let bytes = copy_input(&mut file, &folder, |bytes| fits(so_far(bytes)))?;
        Source::of_size(Path::new("standard input"), file, first, bytes, layout)
    }

    // Whole sectors of 512 bytes that are no whole ones of the disk are left to the library, which refuses them 20.
    fn of_size(path: &Path, file: File, first: u64, bytes: u64, layout: &Layout) -> Result<Source, Problem> {
        let (count, rest) = (bytes / SECTOR_SIZE as u64, bytes % SECTOR_SIZE as u64);
        if bytes == 0 {
            return Err(Problem::file(path)("empty, so there is nothing to write"));
        }
        if rest != 0 {
            let (bytes, sector) = (size(bytes), thousands(layout.sector_size));
            let ground =
                format!("{bytes} are no whole number of {sector}-byte sectors, so nothing was written");
            return Err(Problem::file(path)(ground));
        }
        Ok(Source { path: path.to_owned(), file, extent: Extent { first, count } })
    }

    /// Its name, for a message.
    pub fn name(&self) -> String {
        shown(&self.path)
    }

    /// The bytes for one call.
    pub fn bytes(&self, call: Extent) -> Result<Vec<u8>, Problem> {
        let mut buffer = call.buffer();
        let offset = (call.first - self.extent.first) * SECTOR_SIZE as u64;
        let answer = self.file.read_exact_at(&mut buffer, offset);
        answer.map_err(cut_short).map_err(Problem::file(&self.path))?;
        Ok(buffer)
    }
}

fn copy_input(
    file: &mut File,
    folder: &Path,
    mut fits: impl FnMut(u64) -> Result<(), Problem>,
) -> Result<u64, Problem> {
    let mut input = io::stdin().lock();
    let mut buffer = vec![0; 65_536];
    let mut bytes = 0;
    loop {
        let count = match input.read(&mut buffer) {
            Ok(0) => return Ok(bytes),
            Ok(count) => count,
            Err(error) if error.kind() == io::ErrorKind::Interrupted => continue,
            Err(error) => return Err(Problem::file(Path::new("standard input"))(error)),
        };
        let no_room = |problem: Problem| problem.next("set TMPDIR to a folder with room for standard input");
        file.write_all(&buffer[..count]).map_err(Problem::file(folder)).map_err(no_room)?;
        bytes += count as u64;
        fits(bytes)?;
    }
}
