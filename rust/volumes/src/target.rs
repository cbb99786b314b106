//! Where a command puts its bytes: a new file, which has its name only once it is whole, or standard output.

use std::fs::{self, File};
use std::io::{self, IsTerminal, Write};
use std::os::fd::AsFd;
use std::path::{Path, PathBuf};

use crate::names::is_stream;
use crate::new_file::create_in;
use crate::problem::Problem;
use crate::system;

pub enum Target {
    Output(File),
    NewFile { path: PathBuf, partial: Partial },
}

impl Target {
    /// Opens the target, a new file with this mode. A file that is there already is left alone: it might be the
    /// image.
    pub fn open(path: &Path, mode: u32) -> Result<Target, Problem> {
        if is_stream(path) {
            return output().map(Target::Output).map_err(Problem::file(path));
        }
        // A signal would leave half a file; a pipe has an end by itself.
        system::catch_signals();
        let partial = absent(path).and_then(|()| Partial::beside(path, mode)).map_err(Problem::file(path))?;
        Ok(Target::NewFile { path: path.to_owned(), partial })
    }

    pub fn write(&mut self, bytes: &[u8]) -> Result<(), Problem> {
        match self {
            Target::Output(output) => {
                output.write_all(bytes).map_err(Problem::file(Path::new("standard output")))
            }
            Target::NewFile { path, partial } => partial.file.write_all(bytes).map_err(Problem::file(path)),
        }
    }

    /// Gives the whole file its name, once its bytes are on the disk.
    pub fn finish(self) -> Result<(), Problem> {
        match self {
            Target::Output(_) => Ok(()),
            Target::NewFile { path, partial } => partial.publish(&path).map_err(Problem::file(&path)),
        }
    }
}

// Not through `io::stdout`, which would look for line ends in the bytes.
fn output() -> io::Result<File> {
    let output = io::stdout();
    if output.is_terminal() {
        let ground = "standard output is a terminal: name a file, or let a program take the bytes";
        return Err(io::Error::new(io::ErrorKind::InvalidInput, ground));
    }
    output.as_fd().try_clone_to_owned().map(File::from)
}

fn absent(path: &Path) -> io::Result<()> {
    match fs::symlink_metadata(path) {
        Ok(_) => Err(io::Error::new(io::ErrorKind::AlreadyExists, "it is there already; name a new file")),
        Err(error) if error.kind() == io::ErrorKind::NotFound => Ok(()),
        Err(error) => Err(error),
    }
}

/// A file that is not whole yet, under a name of its own. Dropped, it is removed, so that half a copy is never
/// taken for a whole one.
pub struct Partial {
    path: PathBuf,
    file: File,
}

impl Partial {
    fn beside(target: &Path, mode: u32) -> io::Result<Partial> {
        let (path, file) = create_in(folder_of(target), mode)?;
        Ok(Partial { path, file })
    }

    // A link, unlike a renaming, never replaces a file that came to be meanwhile; the other name goes when
    // this is dropped. Where the file system has no links, one more look must do.
    fn publish(self, target: &Path) -> io::Result<()> {
        self.file.sync_all()?;
        match fs::hard_link(&self.path, target) {
            Ok(()) => {}
            Err(error) if error.kind() == io::ErrorKind::AlreadyExists => return Err(error),
            Err(_) => absent(target).and_then(|()| fs::rename(&self.path, target))?,
        }
        // The name as well, where the file system lets a folder be synced.
        let _ = File::open(folder_of(target)).and_then(|folder| folder.sync_all());
        Ok(())
    }
}

impl Drop for Partial {
    fn drop(&mut self) {
        // After a renaming there is nothing left to remove.
        let _ = fs::remove_file(&self.path);
    }
}

fn folder_of(path: &Path) -> &Path {
    match path.parent() {
        Some(folder) if folder != Path::new("") => folder,
        _ => Path::new("."),
    }
}
