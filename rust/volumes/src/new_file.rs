//! New files whose names nobody else uses.

use std::fs::{self, File, OpenOptions};
use std::io;
use std::os::unix::fs::OpenOptionsExt;
use std::path::{Path, PathBuf};
use std::process;

/// The mode of a file that others may read, as far as the user's mask lets them.
pub const SHARED: u32 = 0o666;

/// The mode of a file that its owner alone may read.
pub const PRIVATE: u32 = 0o600;

/// Makes a file in a folder, to be read and written, under a name that nothing there has.
pub fn create_in(folder: &Path, mode: u32) -> io::Result<(PathBuf, File)> {
    for number in 0.. {
        let path = folder.join(format!(".volumes-{}-{number}.part", process::id()));
        match OpenOptions::new().read(true).write(true).create_new(true).mode(mode).open(&path) {
            // One that a killed run has left.
            Err(error) if error.kind() == io::ErrorKind::AlreadyExists => {}
            Err(error) => return Err(error),
            Ok(file) => return Ok((path, file)),
        }
    }
    unreachable!("the numbers do not end")
}

/// Makes a file without a name, which is gone once it is closed.
pub fn create_nameless(folder: &Path) -> io::Result<File> {
    let (path, file) = create_in(folder, PRIVATE)?;
    fs::remove_file(path)?;
    Ok(file)
}
