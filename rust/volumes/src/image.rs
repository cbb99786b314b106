//! A disk or an image file, read and written in place and never loaded whole.
//!
//! While it is written, no other copy of this program has it open, nor has any program that asks for such
//! locks; and of a block device, none that mounts it. A program that asks for neither can still change it:
//! what is read then may be old, new or a mixture.

use std::fs::{self, File, FileType, OpenOptions};
use std::io::{self, Seek, SeekFrom};
use std::os::unix::fs::{FileExt, FileTypeExt, OpenOptionsExt};
use std::path::{Path, PathBuf};
use std::thread::sleep;
use std::time::Duration;

use crate::names::shown;
use crate::problem::Problem;
use crate::sizes;
use crate::system;

pub struct Image {
    path: PathBuf,
    file: File,
}

impl Image {
    /// Opens an image, shared with other readers.
    pub fn to_read(path: &Path) -> Result<Image, Problem> {
        Image::open(path, false).map_err(Problem::file(path))
    }

    /// Opens an image that nothing else uses.
    pub fn to_write(path: &Path) -> Result<Image, Problem> {
        Image::open(path, true).map_err(Problem::file(path))
    }

    fn open(path: &Path, to_write: bool) -> io::Result<Image> {
        // Looked at before it is opened: a pipe would wait for its other end, a tape would wind.
        let kind = usable(fs::metadata(path)?.file_type())?;
        let mut options = OpenOptions::new();
        options.read(true).write(to_write);
        if to_write && kind.is_block_device() {
            options.custom_flags(system::O_EXCL);
        }
        let file = options.open(path).map_err(in_use)?;
        lock(&file, to_write, kind).map_err(held)?;
        match size(&file)? {
            0 => Err(invalid("empty: an image has bytes")),
            _ => Ok(Image { path: path.to_owned(), file }),
        }
    }

    /// Its bytes at this moment: an image file may be cut short by others.
    pub fn size(&self) -> Result<u64, Problem> {
        size(&self.file).map_err(Problem::file(&self.path))
    }

    /// Fills the buffer from an offset on.
    pub fn read_at(&self, buffer: &mut [u8], offset: u64) -> Result<(), Problem> {
        self.file.read_exact_at(buffer, offset).map_err(cut_short).map_err(Problem::file(&self.path))
    }

    /// Writes the bytes at an offset.
    pub fn write_at(&self, bytes: &[u8], offset: u64) -> Result<(), Problem> {
        self.file.write_all_at(bytes, offset).map_err(Problem::file(&self.path))
    }

    /// Waits until all changes are on the disk.
    pub fn sync(&self) -> Result<(), Problem> {
        self.file.sync_all().map_err(Problem::file(&self.path))
    }

    /// Its name and size, for a message.
    pub fn fact(&self) -> String {
        let size = size(&self.file).map_or("of unknown size".to_string(), sizes::size);
        format!("image: {}, {size}", shown(&self.path))
    }
}

fn usable(kind: FileType) -> io::Result<FileType> {
    match kind {
        kind if kind.is_file() || kind.is_block_device() => Ok(kind),
        kind if kind.is_dir() => Err(invalid("a folder: an image is a file or a block device")),
        kind if kind.is_fifo() => Err(invalid("a pipe: an image is a file or a block device")),
        _ => Err(invalid("neither a file nor a block device, so no image")),
    }
}

// A block device's metadata tell no size, but its end can be sought.
fn size(mut file: &File) -> io::Result<u64> {
    let metadata = file.metadata()?;
    if usable(metadata.file_type())?.is_block_device() {
        return file.seek(SeekFrom::End(0));
    }
    Ok(metadata.len())
}

// udev looks at a disk, under a lock, whenever a writer has closed it. So a device is asked for a while.
fn lock(file: &File, alone: bool, kind: FileType) -> io::Result<()> {
    let tries = if kind.is_block_device() { 20 } else { 1 };
    for _ in 1..tries {
        match system::lock(file, alone) {
            Err(error) if error.kind() == io::ErrorKind::WouldBlock => sleep(Duration::from_millis(100)),
            answer => return answer,
        }
    }
    system::lock(file, alone)
}

fn in_use(error: io::Error) -> io::Error {
    match error.raw_os_error() {
        Some(system::EBUSY) => io::Error::new(
            error.kind(),
            "in use: it is mounted, or another device or program holds it; unmount or close it first",
        ),
        _ => error,
    }
}

fn held(error: io::Error) -> io::Error {
    match error.kind() {
        io::ErrorKind::WouldBlock => io::Error::new(error.kind(), "another recorder has it open"),
        _ => error,
    }
}

/// What it means that a file ends before its size, as it was when it was asked for.
pub fn cut_short(error: io::Error) -> io::Error {
    match error.kind() {
        io::ErrorKind::UnexpectedEof => io::Error::new(error.kind(), "it was cut short meanwhile"),
        _ => error,
    }
}

fn invalid(ground: &str) -> io::Error {
    io::Error::new(io::ErrorKind::InvalidInput, ground)
}
