//! Files that are read whole: headers, salts and keys.

use std::fs::File;
use std::io::Read;
use std::path::Path;

use ondristela::{HEADER_SIZE, MAX_CANDIDATES};

use crate::names::shown;
use crate::problem::Problem;
use crate::sizes::size;

const MAX_SIZE: usize = MAX_CANDIDATES * HEADER_SIZE;

/// A file's bytes, as many as there are: the library judges how many there may be. No more are read than tell
/// it that there are too many, so a disk named by mistake is not loaded.
pub fn read(path: &Path) -> Result<Vec<u8>, Problem> {
    let mut bytes = Vec::new();
    let file = File::open(path).map_err(Problem::file(path))?;
    file.take(MAX_SIZE as u64 + 1).read_to_end(&mut bytes).map_err(Problem::file(path))?;
    Ok(bytes)
}

/// What the file is for, its name, and how many bytes were read of it, for a message.
pub fn fact(what: &str, path: &Path, bytes: usize) -> String {
    let count = match bytes {
        0..=MAX_SIZE => size(bytes as u64),
        _ => format!("more than {}", size(MAX_SIZE as u64)),
    };
    format!("{what}: {}, {count}", shown(path))
}
