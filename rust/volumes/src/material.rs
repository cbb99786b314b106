//! The salt and the keys of a header to be made: out of a file, or new.

use std::path::Path;

use ondristela::{KEYS_SIZE, SALT_SIZE};

use crate::problem::Problem;
use crate::random::random;
use crate::small_file;

/// Bytes that a header carries. They are never printed.
pub struct Material<'a> {
    name: &'static str,
    size: usize,
    file: Option<&'a Path>,
    pub bytes: Vec<u8>,
}

impl<'a> Material<'a> {
    /// The salt in a file, or a new one.
    pub fn salt(file: Option<&'a Path>) -> Result<Material<'a>, Problem> {
        Material::take("salt", SALT_SIZE, file)
    }

    /// The keys in a file, or new ones.
    pub fn keys(file: Option<&'a Path>) -> Result<Material<'a>, Problem> {
        Material::take("keys", KEYS_SIZE, file)
    }

    fn take(name: &'static str, size: usize, file: Option<&'a Path>) -> Result<Material<'a>, Problem> {
        let bytes = file.map_or_else(|| random(size), small_file::read)?;
        Ok(Material { name, size, file, bytes })
    }

    /// Where the bytes are from and how many they are, for a message.
    pub fn fact(&self) -> String {
        match self.file {
            Some(path) => small_file::fact(self.name, path, self.bytes.len()),
            None => format!("{}: {} new random bytes", self.name, self.size),
        }
    }

    /// The same of a file that has another length than it must have.
    pub fn wrong_length(&self) -> Option<String> {
        (self.bytes.len() != self.size).then(|| format!("{}, not {}", self.fact(), self.size))
    }

    /// Declines zeros alone, as an empty disk has them: such a salt marks no disk, and such keys hide nothing.
    pub fn not_blank(&self) -> Result<(), Problem> {
        if self.bytes.iter().any(|byte| *byte != 0) {
            return Ok(());
        }
        let ground = format!("the file that --{} names has nothing but zeros", self.name);
        Err(Problem::declined(&ground).fact(self.fact()).next("give another file"))
    }
}
