//! The options among the words of a command line.

use std::ffi::{OsStr, OsString};
use std::os::unix::ffi::OsStrExt;
use std::path::PathBuf;

use crate::problem::Problem;

/// Every option, and what its value is, if it takes one.
const NAMES: [(&str, Option<&str>); 17] = [
    ("-h", None),
    ("--help", None),
    ("--version", None),
    ("--outer", Some("a file, a deciphered header")),
    ("--hidden", Some("a file, a deciphered header")),
    ("--risk-wrong-disk", None),
    ("--plaintext", None),
    ("--host-size", Some("a number of bytes")),
    ("--backup", None),
    ("--magic", Some("VERA or TRUE")),
    ("--header-version", Some("a number")),
    ("--min-program-version", Some("a number")),
    ("--data-start", Some("a number of bytes")),
    ("--data-size", Some("a number of bytes")),
    ("--sector-size", Some("a number of bytes")),
    ("--salt", Some("a file of 64 bytes")),
    ("--keys", Some("a file of 256 bytes")),
];

/// The options that are given, each with its value, if it takes one.
pub struct Options<'a>(Vec<(&'static str, Option<&'a OsStr>)>);

impl<'a> Options<'a> {
    pub fn has(&self, name: &str) -> bool {
        self.0.iter().any(|given| given.0 == name)
    }

    pub fn value(&self, name: &str) -> Option<&'a OsStr> {
        self.0.iter().find(|given| given.0 == name).and_then(|given| given.1)
    }

    pub fn path(&self, name: &str) -> Option<PathBuf> {
        self.value(name).map(PathBuf::from)
    }

    /// The first that is none of these.
    pub fn other_than(&self, names: &[&str]) -> Option<&'static str> {
        self.0.iter().map(|given| given.0).find(|name| !names.contains(name))
    }
}

/// The options, wherever they stand, and the other words in their order. A word `--` ends the options.
pub fn parted(arguments: &[OsString]) -> Result<(Options<'_>, Vec<&OsStr>), Problem> {
    let mut options = Options(Vec::new());
    let mut words = Vec::new();
    let mut rest = arguments.iter().map(OsString::as_os_str);
    while let Some(word) = rest.next() {
        if word == "--" {
            words.extend(rest.by_ref());
        } else if word == "-h" || word.as_bytes().starts_with(b"--") {
            let (name, value) = option(word, &mut rest)?;
            if options.has(name) && value.is_some() {
                return Err(Problem::usage(format!("{name} is given twice")));
            }
            options.0.push((name, value));
        } else {
            words.push(word);
        }
    }
    Ok((options, words))
}

// A value is the next word, or stands in the option's own word behind an equals sign.
fn option<'a>(
    word: &'a OsStr,
    rest: &mut impl Iterator<Item = &'a OsStr>,
) -> Result<(&'static str, Option<&'a OsStr>), Problem> {
    let mut parts = word.as_bytes().splitn(2, |byte| *byte == b'=');
    let name = parts.next().unwrap_or_default();
    let value = parts.next().map(OsStr::from_bytes);
    match (NAMES.iter().find(|known| known.0.as_bytes() == name), value) {
        (Some((name, Some(what))), value) => match value.or_else(|| rest.next()) {
            Some(value) => Ok((name, Some(value))),
            None => Err(Problem::usage(format!("{name} needs {what}"))),
        },
        (Some((name, None)), None) => Ok((name, None)),
        _ => Err(Problem::usage(format!("{word:?} is no option"))),
    }
}
