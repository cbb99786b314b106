//! What is said beside a command's report.

use std::fmt;
use std::io::{self, Write};
use std::path::Path;

use crate::names::is_stream;

/// Says a sentence on standard error. Where that is closed, nobody listens.
pub fn note(sentence: impl fmt::Display) {
    let _ = writeln!(io::stderr(), "{sentence}");
}

/// The report to be printed by a command that puts its bytes there. Where standard output carries them, the
/// report is said here instead, and nothing is left to be printed.
pub fn reported(report: String, target: &Path) -> String {
    if !is_stream(target) {
        return report;
    }
    note(report.trim_end());
    String::new()
}
