//! Names that can be printed, whatever they are made of.

use std::path::Path;

/// Whether a file's name stands for standard input or standard output.
pub fn is_stream(path: &Path) -> bool {
    path == Path::new("-")
}

/// A path as text. Control characters, bytes that are no text and backslashes are shown escaped, so that a
/// name can do nothing to a terminal.
pub fn shown(path: &Path) -> String {
    let quoted = format!("{path:?}");
    quoted[1..quoted.len() - 1].replace("\\\"", "\"")
}

/// Where a command puts its bytes, for a message.
pub fn destination(path: &Path) -> String {
    match is_stream(path) {
        true => "to standard output".to_string(),
        false => format!("into {}", shown(path)),
    }
}

#[cfg(test)]
mod tests {
    use super::shown;
    use std::ffi::OsStr;
    use std::os::unix::ffi::OsStrExt;
    use std::path::Path;

    #[test]
    fn only_what_could_harm_is_escaped() {
        let names: [(&[u8], &str); 5] = [
            (b"/dev/sdb1", "/dev/sdb1"),
            ("Größe \"1\".img".as_bytes(), "Größe \"1\".img"),
            (b"red\x1b[31m\n", r"red\u{1b}[31m\n"),
            (b"\xff\\", r"\xFF\\"),
            (b"", ""),
        ];
        for (name, text) in names {
            assert_eq!(shown(Path::new(OsStr::from_bytes(name))), text);
        }
    }
}
