//! The command line.

use std::ffi::{OsStr, OsString};
use std::path::{Path, PathBuf};

use crate::extent::Extent;
use crate::numbers::number;
use crate::options::{parted, Options};
use crate::plan::{self, Host, Plan};
use crate::problem::Problem;
use crate::volume::Volume;

/// An image and the deciphered headers of its volumes, one or both.
pub struct Files {
    pub image: PathBuf,
    pub outer_header: Option<PathBuf>,
    pub hidden_header: Option<PathBuf>,
    /// Whether headers are taken that the image does not have.
    pub risk_wrong_disk: bool,
}

impl Files {
    fn header(&self, volume: Volume) -> Option<&Path> {
        match volume {
            Volume::Outer => self.outer_header.as_deref(),
            Volume::Hidden => self.hidden_header.as_deref(),
        }
    }
}

pub enum Command {
    Help,
    Version,
    Sample { folder: PathBuf },
    Demo { folder: PathBuf },
    Show { files: Files },
    Read { files: Files, volume: Volume, extent: Extent, target: PathBuf, plaintext: bool },
    Write { files: Files, volume: Volume, first: u64, source: PathBuf, plaintext: bool },
    Prepare { plan: Plan },
}

const HEADERS: [&str; 3] = ["--outer", "--hidden", "--risk-wrong-disk"];
const COPIES: [&str; 4] = ["--outer", "--hidden", "--risk-wrong-disk", "--plaintext"];

// The commands, the words that each takes, and its options.
const COMMANDS: [(&str, &str, &[&str]); 7] = [
    ("show", "IMAGE and headers", &HEADERS),
    ("read", "IMAGE VOLUME FIRST COUNT FILE and headers", &COPIES),
    ("write", "IMAGE VOLUME FIRST FILE and headers", &COPIES),
    ("prepare", "IMAGE VOLUME FILE, or VOLUME FILE and --host-size", &plan::OPTIONS),
    ("sample", "DIR", &[]),
    ("demo", "DIR", &[]),
    ("help", "nothing", &[]),
];

/// The command that the arguments ask for. The program's own name is not among them.
pub fn parse(arguments: &[OsString]) -> Result<Command, Problem> {
    let (options, words) = parted(arguments)?;
    match words.split_first() {
        _ if options.has("-h") || options.has("--help") => Ok(Command::Help),
        _ if options.has("--version") => Ok(Command::Version),
        Some((name, words)) => named(name, &options, words),
        None => Err(Problem::usage("no command")),
    }
}

fn named(name: &OsStr, options: &Options, words: &[&OsStr]) -> Result<Command, Problem> {
    let Some(&(name, takes, its_options)) = COMMANDS.iter().find(|command| name == command.0) else {
        return Err(Problem::usage(format!("{name:?} is no command")));
    };
    if let Some(other) = options.other_than(its_options) {
        return Err(Problem::usage(format!("{name} takes no {other}")));
    }
    command(name, options, words)?.ok_or_else(|| {
        let given = words.len();
        Problem::usage(format!("{name} takes {takes}; beside options, {given} words are given"))
    })
}

// None, if there are more or fewer words than the command takes.
fn command(name: &str, options: &Options, words: &[&OsStr]) -> Result<Option<Command>, Problem> {
    let plaintext = options.has("--plaintext");
    Ok(Some(match (name, words) {
        ("help", []) => Command::Help,
        ("sample", [folder]) => Command::Sample { folder: folder.into() },
        ("demo", [folder]) => Command::Demo { folder: folder.into() },
        ("show", [image]) => Command::Show { files: files(image, options)? },
        ("read", [image, volume, first, count, target]) => {
            let extent = Extent { first: number("FIRST", first)?, count: number("COUNT", count)? };
            let (files, volume) = files_with(image, options, volume)?;
            Command::Read { files, volume, extent, target: target.into(), plaintext }
        }
        ("write", [image, volume, first, source]) => {
            let first = number("FIRST", first)?;
            let (files, volume) = files_with(image, options, volume)?;
            Command::Write { files, volume, first, source: source.into(), plaintext }
        }
        ("prepare", words) => return prepare(options, words),
        _ => return Ok(None),
    }))
}

// The host is an image, or a size in its place.
fn prepare(options: &Options, words: &[&OsStr]) -> Result<Option<Command>, Problem> {
    let (host, volume, target) = match (options.value("--host-size"), words) {
        (None, [image, volume, target]) => (Host::Image(image.into()), volume, target),
        (Some(size), [volume, target]) => (Host::Size(number("--host-size", size)?), volume, target),
        _ => return Ok(None),
    };
    Ok(Some(Command::Prepare { plan: Plan::new(host, volume, target, options)? }))
}

fn files(image: &OsStr, options: &Options) -> Result<Files, Problem> {
    if !options.has("--outer") && !options.has("--hidden") {
        return Err(Problem::usage("no header: name one by --outer or --hidden, or both"));
    }
    Ok(Files {
        image: image.into(),
        outer_header: options.path("--outer"),
        hidden_header: options.path("--hidden"),
        risk_wrong_disk: options.has("--risk-wrong-disk"),
    })
}

// The volume to work on is one whose header is given.
fn files_with(image: &OsStr, options: &Options, name: &OsStr) -> Result<(Files, Volume), Problem> {
    let volume = Volume::named(name)?;
    let files = files(image, options)?;
    match files.header(volume) {
        Some(_) => Ok((files, volume)),
        None => Err(without_header(volume)),
    }
}

/// A volume is named whose header is not given.
pub fn without_header(volume: Volume) -> Problem {
    let name = volume.name();
    Problem::usage(format!("the {name} volume needs its header: --{name} FILE"))
}

#[cfg(test)]
mod tests {
    use super::{parse, Command};

    fn parsed(line: &str) -> Result<Command, String> {
        let arguments: Vec<_> = line.split_whitespace().map(Into::into).collect();
        parse(&arguments).map_err(|problem| problem.to_string())
    }

    #[test]
    fn options_stand_anywhere() {
        let lines = [
            "read --outer=o --hidden h disk outer 1 2 -",
            "--hidden h read disk outer 1 2 - --outer o",
            "read --outer o --hidden=h -- disk outer 1 2 -",
        ];
        for line in lines {
            let Ok(Command::Read { files, extent, target, .. }) = parsed(line) else { panic!("{line}") };
            assert_eq!((files.outer_header, files.hidden_header), (Some("o".into()), Some("h".into())));
            assert_eq!((extent.first, extent.count, target), (1, 2, "-".into()));
        }
    }

    #[test]
    fn plaintext_is_asked_for() {
        for (option, asked) in [("", false), ("--plaintext", true), ("--plaintext --plaintext", true)] {
            let read = parsed(&format!("read disk outer 1 2 - --outer o {option}"));
            let write = parsed(&format!("write {option} disk --hidden h hidden 1 -"));
            let Ok(Command::Read { plaintext: read, .. }) = read else { panic!("read {option}") };
            let Ok(Command::Write { plaintext: written, .. }) = write else { panic!("write {option}") };
            assert_eq!([read, written], [asked; 2], "{option}");
        }
    }

    #[test]
    fn what_is_wrong_is_named() {
        let lines = [
            ("", "no command"),
            ("show disk", "no header"),
            ("show disk --outer", "--outer needs a file"),
            ("show disk --outer a --outer b", "--outer is given twice"),
            ("show disk --inner a", "\"--inner\" is no option"),
            ("show disk --risk-wrong-disk=yes --outer a", "is no option"),
            ("list disk", "\"list\" is no command"),
            ("show disk more --outer a", "show takes IMAGE and headers; beside options, 2 words"),
            ("sample folder --outer a", "sample takes no --outer"),
            ("show disk --outer a --magic TRUE", "show takes no --magic"),
            ("show disk --outer a --plaintext", "show takes no --plaintext"),
            ("prepare disk outer header --magic TRUE --plaintext", "prepare takes no --plaintext"),
            ("read disk outer 0 1 copy --outer a --plaintext=yes", "is no option"),
            ("read disk inner 0 1 copy --outer a", "VOLUME is outer or hidden"),
            ("read disk hidden 0 1 copy --outer a", "the hidden volume needs its header"),
            ("read disk outer 0 -1 copy --outer a", "COUNT is a whole number"),
            ("read disk outer 1,024 1 copy --outer a", "FIRST is a whole number"),
            ("write disk outer 18446744073709551616 source --outer a", "FIRST is a whole number"),
        ];
        for (line, words) in lines {
            let told = parsed(line).err().unwrap_or_default();
            assert!(told.contains(words), "{line}: {told}");
        }
    }
}
