//! A header to be made, as the command line has it.

use std::ffi::OsStr;
use std::path::PathBuf;
use std::str::FromStr;

use ondristela::{Kind, Location, Magic, NewHeader, SECTOR_SIZE};

use crate::formats::{magic_named, min_program_version, HEADER_VERSION};
use crate::numbers::number;
use crate::options::Options;
use crate::problem::Problem;
use crate::regions::room;
use crate::volume::Volume;

/// What is to hold the volume. Only its size counts: nothing is written to it.
pub enum Host {
    Image(PathBuf),
    Size(u64),
}

pub struct Plan {
    pub host: Host,
    pub location: Location,
    pub magic: Magic,
    pub version: u16,
    pub min_program_version: u16,
    pub data_start: Option<u64>,
    pub data_size: Option<u64>,
    pub sector_size: u64,
    pub salt_file: Option<PathBuf>,
    pub keys_file: Option<PathBuf>,
    pub target: PathBuf,
}

/// The options that tell of a header to be made.
pub const OPTIONS: [&str; 10] = [
    "--host-size",
    "--backup",
    "--magic",
    "--header-version",
    "--min-program-version",
    "--data-start",
    "--data-size",
    "--sector-size",
    "--salt",
    "--keys",
];

impl Plan {
    pub fn new(host: Host, volume: &OsStr, target: &OsStr, options: &Options) -> Result<Plan, Problem> {
        let location = Volume::named(volume)?.location(options.has("--backup"));
        check_needed(location, options)?;
        let magic = magic(options)?;
        let version = told(options, "--header-version")?;
        let least = told(options, "--min-program-version")?;
        let sector_size = told(options, "--sector-size")?;
        Ok(Plan {
            host,
            location,
            magic,
            version: version.unwrap_or(HEADER_VERSION),
            min_program_version: least.unwrap_or_else(|| min_program_version(magic)),
            data_start: told(options, "--data-start")?,
            data_size: told(options, "--data-size")?,
            sector_size: sector_size.unwrap_or(SECTOR_SIZE as u64),
            salt_file: options.path("--salt"),
            keys_file: options.path("--keys"),
            target: target.into(),
        })
    }

    /// The header for a host of this size. What is not told of the data area is as large as there is room.
    pub fn header<'a>(&self, host_size: u64, salt: &'a [u8], keys: &'a [u8]) -> NewHeader<'a> {
        let room = room(host_size);
        let data_start = self.data_start.unwrap_or(room.start);
        NewHeader {
            magic: self.magic,
            version: self.version,
            min_program_version: self.min_program_version,
            location: self.location,
            host_size,
            data_start,
            data_size: self.data_size.unwrap_or(room.end.saturating_sub(data_start)),
            sector_size: self.sector_size,
            salt,
            keys,
        }
    }
}

// Nothing fills in where a hidden volume lies, since many places would do, nor a backup's keys, since with others
// than the main header's it would be of no use.
fn check_needed(location: Location, options: &Options) -> Result<(), Problem> {
    let is_hidden = location.kind() == Kind::Hidden;
    let is_backup = options.has("--backup");
    let needed = [
        (true, "--magic", "a header needs --magic, which is VERA or TRUE"),
        (is_hidden, "--data-start", "a hidden volume needs --data-start, its first byte in the host"),
        (is_hidden, "--data-size", "a hidden volume needs --data-size, its bytes"),
        (is_backup, "--keys", "a backup needs --keys, a file with those of the main header"),
    ];
    match needed.iter().find(|(is_needed, name, _)| *is_needed && !options.has(name)) {
        Some((_, _, sentence)) => Err(Problem::usage(sentence)),
        None => Ok(()),
    }
}

fn magic(options: &Options) -> Result<Magic, Problem> {
    let name = options.value("--magic").unwrap_or_default();
    magic_named(name).ok_or_else(|| Problem::usage(format!("--magic is VERA or TRUE, not {name:?}")))
}

fn told<T: FromStr>(options: &Options, name: &str) -> Result<Option<T>, Problem> {
    options.value(name).map(|text| number(name, text)).transpose()
}

#[cfg(test)]
mod tests {
    use super::{Host, Plan};
    use crate::arguments::{parse, Command};
    use crate::formats::min_program_version;
    use ondristela::{Location, Magic};

    fn planned(line: &str) -> Result<Plan, String> {
        let arguments: Vec<_> = line.split_whitespace().map(Into::into).collect();
        match parse(&arguments) {
            Ok(Command::Prepare { plan }) => Ok(plan),
            Ok(_) => Err("another command".to_string()),
            Err(problem) => Err(problem.to_string()),
        }
    }

    #[test]
    fn what_is_left_out_is_filled_in() {
        for (line, magic) in [("--magic VERA", Magic::Vera), ("--magic TRUE", Magic::True)] {
            let plan = planned(&format!("prepare disk outer file {line}")).unwrap();
            let header = plan.header(1_048_576, &[], &[]);
            assert!(matches!(plan.host, Host::Image(ref image) if image.as_os_str() == "disk"));
            assert_eq!((header.magic, header.location), (magic, Location::Standard));
            assert_eq!((header.version, header.min_program_version), (5, min_program_version(magic)));
            assert_eq!((header.data_start, header.data_size), (131_072, 786_432));
            assert_eq!(header.sector_size, 512);
            assert_eq!((plan.salt_file, plan.keys_file, plan.target), (None, None, "file".into()));
        }
    }

    #[test]
    fn what_is_told_is_taken() {
        let line =
            "prepare --host-size 12 hidden file --magic=TRUE --data-start 3 --data-size 4 --salt s --keys k \
                    --header-version 4 --min-program-version 6 --sector-size 4294967808";
        let plan = planned(line).unwrap();
        let header = plan.header(1_048_576, &[], &[]);
        assert!(matches!(plan.host, Host::Size(12)));
        assert_eq!((header.version, header.min_program_version), (4, 6));
        assert_eq!((header.data_start, header.data_size), (3, 4));
        assert_eq!(header.sector_size, (1 << 32) + 512);
        assert_eq!((plan.salt_file, plan.keys_file), (Some("s".into()), Some("k".into())));
    }

    #[test]
    fn each_header_has_its_location() {
        let lines = [
            ("outer", Location::Standard),
            ("hidden", Location::Hidden),
            ("outer --backup", Location::StandardBackup),
            ("hidden --backup", Location::HiddenBackup),
        ];
        for (words, location) in lines {
            let line =
                format!("prepare disk {words} file --magic TRUE --keys k --data-start 1 --data-size 2");
            assert_eq!(planned(&line).unwrap().location, location, "{line}");
        }
    }

    #[test]
    fn what_is_wrong_is_named() {
        let lines = [
            ("disk outer file", "a header needs --magic, which is VERA or TRUE"),
            ("disk outer file --magic", "--magic needs VERA or TRUE"),
            ("disk outer file --magic vera", "--magic is VERA or TRUE, not \"vera\""),
            ("disk inner file --magic TRUE", "VOLUME is outer or hidden"),
            ("disk hidden file --magic TRUE --data-size 1", "a hidden volume needs --data-start"),
            ("disk hidden file --magic TRUE --data-start 1", "a hidden volume needs --data-size"),
            ("disk outer file --magic TRUE --backup", "a backup needs --keys"),
            ("disk outer file --magic TRUE --backup=yes", "is no option"),
            ("disk outer --magic TRUE", "prepare takes IMAGE VOLUME FILE, or VOLUME FILE and --host-size"),
            ("disk outer file --magic TRUE --host-size 1", "beside options, 3 words are given"),
            ("outer file --magic TRUE --host-size 1,048,576", "--host-size is a whole number below 2^64"),
            ("disk outer file --magic TRUE --data-start 128K", "--data-start is a whole number"),
            ("disk outer file --magic TRUE --data-size -1", "--data-size is a whole number"),
            ("disk outer file --magic TRUE --sector-size 4K", "--sector-size is a whole number below 2^64"),
            ("disk outer file --magic TRUE --sector-size", "--sector-size needs a number of bytes"),
            (
                "disk outer file --magic TRUE --header-version 65536",
                "--header-version is a whole number below 2^16",
            ),
            (
                "disk outer file --magic TRUE --min-program-version 1.11",
                "--min-program-version is a whole number",
            ),
            ("disk outer file --magic TRUE --salt a --salt b", "--salt is given twice"),
            ("disk outer file --magic TRUE --outer a", "prepare takes no --outer"),
            ("disk outer file --magic TRUE --risk-wrong-disk", "prepare takes no --risk-wrong-disk"),
        ];
        for (line, words) in lines {
            let told = planned(&format!("prepare {line}")).err().unwrap_or_default();
            assert!(told.contains(words), "{line}: {told}");
        }
    }
}
