//! Shows where VeraCrypt and TrueCrypt volumes lie on a disk, copies sectors in and out of them, and makes headers.
//!
//! It works on image files and on block devices. Headers come deciphered, each in a file of its own, and must be
//! the image's own, but for new ones; sectors are copied as they stand, enciphered, or as plaintext. Where the library
//! says a sector lies, and nowhere else, it is read and written. `volumes help` lists the commands.

#![deny(unsafe_code)]

mod advice;
mod alignment;
mod arguments;
mod demo;
mod extent;
mod faults;
mod form;
mod formats;
mod header_file;
mod image;
mod judging;
mod material;
mod names;
mod new_file;
mod noise;
mod notes;
mod numbers;
mod options;
mod picture;
mod plan;
mod preparing;
mod problem;
mod progress;
mod random;
mod reading;
mod regions;
mod salts;
mod sample;
mod sample_headers;
mod show;
mod sizes;
mod small_file;
mod source;
#[allow(unsafe_code)]
mod system;
mod target;
mod thousands;
mod usage;
mod volume;
mod volumes;
mod wrapping;
mod writing;

use std::env;
use std::ffi::OsString;
use std::io::{self, Write};
use std::path::Path;
use std::process::ExitCode;

use arguments::{Command, Files};
use image::Image;
use problem::Problem;
use volumes::Volumes;

fn main() -> ExitCode {
    let arguments: Vec<OsString> = env::args_os().skip(1).collect();
    match arguments::parse(&arguments).and_then(run).and_then(|report| print(&report)) {
        Ok(()) => ExitCode::SUCCESS,
        Err(problem) => {
            // Where even standard error is closed, the exit status still tells.
            let _ = write!(io::stderr(), "{problem}");
            ExitCode::from(problem.exit_status())
        }
    }
}

fn run(command: Command) -> Result<String, Problem> {
    match command {
        Command::Help => Ok(usage::USAGE.to_string()),
        Command::Version => Ok(usage::VERSION.to_string()),
        Command::Sample { folder } => sample_in(&folder),
        Command::Demo { folder } => demo::run(&folder),
        Command::Show { files } => show_files(&files),
        Command::Read { files, volume, extent, target, plaintext } => {
            reading::read(&files, volume, extent, &target, plaintext)
        }
        Command::Write { files, volume, first, source, plaintext } => {
            writing::write(&files, volume, first, &source, plaintext)
        }
        Command::Prepare { plan } => preparing::prepare(&plan),
    }
}

fn sample_in(folder: &Path) -> Result<String, Problem> {
    sample::make(folder)?;
    Ok(sample::made())
}

fn show_files(files: &Files) -> Result<String, Problem> {
    let image = Image::to_read(&files.image)?;
    let volumes = Volumes::open(files, &image)?;
    show::show(&files.image, image.size()?, &volumes)
}

fn print(report: &str) -> Result<(), Problem> {
    let mut output = io::stdout();
    output.write_all(report.as_bytes()).and_then(|()| output.flush()).map_err(|error| {
        let problem = Problem::file(Path::new("standard output"))(error);
        problem.fact("the command was done; only its report could not be printed".to_string())
    })
}
