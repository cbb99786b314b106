//! What can keep a command from being done, and how it is told.

use std::fmt;
use std::path::Path;

use ondristela::Refusal;

use crate::advice::advice;
use crate::names::shown;

/// What the exit status tells. 0 is for a command that was done.
#[derive(Clone, Copy)]
enum Status {
    Refused = 1,
    Unusable = 2,
    Stopped = 3,
}

/// Why a command was not done: lines for a person, the last of them telling what to do next, and an exit status
/// for a script.
pub struct Problem {
    status: Status,
    lines: Vec<String>,
    next: Option<String>,
}

impl Problem {
    fn new(status: Status, line: String) -> Problem {
        Problem { status, lines: vec![line], next: None }
    }

    /// The command line is not understood.
    pub fn usage(ground: impl fmt::Display) -> Problem {
        Problem::new(Status::Unusable, format!("usage: {ground}")).next("volumes help lists the commands")
    }

    /// A file cannot be used: makes its problem out of an error.
    pub fn file<E: fmt::Display>(path: &Path) -> impl FnOnce(E) -> Problem + '_ {
        move |error| Problem::new(Status::Unusable, format!("file: {}: {error}", shown(path)))
    }

    /// The library refused a step.
    pub fn refused(refusal: Refusal) -> Problem {
        Problem::new(Status::Refused, format!("refused: {refusal}")).next(advice(refusal))
    }

    /// The program itself refuses, before it does anything.
    pub fn declined(ground: &str) -> Problem {
        Problem::new(Status::Refused, format!("refused: {ground}"))
    }

    /// A signal asked the program to end.
    pub fn interrupted() -> Problem {
        Problem::new(Status::Stopped, "stopped: by a signal".to_string())
    }

    /// The same problem, met after the work had begun.
    pub fn part_way(self) -> Problem {
        Problem { status: Status::Stopped, ..self }
    }

    /// Adds a line that tells a fact.
    pub fn fact(mut self, line: String) -> Problem {
        self.lines.push(line);
        self
    }

    /// Says what to do next.
    pub fn next(self, sentence: &str) -> Problem {
        Problem { next: Some(sentence.to_string()), ..self }
    }

    pub fn exit_status(&self) -> u8 {
        self.status as u8
    }
}

impl From<Refusal> for Problem {
    fn from(refusal: Refusal) -> Problem {
        Problem::refused(refusal)
    }
}

impl fmt::Display for Problem {
    fn fmt(&self, formatter: &mut fmt::Formatter<'_>) -> fmt::Result {
        self.lines.iter().try_for_each(|line| writeln!(formatter, "{line}"))?;
        self.next.iter().try_for_each(|sentence| writeln!(formatter, "next: {sentence}"))
    }
}
