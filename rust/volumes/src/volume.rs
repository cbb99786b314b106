//! Which of an image's two volumes is meant.

use std::ffi::OsStr;

use ondristela::{Kind, Location};

use crate::problem::Problem;

/// One of an image's two volumes. The outer one is the standard volume, also where none is hidden in it.
#[derive(Clone, Copy)]
pub enum Volume {
    Outer,
    Hidden,
}

impl Volume {
    /// The volume with this name.
    pub fn named(name: &OsStr) -> Result<Volume, Problem> {
        [Volume::Outer, Volume::Hidden]
            .into_iter()
            .find(|volume| name == volume.name())
            .ok_or_else(|| Problem::usage(format!("VOLUME is outer or hidden, not {name:?}")))
    }

    pub fn of(kind: Kind) -> Volume {
        match kind {
            Kind::Standard => Volume::Outer,
            Kind::Hidden => Volume::Hidden,
        }
    }

    pub fn name(self) -> &'static str {
        match self {
            Volume::Outer => "outer",
            Volume::Hidden => "hidden",
        }
    }

    /// Where its main header lies, or its backup.
    pub fn location(self, is_backup: bool) -> Location {
        match (self, is_backup) {
            (Volume::Outer, false) => Location::Standard,
            (Volume::Hidden, false) => Location::Hidden,
            (Volume::Outer, true) => Location::StandardBackup,
            (Volume::Hidden, true) => Location::HiddenBackup,
        }
    }
}
