//! The two formats of headers, by their magic.

use std::ffi::OsStr;

use ondristela::Magic;

/// The version of VeraCrypt's and TrueCrypt's newest headers alike.
pub const HEADER_VERSION: u16 = 5;

/// The number that the library reads in headers of the format's own program.
pub fn min_program_version(magic: Magic) -> u16 {
    match magic {
        Magic::Vera => 0x010B,
        Magic::True => 0x0700,
    }
}

pub fn magic_name(magic: Magic) -> &'static str {
    match magic {
        Magic::Vera => "VERA",
        Magic::True => "TRUE",
    }
}

/// The magic with this name, if one has it.
pub fn magic_named(name: &OsStr) -> Option<Magic> {
    [Magic::Vera, Magic::True].into_iter().find(|magic| name == magic_name(*magic))
}
