//! The numbers of a command line.

use std::ffi::OsStr;
use std::mem::size_of;
use std::str::FromStr;

use crate::problem::Problem;

/// Digits alone: the program prints commas in large numbers, but one in a command may be a slip.
pub fn number<T: FromStr>(what: &str, text: &OsStr) -> Result<T, Problem> {
    text.to_str()
        .filter(|text| text.bytes().all(|byte| byte.is_ascii_digit()))
        .and_then(|digits| digits.parse().ok())
        .ok_or_else(|| {
            let bits = 8 * size_of::<T>();
            Problem::usage(format!("{what} is a whole number below 2^{bits}, in digits, not {text:?}"))
        })
}
