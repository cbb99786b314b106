//! A second implementation of the rules (docs/RULES.md) and of AES-256 in XTS, written from their text alone and as
//! plainly, for the library to be compared with. Refusals are the rules' numbers.

// Each test file uses a part of it.
#![allow(dead_code)]

pub mod access;
pub mod aes;
pub mod crc;
pub mod field;
pub mod header;
pub mod header_writing;
pub mod headers;
pub mod layout;
pub mod model;
pub mod opening;
pub mod plaintext;
pub mod random;
pub mod sector_map;
pub mod substitution;
pub mod xts;
