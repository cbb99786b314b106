//! Inputs made up for the tests, values that were published, and counts of the answers that are reached.

// Each test file uses a part of it.
#![allow(dead_code)]

pub mod accesses;
pub mod calls;
pub mod candidates;
pub mod changes;
pub mod coverage;
pub mod extents;
pub mod header_writings;
pub mod hosts;
pub mod keys;
pub mod layouts;
pub mod lists;
pub mod memory;
pub mod new_headers;
pub mod openings;
pub mod published;
pub mod views;
