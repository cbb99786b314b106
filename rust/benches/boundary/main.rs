//! How quick the library is through its boundary, against programs that do the same work.
//!
//!     cargo bench --offline --bench boundary [-- FILE]
//!
//! prints the times and writes them to FILE as comma-separated values; without FILE, to the path that
//! `ONDRISTELA_BENCH_CSV` names, or to `performance.csv` among the target folder's temporary files. A path
//! that does not start at the root starts in this package's folder.

mod agreement;
mod byte_table;
mod checksum;
mod ciphers;
mod clock;
mod copy;
mod headers;
mod images;
mod machine;
mod memory;
mod opening;
mod peer;
mod plain_aes;
mod plaintext;
mod positions;
mod random;
mod report;
mod timing;

use std::env;
use std::error::Error;
use std::path::PathBuf;

use report::Report;
use timing::{BATCHES, BATCH_TIME};

const HEADING: &str = "
Ratio: the peer's time divided by ours. 1.00 is equal, above it ours is quicker.
Times are processor time of one call, over all batches; ours and the peer's take turns, batch by batch.
Every page was touched before. What is not scattered is warm in the caches.";

fn main() -> Result<(), Box<dyn Error>> {
    let path = path();
    let mut told = machine::description();
    told.push(("batches", format!("{BATCHES} of each program, {} ms or more", BATCH_TIME.as_millis())));
    let mut report = Report::new(&told);
    println!("{HEADING}");
    checksum::measure(&mut report);
    opening::measure(&mut report);
    images::measure_sizes(&mut report);
    images::measure_distances(&mut report);
    ciphers::measure(&mut report);
    plaintext::measure(&mut report);
    report.save(&path)?;
    eprintln!("\nwritten to {}", path.display());
    Ok(())
}

// `cargo bench` adds `--bench` to the arguments.
fn path() -> PathBuf {
    let argument = env::args_os().skip(1).find(|argument| argument != "--bench");
    let named = argument.or_else(|| env::var_os("ONDRISTELA_BENCH_CSV"));
    named.map_or_else(|| PathBuf::from(env!("CARGO_TARGET_TMPDIR")).join("performance.csv"), PathBuf::from)
}
