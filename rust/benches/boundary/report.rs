//! The measurements as a table on standard output and as a file of comma-separated values.

use std::fmt::Write as _;
use std::fs;
use std::io;
use std::path::Path;

use crate::timing::Timing;

/// One measurement: a call of ours and the peer's for the same work.
pub struct Row {
    /// What varies over the measurement's neighbours.
    pub series: &'static str,
    pub operation: &'static str,
    pub case: String,
    /// The bytes that a call works on.
    pub bytes: usize,
    /// The image's bytes, 0 where there is none.
    pub image_size: usize,
    pub ours: Timing,
    pub peer_name: &'static str,
    pub peer: Timing,
}

impl Row {
    fn line(&self) -> String {
        let [ours_median, ours_minimum] = [self.ours.median, self.ours.minimum].map(time);
        let [peer_median, peer_minimum] = [self.peer.median, self.peer.minimum].map(time);
        let [of_medians, of_minima] = self.ratios();
        format!(
            "{:<10}{:<26}{ours_median:>11}{ours_minimum:>11}  {:<13}{peer_median:>11}{peer_minimum:>11}\
             {of_medians:>9.2}{of_minima:>8.2}",
            self.operation, self.case, self.peer_name
        )
    }

    fn values(&self) -> String {
        let Row { series, operation, case, bytes, image_size, ours, peer_name, peer } = self;
        let times = [ours.median, ours.minimum, peer.median, peer.minimum].map(|time| format!("{time:.3}"));
        let ratios = self.ratios().map(|ratio| format!("{ratio:.4}"));
        let [times, ratios] = [times.join(","), ratios.join(",")];
        format!("{series},{operation},\"{case}\",{bytes},{image_size},{peer_name},{times},{ratios}")
    }

    // Of the medians, and of the minima.
    fn ratios(&self) -> [f64; 2] {
        [self.peer.median / self.ours.median, self.peer.minimum / self.ours.minimum]
    }
}

const NAMES: &str = "series,operation,case,bytes,image_size,peer,ours_median_ns,ours_min_ns,peer_median_ns,\
                     peer_min_ns,ratio_of_medians,ratio_of_minima";

/// The measurements so far.
pub struct Report {
    values: String,
}

impl Report {
    /// A report that tells first what it was measured on.
    pub fn new(machine: &[(&str, String)]) -> Report {
        let mut values = String::new();
        for (name, value) in machine {
            println!("{name:<10}{value}");
            writeln!(values, "# {name}: {value}").expect("a String takes what is written");
        }
        values += NAMES;
        Report { values: values + "\n" }
    }

    pub fn section(&mut self, title: &str) {
        println!("\n{title}");
        println!("{:<36}{:>11}{:>11}  {:<13}{:>11}{:>11}  ratio of", "", "ours", "", "peer", "peer's", "");
        println!(
            "{:<36}{:>11}{:>11}  {:<13}{:>11}{:>11}{:>9}{:>8}",
            "", "median", "minimum", "", "median", "minimum", "medians", "minima"
        );
    }

    pub fn add(&mut self, row: Row) {
        println!("{}", row.line());
        self.values += &row.values();
        self.values.push('\n');
    }

    pub fn save(&self, path: &Path) -> io::Result<()> {
        fs::write(path, &self.values)
    }
}

fn time(nanoseconds: f64) -> String {
    if nanoseconds < 1e3 {
        format!("{nanoseconds:.1} ns")
    } else if nanoseconds < 1e6 {
        format!("{:.2} µs", nanoseconds / 1e3)
    } else {
        format!("{:.2} ms", nanoseconds / 1e6)
    }
}
