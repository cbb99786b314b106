//! A line that tells how far the work is, for a person at a terminal.

use std::io::{self, IsTerminal, Write};
use std::time::{Duration, Instant};

use crate::extent::Extent;
use crate::sizes::short;

const PAUSE: Duration = Duration::from_secs(1);

/// Rewrites its line about once a second, and takes it away when it is dropped.
pub struct Progress {
    verb: &'static str,
    total: u64,
    done: u64,
    start: Instant,
    told: Instant,
    shown: bool,
    terminal: bool,
}

impl Progress {
    pub fn new(verb: &'static str, extent: Extent) -> Progress {
        let start = Instant::now();
        let terminal = io::stderr().is_terminal();
        Progress { verb, total: extent.size(), done: 0, start, told: start, shown: false, terminal }
    }

    /// Counts the sectors of a call that was done.
    pub fn add(&mut self, call: Extent) {
        self.done += call.size();
        if self.terminal && self.told.elapsed() >= PAUSE {
            self.told = Instant::now();
            self.shown = true;
            tell(&self.line(self.start.elapsed()));
        }
    }

    /// Tells that the work is handed over, and that only the disk is waited for.
    pub fn wait(&mut self) {
        if self.terminal {
            self.shown = true;
            tell("waiting until all is on the disk");
        }
    }

    fn line(&self, elapsed: Duration) -> String {
        let rate = self.done as f64 / elapsed.as_secs_f64();
        let left = Duration::from_secs_f64((self.total - self.done) as f64 / rate);
        let [done, total, rate] = [self.done, self.total, rate as u64].map(short);
        let percent = u128::from(self.done) * 100 / u128::from(self.total);
        format!("{} {done} of {total} ({percent}%), {rate}/s, {} left", self.verb, clock(left))
    }
}

impl Drop for Progress {
    fn drop(&mut self) {
        if self.shown {
            tell("");
        }
    }
}

// In the place of what stood in the line before. Where standard error is closed, nobody looks.
fn tell(line: &str) {
    let _ = write!(io::stderr(), "\r{line}\x1b[K");
}

fn clock(time: Duration) -> String {
    let seconds = time.as_secs();
    format!("{}:{:02}:{:02}", seconds / 3600, seconds / 60 % 60, seconds % 60)
}

#[cfg(test)]
mod tests {
    use super::Progress;
    use crate::extent::Extent;
    use std::time::Duration;

    #[test]
    fn a_line_tells_what_is_left() {
        let mut progress = Progress::new("read", Extent { first: 0, count: 1 << 31 });
        progress.done = 1 << 30;
        let line = progress.line(Duration::from_secs(10));
        assert_eq!(line, "read 1.0 GiB of 1.0 TiB (0%), 102.4 MiB/s, 2:50:30 left");
    }
}
