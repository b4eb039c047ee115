//! A line on the terminal while a long run goes on; nothing where there is no terminal.

use std::io::{stderr, IsTerminal, Write};
use std::time::{Duration, Instant};

/// How often the line is written again.
const EVERY: Duration = Duration::from_millis(500);

/// Progress towards a known total.
pub struct Progress {
    what: &'static str,
    total: u64,
    done: u64,
    last: Instant,
    shown: bool,
}

impl Progress {
    /// Nothing done yet.
    pub fn new(what: &'static str, total: u64) -> Progress {
        Progress {
            what,
            total,
            done: 0,
            last: Instant::now(),
            shown: false,
        }
    }

    /// How many there are to be done.
    pub fn total(&self) -> u64 {
        self.total
    }

    /// So many more done.
    pub fn advance(&mut self, more: u64) {
        self.done += more;
        self.say("");
    }

    /// So many done in all.
    pub fn at(&mut self, done: u64) {
        self.done = done;
    }

    /// The line, if it is time, with a few words more.
    pub fn say(&mut self, more: &str) {
        if self.last.elapsed() < EVERY || !stderr().is_terminal() {
            return;
        }
        self.last = Instant::now();
        self.shown = true;
        let (done, total, what) = (self.done, self.total, self.what);
        eprint!("\r\x1b[K{done} of {total} {what} {more}");
        stderr().flush().ok();
    }
}

impl Drop for Progress {
    fn drop(&mut self) {
        if self.shown {
            eprint!("\r\x1b[K");
        }
    }
}
