//! A bar on standard error that shows how far the work has come, where someone can see it.

use std::io::{IsTerminal, Write, stderr};
use std::time::{Duration, Instant};

/// How many characters the bar has.
const WIDTH: usize = 40;

/// How often it is drawn at most; work that is done before has none.
const PAUSE: Duration = Duration::from_millis(100);

pub struct Progress {
    done: usize,
    total: usize,
    /// since when the bar stands as it is; None where nobody looks
    since: Option<Instant>,
    drawn: bool,
}

/// The bar, and how many of how many are done.
pub fn bar(done: usize, total: usize) -> String {
    let full = WIDTH * done / total.max(1);
    format!("[{}{}] {done} of {total}", "#".repeat(full), ".".repeat(WIDTH - full))
}

impl Progress {
    /// Nothing done of so many yet. The bar is drawn if standard error is a terminal.
    pub fn new(total: usize) -> Self {
        Progress { done: 0, total, since: stderr().is_terminal().then(Instant::now), drawn: false }
    }

    /// One more is done.
    pub fn step(&mut self) {
        self.done += 1;
        if self.since.is_some_and(|since| since.elapsed() >= PAUSE) {
            self.since = Some(Instant::now());
            self.drawn = true;
            // a bar that cannot be drawn is no reason to stop
            let _ = write!(stderr(), "\r{}", bar(self.done, self.total));
        }
    }

    /// Takes the bar away, until the next step.
    pub fn clear(&mut self) {
        if self.drawn {
            self.drawn = false;
            let _ = write!(stderr(), "\r\x1b[K");
        }
    }
}

impl Drop for Progress {
    fn drop(&mut self) {
        self.clear();
    }
}
