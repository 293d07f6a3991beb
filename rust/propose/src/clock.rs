//! How long the search may take, and the lines that tell how far it is.

use std::time::{Duration, Instant};

/// A line is printed so often, where the search takes that long.
const LINE: Duration = Duration::from_secs(5);

pub struct Clock {
    start: Instant,
    /// For how long, and for how long with nothing shorter found.
    limit: Duration,
    patience: Duration,
    last_gain: Instant,
    last_line: Instant,
    quiet: bool,
}

impl Clock {
    pub fn new(limit: Duration, patience: Duration) -> Clock {
        let start = Instant::now();
        Clock { start, limit, patience, last_gain: start, last_line: start, quiet: false }
    }

    /// Without lines.
    pub fn quiet(limit: Duration) -> Clock {
        Clock { quiet: true, ..Clock::new(limit, limit) }
    }

    pub fn is_over(&self) -> bool {
        self.start.elapsed() >= self.limit || self.last_gain.elapsed() >= self.patience
    }

    pub fn gained(&mut self) {
        self.last_gain = Instant::now();
    }

    /// Prints a line if it is time for one.
    pub fn tell(&mut self, attempt: usize, given: usize, left: usize, steps: usize) {
        if !self.quiet && self.last_line.elapsed() >= LINE {
            let seconds = self.start.elapsed().as_secs();
            eprintln!(
                "propose: {seconds} s, attempt {attempt}: of {given} products {left} are left, after {steps} steps"
            );
            self.last_line = Instant::now();
        }
    }
}
