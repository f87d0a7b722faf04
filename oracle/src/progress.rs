// How far a long comparison has come, on standard error, every few seconds.

use std::time::{Duration, Instant};

const PAUSE: Duration = Duration::from_secs(5);

pub struct Progress {
    what: String,
    all: u64,
    done: u64,
    said: Instant,
}

impl Progress {
    pub fn new(what: &str, all: u64) -> Self {
        Self {
            what: what.to_string(),
            all,
            done: 0,
            said: Instant::now(),
        }
    }

    /// One more is done. The clock is looked at after each 64, and when `all` are done nothing is said.
    pub fn step(&mut self) {
        self.done += 1;
        if self.done % 64 == 0 && self.done < self.all && self.said.elapsed() >= PAUSE {
            eprintln!("  {}: {} of {}", self.what, self.done, self.all);
            self.said = Instant::now();
        }
    }
}
