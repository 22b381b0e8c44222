//! Progress on standard error, every two seconds at most.

use std::time::{Duration, Instant};

const EVERY: Duration = Duration::from_secs(2);

pub struct Progress {
    shown: Instant,
}

impl Progress {
    pub fn new() -> Progress {
        Progress { shown: Instant::now() }
    }

    pub fn show(&mut self, text: impl FnOnce() -> String) {
        if self.shown.elapsed() > EVERY {
            eprintln!("  {}", text());
            self.shown = Instant::now();
        }
    }
}
