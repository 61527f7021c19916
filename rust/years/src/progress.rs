//! How far a long history has come and how long the rest will take: a line every few seconds.

use std::time::{Duration, Instant};

const BETWEEN: Duration = Duration::from_secs(5);

pub struct Progress {
    total: u32,
    started: Instant,
    told: Instant,
}

impl Progress {
    pub fn new(total: u32) -> Progress {
        let now = Instant::now();
        Progress { total, started: now, told: now }
    }

    /// The time that is left goes by what was done so far.
    pub fn at(&mut self, done: u32) {
        if self.told.elapsed() >= BETWEEN {
            self.told = Instant::now();
            let left = self.started.elapsed().as_secs_f64() / f64::from(done) * f64::from(self.total - done);
            eprintln!("reading {done} of {}, {left:.0} s left", self.total);
        }
    }
}
