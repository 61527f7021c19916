//! How far the history has come and how long the rest will take: a bar on a
//! terminal, otherwise a line for each fifth of it.

use std::io::{IsTerminal, Write};
use std::time::Instant;

pub struct Progress {
    total: u32,
    shown: Option<u32>,
    bar: bool,
    started: Instant,
}

impl Progress {
    pub fn new(total: u32) -> Progress {
        Progress {
            total,
            shown: None,
            bar: std::io::stderr().is_terminal(),
            started: Instant::now(),
        }
    }

    pub fn at(&mut self, done: u32) {
        let steps = if self.bar { 50 } else { 5 };
        let step = (u64::from(done) * steps / u64::from(self.total)) as u32;
        if self.shown != Some(step) {
            self.shown = Some(step);
            self.show(step, done);
        }
    }

    fn show(&self, step: u32, done: u32) {
        let total = self.total;
        let left = time_left(self.started.elapsed().as_secs_f64(), done, total);
        let mut out = std::io::stderr();
        let _ = if self.bar {
            let (full, rest) = ("#".repeat(step as usize), ".".repeat(50 - step as usize));
            let end = if step == 50 { "\n" } else { "" };
            write!(
                out,
                "\r[{full}{rest}] reading {done} of {total}{left:14}{end}"
            )
        } else {
            writeln!(out, "reading {done} of {total}{left}")
        };
        let _ = out.flush();
    }
}

/// By what was done in so many seconds; nothing where that is too little.
pub fn time_left(seconds: f64, done: u32, total: u32) -> String {
    let left = seconds / f64::from(done) * f64::from(total - done);
    if done < total / 100 || done == total {
        String::new()
    } else if left < 100.0 {
        format!(", {left:.0} s left")
    } else {
        format!(", {:.0} min left", left / 60.0)
    }
}
