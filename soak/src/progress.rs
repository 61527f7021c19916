//! How far a run is: one line rewritten on a terminal, else a line now and
//! then. It goes to the error stream, so that what a run prints stays the same.

use std::io::{IsTerminal, Write};
use std::time::{Duration, Instant};

pub struct Progress {
    start: Instant,
    next: Instant,
    every: Duration,
    terminal: bool,
    shown: bool,
}

impl Progress {
    pub fn new() -> Progress {
        let terminal = std::io::stderr().is_terminal();
        let every = Duration::from_millis(if terminal { 200 } else { 60_000 });
        let start = Instant::now();
        Progress {
            start,
            next: start + every,
            every,
            terminal,
            shown: false,
        }
    }

    pub fn seconds(&self) -> u64 {
        self.start.elapsed().as_secs()
    }

    /// Shows the text if it is time again.
    pub fn show(&mut self, text: impl FnOnce(u64) -> String) {
        let now = Instant::now();
        if now < self.next {
            return;
        }
        self.next = now + self.every;
        self.shown = true;
        let line = text(self.seconds());
        let mut stream = std::io::stderr().lock();
        let _ = match self.terminal {
            true => write!(stream, "\r{line}\x1b[K").and_then(|()| stream.flush()),
            false => writeln!(stream, "{line}"),
        };
    }

    /// Takes the rewritten line away.
    pub fn clear(&mut self) {
        if self.terminal && self.shown {
            eprint!("\r\x1b[K");
            self.shown = false;
        }
    }
}

impl Default for Progress {
    fn default() -> Progress {
        Progress::new()
    }
}
