//! A signal that asks a run to stop. The first is only noted, so that the run
//! can tell what it has seen; a second one ends the program at once.

use std::sync::atomic::{AtomicI32, AtomicU64, Ordering::SeqCst};
use std::sync::OnceLock;
use std::time::Instant;

/// The signals by number, on every Unix.
pub const SIGNALS: [(&str, i32); 3] = [("HUP", 1), ("INT", 2), ("TERM", 15)];
/// Signals within so many milliseconds of the first are that one again:
/// `timeout` sends each twice.
pub const SAME: u64 = 100;

/// What C's `signal` takes and gives in place of a function.
const DEFAULT: usize = 0;
const IGNORED: usize = 1;

extern "C" {
    fn signal(number: i32, handler: usize) -> usize;
    fn raise(number: i32) -> i32;
}

static START: OnceLock<Instant> = OnceLock::new();
/// The signal that was noted, 0 for none, and when.
static NOTED: AtomicI32 = AtomicI32::new(0);
static AT: AtomicU64 = AtomicU64::new(0);

extern "C" fn note(number: i32) {
    let now = START.get().map_or(0, |start| start.elapsed().as_millis());
    let now = now as u64;
    if NOTED.compare_exchange(0, number, SeqCst, SeqCst).is_ok() {
        AT.store(now, SeqCst);
    } else if now > AT.load(SeqCst) + SAME {
        end_at_once();
        // SAFETY: it comes after this handler, and ends the program.
        unsafe { raise(number) };
    }
}

/// From now on each of the signals ends the program.
pub fn end_at_once() {
    for (_, number) in SIGNALS {
        // SAFETY: `signal` may be called at any time, in a handler too.
        unsafe { signal(number, DEFAULT) };
    }
}

/// From now on the first of the signals is noted. One that is ignored, as under
/// nohup, stays so.
pub fn listen() {
    START.get_or_init(Instant::now);
    let handler = note as extern "C" fn(i32) as usize;
    for (_, number) in SIGNALS {
        // SAFETY: the handler reads a clock and numbers, and allocates nothing.
        unsafe {
            if signal(number, handler) == IGNORED {
                signal(number, IGNORED);
            }
        }
    }
}

/// The signal that was noted.
pub fn noted() -> Option<(&'static str, i32)> {
    let number = NOTED.load(SeqCst);
    SIGNALS.into_iter().find(|(_, known)| *known == number)
}
