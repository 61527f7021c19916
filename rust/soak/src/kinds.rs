//! Built-in faults: the kinds that a run can be asked for, and the sides that have them.

use crate::laboratory::{self, Laboratory};
use faults::{Fault, Faulty, CHECKS, FAULTS};
use harness::sides::{Library, Operations, Second};

/// A fault in the library's side, or in both, so that only a check without the second implementation can show it.
#[derive(Clone, Copy, Debug, PartialEq, Eq)]
pub struct Kind {
    pub fault: &'static str,
    pub in_both: bool,
}

impl Kind {
    /// A kind that is found, by its name.
    pub fn named(name: &str) -> Option<Kind> {
        let (own, check) = match name.strip_suffix("-in-both") {
            Some(own) => (own, '2'),
            None => (name, 's'),
        };
        let found = FAULTS.iter().find(|fault| fault.name == own && fault.found.contains(check));
        found.map(|fault| Kind { fault: fault.name, in_both: check == '2' })
    }

    pub fn name(self) -> String {
        let both = if self.in_both { "-in-both" } else { "" };
        format!("{}{both}", self.fault)
    }
}

/// A line for each fault, with the checks that find it and what is wrong, and one for each check.
pub fn list() -> String {
    let line = |fault: &Fault| format!("{:<6} {:<22} {}\n", fault.found, fault.name, fault.about);
    let lines: String = FAULTS.iter().map(line).collect();
    let checks = CHECKS.map(|(letter, check)| {
        let count = FAULTS.iter().filter(|fault| fault.found.contains(letter)).count();
        format!("{letter}: found by {check}, {count} of {}\n", FAULTS.len())
    });
    format!("{lines}{}", checks.concat())
}

/// The library's side and the second implementation's.
#[derive(Clone, Copy)]
pub struct Sides<'a> {
    pub station: [&'a dyn Operations; 2],
    pub laboratory: [&'a dyn Laboratory; 2],
}

/// Both without a fault.
pub const RIGHT: Sides<'static> = Sides { station: [&Library, &Second], laboratory: [&Library, &Second] };

/// Both sides, with a fault or without, for `work`.
pub fn with_sides<T>(kind: Option<Kind>, work: impl FnOnce(Sides) -> T) -> T {
    let Some(Kind { fault, in_both }) = kind else {
        return work(RIGHT);
    };
    let [library, second] = [(); 2].map(|()| Faulty::new(fault));
    let [simulating, reckoning] = RIGHT.laboratory.map(|side| laboratory::Faulty { side, fault });
    work(match in_both {
        true => Sides { station: [&library, &second], laboratory: [&simulating, &reckoning] },
        false => Sides { station: [&library, &Second], laboratory: [&simulating, &Second] },
    })
}
