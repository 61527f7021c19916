//! What is compared of trials without another implementation, by each side.

use super::{difference, SIDES};
use crate::calls::Call;
use crate::perform::{on_a_copy, perform, Outcome};
use crate::sides::Operations;
use crate::Equaliser;

/// How a trial differs from running its block on a copy by the same side.
pub fn unlike_a_run(
    sides: [&dyn Operations; 2],
    call: &Call,
    before: &[Equaliser; 2],
    trials: [&Outcome; 2],
) -> Option<String> {
    let lists = call.lists().filter(|_| call.is_trial())?;
    (0..2).find_map(|i| {
        let run = on_a_copy(sides[i], lists, call.other().unwrap_or(&before[i]));
        let difference = difference(&trials[i].parts, &run.parts)?;
        let text = difference.between("trial", "run on a copy");
        Some(format!("{}: {text}", SIDES[i]))
    })
}

/// The place and the kind of a call, and how it differs where the trials before
/// it are left out.
pub type OtherWithout = (usize, &'static str, String);

/// Calls with what they left, to be made again without the trials among them.
pub struct Past {
    start: Equaliser,
    calls: Vec<(Call, Outcome)>,
}

impl Past {
    /// No calls yet, and the record that the first one will have.
    pub fn new(start: Equaliser) -> Past {
        let calls = Vec::new();
        Past { start, calls }
    }

    pub fn push(&mut self, call: Call, outcome: Outcome) {
        self.calls.push((call, outcome));
    }

    pub fn count(&self) -> usize {
        self.calls.len()
    }

    /// Makes all but the trials again, and gives how many there are.
    pub fn without_trials(&self, sides: [&dyn Operations; 2]) -> Result<u64, OtherWithout> {
        let calls = self.calls.iter().enumerate();
        let calls = calls.filter(|(_, (call, _))| !call.is_trial());
        for (side, name) in sides.into_iter().zip(SIDES) {
            let mut record = self.start;
            for (place, (call, with)) in calls.clone() {
                let without = perform(side, call, &mut record);
                if let Some(difference) = difference(&with.parts, &without.parts) {
                    let text = difference.between("with the trials", "without them");
                    let kind = Call::KINDS[call.kind()];
                    return Err((place, kind, format!("{name}: {text}")));
                }
            }
        }
        Ok(calls.count() as u64)
    }
}
