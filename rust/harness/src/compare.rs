//! What two outcomes differ in, and what is compared of trials by one side alone.

use crate::calls::Call;
use crate::perform::{on_a_copy, perform, Outcome, Part};
use crate::sides::Operations;
use tigbulode::Equaliser;

/// The names of the two sides.
pub const SIDES: [&str; 2] = ["library", "second implementation"];

/// The first difference of two outcomes.
#[derive(Clone, Debug, PartialEq, Eq)]
pub struct Difference {
    pub part: &'static str,
    /// Counted from the start of what was lent; below 0 in front of it.
    pub place: i64,
    pub first: Option<i64>,
    pub second: Option<i64>,
}

impl Difference {
    /// The difference between what `first` and what `second` left.
    pub fn between(&self, first: &str, second: &str) -> String {
        let text = |number: Option<i64>| number.map_or("nothing".to_string(), |n| n.to_string());
        let place = match self.part {
            "record" | "state" => place_in_record(self.place),
            _ => format!("place {}", self.place),
        };
        let (one, other) = (text(self.first), text(self.second));
        format!("{}, {place}: {first} {one}, {second} {other}", self.part)
    }
}

/// The name of a record's number.
fn place_in_record(place: i64) -> String {
    const NAMES: [&str; 9] = ["p", "q", "N", "r", "L", "psi", "b", "B", "M"];
    match place {
        0..=8 => NAMES[place as usize].to_string(),
        9..=40 => format!("weight {}", place - 9),
        _ => format!("past {}", place - 41),
    }
}

/// The first difference between the parts of two outcomes.
pub fn difference(first: &[Part], second: &[Part]) -> Option<Difference> {
    assert_eq!(first.len(), second.len());
    let mut pairs = first.iter().zip(second);
    pairs.find_map(|(a, b)| {
        assert_eq!((a.name, a.front), (b.name, b.front));
        let length = a.numbers.len().max(b.numbers.len());
        let place = (0..length).find(|&i| a.numbers.get(i) != b.numbers.get(i))?;
        Some(Difference {
            part: a.name,
            place: place as i64 - a.front as i64,
            first: a.numbers.get(place).copied(),
            second: b.numbers.get(place).copied(),
        })
    })
}

/// How a trial differs from running its block on a copy by the same side.
pub fn unlike_a_run(
    sides: [&dyn Operations; 2],
    call: &Call,
    before: &[Equaliser; 2],
    trials: [&Outcome; 2],
) -> Option<String> {
    let lists = call.lists().filter(|_| call.is_trial())?;
    (0..2).find_map(|i| {
        let run = on_a_copy(sides[i], lists, call.other().unwrap_or(&before[i]));
        let difference = difference(&trials[i].parts, &run.parts)?;
        Some(format!("{}: {}", SIDES[i], difference.between("trial", "run on a copy")))
    })
}

/// The place of a call, and how it differs where the trials before it are left out.
pub type OtherWithout = (usize, String);

/// Makes a list's calls, each of which left an outcome, again from its start without the trials among them, and gives
/// how many there are.
pub fn without_trials(
    sides: [&dyn Operations; 2],
    start: Equaliser,
    list: &[(Call, Outcome)],
) -> Result<u64, OtherWithout> {
    let calls = list.iter().enumerate().filter(|(_, (call, _))| !call.is_trial());
    for (side, name) in sides.into_iter().zip(SIDES) {
        let mut record = start;
        for (place, (call, with)) in calls.clone() {
            let without = perform(side, call, &mut record);
            if let Some(difference) = difference(&with.parts, &without.parts) {
                let text = difference.between("with the trials", "without them");
                return Err((place, format!("{name}: {text}")));
            }
        }
    }
    Ok(calls.count() as u64)
}
