//! The same list of calls on two sides, compared after every call.

mod tally;
mod trials;

pub use tally::Tally;
pub use trials::{unlike_a_run, OtherWithout, Past};

use crate::calls::{Call, Maker};
use crate::perform::{perform, Outcome, Part};
use crate::sides::{record_of, Operations};
use crate::Equaliser;
use reference::State;
use std::collections::BTreeMap;

/// The list that is compared where none is asked for.
pub const SEED: u64 = 2026;
pub const COUNT: u64 = 10_000;
/// The calls whose outcomes are compared with changes.
pub const CHANGED_COUNT: u64 = 1_000;

/// The first difference of two outcomes.
#[derive(Clone, Debug, PartialEq, Eq)]
pub struct Difference {
    pub part: &'static str,
    /// Counted from the start of what was lent; below 0 in front of it.
    pub place: i64,
    pub first: Option<i64>,
    pub second: Option<i64>,
}

/// The names of the two sides.
pub const SIDES: [&str; 2] = ["library", "second implementation"];

impl Difference {
    /// The difference between what `first` and what `second` left.
    pub fn between(&self, first: &str, second: &str) -> String {
        let text = |number: Option<i64>| number.map_or("nothing".to_string(), |n| n.to_string());
        let place = match self.part {
            "record" | "state" => place_in_record(self.place),
            _ => format!("place {}", self.place),
        };
        let (one, other) = (text(self.first), text(self.second));
        format!("{}, {place}: {first} {one}, {second} {other}", self.part)
    }
}

/// The name of a record's number.
fn place_in_record(place: i64) -> String {
    const NAMES: [&str; 9] = ["p", "q", "N", "r", "L", "psi", "b", "B", "M"];
    match place {
        0..=8 => NAMES[place as usize].to_string(),
        9..=40 => format!("weight {}", place - 9),
        _ => format!("past {}", place - 41),
    }
}

/// The first difference between the parts of two outcomes.
pub fn difference(first: &[Part], second: &[Part]) -> Option<Difference> {
    assert_eq!(first.len(), second.len());
    let mut pairs = first.iter().zip(second);
    pairs.find_map(|(a, b)| {
        assert_eq!((a.name, a.front), (b.name, b.front));
        let length = a.numbers.len().max(b.numbers.len());
        let place = (0..length).find(|&i| a.numbers.get(i) != b.numbers.get(i))?;
        Some(Difference {
            part: a.name,
            place: place as i64 - a.front as i64,
            first: a.numbers.get(place).copied(),
            second: b.numbers.get(place).copied(),
        })
    })
}

/// A call that was made on both sides, with the records before it.
pub struct Made {
    pub call: Call,
    pub before: [Equaliser; 2],
    pub outcomes: [Outcome; 2],
}

impl Made {
    /// What differs between the sides, or between a trial and a run on a copy
    /// by one of them.
    fn difference(&self, sides: [&dyn Operations; 2]) -> Option<String> {
        let [first, second] = &self.outcomes;
        match difference(&first.parts, &second.parts) {
            Some(difference) => Some(difference.between(SIDES[0], SIDES[1])),
            None => unlike_a_run(sides, &self.call, &self.before, [first, second]),
        }
    }
}

/// One list of calls on two sides.
pub struct List<'a> {
    sides: [&'a dyn Operations; 2],
    records: [Equaliser; 2],
    maker: Maker,
    past: Past,
    pub tally: Tally,
}

impl<'a> List<'a> {
    /// How many calls at a time are made again without the trials.
    const ROW: usize = 500;

    pub fn new(first: &'a dyn Operations, second: &'a dyn Operations, seed: u64) -> List<'a> {
        let start = record_of(&State::fresh());
        List {
            sides: [first, second],
            records: [start; 2],
            maker: Maker::new(seed),
            past: Past::new(start),
            tally: Tally::default(),
        }
    }

    /// Makes the next call on both sides.
    pub fn call(&mut self) -> Made {
        let before = self.records;
        let call = self.maker.next(&before[1]);
        let [first, second] = &mut self.records;
        let outcomes = [
            perform(self.sides[0], &call, first),
            perform(self.sides[1], &call, second),
        ];
        let after = &self.records[1];
        self.tally.count(&call, &outcomes[1], &before[1], after);
        if let Call::Load(bytes) = &call {
            self.tally.saved_earlier += u64::from(self.maker.has_kept(bytes));
        }
        if let Some(image) = &outcomes[0].image {
            self.maker.keep(image);
        }
        Made {
            call,
            before,
            outcomes,
        }
    }

    /// Makes calls until there is a difference, and says where.
    pub fn run(&mut self, count: u64) -> Result<(), String> {
        for place in 0..count {
            let made = self.call();
            if let Some(text) = made.difference(self.sides) {
                let kind = Call::KINDS[made.call.kind()];
                return Err(format!("call {place}, {kind}: {text}"));
            }
            self.tally.on_copies += u64::from(made.call.is_trial());
            let [outcome, _] = made.outcomes;
            self.past.push(made.call, outcome);
            if self.past.count() == List::ROW || place + 1 == count {
                self.without_trials(place + 1)?;
            }
        }
        Ok(())
    }

    /// Makes the last calls again, without the trials.
    fn without_trials(&mut self, end: u64) -> Result<(), String> {
        let past = std::mem::replace(&mut self.past, Past::new(self.records[0]));
        let first = end - past.count() as u64;
        let again = past.without_trials(self.sides);
        self.tally.again += again.map_err(|(place, kind, text)| {
            let place = first + place as u64;
            format!("call {place}, {kind}: {text}")
        })?;
        Ok(())
    }

    /// Makes calls, and compares each part of each outcome also with one of
    /// its numbers changed by one bit. Gives for each part how many changes
    /// were tried and how many were told apart, at the changed place.
    pub fn run_changed(&mut self, count: u64) -> BTreeMap<&'static str, [u32; 2]> {
        let mut told = BTreeMap::new();
        for turn in 0..count {
            let [mut first, second] = self.call().outcomes;
            for i in 0..first.parts.len() {
                let part = &mut first.parts[i];
                let place = turn as usize % part.numbers.len();
                part.numbers[place] ^= 1;
                let (name, at) = (part.name, place as i64 - part.front as i64);
                let found = difference(&first.parts, &second.parts);
                first.parts[i].numbers[place] ^= 1;
                let counts: &mut [u32; 2] = told.entry(name).or_default();
                counts[0] += 1;
                counts[1] += u32::from(found.is_some_and(|d| d.part == name && d.place == at));
            }
        }
        told
    }
}

/// The text of a list of calls, and whether there was no difference.
pub fn text(
    first: &dyn Operations,
    second: &dyn Operations,
    seed: u64,
    count: u64,
) -> (String, bool) {
    let mut list = List::new(first, second, seed);
    let start = format!("seed {seed}, {count} calls\n");
    match list.run(count) {
        Ok(()) => (format!("{start}{}no difference\n", list.tally), true),
        Err(difference) => (format!("{start}{difference}\n"), false),
    }
}

/// The text of a list whose outcomes are also compared with changes, and
/// whether each was told apart.
pub fn text_changed(
    first: &dyn Operations,
    second: &dyn Operations,
    seed: u64,
    count: u64,
) -> (String, bool) {
    let mut text = format!("seed {seed}, {count} calls\n");
    let mut all = true;
    for (part, [tried, told]) in List::new(first, second, seed).run_changed(count) {
        text += &format!("{part} changed: told apart {told} of {tried}\n");
        all &= told == tried;
    }
    (text, all)
}
