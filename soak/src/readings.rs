//! The readings of what an accepted block or trial handed out, on both sides,
//! and of the same lists with one thing changed.

pub mod changes;
pub mod faults;

use crate::bench::Failing;
use changes::CHANGES;
use reference::vectors::Lists;
use std::fmt;
use tigbulode::perform::Outcome;
use tigbulode::sides::{Library, Second};
use tigbulode_laboratory::{Power, Reading};

/// The readings of lists.
pub trait Plots {
    fn readings(&self, lists: &Lists, readings: &mut [Reading]) -> Result<Power, u8>;
}

/// The power of a sort and size.
fn power_of(is_floor: bool, value: f64) -> Power {
    match is_floor {
        true => Power::Floor(value),
        false => Power::Mean(value),
    }
}

impl Plots for Library {
    fn readings(&self, lists: &Lists, readings: &mut [Reading]) -> Result<Power, u8> {
        let Lists {
            y, xi, z, theta, ..
        } = lists;
        tigbulode_laboratory::readings(y, xi, z, theta, readings)
    }
}

impl Plots for Second {
    fn readings(&self, lists: &Lists, readings: &mut [Reading]) -> Result<Power, u8> {
        let own = |r: &Reading| reference::readings::Reading {
            y: r.y,
            error: r.error,
        };
        let mut lent: Vec<_> = readings.iter().map(own).collect();
        let power = reference::readings::readings(&lists.inputs(), &mut lent)?;
        for (reading, own) in readings.iter_mut().zip(lent) {
            (reading.y, reading.error) = (own.y, own.error);
        }
        Ok(power_of(power.is_floor(), power.value()))
    }
}

/// How many readings lie on each side of those that are lent, and what all of
/// them hold before the call.
const AROUND: usize = 4;
const BEFORE: [u64; 2] = [0x5555_5555_5555_5555, 0xD555_5555_5555_5555];

/// What is answered, and the bits of the readings with those around them.
#[derive(Clone, Debug, PartialEq, Eq)]
struct Given {
    number: u8,
    is_floor: bool,
    power: u64,
    readings: Vec<[u64; 2]>,
}

impl Given {
    fn by(side: &dyn Plots, lists: &Lists) -> Given {
        let [y, error] = BEFORE.map(f64::from_bits);
        let mut all = vec![Reading { y, error }; lists.readings + 2 * AROUND];
        let answer = side.readings(lists, &mut all[AROUND..AROUND + lists.readings]);
        let bits = |r: &Reading| [r.y.to_bits(), r.error.to_bits()];
        Given {
            number: answer.err().unwrap_or(0),
            is_floor: answer.is_ok_and(Power::is_floor),
            power: answer.map_or(0, |power| power.value().to_bits()),
            readings: std::hint::black_box(all).iter().map(bits).collect(),
        }
    }

    /// The same in the machine's own f64, for lists that are not turned down:
    /// exact but for the one division.
    fn by_machine(lists: &Lists) -> Given {
        let power_of_two = |exponent: u8| (f64::from(exponent) - 30.0).exp2();
        let number = |(&a, &exponent): (&i32, &u8)| f64::from(a) * power_of_two(exponent);
        let outputs = lists.y.iter().zip(&lists.xi).map(number);
        let errors: Vec<f64> = lists.z.iter().zip(&lists.theta).map(number).collect();
        let a = |error: &f64| (256.0 * error.abs()).floor().min(65_535.0);
        let sum: f64 = errors.iter().map(|error| a(error) * a(error)).sum();
        let bits = outputs
            .zip(&errors)
            .map(|(y, e)| [y.to_bits(), e.to_bits()]);
        let around = [BEFORE; AROUND];
        Given {
            number: 0,
            is_floor: errors.iter().any(|error| error.abs() >= 256.0),
            power: (sum / (65_536.0 * errors.len() as f64)).to_bits(),
            readings: around.into_iter().chain(bits).chain(around).collect(),
        }
    }

    /// The first difference: its part, and both values.
    fn difference(&self, other: &Given) -> Option<(String, String, String)> {
        let told = |part: &str, one: String, two: String| Some((part.to_string(), one, two));
        let sort = |given: &Given| ["a mean", "a floor"][usize::from(given.is_floor)].to_string();
        let bits = |bits: u64| format!("{bits:016x}");
        if self.number != other.number {
            return told("answer", self.number.to_string(), other.number.to_string());
        }
        if self.is_floor != other.is_floor {
            return told("power", sort(self), sort(other));
        }
        if self.power != other.power {
            return told("power", bits(self.power), bits(other.power));
        }
        let pairs = self.readings.iter().zip(&other.readings);
        let at = pairs.clone().position(|(one, two)| one != two)?;
        let place = at as i64 - AROUND as i64;
        let (one, two) = (self.readings[at], other.readings[at]);
        let which = usize::from(one[0] == two[0]);
        let part = format!("{} of sample {place}", ["y", "error"][which]);
        told(&part, bits(one[which]), bits(two[which]))
    }
}

/// What the readings have covered.
#[derive(Clone, Copy, Debug, Default)]
pub struct ReadingsTally {
    /// Of what was handed out.
    pub means: u64,
    pub floors: u64,
    pub samples: u64,
    /// Outputs and errors of 0.
    pub zeros: u64,
    /// Of the changed lists.
    pub changed_means: u64,
    pub changed_floors: u64,
    pub refused: u64,
}

impl ReadingsTally {
    fn handed_out(&mut self, lists: &Lists, given: &Given) {
        self.means += u64::from(!given.is_floor);
        self.floors += u64::from(given.is_floor);
        self.samples += lists.readings as u64;
        let both = lists.y.iter().chain(&lists.z);
        self.zeros += both.filter(|&&a| a == 0).count() as u64;
    }

    fn changed(&mut self, given: &Given) {
        match (given.number, given.is_floor) {
            (0, false) => self.changed_means += 1,
            (0, true) => self.changed_floors += 1,
            _ => self.refused += 1,
        }
    }
}

impl fmt::Display for ReadingsTally {
    fn fmt(&self, f: &mut fmt::Formatter) -> fmt::Result {
        writeln!(
            f,
            "readings of accepted blocks and trials: means {}, floors {}; samples {}, outputs and errors of 0 {}",
            self.means, self.floors, self.samples, self.zeros,
        )?;
        writeln!(
            f,
            "readings of the same with one thing changed: means {}, floors {}, turned down with 11 {}",
            self.changed_means, self.changed_floors, self.refused,
        )
    }
}

/// The two sides, and what was seen on them.
pub struct ReadingsBench<'a> {
    sides: [&'a dyn Plots; 2],
    pub tally: ReadingsTally,
}

/// The lists that an accepted block or trial handed out, with as many readings.
fn handed_out(outcome: &Outcome) -> Lists {
    fn list<T: TryFrom<i64>>(outcome: &Outcome, name: &str) -> Vec<T> {
        let numbers = outcome.list(name).iter();
        numbers.filter_map(|&a| T::try_from(a).ok()).collect()
    }
    let y: Vec<i32> = list(outcome, "Y");
    Lists {
        readings: y.len(),
        y,
        xi: list(outcome, "xi"),
        z: list(outcome, "Z"),
        theta: list(outcome, "theta"),
    }
}

impl<'a> ReadingsBench<'a> {
    pub fn new(library: &'a dyn Plots, second: &'a dyn Plots) -> ReadingsBench<'a> {
        let tally = ReadingsTally::default();
        let sides = [library, second];
        ReadingsBench { sides, tally }
    }

    /// The readings of what was handed out, and of the same with each change,
    /// at a place that the lists give.
    pub fn outcome(&mut self, outcome: &Outcome) -> Result<(), Failing> {
        let lists = handed_out(outcome);
        let given = self
            .checked(&lists, true)
            .map_err(|wrong| failing("readings", wrong))?;
        self.tally.handed_out(&lists, &given);
        let sum = lists
            .z
            .iter()
            .fold(0u32, |sum, &z| sum.wrapping_add(z as u32));
        let place = sum as usize % lists.readings.max(1);
        for change in &CHANGES {
            let mut changed = lists.clone();
            (change.make)(&mut changed, place);
            let about = format!("readings with {}", change.about);
            let given = self.checked(&changed, change.accepted);
            let given = given.map_err(|wrong| failing(&about, wrong))?;
            self.tally.changed(&given);
        }
        Ok(())
    }

    /// What both sides give, or what is wrong with it: the check, and a text.
    fn checked(&self, lists: &Lists, accepted: bool) -> Result<Given, (String, String)> {
        let before = lists.clone();
        let [one, two] = self.sides.map(|side| Given::by(side, lists));
        if let Some((part, one, two)) = one.difference(&two) {
            let text = format!("{part}: library {one}, second implementation {two}");
            let part = part.split(" of sample").next().unwrap_or_default();
            return Err((format!("difference in {part}"), text));
        }
        if (one.number == 0) != accepted || ![0, 11].contains(&one.number) {
            return Err(("number".to_string(), format!("answer {}", one.number)));
        }
        if std::hint::black_box(lists) != &before {
            return Err(("lists".to_string(), "a list is touched".to_string()));
        }
        let wanted = match accepted {
            true => Given::by_machine(lists),
            false => Given {
                readings: vec![BEFORE; one.readings.len()],
                ..one
            },
        };
        match one.difference(&wanted) {
            None => Ok(one),
            Some((part, one, two)) => {
                let check = ["refusal", "machine"][usize::from(accepted)];
                Err((check.to_string(), format!("{part}: {one}, not {two}")))
            }
        }
    }
}

fn failing(about: &str, (check, text): (String, String)) -> Failing {
    Failing::of(&format!("readings, {check}"), format!("{about}: {text}"))
}
