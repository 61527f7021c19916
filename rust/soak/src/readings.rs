//! The readings of what an accepted block or trial handed out, on both sides, and of the same lists with one thing
//! changed.

pub mod changes;

use crate::bench::{Bench, Failure};
use crate::laboratory::Laboratory;
use changes::CHANGES;
use harness::compare::{difference, Difference, SIDES};
use harness::perform::{plain, Outcome, Part};
use reference::vectors::Lists;
use tigbulode_laboratory::{Power, Reading};

/// How many readings lie on each side of those that are lent, and what all of them hold before the call.
const AROUND: usize = 4;
const BEFORE: [u64; 2] = [0x5555_5555_5555_5555, 0xD555_5555_5555_5555];

/// What is answered, and the bits of the readings with those around them.
fn outcome(number: u8, power: Option<(bool, f64)>, readings: Vec<[u64; 2]>) -> Outcome {
    let (is_floor, value) = power.unwrap_or((false, 0.0));
    let list = |name: &'static str, at: usize| {
        let numbers = readings.iter().map(|bits| bits[at] as i64).collect();
        Part { name, numbers, front: AROUND }
    };
    let floor = plain("floor", vec![is_floor.into()]);
    Outcome::of(number, [floor, plain("power", vec![value.to_bits() as i64]), list("y", 0), list("error", 1)])
}

fn bits(reading: &Reading) -> [u64; 2] {
    [reading.y.to_bits(), reading.error.to_bits()]
}

fn by(side: &dyn Laboratory, lists: &Lists) -> Outcome {
    let [y, error] = BEFORE.map(f64::from_bits);
    let mut all = vec![Reading { y, error }; lists.readings + 2 * AROUND];
    let answer = side.readings(lists, &mut all[AROUND..AROUND + lists.readings]);
    let power = answer.ok().map(|power: Power| (power.is_floor(), power.value()));
    outcome(answer.err().unwrap_or(0), power, std::hint::black_box(all).iter().map(bits).collect())
}

/// The same in the machine's own f64, for lists that are not turned down: exact but for the one division.
fn by_machine(lists: &Lists) -> Outcome {
    let power_of_two = |exponent: u8| (f64::from(exponent) - 30.0).exp2();
    let number = |(&a, &exponent): (&i32, &u8)| f64::from(a) * power_of_two(exponent);
    let outputs = lists.y.iter().zip(&lists.xi).map(number);
    let errors: Vec<f64> = lists.z.iter().zip(&lists.theta).map(number).collect();
    let a = |error: &f64| (256.0 * error.abs()).floor().min(65_535.0);
    let sum: f64 = errors.iter().map(|error| a(error) * a(error)).sum();
    let is_floor = errors.iter().any(|error| error.abs() >= 256.0);
    let readings = outputs.zip(&errors).map(|(y, &error)| bits(&Reading { y, error }));
    let around = [BEFORE; AROUND];
    let readings = around.into_iter().chain(readings).chain(around).collect();
    outcome(0, Some((is_floor, sum / (65_536.0 * errors.len() as f64))), readings)
}

/// The difference between two outcomes: numbers of binary64 are told as such.
fn told(d: &Difference, [one, two]: [&str; 2]) -> String {
    match d.part {
        "answer" | "floor" => d.between(one, two),
        _ => {
            let number = |bits: Option<i64>| bits.map_or(f64::NAN, |bits| f64::from_bits(bits as u64));
            let (first, second) = (number(d.first), number(d.second));
            format!("{}, place {}: {one} {first:?}, {two} {second:?}", d.part, d.place)
        }
    }
}

/// The lists that an accepted block or trial handed out, with as many readings.
fn handed_out(outcome: &Outcome) -> Lists {
    fn list<T: TryFrom<i64>>(outcome: &Outcome, name: &str) -> Vec<T> {
        let numbers = outcome.list(name).iter();
        numbers.filter_map(|&a| T::try_from(a).ok()).collect()
    }
    let y: Vec<i32> = list(outcome, "Y");
    Lists { readings: y.len(), y, xi: list(outcome, "xi"), z: list(outcome, "Z"), theta: list(outcome, "theta") }
}

impl Bench<'_> {
    /// The readings of what was handed out, and of the same with each change, at a place that the lists give.
    pub(crate) fn readings(&mut self, outcome: &Outcome) -> Result<(), Failure> {
        let lists = handed_out(outcome);
        let sort = self.read("readings", &lists, true)?;
        self.counts.add(sort, true);
        self.counts.add("read samples", lists.readings as u64);
        let zeros = lists.y.iter().chain(&lists.z).filter(|&&a| a == 0).count();
        self.counts.add("read zeros", zeros as u64);
        let sum = lists.z.iter().fold(0u32, |sum, &z| sum.wrapping_add(z as u32));
        let place = sum as usize % lists.readings.max(1);
        for change in &CHANGES {
            let mut changed = lists.clone();
            (change.make)(&mut changed, place);
            let sort = self.read(&format!("readings with {}", change.about), &changed, change.accepted)?;
            self.counts.add(&format!("changed {sort}"), true);
        }
        Ok(())
    }

    /// Which sort of readings both sides give, or what is wrong with them.
    fn read(&self, about: &str, lists: &Lists, accepted: bool) -> Result<&'static str, Failure> {
        let failing =
            |check: &str, text: String| Err(Failure::of(&format!("readings, {check}"), format!("{about}: {text}")));
        let before = lists.clone();
        let [one, two] = self.sides.laboratory.map(|side| by(side, lists));
        if let Some(d) = difference(&one.parts, &two.parts) {
            return failing(&format!("difference in {}", d.part), told(&d, SIDES));
        }
        if (one.number == 0) != accepted || ![0, 11].contains(&one.number) {
            return failing("number", format!("answer {}", one.number));
        }
        if std::hint::black_box(lists) != &before {
            return failing("lists", "a list is touched".to_string());
        }
        let (check, wanted) = match accepted {
            true => ("machine", by_machine(lists)),
            false => ("refusal", outcome(one.number, None, vec![BEFORE; lists.readings + 2 * AROUND])),
        };
        if let Some(d) = difference(&one.parts, &wanted.parts) {
            return failing(check, told(&d, ["given", "wanted"]));
        }
        Ok(match (accepted, one.list("floor")) {
            (false, _) => "refused",
            (true, [0]) => "means",
            (true, _) => "floors",
        })
    }
}
