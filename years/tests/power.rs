//! The error power of blocks: held to the second implementation, joined, in
//! words, and on a page.

mod common;

use common::{given, history};
use reference::{readings as second, Settings};
use std::cell::RefCell;
use tigbulode::sides::{Library, Operations};
use tigbulode::{Answer, Block, Equaliser, Outputs, Saved};
use tigbulode_laboratory::Power;
use years::assumptions::Assumptions;
use years::history::{run_beside, Reading};
use years::old_rule::RisesOnly;
use years::page::{page, Page};
use years::power::{ErrorPower, ReadingInputs};
use years::random::{Purpose, Random};
use years::script::script;
use years::view::View;
use years::{comparison, table};

fn mean(value: f64) -> ErrorPower {
    ErrorPower::of_block(Power::Mean(value))
}

fn floor(value: f64) -> ErrorPower {
    ErrorPower::of_block(Power::Floor(value))
}

/// The error power by the second implementation.
fn by_second(y: &[i32], xi: &[u8], z: &[i32], theta: &[u8]) -> Result<ErrorPower, u8> {
    let mut lent = vec![second::Reading::default(); y.len()];
    let power = second::readings(&second::ReadingInputs { y, xi, z, theta }, &mut lent)?;
    Ok(match power {
        second::Power::Mean(value) => mean(value),
        second::Power::Floor(value) => floor(value),
    })
}

/// A whole number of any size up to so many bits, of either sign.
fn number(random: &mut Random, bits: u32) -> i32 {
    let size = random.draw() as i32 & ((1 << random.below(bits + 1)) - 1);
    if random.happens(0.5) {
        -size
    } else {
        size
    }
}

#[test]
fn lists_are_read_as_the_second_implementation_reads_them() {
    let mut random = Random::new(1, Purpose::Filler);
    let (mut means, mut floors, mut zeros) = (0, 0, 0);
    for _ in 0..3000 {
        let n = 1 + random.below(128) as usize;
        let most = 1 + random.below(24);
        let y: Vec<i32> = (0..n).map(|_| number(&mut random, 29)).collect();
        let z: Vec<i32> = (0..n).map(|_| number(&mut random, 30)).collect();
        let mut exponents = || (0..n).map(|_| 1 + random.below(most) as u8).collect();
        let (xi, theta): (Vec<u8>, Vec<u8>) = (exponents(), exponents());
        let handed = ReadingInputs {
            y: &y,
            xi: &xi,
            z: &z,
            theta: &theta,
        };
        let (readings, power) = handed.read().expect("read");
        let power = ErrorPower::of_block(power);
        assert_eq!(Ok(power), by_second(&y, &xi, &z, &theta));
        for (place, reading) in readings.iter().enumerate() {
            let exact = |m: i32, e: u8| f64::from(m) * 2f64.powi(i32::from(e) - 30);
            assert_eq!(reading.y, exact(y[place], xi[place]));
            assert_eq!(reading.error, exact(z[place], theta[place]));
        }
        means += u32::from(!power.is_floor() && !power.is_zero());
        floors += u32::from(power.is_floor());
        zeros += u32::from(power.is_zero());
    }
    assert!(
        means > 500 && floors > 500 && zeros > 20,
        "{means} {floors} {zeros}"
    );
}

#[test]
fn what_is_turned_down_is_an_internal_error() {
    let handed = |theta: &[u8]| {
        let (y, xi, z) = (&[0; 2], &[1; 2], &[0; 2]);
        let handed = ReadingInputs { y, xi, z, theta };
        handed.read().map(|(_, power)| power)
    };
    assert_eq!(handed(&[1, 24]), Ok(Power::Mean(0.0)));
    let words = "internal error: the laboratory's library turned down with 11 what an accepted block handed out: ";
    for theta in [&[1][..], &[1, 25], &[0, 1]] {
        let told = handed(theta).expect_err("turned down");
        assert!(told.starts_with(words), "{told}");
    }
}

#[test]
fn blocks_are_joined_as_their_mean_and_a_floor_is_one_of_all() {
    assert_eq!(ErrorPower::joined([]), None);
    assert_eq!(ErrorPower::joined([mean(0.3)]), Some(mean(0.3)));
    assert_eq!(ErrorPower::joined([floor(600.0)]), Some(floor(600.0)));
    let two = ErrorPower::joined([mean(1.0), mean(4.0)]);
    let wanted = |power, blocks| Some(ErrorPower { power, blocks });
    assert_eq!(two, wanted(Power::Mean(2.5), 2));
    let five = two.into_iter().chain([mean(0.0), floor(600.0), mean(0.0)]);
    assert_eq!(ErrorPower::joined(five), wanted(Power::Floor(121.0), 5));
}

#[test]
fn a_power_in_words() {
    assert_eq!(mean(1.0).in_words(), "0.0 dB");
    assert_eq!(mean(0.999).in_words(), "0.0 dB");
    assert_eq!(mean(0.0144).in_words(), "−18.4 dB");
    assert_eq!(mean(100.0).in_words(), "20.0 dB");
    assert_eq!(mean(1e-11).in_words(), "−110.0 dB");
    // 27.98 and 28.03 dB: what is only a floor is rounded down
    assert_eq!(floor(628.0).in_words(), "at least 27.9 dB (a floor)");
    assert_eq!(mean(628.0).in_words(), "28.0 dB");
    assert_eq!(floor(635.0).in_words(), "at least 28.0 dB (a floor)");
    assert_eq!(mean(0.0).in_words(), "below −48.1 dB");
    assert!(10.0 * (1.0f64 / 65536.0).log10() < -48.1);
    assert_eq!((mean(0.0).kind(), floor(600.0).kind()), ("mean", "floor"));
    assert_eq!(
        (mean(0.0).decibels(), mean(1e-11).decibels()),
        (-100.0, -100.0)
    );
}

/// What stands in for the old rule, with the second implementation's error
/// power of each block that it hands out.
struct Recorded<'a> {
    by: &'a dyn Operations,
    powers: RefCell<Vec<ErrorPower>>,
}

impl Operations for Recorded<'_> {
    fn set_up(&self, settings: Settings) -> Answer {
        self.by.set_up(settings)
    }

    fn run(&self, s: &mut Equaliser, block: Block, out: Outputs) -> u8 {
        let Outputs {
            y,
            xi,
            decision,
            z,
            theta,
        } = out;
        let lent = Outputs {
            y: &mut *y,
            xi: &mut *xi,
            decision,
            z: &mut *z,
            theta: &mut *theta,
        };
        let number = self.by.run(s, block, lent);
        let power = by_second(y, xi, z, theta).expect("a power");
        self.powers.borrow_mut().push(power);
        number
    }

    fn trial(&self, s: &mut Equaliser, block: Block, out: Outputs) -> Answer {
        self.by.trial(s, block, out)
    }

    fn save(&self, s: &mut Equaliser, buffer: &mut [u8]) -> Saved {
        self.by.save(s, buffer)
    }

    fn load(&self, bytes: &[u8]) -> Answer {
        self.by.load(bytes)
    }
}

/// A history beside another, and the second implementation's error power of
/// the other's payload, reading by reading.
fn recorded(given: &Assumptions, by: &dyn Operations) -> (Vec<Reading>, Vec<ErrorPower>) {
    let powers = RefCell::new(Vec::new());
    let other = Recorded { by, powers };
    let history = run_beside(given, &other, |_| {}).expect("every block is read");
    let readings = history.readings;
    let powers = other.powers.into_inner();
    let (preamble, payload) = (given.burst.preamble_blocks, given.burst.payload_blocks);
    let bursts =
        powers[given.burst.commissioning_blocks as usize..].chunks((preamble + payload) as usize);
    let of_payload = |burst: &[ErrorPower]| {
        let blocks = &burst[preamble as usize..];
        let sum: f64 = blocks.iter().map(|block| block.value()).sum();
        let mean = sum / f64::from(payload);
        let power = match blocks.iter().any(|block| block.is_floor()) {
            true => Power::Floor(mean),
            false => Power::Mean(mean),
        };
        ErrorPower {
            power,
            blocks: payload,
        }
    };
    let powers = bursts.map(of_payload).collect();
    (readings, powers)
}

const SHORT: [(&str, &str); 4] = [
    ("years", "1"),
    ("faint_first_day", "40"),
    ("loud_first_day", "200"),
    ("power_loss_days", "60"),
];

#[test]
fn every_reading_has_the_power_that_the_second_implementation_finds() {
    for payload in ["1", "2"] {
        let given = given(&[&SHORT[..], &[("payload_blocks", payload)]].concat());
        let (readings, powers) = recorded(&given, &Library);
        let own: Vec<_> = readings.iter().filter_map(|x| x.error_power).collect();
        assert_eq!(own, powers);
        let (readings, powers) = recorded(&given, &RisesOnly);
        let old = readings.iter().filter_map(|x| x.old?.error_power);
        assert_eq!(old.collect::<Vec<_>>(), powers);
        assert_ne!(own, powers);
    }
}

/// What stands in for the old rule and hands out an exponent that none has.
struct OtherExponent;

impl Operations for OtherExponent {
    fn set_up(&self, settings: Settings) -> Answer {
        RisesOnly.set_up(settings)
    }

    fn run(&self, _: &mut Equaliser, _: Block, out: Outputs) -> u8 {
        out.theta.fill(25);
        0
    }

    fn trial(&self, s: &mut Equaliser, block: Block, out: Outputs) -> Answer {
        RisesOnly.trial(s, block, out)
    }

    fn save(&self, s: &mut Equaliser, buffer: &mut [u8]) -> Saved {
        RisesOnly.save(s, buffer)
    }

    fn load(&self, bytes: &[u8]) -> Answer {
        RisesOnly.load(bytes)
    }
}

#[test]
fn a_history_ends_where_a_block_cannot_be_read() {
    let told = run_beside(&given(&SHORT), &OtherExponent, |_| {}).expect_err("a message");
    assert!(told.starts_with("internal error: "), "{told}");
}

/// A damaged image whose exponent is far too great, loaded since there is no
/// check sum: after it errors are beyond 256.
const DAMAGED: [(&str, &str); 7] = [
    ("seed", "14"),
    ("years", "1"),
    ("readings_a_day", "4"),
    ("power_loss_days", "2"),
    ("save_every_days", "1"),
    ("damaged_images", "1"),
    ("check_sum", "0"),
];

fn all_years(given: &Assumptions, readings: &[Reading]) -> Page {
    page(&View::all(given, readings), "all".to_string())
}

const MARKED: &str = "only a floor: an error of 256 or more";

/// The rows of the marks of floors.
fn marks(page: &Page) -> Vec<String> {
    let panel = page.panels.iter().find(|panel| panel.name == "error power");
    let mut curves = panel.expect("the panel").curves.iter();
    let marks = curves.find(|curve| curve.title.as_deref() == Some(MARKED));
    let rows = &marks.expect("the marks").rows;
    rows.lines().map(str::to_string).collect()
}

fn is_floor(power: Option<ErrorPower>) -> bool {
    power.is_some_and(ErrorPower::is_floor)
}

fn csv(given: &Assumptions, readings: &[Reading]) -> String {
    let mut bytes = Vec::new();
    table::csv(given, readings, &mut bytes).expect("written");
    String::from_utf8(bytes).expect("text")
}

/// The values of a column.
fn column<'a>(table: &'a str, name: &str) -> Vec<&'a str> {
    let mut lines = table.lines();
    let header = lines.next().expect("a header");
    let place = header.split(',').position(|column| column == name);
    let place = place.expect("a column");
    lines
        .filter_map(|line| line.split(',').nth(place))
        .collect()
}

#[test]
fn a_damaged_image_without_a_check_sum_brings_floors() {
    let given = given(&DAMAGED);
    let (readings, powers) = recorded(&given, &Library);
    let own: Vec<_> = readings.iter().filter_map(|x| x.error_power).collect();
    assert_eq!(own, powers);
    let floors: Vec<bool> = own.iter().map(|power| power.is_floor()).collect();
    assert_eq!(floors.iter().filter(|floor| **floor).count(), 7);
    let table = csv(&given, &readings);
    for name in ["mean or floor", "mean or floor by the old rule"] {
        let told: Vec<bool> = column(&table, name)
            .iter()
            .map(|word| *word == "floor")
            .collect();
        assert_eq!(told, floors);
        assert!(column(&table, name)
            .iter()
            .all(|word| ["mean", "floor"].contains(word)));
    }
    // seven readings, the weeks that they are in, and those weeks by the old rule
    let page = all_years(&given, &readings);
    let weeks = View::all(&given, &readings).powers();
    let weeks = weeks.iter().filter(|week| is_floor(week.power)).count();
    assert_eq!(marks(&page).len(), 7 + 2 * weeks);
    assert!(script(&page).contains(MARKED));
}

#[test]
fn a_power_in_the_table_reads_back_as_the_same() {
    let given = given(&SHORT);
    let readings = history(&given);
    let table = csv(&given, &readings);
    let read = column(&table, "error power (squared symbol units)").into_iter();
    let read: Vec<f64> = read.map(|word| word.parse().expect("a number")).collect();
    let own = readings.iter().filter_map(|x| x.error_power);
    assert_eq!(read, own.map(ErrorPower::value).collect::<Vec<_>>());
}

#[test]
fn what_did_not_happen_is_not_on_the_page() {
    let given = given(&SHORT);
    let mut readings = history(&given);
    let zero = "power 0, all below 1/256, is at −100 dB";
    let text = script(&all_years(&given, &readings));
    assert!(!text.contains(MARKED) && !text.contains(zero));
    let height = |readings: &[Reading]| {
        let page = all_years(&given, readings);
        let panel = page.panels.iter().find(|panel| panel.name == "error power");
        panel.expect("the panel").height
    };
    let before = height(&readings);
    readings[100].error_power = Some(mean(0.0));
    assert!(script(&all_years(&given, &readings)).contains(zero));
    assert_eq!(height(&readings), before + 20.0);
    readings[300].error_power = Some(floor(600.0));
    let page = all_years(&given, &readings);
    assert_eq!(marks(&page).len(), 2);
    assert!(
        marks(&page)[1].ends_with(" 27.781513"),
        "{:?}",
        marks(&page)
    );
    assert_eq!(height(&readings), before + 44.0);
}

#[test]
fn a_summary_says_at_least_where_one_block_of_a_stretch_is_a_floor() {
    let given = given(&SHORT);
    let mut readings = history(&given);
    assert!(!comparison::lines(&given, &readings).contains("at least"));
    readings[10].error_power = Some(floor(600.0));
    let line = "40 days before the faint spell: ψ 3 at the end, error power at least 8.7 dB (a floor); by the old rule ψ 3, −";
    let text = comparison::lines(&given, &readings);
    assert!(text.starts_with(line), "{text}");
    assert_eq!(text.matches("at least").count(), 1);
}
