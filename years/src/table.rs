//! The table of readings, and a summary of it.

use crate::assumptions::{Assumptions, DAYS_A_YEAR};
use crate::comparison;
use crate::converter::power_of_two;
use crate::history::{History, Reading};
use crate::outcome::Outcome;
use crate::power::ErrorPower;
use crate::station::Return;
use crate::swap_words;
use crate::words;
use std::io::{Result, Write};
use tigbulode::Equaliser;

/// Weights times their unit, feed forward first.
pub fn weights(record: &Equaliser) -> Vec<f64> {
    let taps = usize::from(record.p + record.q);
    let unit = power_of_two(i32::from(record.psi) - 15);
    record.weights[..taps]
        .iter()
        .map(|w| f64::from(*w) * unit)
        .collect()
}

/// The one of greatest magnitude.
fn largest(weights: &[f64]) -> f64 {
    weights.iter().fold(
        0.0,
        |most: f64, w| if w.abs() > most.abs() { *w } else { most },
    )
}

pub fn largest_forward(reading: &Reading) -> f64 {
    largest(&weights(&reading.record)[..usize::from(reading.record.p)])
}

pub fn largest_back(reading: &Reading) -> f64 {
    largest(&weights(&reading.record)[usize::from(reading.record.p)..])
}

/// The columns of all weights.
pub fn weight_names(given: &Assumptions) -> Vec<String> {
    let forward = (0..given.sizes.p).map(|i| format!("feed forward {i}"));
    let back = (1..=given.sizes.q).map(|i| format!("feedback {i}"));
    forward.chain(back).collect()
}

fn header(given: &Assumptions) -> String {
    let mut line = "reading,day (days),time (years),pressure true (bar),pressure sent (bar),\
         pressure received (bar),payload symbols,wrong decisions,error power (squared symbol units),\
         mean or floor,largest feed forward weight,largest feedback weight,psi,b,B,least gain,greatest gain,\
         clipped samples,loud spell,faint spell,noisy joint,saved,power lost,refused"
        .to_string();
    let numbers = (1..=9).map(|n| format!(",refused {n}"));
    let weights = weight_names(given)
        .into_iter()
        .map(|name| format!(",{name}"));
    line.extend(numbers.chain(weights));
    if given.old_rule {
        line.push_str(OLD_RULE);
    }
    line.push('\n');
    line
}

/// The last columns, where the old rule is run.
const OLD_RULE: &str = ",psi by the old rule,error power by the old rule (squared symbol units),\
     mean or floor by the old rule,wrong decisions by the old rule,lost by the old rule";

/// The power with all its digits, and whether it is a mean or only a floor.
pub fn power_fields(power: Option<ErrorPower>) -> [String; 2] {
    power.map_or([String::new(), String::new()], |power| {
        [format!("{:e}", power.value()), power.kind().to_string()]
    })
}

fn by_old_rule(old: &Outcome) -> [String; 5] {
    let [power, kind] = power_fields(old.error_power);
    [
        old.record.psi.to_string(),
        power,
        kind,
        old.wrong.to_string(),
        u8::from(old.received.is_none()).to_string(),
    ]
}

fn bar(given: &Assumptions, number: Option<u16>) -> String {
    number.map_or(String::new(), |n| format!("{:.4}", given.pressure.bar(n)))
}

fn row(given: &Assumptions, reading: &Reading) -> String {
    let weights = weights(&reading.record);
    let lost = reading.power_lost.map_or(0, |how| how as u8);
    let mut fields = vec![
        reading.number.to_string(),
        format!("{:.4}", reading.day),
        format!("{:.6}", reading.day / DAYS_A_YEAR),
        format!("{:.4}", reading.pressure_true),
        bar(given, Some(reading.pressure_sent)),
        bar(given, reading.pressure_received),
        reading.symbols.to_string(),
        reading.wrong.to_string(),
    ];
    fields.extend(power_fields(reading.error_power));
    fields.extend([largest_forward, largest_back].map(|of| format!("{:.6}", of(reading))));
    let record = &reading.record;
    let gains = [reading.gain_least, reading.gain_most];
    fields.extend([record.psi, record.b, record.bmax].map(|n| n.to_string()));
    fields.extend(gains.map(|n| n.to_string()));
    fields.push(reading.clipped.to_string());
    let marks = [reading.loud, reading.faint, reading.joint, reading.saved];
    fields.extend(marks.map(|mark| u8::from(mark).to_string()));
    fields.push(lost.to_string());
    fields.push(reading.refused.iter().sum::<u32>().to_string());
    fields.extend(reading.refused[1..].iter().map(|n| n.to_string()));
    fields.extend(weights.iter().map(|w| format!("{w:.6}")));
    fields.extend(reading.old.iter().flat_map(by_old_rule));
    fields.join(",") + "\n"
}

/// The whole table: a header and a row for each reading.
pub fn csv(given: &Assumptions, readings: &[Reading], out: &mut impl Write) -> Result<()> {
    out.write_all(header(given).as_bytes())?;
    readings
        .iter()
        .try_for_each(|reading| out.write_all(row(given, reading).as_bytes()))
}

/// A name for readings, and which they are.
type Kind = (&'static str, fn(&Reading) -> bool);

/// The settings, then what came of them.
pub fn summary(given: &Assumptions, history: &History) -> String {
    let readings = &history.readings;
    let kinds: [Kind; 5] = [
        ("all", |_| true),
        ("quiet", |x| !x.loud && !x.faint && !x.joint),
        ("loud spell", |x| x.loud),
        ("faint spell", |x| x.faint),
        ("noisy joint", |x| x.joint),
    ];
    let part = |(name, of): &Kind| {
        let part: Vec<_> = readings.iter().filter(|x| of(x)).collect();
        (!part.is_empty()).then(|| counts(name, &part))
    };
    let [taps, step] = words::settings(&given.sizes);
    let mut text = format!("{taps}\n{step}\n{}\n", words::extent(given));
    text.extend(words::other_than_default(&given.changes).map(|line| line + "\n"));
    text.extend(kinds.iter().filter_map(part));
    text.push_str(&wrong_pressures(given, readings));
    text.push_str(&returns(readings));
    text.push_str(&comparison::lines(given, readings));
    text.push_str(&swap_words::lines(given, &history.swapped));
    let refused = readings.last().map_or([0; 10], |x| x.refused);
    let by_number = (1..10).map(|n| format!(" {n}: {}", refused[n]));
    let by_number = by_number.collect::<Vec<_>>().join(",");
    text + &format!("calls turned down, by number:{by_number}\n")
}

/// Lines of wrong pressures at most.
const MOST_LINES: usize = 20;

/// A line for each wrong pressure that passed the check, up to so many.
fn wrong_pressures(given: &Assumptions, readings: &[Reading]) -> String {
    let wrong: Vec<&Reading> = readings.iter().filter(|x| x.is_wrong()).collect();
    let line = |x: &&Reading| {
        format!(
            "wrong pressure past the check: day {:.4}, true {:.4} bar, received {} bar\n",
            x.day,
            x.pressure_true,
            bar(given, x.pressure_received)
        )
    };
    let mut text: String = wrong.iter().take(MOST_LINES).map(line).collect();
    if wrong.len() > MOST_LINES {
        let more = words::count((wrong.len() - MOST_LINES) as u64, "wrong pressure");
        text.push_str(&format!("and {more} more past the check\n"));
    }
    text
}

/// How the station came back after its losses of power.
fn returns(readings: &[Reading]) -> String {
    let losses = readings.iter().filter_map(|x| x.power_lost);
    let count = |wanted: Return| losses.clone().filter(|how| *how == wanted).count();
    let damaged = count(Return::LoadedDamaged);
    let wrong = count(Return::CheckSumWrong);
    format!(
        "power lost {}: {} loaded, {damaged} damaged among them; {} set up anew, {wrong} for a wrong check sum\n",
        words::count(losses.clone().count() as u64, "time"),
        words::count((count(Return::Loaded) + damaged) as u64, "image"),
        words::count((count(Return::SetUpAnew) + wrong) as u64, "time"),
    )
}

fn counts(name: &str, part: &[&Reading]) -> String {
    let symbols: u64 = part.iter().map(|x| u64::from(x.symbols)).sum();
    let wrong: u64 = part.iter().map(|x| u64::from(x.wrong)).sum();
    let lost = part.iter().filter(|x| x.pressure_received.is_none());
    let lost = lost.count() as u64;
    let past = part.iter().filter(|x| x.is_wrong()).count() as u64;
    let readings = part.len() as u64;
    format!(
        "{name}: {}; {}; {} past the check\n",
        words::share(lost, readings, "reading", "lost"),
        words::share(wrong, symbols, "payload symbol", "wrong"),
        words::count(past, "wrong pressure"),
    )
}
