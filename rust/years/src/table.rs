//! The table of readings, and a summary of it.

use crate::assumptions::{Assumptions, DAYS_A_YEAR};
use crate::history::{History, Reading};
use crate::station::Return;
use crate::swap_words;
use plots::block::{largest, weight_fields, weight_names, weights};
use plots::power::ErrorPower;
use plots::words;
use tigbulode::number_text;

pub fn largest_forward(reading: &Reading) -> f64 {
    let record = &reading.outcome.record;
    largest(&weights(record)[..usize::from(record.p)])
}

pub fn largest_back(reading: &Reading) -> f64 {
    let record = &reading.outcome.record;
    largest(&weights(record)[usize::from(record.p)..])
}

pub fn bar(given: &Assumptions, number: Option<u16>) -> String {
    number.map_or(String::new(), |number| format!("{:.4}", given.bar(number)))
}

/// The table's columns but for refused calls by number and weights.
type Column = (&'static str, fn(&Assumptions, &Reading) -> String);
const COLUMNS: [Column; 24] = [
    ("reading", |_, x| x.number.to_string()),
    ("day (days)", |_, x| format!("{:.4}", x.day)),
    ("time (years)", |_, x| format!("{:.6}", x.day / DAYS_A_YEAR)),
    ("pressure true (bar)", |_, x| format!("{:.4}", x.pressure)),
    ("pressure sent (bar)", |given, x| bar(given, Some(x.sent))),
    ("pressure received (bar)", |given, x| bar(given, x.outcome.received)),
    ("payload symbols", |given, _| given.payload_symbols().to_string()),
    ("wrong decisions", |_, x| x.outcome.wrong.to_string()),
    ("error power (squared symbol units)", |_, x| ErrorPower::fields(x.outcome.error_power)[0].clone()),
    ("mean or floor", |_, x| ErrorPower::fields(x.outcome.error_power)[1].clone()),
    ("largest feed forward weight", |_, x| largest_forward(x).to_string()),
    ("largest feedback weight", |_, x| largest_back(x).to_string()),
    ("psi", |_, x| x.outcome.record.psi.to_string()),
    ("b", |_, x| x.outcome.record.b.to_string()),
    ("B", |_, x| x.outcome.record.bmax.to_string()),
    ("least gain", |_, x| x.gain_least.to_string()),
    ("greatest gain", |_, x| x.gain_most.to_string()),
    ("clipped samples", |_, x| x.clipped.to_string()),
    ("loud spell", |_, x| u8::from(x.loud).to_string()),
    ("faint spell", |_, x| u8::from(x.faint).to_string()),
    ("noisy joint", |_, x| u8::from(x.joint).to_string()),
    ("saved", |_, x| u8::from(x.saved).to_string()),
    ("power lost", |_, x| x.power_lost.map_or(0, |how| how as u8).to_string()),
    ("refused", |_, x| x.refused.iter().sum::<u32>().to_string()),
];

/// The whole table: a header and a row for each reading.
pub fn csv(given: &Assumptions, readings: &[Reading]) -> String {
    let mut header: Vec<String> = COLUMNS.iter().map(|(name, _)| name.to_string()).collect();
    header.extend((1..=9).map(|n| format!("refused {n}")));
    header.extend(weight_names(given.settings.p, given.settings.q));
    let row = |x: &Reading| {
        let mut fields: Vec<String> = COLUMNS.iter().map(|(_, field)| field(given, x)).collect();
        fields.extend(x.refused[1..].iter().map(u32::to_string));
        fields.extend(weight_fields(&weights(&x.outcome.record)));
        fields.join(",") + "\n"
    };
    header.join(",") + "\n" + &readings.iter().map(row).collect::<String>()
}

/// The settings, how long, how often, and from which seed.
pub fn extent(given: &Assumptions) -> [String; 2] {
    let (years, a_day) = (words::count(given.years, "year"), words::count(given.readings_a_day, "reading"));
    let (s, seed) = (&given.settings, given.seed);
    [words::sizes(s), format!("least gain {} (L), {}; {years}, {a_day} a day, seed {seed}", s.l, words::step(s.m))]
}

/// "other than the default: seed = 9, check_sum = 0", as many as fit a line; none where nothing differs.
pub fn other_than_default(given: &Assumptions) -> Option<String> {
    let start = "other than the default: ";
    (!given.changes.is_empty()).then(|| words::fitting(start, &given.changes, ", ", "", 115))
}

/// A name for readings, and which they are.
type Kind = (&'static str, fn(&Reading) -> bool);

/// The settings, then what came of them.
pub fn summary(given: &Assumptions, history: &History) -> String {
    let readings = &history.readings;
    let kinds: [Kind; 5] = [
        ("all", |_| true),
        ("quiet", |x| !x.loud && !x.faint && !x.joint),
        ("loud spell", |x| x.loud),
        ("faint spell", |x| x.faint),
        ("noisy joint", |x| x.joint),
    ];
    let mut lines = extent(given).to_vec();
    lines.extend(other_than_default(given));
    let kind = |(name, of): Kind| {
        let part: Vec<&Reading> = readings.iter().filter(|x| of(x)).collect();
        (!part.is_empty()).then(|| counts(given, name, &part))
    };
    lines.extend(kinds.into_iter().filter_map(kind));
    lines.extend(wrong_pressures(given, readings));
    lines.push(returns(readings));
    lines.extend(swap_words::lines(given, &history.swapped));
    lines.push(refused(readings));
    lines.join("\n") + "\n"
}

fn counts(given: &Assumptions, name: &str, part: &[&Reading]) -> String {
    let wrong = part.iter().map(|x| x.outcome.wrong).sum();
    let lost = part.iter().filter(|x| x.is_lost()).count();
    let past = part.iter().filter(|x| x.is_wrong()).count();
    format!(
        "{name}: {}; {}; {} past the check",
        words::share(lost, part.len(), "reading", "lost"),
        words::share(wrong, part.len() * given.payload_symbols(), "payload symbol", "wrong"),
        words::count(past, "wrong pressure"),
    )
}

/// A line for each wrong pressure that passed the check: of 65536 that are decided at random one does.
fn wrong_pressures<'a>(given: &'a Assumptions, readings: &'a [Reading]) -> impl Iterator<Item = String> + 'a {
    readings.iter().filter(|x| x.is_wrong()).map(|x| {
        let (day, pressure, received) = (x.day, x.pressure, bar(given, x.outcome.received));
        format!("wrong pressure past the check: day {day:.4}, true {pressure:.4} bar, received {received} bar")
    })
}

/// How the station came back after its losses of power.
fn returns(readings: &[Reading]) -> String {
    let count = |wanted: Return| readings.iter().filter(|x| x.power_lost == Some(wanted)).count();
    let (damaged, wrong) = (count(Return::LoadedDamaged), count(Return::CheckSumWrong));
    let (loaded, anew) = (count(Return::Loaded) + damaged, count(Return::SetUpAnew) + wrong);
    format!(
        "power lost {}: {} loaded, {damaged} damaged among them; {} set up anew, {wrong} for a wrong check sum",
        words::count(loaded + anew, "time"),
        words::count(loaded, "image"),
        words::count(anew, "time"),
    )
}

/// The calls that were turned down, each number with what it says.
fn refused(readings: &[Reading]) -> String {
    let counts = readings.last().map_or([0; 10], |x| x.refused);
    let told = (1..10u8).filter(|n| counts[usize::from(*n)] > 0);
    let told: Vec<String> = told.map(|n| format!("{} with {n}, {}", counts[usize::from(n)], number_text(n))).collect();
    match told.is_empty() {
        true => "calls turned down: none".to_string(),
        false => format!("calls turned down: {}", told.join("; ")),
    }
}
