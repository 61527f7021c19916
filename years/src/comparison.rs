//! The station beside the same one by the old rule, in words.

use crate::assumptions::{Assumptions, DAYS_A_YEAR};
use crate::history::Reading;
use crate::outcome::Outcome;
use crate::power::ErrorPower;
use crate::words;

/// A reading with its own by the old rule.
type Pair<'a> = (&'a Reading, &'a Outcome);

/// Lines for the summary; none where the old rule is not run.
pub fn lines(given: &Assumptions, readings: &[Reading]) -> String {
    let all = pairs(readings);
    if all.is_empty() {
        return String::new();
    }
    around_spells(given, readings) + &where_greater(&all) + &totals(&all)
}

fn pairs(readings: &[Reading]) -> Vec<Pair<'_>> {
    let both = readings.iter().map(|x| Some((x, x.old.as_ref()?)));
    both.flatten().collect()
}

fn in_spell(reading: &Reading) -> bool {
    reading.loud || reading.faint
}

fn name(spell: &[Reading]) -> &'static str {
    let loud = spell.iter().any(|x| x.loud);
    match (loud, spell.iter().any(|x| x.faint)) {
        (true, true) => "loud and faint spell",
        (true, false) => "loud spell",
        _ => "faint spell",
    }
}

/// ψ and the error power before and after each spell: the days from the spell
/// ahead and to the next, a year of them at most.
fn around_spells(given: &Assumptions, readings: &[Reading]) -> String {
    let runs = readings.chunk_by(|a, b| in_spell(a) == in_spell(b));
    let runs: Vec<&[Reading]> = runs.collect();
    let mut text = String::new();
    for (place, spell) in runs.iter().enumerate() {
        if !in_spell(&spell[0]) {
            continue;
        }
        let (first, last) = (spell[0].day, spell[spell.len() - 1].day);
        if let Some(run) = runs[..place].last() {
            let near = run.partition_point(|x| x.day < first - DAYS_A_YEAR);
            text.push_str(&stretch(given, &run[near..], "before", name(spell)));
        }
        if let Some(run) = runs.get(place + 1) {
            let near = run.partition_point(|x| x.day < last + DAYS_A_YEAR);
            text.push_str(&stretch(given, &run[..near], "after", name(spell)));
        }
    }
    text
}

fn stretch(given: &Assumptions, readings: &[Reading], when: &str, spell: &str) -> String {
    let pairs = pairs(readings);
    let Some((last, old)) = pairs.last() else {
        return String::new();
    };
    let days = pairs.len().div_ceil(given.readings_a_day as usize);
    let (own, by_old) = powers(&pairs);
    format!(
        "{} {when} the {spell}: ψ {} at the end, error power {own}; by the old rule ψ {}, {by_old}\n",
        words::count(days as u64, "day"),
        last.record.psi,
        old.record.psi
    )
}

/// The error powers over all their blocks, the station's own and by the old
/// rule.
fn powers(pairs: &[Pair]) -> (String, String) {
    let own = pairs.iter().filter_map(|(x, _)| x.error_power);
    let old = pairs.iter().filter_map(|(_, old)| old.error_power);
    (in_words(own), in_words(old))
}

fn in_words(powers: impl Iterator<Item = ErrorPower>) -> String {
    ErrorPower::joined(powers).map_or("none".to_string(), ErrorPower::in_words)
}

fn where_greater(all: &[Pair]) -> String {
    let greater = |(x, old): &&Pair| old.record.psi > x.record.psi;
    let there: Vec<Pair> = all.iter().filter(greater).copied().collect();
    let (own, old) = powers(&there);
    let share = words::share(there.len() as u64, all.len() as u64, "reading", "");
    let powers = match there.len() {
        0 => String::new(),
        _ => format!("; the error power there is {own}, and {old} by the old rule"),
    };
    format!("ψ is greater by the old rule in {share}{powers}\n")
}

fn totals(all: &[Pair]) -> String {
    let lost = all.iter().filter(|(_, old)| old.received.is_none()).count() as u64;
    let symbols = all.iter().map(|(x, _)| u64::from(x.symbols)).sum();
    let wrong = all.iter().map(|(_, old)| u64::from(old.wrong)).sum();
    format!(
        "by the old rule: {}; {}\n",
        words::share(lost, all.len() as u64, "reading", "lost"),
        words::share(wrong, symbols, "payload symbol", "wrong"),
    )
}
