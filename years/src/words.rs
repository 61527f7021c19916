//! Numbers in words, for the summary and the pages.

use crate::assumptions::{Assumptions, Sizes};

/// "1 year", "20 years".
pub fn count(number: u64, one: &str) -> String {
    let many = if number == 1 { "" } else { "s" };
    format!("{number} {one}{many}")
}

/// A share in per cent, to two figures; 100 % only where it is all of them.
pub fn percent(part: u64, whole: u64) -> String {
    if part == 0 || part == whole {
        return if part == 0 { "0 %" } else { "100 %" }.to_string();
    }
    let share = 100.0 * part as f64 / whole as f64;
    if share > 99.9 {
        return "> 99.9 %".to_string();
    }
    let mut decimals = 1;
    while decimals < 9 && share * 10f64.powi(decimals) < 10.0 {
        decimals += 1;
    }
    format!("{share:.*} %", decimals as usize)
}

/// "68 of 14610 readings lost (0.47 %)".
pub fn share(part: u64, whole: u64, what: &str, how: &str) -> String {
    let shown = percent(part, whole);
    let space = if how.is_empty() { "" } else { " " };
    format!("{part} of {}{space}{how} ({shown})", count(whole, what))
}

/// A number to four decimals, without zeros at its end.
pub fn plain(number: f64) -> String {
    let text = format!("{number:.4}");
    text.trim_end_matches('0').trim_end_matches('.').to_string()
}

/// A power in dB; what is less than −100 dB is that.
pub fn decibels(power: f64) -> f64 {
    10.0 * power.max(1e-10).log10()
}

/// Characters of a line at most, so that it fits a page's head.
const LINE: usize = 110;

/// "other than the default: seed = 9, check_sum = 0", as many as fit a line;
/// none where nothing differs.
pub fn other_than_default(changes: &[String]) -> Option<String> {
    let all = changes.len();
    let line = |told: usize| {
        let list = changes[..told].join(", ");
        let more = match all - told {
            0 => String::new(),
            more => format!(" and {more} more"),
        };
        format!("other than the default: {list}{more}")
    };
    let mut lines = (1..=all).rev().map(line);
    lines.find(|line| line.chars().count() <= LINE)
}

/// Every symbol, or the first two and the last.
fn symbols(r: u8) -> &'static str {
    match r {
        0 => "±1",
        1 => "±1 ±3",
        2 => "±1 ±3 .. ±7",
        _ => "±1 ±3 .. ±15",
    }
}

/// The equaliser's sizes and step, in two lines.
pub fn settings(s: &Sizes) -> [String; 2] {
    let taps = format!(
        "{} (p), {} (q), blocks of {} (N), symbols {} (r = {})",
        count(s.p.into(), "feed forward tap"),
        count(s.q.into(), "feedback tap"),
        count(s.n.into(), "sample"),
        symbols(s.r),
        s.r
    );
    let step = step_size(s.m);
    let step = format!("least gain {} (L), step {} (M) / 2^30 = {step}", s.l, s.m);
    [taps, step]
}

/// M / 2^30 to two figures.
fn step_size(m: u32) -> String {
    let size = f64::from(m) / f64::from(1u32 << 30);
    let mut decimals = 1;
    while decimals < 11 && size * 10f64.powi(decimals) < 10.0 {
        decimals += 1;
    }
    if m == 0 {
        decimals = 0;
    }
    format!("{size:.*}", decimals as usize)
}

/// How long, how often, and from which seed.
pub fn extent(given: &Assumptions) -> String {
    format!(
        "{}, {} a day, seed {}",
        count(given.years.into(), "year"),
        count(given.readings_a_day.into(), "reading"),
        given.seed
    )
}
