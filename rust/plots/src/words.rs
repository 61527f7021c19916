//! Numbers in words, for summaries and pages.

use std::fmt::Display;
use tigbulode::Settings;

/// "1 year", "20 years".
pub fn count(number: impl Display, one: &str) -> String {
    let number = number.to_string();
    let many = if number == "1" { "" } else { "s" };
    format!("{number} {one}{many}")
}

/// A hyphen before a number is no minus sign.
pub fn minus(number: &str) -> String {
    number.replace('-', "−")
}

fn decimal(number: f64, decimals: usize) -> String {
    let text = format!("{number:.decimals$}");
    text.trim_end_matches('0').trim_end_matches('.').to_string()
}

/// A number with no more decimals than it needs, up to some.
pub fn short(number: f64, decimals: usize) -> String {
    minus(&decimal(number, decimals))
}

/// All digits of a multiple of 2^-29, as every output and error is, for a table.
pub fn exact(number: f64) -> String {
    decimal(number, 29)
}

/// A number above 0 to two figures, with one decimal at least and eleven at most.
fn two_figures(number: f64) -> String {
    let decimals = (1..11).find(|n| number * 10f64.powi(*n) >= 10.0).unwrap_or(11);
    format!("{number:.*}", decimals as usize)
}

/// A share in per cent, to two figures; 100 % only where it is all of them.
pub fn percent(part: usize, whole: usize) -> String {
    let share = 100.0 * part as f64 / whole as f64;
    match part {
        0 => "0 %".to_string(),
        _ if part == whole => "100 %".to_string(),
        _ if share > 99.9 => "> 99.9 %".to_string(),
        _ => two_figures(share) + " %",
    }
}

/// "68 of 14610 readings lost (0.47 %)".
pub fn share(part: usize, whole: usize, what: &str, how: &str) -> String {
    let shown = percent(part, whole);
    let space = if how.is_empty() { "" } else { " " };
    format!("{part} of {}{space}{how} ({shown})", count(whole, what))
}

/// A power in dB; what is less than −100 dB is that.
pub fn decibels(power: f64) -> f64 {
    10.0 * power.max(1e-10).log10()
}

/// As many of the parts as fit a line of so many characters, after `start`; how many more there are is said.
pub fn fitting(start: &str, parts: &[String], between: &str, end: &str, most: usize) -> String {
    let line = |shown: usize| {
        let more = match parts.len() - shown {
            0 => String::new(),
            more => format!(" and {more} more"),
        };
        format!("{start}{}{more}{end}", parts[..shown].join(between))
    };
    let mut lines = (0..=parts.len()).rev().map(line);
    lines.find(|line| line.chars().count() <= most).unwrap_or_default()
}

/// Taps, block length and symbols.
pub fn sizes(s: &Settings) -> String {
    let symbols = ["±1", "±1 ±3", "±1 ±3 .. ±7", "±1 ±3 .. ±15"];
    format!(
        "{} (p), {} (q), blocks of {} (N), symbols {} (r = {})",
        count(s.p, "feed forward tap"),
        count(s.q, "feedback tap"),
        count(s.n, "sample"),
        symbols[usize::from(s.r)],
        s.r
    )
}

/// "step 4194304 (M) / 2^30 = 0.0039".
pub fn step(m: u32) -> String {
    let size = match m {
        0 => "0".to_string(),
        _ => two_figures(f64::from(m) / f64::from(1u32 << 30)),
    };
    format!("step {m} (M) / 2^30 = {size}")
}
