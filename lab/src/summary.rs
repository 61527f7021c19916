//! What is given and what came of it, in sentences for the summary and the
//! page.

use crate::cable::StepSize;
use crate::run::Run;
use crate::text::{fraction, Given};
use years::power::ErrorPower;
use years::words::{count, percent, settings};

/// "share 1/8: M = 65536", or the name alone where that is "M = 65536".
pub fn named(step: &StepSize) -> String {
    if step.name.starts_with('M') {
        return step.name.clone();
    }
    format!("{}: M = {}", step.name, step.m)
}

/// A number with no more decimals than it needs, up to some.
pub fn short(number: f64, decimals: usize) -> String {
    let text = format!("{number:.decimals$}");
    with_minus(text.trim_end_matches('0').trim_end_matches('.'))
}

/// A hyphen before a number is no minus sign.
fn with_minus(number: &str) -> String {
    number.replace('-', "−")
}

/// "−21.3 dB (7.4131e-3)"; a floor and 0 in words alone.
fn power_text(power: ErrorPower) -> String {
    let figure = match power.is_floor() || power.is_zero() {
        true => String::new(),
        false => format!(" ({:.4e})", power.value()),
    };
    power.in_words() + &figure
}

/// "107 of 6400 (1.7 %)".
pub fn wrong(run: &Run) -> String {
    let (wrong, all) = (run.wrong() as u64, run.decided() as u64);
    format!("{wrong} of {all} ({})", percent(wrong, all))
}

/// "the last 30 blocks".
pub fn last_blocks(count: usize) -> String {
    match count {
        1 => "the last block".to_string(),
        _ => format!("the last {count} blocks"),
    }
}

/// The block that was turned down.
pub fn stop(run: &Run) -> Option<String> {
    let block = run.blocks.len();
    let number = run.stopped?;
    Some(format!("block {block} turned down with {number}"))
}

/// The settings, the cable and its symbols, a line each.
pub fn cable(given: &Given) -> Vec<String> {
    let [taps, _] = settings(&given.sizes(0));
    let greatest = given.greatest_step().unwrap_or(0);
    let symbols = count(given.symbols.values.len() as u64, "symbol");
    let source = match given.seed {
        Some(seed) => format!(", random from seed {seed}"),
        None => String::new(),
    };
    let training = match given.training.value {
        0 => "no training".to_string(),
        first => format!("training on the first {first}"),
    };
    let least = given.l.value;
    vec![
        taps,
        response(given),
        format!("{symbols}{source}; {training}; least gain {least} (L)"),
        format!("the greatest M admitted with these sizes is {greatest}; shares are of it"),
    ]
}

/// A value of the response with as few decimals as give it back.
fn fraction_text(h: i16) -> String {
    let exact = f64::from(h) / 32768.0;
    let texts = (0..=5).map(|decimals| format!("{exact:.decimals$}"));
    let mut same = texts.filter(|text| fraction(text) == Some(h));
    with_minus(&same.next().unwrap_or_default())
}

/// The response as fractions, as many as fit a line.
fn response(given: &Given) -> String {
    const LINE: usize = 115;
    let values = given.response.plain();
    let texts: Vec<String> = values.iter().map(|h| fraction_text(*h)).collect();
    let line = |shown: usize| {
        let more = match texts.len() - shown {
            0 => String::new(),
            more => format!(" .. and {more} more"),
        };
        format!("response {}{more}, no noise", texts[..shown].join(" "))
    };
    let mut lines = (0..=texts.len()).rev().map(line);
    let fitting = lines.find(|line| line.chars().count() <= LINE);
    fitting.unwrap_or_default()
}

fn list(weights: &[f64]) -> String {
    let weights = weights.iter().map(|weight| short(*weight, 6));
    weights.collect::<Vec<_>>().join(" ")
}

/// What the last accepted block left.
fn end(given: &Given, run: &Run) -> Option<String> {
    let last = run.blocks.last()?;
    let power = run.last_error_power()?;
    let (forward, back) = last.weights.split_at(given.p.value.into());
    Some(format!(
        "; error power over {} {}; ψ {}; feed forward weights {}; feedback weights {}",
        last_blocks(run.last_blocks().len()),
        power_text(power),
        last.psi,
        list(forward),
        list(back),
    ))
}

/// The line of a step size.
fn outcome(given: &Given, run: &Run) -> String {
    let (step, share) = (named(&run.step), run.step.share);
    let wrong = match run.decided() {
        0 => "no decision after training".to_string(),
        _ => format!("wrong decisions after training {}", wrong(run)),
    };
    let stop = stop(run).map_or(String::new(), |stop| format!("; {stop}"));
    let end = end(given, run).unwrap_or_default();
    format!("{step}, {share:.6} of the greatest: {wrong}{stop}{end}\n")
}

/// The whole summary.
pub fn summary(given: &Given, runs: &[Run]) -> String {
    let cable: String = cable(given)
        .iter()
        .map(|line| format!("{line}\n"))
        .collect();
    let runs: String = runs.iter().map(|run| outcome(given, run)).collect();
    cable + &runs
}
