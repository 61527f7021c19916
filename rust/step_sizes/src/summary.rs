//! What is given and what came of it, in sentences for the summary and the page.

use crate::run::Run;
use crate::text::{fraction, Given, StepSize};
use plots::words::{count, fitting, minus, percent, sizes};
use tigbulode::number_text;

/// "share 1/8: M = 65536", or the name alone where that is "M = 65536".
pub fn named(step: &StepSize) -> String {
    if step.name.starts_with('M') {
        return step.name.clone();
    }
    format!("{}: M = {}", step.name, step.m)
}

/// "107 of 6400 (1.7 %)".
pub fn wrong(run: &Run) -> String {
    let (wrong, all) = (run.wrong(), run.decided());
    format!("{wrong} of {all} ({})", percent(wrong, all))
}

/// "the last 30 blocks".
pub fn last_blocks(count: usize) -> String {
    match count {
        1 => "the last block".to_string(),
        _ => format!("the last {count} blocks"),
    }
}

/// The block that was turned down.
pub fn stop(run: &Run) -> Option<String> {
    let block = run.blocks.len();
    run.stopped.map(|number| format!("block {block} turned down with {number}, {}", number_text(number)))
}

/// A value of the response with as few decimals as give it back.
fn fraction_text(h: i16) -> String {
    let exact = f64::from(h) / 32768.0;
    let texts = (0..=5).map(|decimals| format!("{exact:.decimals$}"));
    let mut same = texts.filter(|text| fraction(text) == Some(h));
    minus(&same.next().unwrap_or_default())
}

/// The settings, the cable and its symbols, a line each.
pub fn cable(given: &Given) -> Vec<String> {
    let response: Vec<String> = given.response.iter().map(|h| fraction_text(*h)).collect();
    let symbols = count(given.symbols.len(), "symbol");
    let source = given.seed.map_or(String::new(), |seed| format!(", random from seed {seed}"));
    let training = match given.training {
        0 => "no training".to_string(),
        first => format!("training on the first {first}"),
    };
    let (least, greatest) = (given.settings.l, given.settings.greatest_m());
    vec![
        sizes(&given.settings),
        fitting("response ", &response, " ", ", no noise", 115),
        format!("{symbols}{source}; {training}; least gain {least} (L)"),
        format!("the greatest M admitted with these sizes is {greatest}; shares are of it"),
    ]
}

fn list(weights: &[f64]) -> String {
    weights.iter().map(|weight| minus(&weight.to_string())).collect::<Vec<_>>().join(" ")
}

/// What the last accepted block left.
fn end(given: &Given, run: &Run) -> Option<String> {
    let (last, power) = (run.blocks.last()?, run.last_error_power()?);
    let (forward, back) = last.weights.split_at(given.settings.p.into());
    Some(format!(
        "; error power over {} {}; ψ {}; feed forward weights {}; feedback weights {}",
        last_blocks(run.last_blocks().len()),
        power.in_words(),
        last.psi,
        list(forward),
        list(back),
    ))
}

/// The line of a step size.
fn outcome(given: &Given, run: &Run) -> String {
    let (step, share) = (named(&run.step), run.step.share);
    let wrong = match run.decided() {
        0 => "no decision after training".to_string(),
        _ => format!("wrong decisions after training {}", wrong(run)),
    };
    let stop = stop(run).map_or(String::new(), |stop| format!("; {stop}"));
    let end = end(given, run).unwrap_or_default();
    format!("{step}, {share:.6} of the greatest: {wrong}{stop}{end}")
}

/// The whole summary.
pub fn summary(given: &Given, runs: &[Run]) -> String {
    let outcomes = runs.iter().map(|run| outcome(given, run));
    cable(given).into_iter().chain(outcomes).collect::<Vec<_>>().join("\n") + "\n"
}
