//! The table: a row for each step size and block.

use crate::run::{Ran, Run};
use crate::text::Given;

/// The weight of greatest magnitude.
fn largest(weights: &[f64]) -> f64 {
    let by_magnitude = |a: &&f64, b: &&f64| a.abs().total_cmp(&b.abs());
    weights.iter().max_by(by_magnitude).copied().unwrap_or(0.0)
}

fn header(given: &Given) -> String {
    let columns = "step,M,share of the greatest M,block,first sample,turned down with,\
         error power (squared symbol units),mean or floor,error power (dB; not below -100),\
         decisions after training,wrong decisions after training,psi,\
         largest feed forward weight,largest feedback weight";
    let mut line = columns.to_string();
    line.extend((0..given.p.value).map(|tap| format!(",feed forward {tap}")));
    line.extend((1..=given.q.value).map(|tap| format!(",feedback {tap}")));
    line + "\n"
}

/// What a block that ran has, after its place.
fn figures(given: &Given, block: &Ran) -> String {
    let (forward, back) = block.weights.split_at(given.p.value.into());
    let mut fields = vec![
        format!("{:e}", block.error_power.value()),
        block.error_power.kind().to_string(),
        format!("{:.3}", block.error_power.decibels()),
        block.decided.to_string(),
        block.wrong.to_string(),
        block.psi.to_string(),
        format!("{:.6}", largest(forward)),
        format!("{:.6}", largest(back)),
    ];
    fields.extend(block.weights.iter().map(|weight| format!("{weight:.6}")));
    fields.join(",")
}

/// The rows of a step size; a block that was turned down has its number, and
/// nothing after it.
fn rows(given: &Given, place: usize, run: &Run) -> String {
    let n = usize::from(given.n.value);
    let start = |block: usize, number: u8| {
        let (m, share) = (run.step.m, run.step.share);
        format!(
            "{},{m},{share:.6},{block},{},{number}",
            place + 1,
            block * n
        )
    };
    let ran = run.blocks.iter().enumerate();
    let mut text: String = ran
        .map(|(block, ran)| format!("{},{}\n", start(block, 0), figures(given, ran)))
        .collect();
    if let Some(number) = run.stopped {
        let empty = ",".repeat(8 + usize::from(given.p.value) + usize::from(given.q.value));
        text.push_str(&format!("{}{empty}\n", start(run.blocks.len(), number)));
    }
    text
}

/// The whole table.
pub fn csv(given: &Given, runs: &[Run]) -> String {
    let runs = runs.iter().enumerate();
    let rows: String = runs.map(|(place, run)| rows(given, place, run)).collect();
    header(given) + &rows
}
