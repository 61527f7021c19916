//! The tables: a row for each step size and block, and one for each step size and sample.

use crate::run::{Ran, Run};
use crate::text::Given;
use plots::block::{largest, weight_fields, weight_names};
use plots::power::ErrorPower;
use plots::words::exact;

const HEADER: &str = "step,M,share of the greatest M,block,first sample,turned down with,\
     error power (squared symbol units),mean or floor,error power (dB; not below -100),\
     decisions after training,wrong decisions after training,psi,largest feed forward weight,largest feedback weight";

/// What a block that ran has, after its place.
fn figures(given: &Given, block: &Ran) -> Vec<String> {
    let (forward, back) = block.weights.split_at(given.settings.p.into());
    let mut fields = ErrorPower::fields(Some(block.heard.error_power)).to_vec();
    fields.push(format!("{:.3}", block.heard.error_power.decibels()));
    fields.extend([block.decided, block.wrong, block.psi.into()].map(|count| count.to_string()));
    fields.extend([forward, back].map(|weights| largest(weights).to_string()));
    fields.extend(weight_fields(&block.weights));
    fields
}

/// The rows of a step size; a block that was turned down has its number, and nothing after it.
fn rows(given: &Given, place: usize, run: &Run) -> String {
    let row = |block: usize, number: u8, figures: Vec<String>| {
        let (step, m, share) = (place + 1, run.step.m, run.step.share);
        let first = block * usize::from(given.settings.n);
        format!("{step},{m},{share:.6},{block},{first},{number},{}\n", figures.join(","))
    };
    let ran = run.blocks.iter().enumerate().map(|(block, ran)| row(block, 0, figures(given, ran)));
    let empty = vec![String::new(); 8 + given.settings.taps()];
    let stopped = run.stopped.map(|number| row(run.blocks.len(), number, empty));
    ran.chain(stopped).collect()
}

/// The whole table.
pub fn csv(given: &Given, runs: &[Run]) -> String {
    let names = weight_names(given.settings.p, given.settings.q).join(",");
    let rows = runs.iter().enumerate().map(|(place, run)| rows(given, place, run));
    format!("{HEADER},{names}\n") + &rows.collect::<String>()
}

fn samples(given: &Given, place: usize, run: &Run) -> String {
    let heard = run.blocks.iter().map(|block| &block.heard);
    let samples = heard.flat_map(|heard| heard.readings.iter().zip(&heard.decisions)).enumerate();
    let row = |(sample, (reading, decision)): (usize, (&tigbulode_laboratory::Reading, &i8))| {
        let (step, block, sent) = (place + 1, sample / usize::from(given.settings.n), given.symbols[sample]);
        let known = u8::from(sample < given.training);
        format!("{step},{block},{sample},{sent},{known},{decision},{},{}\n", exact(reading.y), exact(reading.error))
    };
    samples.map(row).collect()
}

/// The readings of all samples.
pub fn readings(given: &Given, runs: &[Run]) -> String {
    let header = "step,block,sample,sent,known,decision,y (symbol units),error (symbol units)\n";
    let rows = runs.iter().enumerate().map(|(place, run)| samples(given, place, run));
    header.to_string() + &rows.collect::<String>()
}
