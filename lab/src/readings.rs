//! The readings: a row for each step size and sample.

use crate::run::Run;
use crate::text::Given;

const HEADER: &str =
    "step,block,sample,sent,known,decision,y (symbol units),error (symbol units)\n";

/// y and the error in the shortest decimals that give the same f64 back.
fn rows(given: &Given, place: usize, run: &Run) -> String {
    let n = usize::from(given.n.value);
    let sent = given.symbols.plain();
    let mut text = String::new();
    for (block, ran) in run.blocks.iter().enumerate() {
        let samples = ran.readings.iter().zip(&ran.decisions).enumerate();
        for (within, (reading, decision)) in samples {
            let sample = block * n + within;
            let known = u8::from(sample < given.training.value);
            text.push_str(&format!(
                "{},{block},{sample},{},{known},{decision},{},{}\n",
                place + 1,
                sent[sample],
                reading.y,
                reading.error
            ));
        }
    }
    text
}

/// All readings.
pub fn csv(given: &Given, runs: &[Run]) -> String {
    let runs = runs.iter().enumerate();
    let rows: String = runs.map(|(place, run)| rows(given, place, run)).collect();
    HEADER.to_string() + &rows
}
