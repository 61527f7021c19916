//! A block through the station's library, read by the laboratory's.

use crate::power::ErrorPower;
use tigbulode::{Block, Equaliser, Outputs};
use tigbulode_laboratory::{number_text, readings, Reading};

/// What a block hands out.
#[derive(Clone, Debug, PartialEq)]
pub struct Lists {
    pub y: Vec<i32>,
    pub xi: Vec<u8>,
    pub decision: Vec<i8>,
    pub z: Vec<i32>,
    pub theta: Vec<u8>,
}

/// The same as people read it: the decision, y and the error of each sample, and the error power.
#[derive(Clone, Debug, PartialEq)]
pub struct Heard {
    pub decisions: Vec<i8>,
    pub readings: Vec<Reading>,
    pub error_power: ErrorPower,
}

impl Lists {
    pub fn zeros(n: usize) -> Lists {
        Lists { y: vec![0; n], xi: vec![0; n], decision: vec![0; n], z: vec![0; n], theta: vec![0; n] }
    }

    pub fn lent(&mut self) -> Outputs<'_> {
        let Lists { y, xi, decision, z, theta } = self;
        Outputs { y, xi, decision, z, theta }
    }

    /// No accepted block hands out what is turned down; were it so, a message says it.
    pub fn read(self) -> Result<Heard, String> {
        let mut lent = vec![Reading::default(); self.y.len()];
        let power = readings(&self.y, &self.xi, &self.z, &self.theta, &mut lent).map_err(|number| {
            let words = number_text(number);
            format!("internal error: what an accepted block handed out was turned down with {number}: {words}")
        })?;
        Ok(Heard { decisions: self.decision, readings: lent, error_power: ErrorPower::of_block(power) })
    }
}

/// Runs a block: what came of it, or the number with which it was turned down. A message where that can't be read.
pub fn run(record: &mut Equaliser, block: Block) -> Result<Result<Heard, u8>, String> {
    let mut lists = Lists::zeros(block.samples.len());
    match tigbulode::run(record, block, lists.lent()) {
        0 => lists.read().map(Ok),
        number => Ok(Err(number)),
    }
}

/// A power of two, exactly.
pub fn power_of_two(exponent: i32) -> f64 {
    let size = (1u64 << exponent.unsigned_abs()) as f64;
    if exponent < 0 {
        1.0 / size
    } else {
        size
    }
}

/// Weights as W·2^(ψ−15), feed forward first.
pub fn weights(record: &Equaliser) -> Vec<f64> {
    let unit = power_of_two(i32::from(record.psi) - 15);
    record.weights[..record.settings().taps()].iter().map(|w| f64::from(*w) * unit).collect()
}

/// The weight of greatest magnitude.
pub fn largest(weights: &[f64]) -> f64 {
    weights.iter().fold(0.0, |most: f64, w| if w.abs() > most.abs() { *w } else { most })
}

/// The columns of all weights in a table.
pub fn weight_names(p: u8, q: u8) -> Vec<String> {
    let forward = (0..p).map(|tap| format!("feed forward {tap}"));
    forward.chain((1..=q).map(|tap| format!("feedback {tap}"))).collect()
}

/// The fields of all weights, exact: they have at most 15 digits, so the shortest decimal that reads back has all.
pub fn weight_fields(weights: &[f64]) -> Vec<String> {
    weights.iter().map(f64::to_string).collect()
}
