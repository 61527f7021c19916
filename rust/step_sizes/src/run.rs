//! A step size on the cable: its trace by the laboratory's library, through the station's, block by block.

use crate::text::{Given, StepSize};
use plots::block::{self, weights, Heard};
use plots::power::ErrorPower;
use tigbulode::{Block, Equaliser};
use tigbulode_laboratory::{cable, number_text, trace_length, Cable};
use traces::trace::{Sample, Trace};

/// What came of one block.
#[derive(Clone, Debug, PartialEq)]
pub struct Ran {
    pub heard: Heard,
    /// Decisions after training, and how many of them are not what was sent.
    pub decided: usize,
    pub wrong: usize,
    /// The weights' exponent and the weights after the block, feed forward first.
    pub psi: u8,
    pub weights: Vec<f64>,
}

/// All blocks of a step size.
#[derive(Clone, Debug, PartialEq)]
pub struct Run {
    pub step: StepSize,
    pub blocks: Vec<Ran>,
    /// The number with which the block after these was turned down.
    pub stopped: Option<u8>,
}

/// The trace of a step size. The text was looked at for all that the library turns down; were it otherwise, a message
/// says it.
pub fn trace(given: &Given, m: u32) -> Result<Trace, String> {
    let mut bytes = vec![0; trace_length(given.symbols.len())];
    let settings = given.settings.with_m(m);
    let described = Cable { settings, response: &given.response, symbols: &given.symbols, training: given.training };
    match cable(&described, &mut bytes) {
        0 => Trace::of_bytes(&bytes).map_err(|wrong| wrong.join("\n")),
        number => Err(format!("M = {m}: turned down with {number}: {}", number_text(number))),
    }
}

/// Runs a step size up to its end, or to a block that is turned down. A message where what a block hands out can't be
/// read.
pub fn run(given: &Given, step: StepSize) -> Result<Run, String> {
    let trace = trace(given, step.m)?;
    let n = usize::from(given.settings.n);
    let mut state = tigbulode::set_up(trace.settings).state;
    let mut done = Run { step, blocks: Vec::new(), stopped: None };
    for (place, (part, sent)) in trace.samples.chunks(n).zip(given.symbols.chunks(n)).enumerate() {
        let trained = given.training.saturating_sub(place * n).min(n);
        match pass(&mut state, part)? {
            Ok(heard) => done.blocks.push(ran(&state, heard, sent, trained)),
            Err(number) => {
                done.stopped = Some(number);
                break;
            }
        }
    }
    Ok(done)
}

fn pass(state: &mut Equaliser, part: &[Sample]) -> Result<Result<Heard, u8>, String> {
    let samples: Vec<i16> = part.iter().map(|sample| sample.m).collect();
    let gains: Vec<u8> = part.iter().map(|sample| sample.g).collect();
    let entries: Vec<i8> = part.iter().map(|sample| sample.entry).collect();
    block::run(state, Block { samples: &samples, gains: &gains, entries: &entries })
}

/// A block that was accepted; `sent` are its symbols, of which the first `trained` were training entries.
fn ran(state: &Equaliser, heard: Heard, sent: &[i8], trained: usize) -> Ran {
    let after = heard.decisions[trained..].iter().zip(&sent[trained..]);
    let (decided, wrong) = (after.len(), after.filter(|(decision, symbol)| decision != symbol).count());
    Ran { heard, decided, wrong, psi: state.psi, weights: weights(state) }
}

impl Run {
    pub fn decided(&self) -> usize {
        self.blocks.iter().map(|block| block.decided).sum()
    }

    pub fn wrong(&self) -> usize {
        self.blocks.iter().map(|block| block.wrong).sum()
    }

    /// The blocks whose mean is the error power at the end: a tenth of them.
    pub fn last_blocks(&self) -> &[Ran] {
        let count = self.blocks.len().div_ceil(10);
        &self.blocks[self.blocks.len() - count..]
    }

    /// None where no block was accepted.
    pub fn last_error_power(&self) -> Option<ErrorPower> {
        joined(self.last_blocks())
    }
}

/// The error power of blocks in a row.
pub fn joined(blocks: &[Ran]) -> Option<ErrorPower> {
    ErrorPower::joined(blocks.iter().map(|block| block.heard.error_power))
}
