//! A trace through the station, block by block.

use crate::cable::StepSize;
use tigbulode::{Block, Equaliser, Outputs};
use tigbulode_laboratory::Reading;
use traces::trace::{Sample, Settings, Trace};
use years::converter::power_of_two;
use years::power::{self, ErrorPower};

/// What came of one block.
#[derive(Clone, Debug, PartialEq)]
pub struct Ran {
    /// y and the error of each sample, and its decision.
    pub readings: Vec<Reading>,
    pub decisions: Vec<i8>,
    pub error_power: ErrorPower,
    /// Decisions after training, and how many of them are not what was sent.
    pub decided: usize,
    pub wrong: usize,
    /// The weights' exponent and the weights after the block, feed forward
    /// first.
    pub psi: u8,
    pub weights: Vec<f64>,
}

/// All blocks of a step size.
#[derive(Clone, Debug, PartialEq)]
pub struct Run {
    pub step: StepSize,
    pub blocks: Vec<Ran>,
    /// The number with which the block after these was turned down.
    pub stopped: Option<u8>,
}

/// What a block hands out.
#[derive(Clone, Debug)]
pub struct OutputLists {
    pub y: Vec<i32>,
    pub xi: Vec<u8>,
    pub decision: Vec<i8>,
    pub z: Vec<i32>,
    pub theta: Vec<u8>,
}

impl OutputLists {
    fn zeros(n: usize) -> OutputLists {
        OutputLists {
            y: vec![0; n],
            xi: vec![0; n],
            decision: vec![0; n],
            z: vec![0; n],
            theta: vec![0; n],
        }
    }

    /// y and the error of each sample, and the error power, by the laboratory's
    /// library.
    pub fn read(&self) -> Result<(Vec<Reading>, ErrorPower), String> {
        let lists = power::ReadingInputs {
            y: &self.y,
            xi: &self.xi,
            z: &self.z,
            theta: &self.theta,
        };
        let (readings, power) = lists.read()?;
        Ok((readings, ErrorPower::of_block(power)))
    }
}

/// The state that the settings of a trace start from.
fn set_up(s: &Settings) -> Equaliser {
    tigbulode::set_up(s.p, s.q, s.n, s.r, s.l, s.m).state
}

/// The number of a block, and what it hands out.
fn pass(state: &mut Equaliser, part: &[Sample]) -> (u8, OutputLists) {
    let mut handed = OutputLists::zeros(part.len());
    let samples: Vec<i16> = part.iter().map(|sample| sample.m).collect();
    let gains: Vec<u8> = part.iter().map(|sample| sample.g).collect();
    let entries: Vec<i8> = part.iter().map(|sample| sample.entry).collect();
    let block = Block {
        samples: &samples,
        gains: &gains,
        entries: &entries,
    };
    let number = tigbulode::run(
        state,
        block,
        Outputs {
            y: &mut handed.y,
            xi: &mut handed.xi,
            decision: &mut handed.decision,
            z: &mut handed.z,
            theta: &mut handed.theta,
        },
    );
    (number, handed)
}

/// Weights as W·2^(ψ−15), feed forward first.
pub fn weights(state: &Equaliser) -> Vec<f64> {
    let unit = power_of_two(i32::from(state.psi) - 15);
    let taps = usize::from(state.p) + usize::from(state.q);
    let stored = state.weights[..taps].iter();
    stored.map(|weight| f64::from(*weight) * unit).collect()
}

/// A block that was accepted; `sent` are its symbols, of which the first
/// `trained` were training entries.
fn ran(state: &Equaliser, handed: OutputLists, sent: &[i8], trained: usize) -> Result<Ran, String> {
    let (readings, error_power) = handed.read()?;
    let decisions = handed.decision[trained..].iter();
    let wrong = decisions.zip(&sent[trained..]).filter(|(d, v)| d != v);
    Ok(Ran {
        readings,
        error_power,
        decided: sent.len() - trained,
        wrong: wrong.count(),
        decisions: handed.decision,
        psi: state.psi,
        weights: weights(state),
    })
}

/// Runs a trace up to its end, or to a block that is turned down. `sent` are
/// the symbols, the first `training` of which are the trace's entries. A
/// message where what a block hands out can't be read.
pub fn run(step: StepSize, trace: &Trace, sent: &[i8], training: usize) -> Result<Run, String> {
    let n = usize::from(trace.settings.n);
    let mut state = set_up(&trace.settings);
    let mut blocks = Vec::new();
    let mut stopped = None;
    for (place, (part, sent)) in trace.samples.chunks(n).zip(sent.chunks(n)).enumerate() {
        let (number, handed) = pass(&mut state, part);
        if number != 0 {
            stopped = Some(number);
            break;
        }
        let trained = training.saturating_sub(place * n).min(n);
        blocks.push(ran(&state, handed, sent, trained)?);
    }
    Ok(Run {
        step,
        blocks,
        stopped,
    })
}

impl Run {
    pub fn decided(&self) -> usize {
        self.blocks.iter().map(|block| block.decided).sum()
    }

    pub fn wrong(&self) -> usize {
        self.blocks.iter().map(|block| block.wrong).sum()
    }

    /// The blocks whose mean is the error power at the end: a tenth of them.
    pub fn last_blocks(&self) -> &[Ran] {
        let count = self.blocks.len().div_ceil(10);
        &self.blocks[self.blocks.len() - count..]
    }

    /// None where no block was accepted.
    pub fn last_error_power(&self) -> Option<ErrorPower> {
        joined(self.last_blocks())
    }
}

/// The error power of blocks in a row.
pub fn joined(blocks: &[Ran]) -> Option<ErrorPower> {
    ErrorPower::joined(blocks.iter().map(|block| block.error_power))
}
