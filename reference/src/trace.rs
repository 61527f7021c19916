//! "The trace" of the specification: the bytes of a trace to its text.

use crate::block::{run, Inputs, Outputs};
use crate::settings::Settings;
use crate::state::{set_up, State};
use crate::{ACCEPTED, LENGTH};

/// The longest input.
pub const MOST_BYTES: usize = 65_536;

/// The text of a trace.
pub fn trace(input: &[u8]) -> String {
    trace_with_state(input).0
}

/// What the bytes of a trace say. Set-up may still refuse the settings, and a
/// run a block.
pub struct Trace {
    pub settings: Settings,
    pub blocks: Vec<Block>,
}

/// One block of a trace.
pub struct Block {
    pub samples: Vec<i16>,
    pub gains: Vec<u8>,
    pub training: Vec<i8>,
}

impl Block {
    fn of(entries: &[u8], training: &[u8]) -> Block {
        let sample = |entry: &[u8]| i16::from_le_bytes([entry[0], entry[1]]);
        Block {
            samples: entries.chunks(3).map(sample).collect(),
            gains: entries.chunks(3).map(|entry| entry[2]).collect(),
            training: training.iter().map(|&byte| byte as i8).collect(),
        }
    }

    pub fn inputs(&self) -> Inputs<'_> {
        Inputs {
            samples: &self.samples,
            gains: &self.gains,
            training: &self.training,
        }
    }
}

/// Reads a trace, or refuses it with 8, which is decided on the bytes alone.
pub fn read(input: &[u8]) -> Result<Trace, u8> {
    if input.len() < 12 || input.len() > MOST_BYTES || input[5] != 0 {
        return Err(LENGTH);
    }
    let n = usize::from(input[2]);
    let count = usize::from(u16::from_le_bytes([input[6], input[7]]));
    if input.len() != 12 + 4 * n * count {
        return Err(LENGTH);
    }
    let settings = Settings {
        p: input[0],
        q: input[1],
        n: input[2],
        r: input[3],
        l: input[4],
        m: u32::from_le_bytes([input[8], input[9], input[10], input[11]]),
    };
    // All samples come first, then all training entries.
    let (entries, training) = input[12..].split_at(3 * n * count);
    let block = |at: usize| {
        let (first, end) = (n * at, n * (at + 1));
        Block::of(&entries[3 * first..3 * end], &training[first..end])
    };
    let blocks = (0..count).map(block).collect();
    Ok(Trace { settings, blocks })
}

/// The text of a trace and the state at its end.
pub fn trace_with_state(input: &[u8]) -> (String, State) {
    let stop = |number: u8, block: usize| format!("stop {number} {block}\n");
    let trace = match read(input) {
        Ok(trace) => trace,
        Err(number) => return (stop(number, 0), State::fresh()),
    };
    let (number, mut state) = set_up(trace.settings);
    if number != ACCEPTED {
        return (stop(number, 0), state);
    }
    let n = usize::from(trace.settings.n);
    let mut text = String::new();
    for (at, block) in trace.blocks.iter().enumerate() {
        let mut outputs = Outputs::zeros(n);
        let number = run(&mut state, block.inputs(), &mut outputs);
        if number != ACCEPTED {
            text.push_str(&stop(number, at));
            return (text, state);
        }
        text.push_str(&lines(n * at, &outputs));
    }
    (text, state)
}

/// The lines of a block whose first sample has this place in the trace.
fn lines(first: usize, outputs: &Outputs) -> String {
    let line = |i: usize| {
        let (y, xi, decision) = (outputs.y[i], outputs.xi[i], outputs.decision[i]);
        format!("{} {y} {xi} {decision}\n", first + i)
    };
    (0..outputs.y.len()).map(line).collect()
}
