//! "The trace" of the specification: the bytes of a trace to its text.

use crate::block::{run, Outputs};
use crate::lists::Lists;
use crate::settings::{settings_of, Settings};
use crate::state::{set_up, State};
use crate::{ACCEPTED, IMAGE};

/// The longest input.
pub const MOST_BYTES: usize = 65_536;

/// The text of a trace.
pub fn trace(input: &[u8]) -> String {
    trace_with_state(input).0
}

/// What the bytes of a trace say. Set-up may still refuse the settings, and a
/// run a block.
pub struct Trace {
    pub settings: Settings,
    pub blocks: Vec<Lists>,
}

/// A block's entries of samples and its training entries, with output lists of zeros.
fn block(entries: &[u8], training: &[u8]) -> Lists {
    let entries = entries.chunks(3);
    Lists {
        samples: entries.clone().map(|entry| i16::from_le_bytes([entry[0], entry[1]])).collect(),
        gains: entries.map(|entry| entry[2]).collect(),
        training: training.iter().map(|&byte| byte as i8).collect(),
        outputs: Outputs::zeros(training.len()),
    }
}

/// Reads a trace, or refuses it with 8, which is decided on the bytes alone.
pub fn read(input: &[u8]) -> Result<Trace, u8> {
    if input.len() < 12 || input.len() > MOST_BYTES || input[5] != 0 {
        return Err(IMAGE);
    }
    let settings = settings_of(input);
    let n = usize::from(settings.n);
    let count = usize::from(u16::from_le_bytes([input[6], input[7]]));
    if input.len() != 12 + 4 * n * count {
        return Err(IMAGE);
    }
    // All samples come first, then all training entries.
    let (entries, training) = input[12..].split_at(3 * n * count);
    let place = |at: usize| block(&entries[3 * n * at..3 * n * (at + 1)], &training[n * at..n * (at + 1)]);
    Ok(Trace { settings, blocks: (0..count).map(place).collect() })
}

/// The text of a trace and the state at its end.
pub fn trace_with_state(input: &[u8]) -> (String, State) {
    let stop = |number: u8, block: usize| format!("stop {number} {block}\n");
    let trace = match read(input) {
        Ok(trace) => trace,
        Err(number) => return (stop(number, 0), State::fresh()),
    };
    let (number, mut state) = set_up(trace.settings);
    if number != ACCEPTED {
        return (stop(number, 0), state);
    }
    let mut text = String::new();
    for (at, block) in trace.blocks.iter().enumerate() {
        let mut outputs = block.outputs.clone();
        let number = run(&mut state, block.inputs(), &mut outputs);
        if number != ACCEPTED {
            text.push_str(&stop(number, at));
            return (text, state);
        }
        text.push_str(&lines(at, &outputs));
    }
    (text, state)
}

/// The lines of the block at this place of the trace.
fn lines(at: usize, outputs: &Outputs) -> String {
    let n = outputs.y.len();
    let line = |i: usize| {
        let (y, xi, decision) = (outputs.y[i], outputs.xi[i], outputs.decision[i]);
        format!("{} {y} {xi} {decision}\n", n * at + i)
    };
    (0..n).map(line).collect()
}
