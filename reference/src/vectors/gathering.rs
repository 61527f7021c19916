//! A block that gathers 32 weights of one size into one that is more than four
//! times as large.
//!
//! From ψ = 15 all weights are below 4096 where ψ falls, and one is 16384 where
//! it would rise to 16. There the symbols are small beside the outputs, so a
//! step hardly lets the sum of the squares of the weights grow: one weight has
//! to take over what sixteen others had. This block was found by a search.

use crate::settings::Settings;
use crate::state::State;

/// The signs of the 15 past samples, oldest first, and of the 128 samples.
const SAMPLES: &str = "-+-++--+-+--+-+--++-+-++--+++--+++---+++--++---++-+-+----+-+--+-+--+-+--\
    +--+-++-++++-+++-++-+++++++-++-+--+--------+--+--+--+--+---------------";

/// The 16 past symbols, oldest first, and the training entries of all samples
/// but the last; a digit k stands for 2k − 15.
const SYMBOLS: &str = "0f00fffe0f05fedf8f30ef661fd004ff004ff001ff120ff090df0f0cf2f0ed5f0f85f0f8\
    7d4d6ab1f42f04d03e00f10f00f00f00f50f90fc0fe0fe0ee0ce0bf0af1ae3ad59c79a8";

/// The signs of the weights.
const WEIGHTS: &str = "+++-++++-++-+--++++-+--++--+-++-";

/// The stored samples at B = 30.
const STORED: i16 = 1023;

/// A record and the lists of a block.
#[derive(Clone, Debug)]
pub struct Gathering {
    pub state: State,
    pub samples: Vec<i16>,
    pub gains: Vec<u8>,
    pub training: Vec<i8>,
}

fn signs(text: &str) -> Vec<i16> {
    text.chars()
        .map(|c| if c == '+' { 1 } else { -1 })
        .collect()
}

fn symbols() -> Vec<i8> {
    let digit = |c: char| c.to_digit(16).expect("a digit") as i8;
    SYMBOLS.chars().map(|c| 2 * digit(c) - 15).collect()
}

/// The block from ψ = 15. Every |W| is `size`, or one more in the first
/// `larger` places.
pub fn gathering(size: i16, larger: usize) -> Gathering {
    let settings = Settings {
        p: 16,
        q: 16,
        n: 128,
        r: 3,
        l: 0,
        m: 0,
    };
    let mut state = State::zeros(settings.with_m(settings.largest_m()));
    (state.psi, state.b, state.bmax) = (15, 30, 30);
    for (place, sign) in signs(WEIGHTS).into_iter().enumerate() {
        state.weights[place] = sign * (size + i16::from(place < larger));
    }
    let (signs, symbols) = (signs(SAMPLES), symbols());
    for place in 0..15 {
        state.data[place] = signs[14 - place] * STORED;
    }
    for place in 0..16 {
        state.data[16 + place] = symbols[15 - place].into();
    }
    Gathering {
        state,
        samples: signs[15..].iter().map(|sign| sign * 32767).collect(),
        gains: vec![0; 128],
        training: [&symbols[16..], &[1]].concat(),
    }
}
