//! "A cable on paper" of the specification: symbols sent over a cable with a
//! given response, to the bytes of a trace.

use crate::numbers::{is_symbol, Dyadic};
use crate::settings::Settings;
use crate::trace::MOST_BYTES;
use crate::{ACCEPTED, CABLE, SIZES, STEP};

/// The most values of a response.
pub const MOST_RESPONSE: usize = 32;
/// The most blocks of a trace, whose count has 16 bits.
pub const MOST_BLOCKS: usize = 65_535;
/// The bytes of a trace before its samples.
pub const HEADER_BYTES: usize = 12;

/// A cable and what is sent over it.
#[derive(Clone, Copy, Debug)]
pub struct Cable<'a> {
    pub settings: Settings,
    /// h in units of 1/32768; the first meets the present symbol.
    pub response: &'a [i16],
    /// The symbols, oldest first.
    pub symbols: &'a [i8],
    /// How many symbols, from the first, are training entries.
    pub training: usize,
}

/// Why a cable is turned down.
#[derive(Clone, Copy, Debug, PartialEq, Eq, PartialOrd, Ord)]
pub enum Cause {
    /// A size is outside its limits.
    Sizes,
    /// M is not admitted.
    Step,
    /// The response is empty or longer than 32.
    Response,
    /// The symbols are not 1 to 65,535 whole blocks.
    Blocks,
    /// There are more training entries than symbols.
    Training,
    /// The trace would pass 65,536 bytes.
    Trace,
    /// An entry is not a symbol.
    Entry,
    /// The output is not exactly as long as the trace.
    Output,
    /// Some gain would be below L or does not exist.
    Gain,
}

impl Cause {
    /// All causes. Each is looked at only where none before it holds.
    pub const ALL: [Cause; 9] = [
        Cause::Sizes,
        Cause::Step,
        Cause::Response,
        Cause::Blocks,
        Cause::Training,
        Cause::Trace,
        Cause::Entry,
        Cause::Output,
        Cause::Gain,
    ];

    /// The number that is answered.
    pub fn number(self) -> u8 {
        match self {
            Cause::Sizes => SIZES,
            Cause::Step => STEP,
            _ => CABLE,
        }
    }
}

/// s at `place`: the sum of h times the present and past symbols. Symbols
/// before the first are 0.
pub fn sum_at(response: &[i16], symbols: &[i8], place: usize) -> i128 {
    let present_and_past = symbols[..=place].iter().rev();
    response
        .iter()
        .zip(present_and_past)
        .map(|(&h, &v)| i128::from(h) * i128::from(v))
        .sum()
}

/// The largest g from 0 to 15 with |s|·2^g < 2^(15+r), if there is one.
pub fn gain(s: i128, r: u8) -> Option<u8> {
    let limit = Dyadic::power(15 + i32::from(r));
    let passes = |g: u8| Dyadic::new(s.abs(), i32::from(g)).less(limit);
    (0..=Settings::MOST_GAIN).rev().find(|&g| passes(g))
}

/// m = T(s·2^(g−r)).
pub fn mantissa(s: i128, g: u8, r: u8) -> i16 {
    let m = Dyadic::new(s, i32::from(g) - i32::from(r)).cut();
    i16::try_from(m).expect("m has 16 bits")
}

impl Cable<'_> {
    /// The bytes of the trace: 12 and 4 for each symbol.
    pub fn trace_length(&self) -> usize {
        HEADER_BYTES + 4 * self.symbols.len()
    }

    fn has_response(&self) -> bool {
        (1..=MOST_RESPONSE).contains(&self.response.len())
    }

    fn has_whole_blocks(&self) -> bool {
        let n = usize::from(self.settings.n);
        let blocks = self.symbols.len() / n;
        self.symbols.len() == n * blocks && (1..=MOST_BLOCKS).contains(&blocks)
    }

    fn has_symbols_only(&self) -> bool {
        self.symbols
            .iter()
            .all(|&v| is_symbol(i128::from(v), self.settings.r))
    }

    /// The gain at `place`, if there is one that is not below L.
    fn usable_gain(&self, place: usize) -> Option<u8> {
        let s = sum_at(self.response, self.symbols, place);
        gain(s, self.settings.r).filter(|&g| g >= self.settings.l)
    }

    fn has_gains(&self) -> bool {
        (0..self.symbols.len()).all(|place| self.usable_gain(place).is_some())
    }

    fn holds(&self, cause: Cause, output: usize) -> bool {
        match cause {
            Cause::Sizes => !self.settings.within_limits(),
            Cause::Step => !self.settings.admitted(),
            Cause::Response => !self.has_response(),
            Cause::Blocks => !self.has_whole_blocks(),
            Cause::Training => self.training > self.symbols.len(),
            Cause::Trace => self.trace_length() > MOST_BYTES,
            Cause::Entry => !self.has_symbols_only(),
            Cause::Output => output != self.trace_length(),
            Cause::Gain => !self.has_gains(),
        }
    }

    /// The first cause to turn the cable down, with an output of so many
    /// bytes.
    pub fn cause(&self, output: usize) -> Option<Cause> {
        Cause::ALL
            .into_iter()
            .find(|&cause| self.holds(cause, output))
    }

    /// The trace of a cable that is not turned down.
    pub fn trace(&self) -> Vec<u8> {
        let s = &self.settings;
        let count = self.symbols.len() / usize::from(s.n);
        let count = u16::try_from(count).expect("the count has 16 bits");
        let mut trace = vec![s.p, s.q, s.n, s.r, s.l, 0];
        trace.extend(count.to_le_bytes());
        trace.extend(s.m.to_le_bytes());
        for place in 0..self.symbols.len() {
            let sum = sum_at(self.response, self.symbols, place);
            let g = gain(sum, s.r).expect("a gain");
            trace.extend(mantissa(sum, g, s.r).to_le_bytes());
            trace.push(g);
        }
        for (place, &v) in self.symbols.iter().enumerate() {
            let entry = if place < self.training { v } else { 0 };
            trace.push(entry as u8);
        }
        trace
    }
}

/// Writes the trace of a cable. Turned down, the bytes stay as they are.
pub fn cable(cable: &Cable<'_>, trace: &mut [u8]) -> u8 {
    if let Some(cause) = cable.cause(trace.len()) {
        return cause.number();
    }
    trace.copy_from_slice(&cable.trace());
    ACCEPTED
}
