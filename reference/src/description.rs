//! "A cable in bytes" of the specification: the bytes of a description to what
//! the program writes.

use crate::cable::{Cable, Cause};
use crate::settings::Settings;
use crate::trace::MOST_BYTES;

/// The bytes of a description before its response.
pub const COUNTS_END: usize = 20;

/// A cable that a description describes.
#[derive(Clone, Debug, PartialEq, Eq)]
pub struct Description {
    pub settings: Settings,
    pub response: Vec<i16>,
    pub symbols: Vec<i8>,
    pub training: u32,
}

impl Description {
    /// The cable.
    pub fn cable(&self) -> Cable<'_> {
        Cable {
            settings: self.settings,
            response: &self.response,
            symbols: &self.symbols,
            training: self.training as usize,
        }
    }

    /// The bytes, of any length.
    pub fn bytes(&self) -> Vec<u8> {
        let s = &self.settings;
        let values = u16::try_from(self.response.len()).expect("16 bits");
        let symbols = u32::try_from(self.symbols.len()).expect("32 bits");
        let mut bytes = vec![s.p, s.q, s.n, s.r, s.l, 0];
        bytes.extend(values.to_le_bytes());
        bytes.extend(s.m.to_le_bytes());
        bytes.extend(symbols.to_le_bytes());
        bytes.extend(self.training.to_le_bytes());
        for h in &self.response {
            bytes.extend(h.to_le_bytes());
        }
        bytes.extend(self.symbols.iter().map(|&v| v as u8));
        bytes
    }

    /// What the bytes describe, or nothing where they have a wrong length or
    /// a byte 5 that is not 0. No setting is examined.
    pub fn read(input: &[u8]) -> Option<Description> {
        if input.len() < COUNTS_END || input.len() > MOST_BYTES || input[5] != 0 {
            return None;
        }
        let long = |at: usize| u32::from_le_bytes(input[at..at + 4].try_into().unwrap());
        let values = usize::from(u16::from_le_bytes([input[6], input[7]]));
        let symbols = long(12);
        let length = COUNTS_END as u64 + 2 * values as u64 + u64::from(symbols);
        if input.len() as u64 != length {
            return None;
        }
        let (response, symbols) = input[COUNTS_END..].split_at(2 * values);
        let value = |two: &[u8]| i16::from_le_bytes([two[0], two[1]]);
        Some(Description {
            settings: Settings {
                p: input[0],
                q: input[1],
                n: input[2],
                r: input[3],
                l: input[4],
                m: long(8),
            },
            response: response.chunks(2).map(value).collect(),
            symbols: symbols.iter().map(|&v| v as i8).collect(),
            training: long(16),
        })
    }
}

/// The line that tells why a described cable is turned down.
fn line(cause: Cause) -> &'static str {
    match cause {
        Cause::Sizes => "1, a size is outside its limits",
        Cause::Step => "2, M is not admitted with these sizes",
        Cause::Response => "10, the response is empty or longer than 32",
        Cause::Blocks => "10, the symbols are not 1 to 65535 whole blocks of N",
        Cause::Training => "10, there are more training entries than symbols",
        Cause::Trace => "10, the trace would be longer than 65536 bytes",
        Cause::Entry => "10, an entry is not a symbol",
        Cause::Output => unreachable!("the output is made as long as the trace"),
        Cause::Gain => "10, some gain would be below L or does not exist",
    }
}

/// What the program writes: the trace, or one line of text.
pub fn description(input: &[u8]) -> Vec<u8> {
    let refusal = |text: &str| format!("cable: {text}\n").into_bytes();
    let Some(described) = Description::read(input) else {
        return refusal("8, the description has a wrong length or its byte 5 is not 0");
    };
    let cable = described.cable();
    match cable.cause(cable.trace_length()) {
        Some(cause) => refusal(line(cause)),
        None => cable.trace(),
    }
}
