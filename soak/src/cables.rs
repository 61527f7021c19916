//! Random cables, from their own place in the run, so that the lists of calls
//! are the same with and without them.

pub mod bench;
pub mod faults;
pub mod format;
pub mod shrink;

use crate::lists::start;
use reference::Settings;
use tigbulode::calls::Maker;
use tigbulode_laboratory::{trace_length, MOST_RESPONSE, MOST_SYMBOLS};

/// How many cables follow each list of calls.
pub const PER_LIST: u64 = 3;

/// A cable with all that is lent to it.
#[derive(Clone, Debug, PartialEq, Eq)]
pub struct CableInputs {
    pub settings: Settings,
    pub response: Vec<i16>,
    pub symbols: Vec<i8>,
    pub training: usize,
    /// The bytes that are lent for the trace.
    pub room: usize,
}

impl CableInputs {
    /// The cable as the second implementation has it.
    pub fn second(&self) -> reference::cable::Cable<'_> {
        reference::cable::Cable {
            settings: self.settings,
            response: &self.response,
            symbols: &self.symbols,
            training: self.training,
        }
    }

    /// The cable as the library has it.
    pub fn library(&self) -> tigbulode_laboratory::Cable<'_> {
        let Settings { p, q, n, r, l, m } = self.settings;
        tigbulode_laboratory::Cable {
            p,
            q,
            n,
            r,
            l,
            step: m,
            response: &self.response,
            symbols: &self.symbols,
            training: self.training,
        }
    }

    /// Other symbols, with as many bytes more or less than the trace as before.
    pub fn with_symbols(&self, symbols: Vec<i8>) -> CableInputs {
        let room = self.room + trace_length(symbols.len());
        CableInputs {
            room: room.saturating_sub(trace_length(self.symbols.len())),
            training: match self.training {
                all if all == self.symbols.len() => symbols.len(),
                more if more > self.symbols.len() => more,
                some => some.min(symbols.len()),
            },
            symbols,
            ..self.clone()
        }
    }
}

/// Makes cables.
pub struct CableMaker {
    maker: Maker,
}

impl CableMaker {
    /// The cables that follow a list.
    pub fn new(seed: u64, list: u64) -> CableMaker {
        let maker = Maker::new(!start(seed, list));
        CableMaker { maker }
    }

    /// The next cable; a third of them are spoiled.
    pub fn cable(&mut self) -> CableInputs {
        let settings = self.maker.random.settings();
        let mut symbols = self.symbols(&settings);
        let response = self.response(&settings, &mut symbols);
        let any = self.maker.random.below(symbols.len() as u64 + 1) as usize;
        let training = self.maker.random.pick(&[0, symbols.len(), any, any]);
        let mut lent = CableInputs {
            room: trace_length(symbols.len()),
            settings,
            response,
            symbols,
            training,
        };
        if self.maker.random.chance(1, 3) {
            self.spoil(&mut lent);
        }
        if self.maker.random.chance(1, 30) {
            self.spoil(&mut lent);
        }
        lent
    }

    /// Whole blocks of symbols, seldom as many as a trace holds.
    fn symbols(&mut self, settings: &Settings) -> Vec<i8> {
        let random = &mut self.maker.random;
        let n = usize::from(settings.n);
        let most = match random.chance(1, 400) {
            true => MOST_SYMBOLS / n,
            false => 1.max(80 / n),
        };
        let blocks = match random.below(4) {
            0 => most,
            _ => 1 + random.below(most as u64) as usize,
        };
        let (style, one) = (random.below(5), random.symbol(settings.r));
        let symbol = |at: usize| match style {
            0 => one,
            1 => [one, -one][at % 2],
            2 => random.end_symbol(settings.r),
            3 => random.sign() as i8,
            _ => random.symbol(settings.r),
        };
        (0..n * blocks).map(symbol).collect()
    }

    fn values(&mut self) -> usize {
        let any = self.maker.random.between(1, MOST_RESPONSE as i64) as usize;
        self.maker.random.pick(&[1, MOST_RESPONSE, any, any])
    }

    fn response(&mut self, settings: &Settings, symbols: &mut [i8]) -> Vec<i16> {
        let values = self.values();
        let style = self.maker.random.below(8);
        if style < 4 {
            return self.aimed(settings, symbols, values);
        }
        let random = &mut self.maker.random;
        // As loud as the least gain lets pass, or about that.
        let loud = (1i64 << (15 + settings.r - settings.l)) / settings.end_symbol() as i64;
        let limit = random.pick(&[loud, loud / values as i64, 3 * loud / (2 * values as i64)]);
        let value = |_| match style {
            4 => random.pick(&[-32768, 32767, 0]),
            5 => random.between(-2, 2),
            6 if random.chance(3, 4) => 0,
            _ => random.between(-limit, limit).clamp(-32768, 32767),
        };
        (0..values).map(value).map(|h| h as i16).collect()
    }

    /// |s| beside a power of two at which the gain changes, often the one at
    /// which it falls below L.
    fn target(&mut self, settings: &Settings) -> i64 {
        let random = &mut self.maker.random;
        let any = random.byte(0, 15);
        let l = settings.l;
        let g = random.pick(&[l, l, l, 15.min(l + 1), l.saturating_sub(1), any]);
        let power = 1i64 << (15 + settings.r - g);
        random.sign() * (power - random.pick(&[0, 1, 1, 1, 2]))
    }

    /// A response with s at the target at some place, where a value of 16 bits
    /// leads there.
    fn aimed(&mut self, settings: &Settings, symbols: &mut [i8], values: usize) -> Vec<i16> {
        let target = self.target(settings);
        let random = &mut self.maker.random;
        let small = (target.abs() / 512).min(200);
        let mut response: Vec<i64> = (0..values).map(|_| random.between(-small, small)).collect();
        let place = random.below(symbols.len() as u64) as usize;
        let reached = values.min(place + 1) as u64;
        let (first, second) = (
            random.below(reached) as usize,
            random.below(reached) as usize,
        );
        symbols[place - first] = random.sign() as i8;
        if second != first {
            let v = i64::from(symbols[place - second]);
            response[second] = (target / v).clamp(-32768, 32767);
        }
        response[first] = 0;
        let past = symbols[..=place].iter().rev();
        let rest: i64 = response
            .iter()
            .zip(past)
            .map(|(h, &v)| h * i64::from(v))
            .sum();
        let missing = (target - rest) * i64::from(symbols[place - first]);
        response[first] = missing.clamp(-32768, 32767);
        response.into_iter().map(|h| h as i16).collect()
    }

    /// Something that is turned down, or stays acceptable by chance.
    fn spoil(&mut self, lent: &mut CableInputs) {
        match self.maker.random.below(9) {
            0 | 1 => lent.settings = self.maker.any_settings(),
            2 => self.spoil_response(&mut lent.response),
            3 => self.spoil_count(lent),
            4 => {
                let more = self.maker.random.pick(&[1, 1, 2, usize::MAX]);
                lent.training = lent.symbols.len().saturating_add(more);
            }
            5 | 6 => self.spoil_entry(lent),
            7 => self.spoil_room(lent),
            _ => {
                let h = self.maker.random.pick(&[-32768, 32767]);
                lent.response.fill(h);
            }
        }
    }

    fn spoil_response(&mut self, response: &mut Vec<i16>) {
        let values = self.maker.random.pick(&[0, 0, 33, 33, 34, 256, 288]);
        response.resize(values, 1);
    }

    /// No symbols, no whole blocks, or more than a trace holds.
    fn spoil_count(&mut self, lent: &mut CableInputs) {
        let random = &mut self.maker.random;
        let count = lent.symbols.len();
        let count = match random.below(12) {
            0 => 0,
            1..=3 => count.saturating_sub(1),
            4..=6 => count + 1,
            7 => random.pick(&[65_535, 65_536]),
            _ => {
                let n = usize::from(lent.settings.n).max(1);
                MOST_SYMBOLS / n * n + n
            }
        };
        let mut symbols = lent.symbols.clone();
        symbols.resize(count, 1);
        *lent = lent.with_symbols(symbols);
    }

    fn spoil_entry(&mut self, lent: &mut CableInputs) {
        let random = &mut self.maker.random;
        let last = lent.symbols.len().saturating_sub(1);
        let any = random.below(last as u64 + 1) as usize;
        let place = random.pick(&[0, last, any]);
        let end = (2i16 << lent.settings.r.min(3)) - 1;
        let entry = random.pick(&[0, 2, -2, end + 1, end + 2, -end - 2, 127, -128]);
        if let Some(symbol) = lent.symbols.get_mut(place) {
            *symbol = entry as i8;
        }
    }

    fn spoil_room(&mut self, lent: &mut CableInputs) {
        let random = &mut self.maker.random;
        let (room, any) = (lent.room, random.below(600) as usize);
        let less = room.saturating_sub(1);
        lent.room = random.pick(&[less, less, room + 1, room + 1, 0, 12, room + 4, any]);
    }
}
