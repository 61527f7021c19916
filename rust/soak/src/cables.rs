//! Random cables, from their own place in the run, so that the lists of calls are the same with and without them.

use crate::bench::{Bench, Failure};
use crate::calls::any_settings;
use crate::laboratory::Laboratory;
use crate::lists::start;
use harness::calls::{Call, Lists};
use harness::perform::{perform, Guarded, Outcome};
use harness::sides::{Library, Operations};
use reference::cable::Cause;
use reference::random::Random;
use reference::settings::Rules;
use reference::trace::read;
use reference::Settings;
use tigbulode_laboratory::{trace_length, HEADER_BYTES, MOST_RESPONSE, MOST_SYMBOLS};

/// How many cables follow each list of calls.
pub const PER_LIST: u64 = 3;

/// A cable with all that is lent to it.
#[derive(Clone, Debug, PartialEq, Eq)]
pub struct CableInputs {
    pub settings: Settings,
    pub response: Vec<i16>,
    pub symbols: Vec<i8>,
    pub training: usize,
    /// The bytes that are lent for the trace.
    pub room: usize,
}

impl CableInputs {
    /// Why it is turned down.
    pub fn cause(&self) -> Option<Cause> {
        self.second().cause(self.room)
    }

    pub fn second(&self) -> reference::cable::Cable<'_> {
        let CableInputs { settings, response, symbols, training, .. } = self;
        reference::cable::Cable { settings: *settings, response, symbols, training: *training }
    }

    pub(crate) fn library(&self) -> tigbulode_laboratory::Cable<'_> {
        let CableInputs { settings, response, symbols, training, .. } = self;
        tigbulode_laboratory::Cable { settings: *settings, response, symbols, training: *training }
    }

    /// Other symbols, with as many bytes more or less than the trace as before.
    pub fn with_symbols(&self, symbols: Vec<i8>) -> CableInputs {
        let room = self.room + trace_length(symbols.len());
        CableInputs {
            room: room.saturating_sub(trace_length(self.symbols.len())),
            training: match self.training {
                all if all == self.symbols.len() => symbols.len(),
                more if more > self.symbols.len() => more,
                some => some.min(symbols.len()),
            },
            symbols,
            ..self.clone()
        }
    }
}

/// The cables that follow a list.
pub fn cables(seed: u64, list: u64) -> Vec<CableInputs> {
    let mut random = Random::new(!start(seed, list));
    (0..PER_LIST).map(|_| cable(&mut random)).collect()
}

/// A cable; a third of them are spoiled.
fn cable(random: &mut Random) -> CableInputs {
    let settings = random.settings();
    let mut symbols = symbols(random, &settings);
    let response = response(random, &settings, &mut symbols);
    let any = random.below(symbols.len() as u64 + 1) as usize;
    let training = random.pick(&[0, symbols.len(), any, any]);
    let mut lent = CableInputs { room: trace_length(symbols.len()), settings, response, symbols, training };
    for whole in [3, 30] {
        if random.chance(1, whole) {
            spoil(random, &mut lent);
        }
    }
    lent
}

/// Whole blocks of symbols, seldom as many as a trace holds.
fn symbols(random: &mut Random, settings: &Settings) -> Vec<i8> {
    let n = usize::from(settings.n);
    let most = if random.chance(1, 400) { MOST_SYMBOLS / n } else { 1.max(80 / n) };
    let blocks = match random.below(4) {
        0 => most,
        _ => 1 + random.below(most as u64) as usize,
    };
    let (style, one) = (random.below(5), random.symbol(settings.r));
    let symbol = |at: usize| match style {
        0 => one,
        1 => [one, -one][at % 2],
        2 => random.end_symbol(settings.r),
        3 => random.sign() as i8,
        _ => random.symbol(settings.r),
    };
    (0..n * blocks).map(symbol).collect()
}

fn response(random: &mut Random, settings: &Settings, symbols: &mut [i8]) -> Vec<i16> {
    let any = random.between(1, MOST_RESPONSE as i64) as usize;
    let values = random.pick(&[1, MOST_RESPONSE, any, any]);
    let style = random.below(8);
    if style < 4 {
        return aimed(random, settings, symbols, values);
    }
    // As loud as the least gain lets pass, or about that.
    let loud = (1i64 << (15 + settings.r - settings.l)) / settings.end_symbol() as i64;
    let limit = random.pick(&[loud, loud / values as i64, 3 * loud / (2 * values as i64)]);
    let value = |_| match style {
        4 => random.pick(&[-32768, 32767, 0]),
        5 => random.between(-2, 2),
        6 if random.chance(3, 4) => 0,
        _ => random.between(-limit, limit).clamp(-32768, 32767),
    };
    (0..values).map(value).map(|h| h as i16).collect()
}

/// |s| beside a power of two at which the gain changes, often the one at which it falls below L.
fn target(random: &mut Random, settings: &Settings) -> i64 {
    let (any, l) = (random.byte(0, 15), settings.l);
    let g = random.pick(&[l, l, l, 15.min(l + 1), l.saturating_sub(1), any]);
    let power = 1i64 << (15 + settings.r - g);
    random.sign() * (power - random.pick(&[0, 1, 1, 1, 2]))
}

/// A response with s at the target at some place, where a value of 16 bits leads there.
fn aimed(random: &mut Random, settings: &Settings, symbols: &mut [i8], values: usize) -> Vec<i16> {
    let target = target(random, settings);
    let small = (target.abs() / 512).min(200);
    let mut response: Vec<i64> = (0..values).map(|_| random.between(-small, small)).collect();
    let place = random.below(symbols.len() as u64) as usize;
    let reached = values.min(place + 1) as u64;
    let (first, second) = (random.below(reached) as usize, random.below(reached) as usize);
    symbols[place - first] = random.sign() as i8;
    if second != first {
        let v = i64::from(symbols[place - second]);
        response[second] = (target / v).clamp(-32768, 32767);
    }
    response[first] = 0;
    let past = symbols[..=place].iter().rev();
    let rest: i64 = response.iter().zip(past).map(|(h, &v)| h * i64::from(v)).sum();
    let missing = (target - rest) * i64::from(symbols[place - first]);
    response[first] = missing.clamp(-32768, 32767);
    response.into_iter().map(|h| h as i16).collect()
}

/// Something that is turned down, or stays acceptable by chance.
fn spoil(random: &mut Random, lent: &mut CableInputs) {
    match random.below(9) {
        0 | 1 => lent.settings = any_settings(random),
        2 => lent.response.resize(random.pick(&[0, 0, 33, 33, 34, 256, 288]), 1),
        3 => spoil_count(random, lent),
        4 => lent.training = lent.symbols.len().saturating_add(random.pick(&[1, 1, 2, usize::MAX])),
        5 | 6 => spoil_entry(random, lent),
        7 => {
            let (room, any) = (lent.room, random.below(600) as usize);
            let less = room.saturating_sub(1);
            lent.room = random.pick(&[less, less, room + 1, room + 1, 0, 12, room + 4, any]);
        }
        _ => lent.response.fill(random.pick(&[-32768, 32767])),
    }
}

/// No symbols, no whole blocks, or more than a trace holds.
fn spoil_count(random: &mut Random, lent: &mut CableInputs) {
    let (count, n) = (lent.symbols.len(), usize::from(lent.settings.n).max(1));
    let count = match random.below(12) {
        0 => 0,
        1..=3 => count.saturating_sub(1),
        4..=6 => count + 1,
        7 => random.pick(&[65_535, 65_536]),
        _ => MOST_SYMBOLS / n * n + n,
    };
    let mut symbols = lent.symbols.clone();
    symbols.resize(count, 1);
    *lent = lent.with_symbols(symbols);
}

fn spoil_entry(random: &mut Random, lent: &mut CableInputs) {
    let last = lent.symbols.len().saturating_sub(1);
    let any = random.below(last as u64 + 1) as usize;
    let place = random.pick(&[0, last, any]);
    let end = (2i16 << lent.settings.r.min(3)) - 1;
    let entry = random.pick(&[0, 2, -2, end + 1, end + 2, -end - 2, 127, -128]);
    if let Some(symbol) = lent.symbols.get_mut(place) {
        *symbol = entry as i8;
    }
}

const UNTOUCHED: u8 = 0x55;

/// A cable by one side, and the trace.
fn simulated(side: &dyn Laboratory, lent: &CableInputs) -> (Outcome, Vec<u8>) {
    let mut trace = Guarded::filled(lent.room, UNTOUCHED);
    let number = side.cable(lent, trace.list_mut());
    (Outcome::of(number, [trace.part("trace")]), trace.list().to_vec())
}

impl Bench<'_> {
    /// Simulates a cable on both sides.
    pub(crate) fn cable(&mut self, lent: &CableInputs) -> Result<(), Failure> {
        let [(outcome, trace), (other, _)] = self.sides.laboratory.map(|side| simulated(side, lent));
        Failure::differing([&outcome, &other])?;
        let number = outcome.number;
        match number {
            0 => self.on_the_station(&trace)?,
            1 | 2 | 10 => {
                let untouched = Guarded::filled(lent.room, UNTOUCHED).part("trace");
                Failure::touched(&outcome, &Outcome::of(number, [untouched]))?;
            }
            _ => return Err(Failure::of("number", format!("{number} is no number of a cable"))),
        }
        self.count_cable(lent, number, &trace);
        Ok(())
    }

    /// Runs a trace on the station's library, which turns no block down but with 6.
    fn on_the_station(&mut self, trace: &[u8]) -> Result<(), Failure> {
        let stopped = |what: &str, number: u8| Failure::of("station", format!("{what} of the trace answers {number}"));
        let trace = read(trace).map_err(|number| stopped("the reading", number))?;
        let answer = Library.set_up(trace.settings);
        if answer.number != 0 {
            return Err(stopped("set-up", answer.number));
        }
        let mut state = answer.state;
        for (place, block) in trace.blocks.into_iter().enumerate() {
            let rooms = [block.samples.len(); 5];
            let lists = Lists { m: block.samples, gains: block.gains, entries: block.training, rooms };
            match perform(&Library, &Call::Block(lists, None), &mut state).number {
                0 => self.counts.add("cable blocks", true),
                6 => {
                    self.counts.add("cable exponents", true);
                    return Ok(());
                }
                number => return Err(stopped(&format!("block {place}"), number)),
            }
        }
        Ok(())
    }

    fn count_cable(&mut self, lent: &CableInputs, number: u8, trace: &[u8]) {
        self.counts.add("cable", true);
        self.counts.add(&format!("cable answer {number}"), true);
        if let Some(cause) = lent.cause() {
            self.counts.add(&format!("cause {cause:?}").to_lowercase(), true);
        }
        if number == 0 {
            let gains = trace[HEADER_BYTES..].chunks(3).take(lent.symbols.len()).map(|m| m[2]);
            self.counts.add("cable samples", lent.symbols.len() as u64);
            self.counts.add("cable at L", gains.clone().min() == Some(lent.settings.l));
            gains.for_each(|g| self.counts.add(&format!("gain {g}"), true));
        }
    }
}
