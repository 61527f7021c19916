//! One cable on both sides, and the trace that comes out of it on the station's
//! library.

use super::CableInputs;
use crate::bench::{stopping, Failing};
use crate::readings::Plots;
use crate::report::by_number;
use reference::cable::Cause;
use std::fmt;
use tigbulode::sides::{Library, Operations, Second};
use tigbulode::{Block, Equaliser, Outputs};
use tigbulode_laboratory::HEADER_BYTES;

/// The simulation of a cable.
pub trait Simulation {
    fn cable(&self, lent: &CableInputs, trace: &mut [u8]) -> u8;
}

impl Simulation for Library {
    fn cable(&self, lent: &CableInputs, trace: &mut [u8]) -> u8 {
        tigbulode_laboratory::cable(&lent.library(), trace)
    }
}

impl Simulation for Second {
    fn cable(&self, lent: &CableInputs, trace: &mut [u8]) -> u8 {
        reference::cable::cable(&lent.second(), trace)
    }
}

/// The five operations, the cable and the readings.
pub trait Side: Operations + Simulation + Plots {}

impl<T: Operations + Simulation + Plots> Side for T {}

/// How many bytes lie on each side of what is lent.
const AROUND: usize = 64;
const SENTINEL: u8 = 0x55;

/// The number, and the bytes that were lent with those around them.
struct Simulated {
    number: u8,
    bytes: Vec<u8>,
}

fn simulated(side: &dyn Simulation, lent: &CableInputs) -> Simulated {
    let mut bytes = vec![SENTINEL; lent.room + 2 * AROUND];
    let number = side.cable(lent, &mut bytes[AROUND..AROUND + lent.room]);
    let bytes = std::hint::black_box(bytes);
    Simulated { number, bytes }
}

/// The first difference of two sides.
fn difference(one: &Simulated, two: &Simulated) -> Result<(), Failing> {
    if one.number != two.number {
        let numbers = (one.number, two.number);
        let text = format!("library {}, second implementation {}", numbers.0, numbers.1);
        return Err(Failing::of(
            "difference in answer",
            format!("answer: {text}"),
        ));
    }
    let mut pairs = one.bytes.iter().zip(&two.bytes);
    match pairs.position(|(a, b)| a != b) {
        None => Ok(()),
        Some(at) => {
            let place = at as i64 - AROUND as i64;
            let (a, b) = (one.bytes[at], two.bytes[at]);
            let text = format!("trace, byte {place}: library {a}, second implementation {b}");
            Err(Failing::of("difference in trace", text))
        }
    }
}

/// What the cables have covered.
#[derive(Clone, Debug, Default)]
pub struct CableTally {
    pub answers: [u64; 11],
    /// By the first cause, in the order of [`Cause::ALL`].
    pub causes: [u64; 9],
    pub samples: u64,
    /// Of the samples of accepted cables.
    pub gains: [u64; 16],
    /// Accepted cables whose least gain is L.
    pub at_least: u64,
    /// Blocks that the station's library ran, and those that it turned down.
    pub blocks: u64,
    pub exponents: u64,
}

impl CableTally {
    pub fn cables(&self) -> u64 {
        self.answers.iter().sum()
    }

    fn count(&mut self, lent: &CableInputs, number: u8, trace: &[u8]) {
        self.answers[usize::from(number)] += 1;
        let cause = lent.second().cause(lent.room);
        let place = cause.and_then(|cause| Cause::ALL.into_iter().position(|c| c == cause));
        place.into_iter().for_each(|place| self.causes[place] += 1);
        if number == 0 {
            let samples = lent.symbols.len();
            let gains = trace[HEADER_BYTES..].chunks(3).take(samples).map(|m| m[2]);
            self.samples += samples as u64;
            self.at_least += u64::from(gains.clone().min() == Some(lent.settings.l));
            gains.for_each(|g| self.gains[usize::from(g & 15)] += 1);
        }
    }
}

impl fmt::Display for CableTally {
    fn fmt(&self, f: &mut fmt::Formatter) -> fmt::Result {
        let answers = by_number(&self.answers);
        writeln!(f, "cable: {} calls; answer{answers}", self.cables())?;
        let causes = Cause::ALL
            .iter()
            .zip(self.causes)
            .filter(|(cause, _)| cause.number() == 10);
        let causes: Vec<String> = causes
            .map(|(cause, count)| format!("{} {count}", format!("{cause:?}").to_lowercase()))
            .collect();
        writeln!(
            f,
            "cables turned down with 10 by cause: {}",
            causes.join(", ")
        )?;
        write!(f, "samples of accepted cables: {}; ", self.samples)?;
        writeln!(f, "by gain{}", by_number(&self.gains))?;
        writeln!(f, "accepted cables with a gain of L: {}", self.at_least)?;
        let (blocks, exponents) = (self.blocks, self.exponents);
        writeln!(
            f,
            "blocks of their traces on the station: {blocks}; turned down with 6: {exponents}"
        )
    }
}

/// The two sides, and what was seen on them.
pub struct CableBench<'a> {
    library: &'a dyn Simulation,
    second: &'a dyn Simulation,
    pub tally: CableTally,
}

impl<'a> CableBench<'a> {
    pub fn new(library: &'a dyn Simulation, second: &'a dyn Simulation) -> CableBench<'a> {
        let tally = CableTally::default();
        CableBench {
            library,
            second,
            tally,
        }
    }

    /// Simulates a cable on both sides.
    pub fn cable(&mut self, lent: &CableInputs) -> Result<(), Failing> {
        stopping(|| self.checked(lent)).unwrap_or_else(|text| {
            let text = format!("a computation stopped: {text}");
            Err(Failing::of("stop", text))
        })
    }

    fn checked(&mut self, lent: &CableInputs) -> Result<(), Failing> {
        let one = simulated(self.library, lent);
        difference(&one, &simulated(self.second, lent))?;
        if ![0, 1, 2, 10].contains(&one.number) {
            let text = format!("{} is no number of a cable", one.number);
            return Err(Failing::of("number", text));
        }
        let trace = &one.bytes[AROUND..AROUND + lent.room];
        if one.number == 0 {
            self.on_the_station(trace)?;
        } else if one.bytes.iter().any(|&byte| byte != SENTINEL) {
            let text = format!("turned down with {}, but the trace is touched", one.number);
            return Err(Failing::of("refusal", text));
        }
        self.tally.count(lent, one.number, trace);
        Ok(())
    }

    /// Runs a trace on the station's library, which turns no block down but
    /// with 6.
    fn on_the_station(&mut self, trace: &[u8]) -> Result<(), Failing> {
        let stopped = |what: String| Err(Failing::of("station", what));
        let (header, body) = trace.split_at(HEADER_BYTES);
        let step = u32::from_le_bytes([header[8], header[9], header[10], header[11]]);
        let [p, q, n, r, l] = [header[0], header[1], header[2], header[3], header[4]];
        let answer = tigbulode::set_up(p, q, n, r, l, step);
        if answer.number != 0 || header[5] != 0 {
            return stopped(format!("set-up of the trace answers {}", answer.number));
        }
        let (samples, entries) = body.split_at(body.len() / 4 * 3);
        let (mut state, n) = (answer.state, usize::from(n));
        for (place, (samples, entries)) in samples.chunks(3 * n).zip(entries.chunks(n)).enumerate()
        {
            match run_block(&mut state, samples, entries) {
                0 => self.tally.blocks += 1,
                6 => {
                    self.tally.exponents += 1;
                    return Ok(());
                }
                number => return stopped(format!("block {place} of the trace answers {number}")),
            }
        }
        Ok(())
    }
}

/// Runs a block whose samples and entries are in the trace's bytes.
fn run_block(state: &mut Equaliser, samples: &[u8], entries: &[u8]) -> u8 {
    let n = entries.len();
    let m: Vec<i16> = samples
        .chunks(3)
        .map(|m| i16::from_le_bytes([m[0], m[1]]))
        .collect();
    let gains: Vec<u8> = samples.chunks(3).map(|m| m[2]).collect();
    let entries: Vec<i8> = entries.iter().map(|&entry| entry as i8).collect();
    let (mut y, mut z) = (vec![0; n], vec![0; n]);
    let (mut xi, mut theta, mut decision) = (vec![0; n], vec![0; n], vec![0; n]);
    let block = Block {
        samples: &m,
        gains: &gains,
        entries: &entries,
    };
    let out = Outputs {
        y: &mut y,
        xi: &mut xi,
        decision: &mut decision,
        z: &mut z,
        theta: &mut theta,
    };
    tigbulode::run(state, block, out)
}
