//! What the trace program turns down, by the lines of a text. Only the exponent
//! (6) is not foreseen here.

use crate::text::Read;
use crate::trace::{Sample, Settings};
use crate::Problem;

/// The limits of the settings and of a gain.
const MOST_TAPS: u8 = 16;
const MOST_BLOCK: u8 = 128;
const MOST_R: u8 = 3;
const MOST_GAIN: u8 = 15;

/// A line that is turned down: the number and the block.
#[derive(Clone, Debug, PartialEq, Eq)]
pub struct Refusal {
    pub number: u8,
    pub block: usize,
    pub problem: Problem,
}

impl Refusal {
    fn new(number: u8, block: usize, line: usize, text: String) -> Refusal {
        let text = format!("{text}; trace turns it down with {number}");
        let problem = Problem { line, text };
        Refusal {
            number,
            block,
            problem,
        }
    }
}

/// Every refusal, in the order of lines. Gains and entries are looked at where
/// L and r are within their limits.
pub fn refusals(read: &Read) -> Vec<Refusal> {
    let settings = &read.trace.settings;
    let mut refusals = sizes(settings, &read.setting_lines);
    if refusals.is_empty() {
        refusals.extend(step(settings, read.setting_lines[5]));
    }
    if settings.l <= MOST_GAIN && settings.r <= MOST_R {
        let samples = read.trace.samples.iter().zip(&read.sample_lines);
        let samples = samples.enumerate();
        refusals.extend(samples.flat_map(|(at, (sample, &line))| {
            let block = at / usize::from(settings.n);
            let refused = refused_values(settings, sample).into_iter();
            refused.map(move |(number, text)| Refusal::new(number, block, line, text))
        }));
    }
    refusals.sort_by_key(|refusal| refusal.problem.line);
    refusals
}

/// The sizes that are outside their limits.
fn sizes(s: &Settings, lines: &[usize; 6]) -> Vec<Refusal> {
    let least_n = match s.p {
        2..=MOST_TAPS => s.p - 1,
        _ => 1,
    };
    let limits = [
        ("p", s.p, 1, MOST_TAPS),
        ("q", s.q, 1, MOST_TAPS),
        ("N", s.n, least_n, MOST_BLOCK),
        ("r", s.r, 0, MOST_R),
        ("L", s.l, 0, MOST_GAIN),
    ];
    let outside = limits.iter().zip(lines);
    let outside = outside.filter(|((_, value, least, most), _)| value < least || value > most);
    let refusals = outside.map(|((name, value, least, most), &line)| {
        let reason = match *name {
            "N" if *least > 1 => ", p - 1 being the least",
            _ => "",
        };
        let text = format!("{name} = {value}, but {least} to {most} is admitted{reason}");
        Refusal::new(1, 0, line, text)
    });
    refusals.collect()
}

/// The greatest M that is admitted with sizes within their limits: M·D is at
/// most 2^30, with D = 2^(2r+3) + p·2^(2r+2−L) + q·2^(2r+2), all taken 2^15
/// times.
fn greatest_m(s: &Settings) -> u64 {
    let unit = 1 << (2 * s.r + 2);
    let d = (2 * unit + u64::from(s.q) * unit) << 15;
    let d = d + ((u64::from(s.p) * unit) << (15 - s.l));
    (1 << 45) / d
}

fn step(s: &Settings, line: usize) -> Option<Refusal> {
    let most = greatest_m(s);
    let refused = u64::from(s.m) > most;
    refused.then(|| {
        let text = format!(
            "M = {}, but at most {most} is admitted with these sizes",
            s.m
        );
        Refusal::new(2, 0, line, text)
    })
}

/// What is turned down in a sample.
fn refused_values(s: &Settings, sample: &Sample) -> Vec<(u8, String)> {
    let Sample { g, entry, .. } = *sample;
    let mut refused = Vec::new();
    if g < s.l || g > MOST_GAIN {
        let text = format!("g = {g}, but L = {} to {MOST_GAIN} is admitted", s.l);
        refused.push((4, text));
    }
    let end = (2 << s.r) - 1;
    let symbol = entry % 2 != 0 && i32::from(entry).abs() <= end;
    if entry != 0 && !symbol {
        let wanted = format!("0 or an odd number from -{end} to {end} is wanted");
        refused.push((5, format!("entry = {entry}, but {wanted}")));
    }
    refused
}
