//! Why the laboratory's library turned a cable down, with the line of the text
//! that is to blame. The library decides; this explains.

use crate::cable::StepSize;
use crate::text::{Given, SIZES};
use crate::words::At;
use tigbulode::{number, MOST_GAIN};
use tigbulode_laboratory::{number_text, trace_length, MOST_RESPONSE, MOST_SYMBOLS, MOST_TRACE};
use traces::Problem;

/// What is to be said at the line that is to blame.
type Cause = Option<(usize, String)>;

pub fn refusal(given: &Given, step: &StepSize, number: u8) -> Problem {
    let cause = match number {
        number::SIZES => size(given),
        number::STEP => too_large(given, step),
        _ => CAUSES.iter().find_map(|cause| cause(given)),
    };
    let (line, sentence) = cause.unwrap_or((step.line, number_text(number).to_string()));
    Problem::new(line, format!("{sentence}; turned down with {number}"))
}

fn size(given: &Given) -> Cause {
    let sizes = [given.p, given.q, given.n, given.r, given.l];
    let mut sizes = SIZES.into_iter().zip(sizes);
    let outside = sizes.find(|((_, low, high), size)| !(*low..=*high).contains(&size.value));
    let sentence = |((key, low, high), size): ((&str, u8, u8), At<u8>)| {
        let sentence = format!("{key} = {}, but {low} to {high} is admitted", size.value);
        (size.line, sentence)
    };
    outside.map(sentence).or_else(|| short_block(given))
}

fn short_block(given: &Given) -> Cause {
    let (p, n) = (given.p.value, given.n.value);
    (n + 1 < p).then(|| {
        let wanted = format!("with p = {p} at least p - 1 = {} is admitted", p - 1);
        (given.n.line, format!("N = {n}, but {wanted}"))
    })
}

fn too_large(given: &Given, step: &StepSize) -> Cause {
    let most = given.greatest_step()?;
    let sentence = format!(
        "M = {}, but at most {most} is admitted with these sizes",
        step.m
    );
    Some((step.line, sentence))
}

/// What 10 stands for, in its order.
const CAUSES: [fn(&Given) -> Cause; 6] = [response, blocks, training, length, entry, gain];

fn response(given: &Given) -> Cause {
    let found = given.response.values.len();
    (found == 0 || found > MOST_RESPONSE).then(|| {
        let wanted = format!("1 to {MOST_RESPONSE} are wanted");
        let sentence = format!("the response has {found} values, but {wanted}");
        (given.response.line, sentence)
    })
}

/// The line of the last symbol, or of the key where there is none.
fn symbols_end(given: &Given) -> usize {
    let last = given.symbols.values.last();
    last.map_or(given.symbols.line, |last| last.line)
}

/// The most whole blocks of a trace.
fn most_blocks(given: &Given) -> usize {
    MOST_SYMBOLS / usize::from(given.n.value)
}

fn blocks(given: &Given) -> Cause {
    let (found, n) = (given.symbols.values.len(), usize::from(given.n.value));
    let whole = found.is_multiple_of(n) && (1..=65_535).contains(&(found / n));
    (!whole).then(|| {
        let most = most_blocks(given);
        let wanted = format!("1 to {most} whole blocks of N = {n} are wanted");
        (symbols_end(given), format!("{found} symbols, but {wanted}"))
    })
}

fn training(given: &Given) -> Cause {
    let (training, found) = (given.training.value, given.symbols.values.len());
    (training > found).then(|| {
        let sentence = format!("training = {training}, but there are {found} symbols");
        (given.training.line, sentence)
    })
}

fn length(given: &Given) -> Cause {
    let found = given.symbols.values.len();
    let bytes = trace_length(found);
    (bytes > MOST_TRACE).then(|| {
        let (most, n) = (most_blocks(given), usize::from(given.n.value));
        let fitting = format!("{} symbols, {most} blocks of N = {n}", most * n);
        let trace = format!("a trace of {bytes} bytes, but {MOST_TRACE} is the most");
        let sentence = format!("{found} symbols make {trace}: {fitting}");
        (symbols_end(given), sentence)
    })
}

/// The greatest symbol.
fn most(given: &Given) -> i32 {
    (2 << given.r.value) - 1
}

fn entry(given: &Given) -> Cause {
    let most = most(given);
    let is_symbol = |value: i8| value % 2 != 0 && i32::from(value).abs() <= most;
    let mut symbols = given.symbols.values.iter().enumerate();
    let (place, symbol) = symbols.find(|(_, symbol)| !is_symbol(symbol.value))?;
    let sentence = format!(
        "symbol {place} (from 0) is {}, but an odd number from -{most} to {most} is wanted",
        symbol.value
    );
    Some((symbol.line, sentence))
}

/// The sum of the response with a symbol and those before it.
pub fn level(response: &[i16], symbols: &[i8], place: usize) -> i32 {
    let heard = symbols[..=place].iter().rev();
    let products = heard
        .zip(response)
        .map(|(symbol, h)| i32::from(*symbol) * i32::from(*h));
    products.sum()
}

/// The greatest gain that a level takes.
pub fn gain_of(level: i32, r: u8) -> Option<u8> {
    let fits = |gain: &u8| i64::from(level).abs() << gain < 1 << (15 + r);
    (0..=MOST_GAIN).rev().find(fits)
}

/// The sum of magnitudes of a response that always fits.
fn safe(given: &Given) -> String {
    let below = 1 << (15 + given.r.value - given.l.value);
    let sum = (below - 1) / most(given);
    let thousandths = sum * 1000 / 32768;
    let sum = format!("{sum} units of 1/32768, about 0.{thousandths:03},");
    format!("magnitudes of the response that sum to at most {sum} always fit")
}

fn gain(given: &Given) -> Cause {
    let (response, symbols) = (given.response.plain(), given.symbols.plain());
    let (r, l) = (given.r.value, given.l.value);
    let mut levels = (0..symbols.len()).map(|place| (place, level(&response, &symbols, place)));
    let (place, level) = levels.find(|(_, s)| gain_of(*s, r).is_none_or(|gain| gain < l))?;
    let found = format!("symbol {place} (from 0) has s = {level}");
    let safe = safe(given);
    Some(match gain_of(level, r) {
        Some(gain) => {
            let sentence = format!("L = {l}, but {found}, so a gain of {gain} ({safe})");
            (given.l.line, sentence)
        }
        None => {
            let wanted = format!("only |s| below 2^(15+r) = {} has a gain", 1 << (15 + r));
            let sentence = format!("{found}, but {wanted} ({safe})");
            (given.response.line, sentence)
        }
    })
}
