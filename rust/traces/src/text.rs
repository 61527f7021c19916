//! A text to a trace: settings, then a line for each sample. Beside every line that is wrong, each value is told for
//! which the trace program would turn the trace down; only an exponent (6) is not foreseen.

use crate::trace::{Sample, Settings, Trace, MOST_BYTES, MOST_SAMPLES};
use crate::Problem;
use std::ops::RangeInclusive;
use tigbulode_common::number::{ENTRY, GAIN, SIZES, STEP};
use tigbulode_common::{Size, MOST_GAIN, MOST_R};

/// A value of a text by name, with the numbers that its bytes hold.
type Part = (&'static str, RangeInclusive<i64>);

/// The settings. Only the last may be left out.
const SETTINGS: [Part; 7] = [
    ("p", 0..=255),
    ("q", 0..=255),
    ("N", 0..=255),
    ("r", 0..=255),
    ("L", 0..=255),
    ("M", 0..=4_294_967_295),
    ("blocks", 0..=65_535),
];
const N: usize = 2;
const R: usize = 3;
const L: usize = 4;
const M: usize = 5;
const BLOCKS: usize = 6;

/// The values of a sample's line.
const SAMPLE: [Part; 3] = [("m", -32_768..=32_767), ("g", 0..=255), ("entry", -128..=127)];

/// The trace of a text, with the problems for which it will be turned down; or, where no trace can be made, every
/// problem. They are in the order of lines.
pub fn read(text: &str) -> Result<(Trace, Vec<Problem>), Vec<Problem>> {
    let mut reader = Reader::default();
    let text = text.trim_start_matches('\u{FEFF}');
    for (at, line) in text.lines().enumerate() {
        reader.line(at + 1, line);
    }
    reader.whole();
    reader.limits();
    reader.problems.sort_by_key(|problem| problem.line);
    match reader.problems.iter().all(|problem| problem.stop.is_some()) {
        true => Ok((reader.trace(), reader.problems)),
        false => Err(reader.problems),
    }
}

/// A word for a message, cut where it is long.
fn shown(word: &str) -> String {
    const MOST: usize = 40;
    let escaped: String = word.escape_debug().collect();
    match escaped.char_indices().nth(MOST) {
        _ if escaped.is_empty() => "nothing".to_string(),
        Some((end, _)) => format!("{}...", &escaped[..end]),
        None => escaped,
    }
}

/// The line of a setting, and its value unless that is wrong.
type Set = (usize, Option<i64>);

#[derive(Default)]
struct Reader {
    /// The line that is being read.
    line: usize,
    settings: [Option<Set>; SETTINGS.len()],
    samples: Vec<Sample>,
    sample_lines: Vec<usize>,
    problems: Vec<Problem>,
}

impl Reader {
    fn problem(&mut self, line: usize, text: impl Into<String>) {
        self.problems.push(Problem::new(line, text));
    }

    /// A trace can be made, but the trace program turns it down with a number in a block.
    fn refused(&mut self, line: usize, (number, block): (u8, usize), text: String) {
        let text = format!("{text}; trace turns it down with {number}");
        self.problems.push(Problem { line, text, stop: Some((number, block)) });
    }

    fn line(&mut self, at: usize, line: &str) {
        self.line = at;
        let content = line.split('#').next().unwrap_or_default().trim();
        match content.split_once('=') {
            Some((name, value)) => self.setting(name.trim(), value.trim()),
            None if content.is_empty() => (),
            None => self.sample(content),
        }
    }

    /// The number of a word; a wrong one is told.
    fn number(&mut self, (name, range): &Part, word: &str) -> Option<i64> {
        let number = word.parse().ok().filter(|number| range.contains(number));
        if number.is_none() {
            let (word, low, high) = (shown(word), range.start(), range.end());
            self.problem(self.line, format!("{name} = {word}, but a whole number from {low} to {high} is wanted"));
        }
        number
    }

    fn setting(&mut self, name: &str, word: &str) {
        let line = self.line;
        let Some(place) = SETTINGS.iter().position(|(known, _)| *known == name) else {
            let known = SETTINGS.map(|(name, _)| name).join(", ");
            return self.problem(line, format!("{} is no setting; there are {known}", shown(name)));
        };
        if let Some((first, _)) = self.settings[place] {
            return self.problem(line, format!("{name} is set again, first in line {first}"));
        }
        if let Some(first) = self.sample_lines.first() {
            self.problem(line, format!("{name} is set after the first sample, that of line {first}"));
        }
        self.settings[place] = Some((line, self.number(&SETTINGS[place], word)));
    }

    fn value(&self, place: usize) -> Option<i64> {
        self.settings[place].and_then(|(_, value)| value)
    }

    /// A line of a sample. A wrong one counts too.
    fn sample(&mut self, content: &str) {
        let words: Vec<&str> = content.split_whitespace().collect();
        let values = match words[..] {
            [m, g] => self.values([m, g, "0"]),
            [m, g, entry] => self.values([m, g, entry]),
            _ => {
                let found = format!("values: {} ({})", words.len(), shown(content));
                let wanted = "m and g are wanted, or m, g and a training entry, with spaces between";
                self.problem(self.line, format!("{found}, but {wanted}"));
                [None; 3]
            }
        };
        self.sample_limits(values);
        self.sample_lines.push(self.line);
        match self.sample_lines.len() {
            ..=MOST_SAMPLES => {
                let [m, g, entry] = values.map(Option::unwrap_or_default);
                self.samples.push(Sample { m: m as i16, g: g as u8, entry: entry as i8 });
            }
            count if count == MOST_SAMPLES + 1 => {
                let most = format!("the most that the {MOST_BYTES} bytes of a trace hold");
                self.problem(self.line, format!("more than {MOST_SAMPLES} samples, {most}"));
            }
            _ => (),
        }
    }

    fn values(&mut self, words: [&str; 3]) -> [Option<i64>; 3] {
        [0, 1, 2].map(|part| self.number(&SAMPLE[part], words[part]))
    }

    /// A gain or an entry that is turned down. They are looked at where L and r are within their limits.
    fn sample_limits(&mut self, [_, g, entry]: [Option<i64>; 3]) {
        let within = |place, most: u8| self.value(place).filter(|&value| value <= i64::from(most));
        let (Some(l), Some(r)) = (within(L, MOST_GAIN), within(R, MOST_R)) else {
            return;
        };
        let n = self.value(N).unwrap_or_default() as usize;
        let block = self.sample_lines.len().checked_div(n).unwrap_or_default();
        if let Some(g) = g.filter(|g| !(l..=MOST_GAIN.into()).contains(g)) {
            self.refused(self.line, (GAIN, block), format!("g = {g}, but L = {l} to {MOST_GAIN} is admitted"));
        }
        let end = (2 << r) - 1;
        if let Some(entry) = entry.filter(|&entry| entry != 0 && (entry % 2 == 0 || entry.abs() > end)) {
            let wanted = format!("0 or an odd number from -{end} to {end} is wanted");
            self.refused(self.line, (ENTRY, block), format!("entry = {entry}, but {wanted}"));
        }
    }

    /// Every setting is there, the samples are N for each block, and the blocks are as many as were said.
    fn whole(&mut self) {
        self.all_set();
        let Some(n) = self.value(N).map(|n| n as usize) else {
            return;
        };
        let count = self.sample_lines.len();
        match self.sample_lines[..] {
            [first, ..] if n == 0 => self.problem(first, "a sample, but with N = 0 there can be none"),
            [.., last] if count % n > 0 => {
                self.problem(last, format!("the samples end after {count}, but a multiple of N = {n} is wanted"));
            }
            _ => self.block_count(count.checked_div(n)),
        }
    }

    fn block_count(&mut self, found: Option<usize>) {
        if let (Some((line, Some(said))), Some(found)) = (self.settings[BLOCKS], found) {
            if said != found as i64 {
                self.problem(line, format!("blocks = {said}, but the samples make {found}"));
            }
        }
    }

    /// A missing setting is told at the first sample, or at the end.
    fn all_set(&mut self) {
        let missing = SETTINGS.iter().zip(&self.settings).take(BLOCKS);
        let missing: Vec<&str> = missing.filter(|(_, set)| set.is_none()).map(|((name, _), _)| *name).collect();
        let (missing, first) = (missing.join(", "), self.sample_lines.first());
        match first {
            _ if missing.is_empty() => (),
            Some(&line) => self.problem(line, format!("a sample, but not set before: {missing}")),
            None => self.problem(self.line.max(1), format!("the text ends, but not set: {missing}")),
        }
    }

    /// The settings, 0 for those that are not known.
    fn known(&self) -> Settings {
        let [p, q, n, r, l, m] = [0, 1, N, R, L, M].map(|place| self.value(place).unwrap_or_default() as u32);
        Settings { p: p as u8, q: q as u8, n: n as u8, r: r as u8, l: l as u8, m }
    }

    /// Sizes that are turned down, and M where all sizes are within their limits.
    fn limits(&mut self) {
        let (settings, mut within) = (self.known(), true);
        for (place, size) in settings.sizes().into_iter().enumerate() {
            within &= self.value(place).is_some() && !size.is_outside();
            if let (Some((line, Some(_))), true) = (self.settings[place], size.is_outside()) {
                self.refused(line, (SIZES, 0), outside(&size));
            }
        }
        let (m, most) = (settings.m, settings.greatest_m());
        if let (Some((line, _)), true) = (self.settings[M], within && m > most) {
            self.refused(line, (STEP, 0), format!("M = {m}, but at most {most} is admitted with these sizes"));
        }
    }

    fn trace(&self) -> Trace {
        let (settings, samples) = (self.known(), self.samples.clone());
        let blocks = match usize::from(settings.n) {
            0 => self.value(BLOCKS).unwrap_or_default() as u16,
            n => (samples.len() / n) as u16,
        };
        Trace { settings, blocks, samples }
    }
}

fn outside(Size { name, value, least, most }: &Size) -> String {
    let reason = if *name == "N" && *least > 1 { ", p - 1 being the least" } else { "" };
    format!("{name} = {value}, but {least} to {most} is admitted{reason}")
}
