//! A text to a trace: settings, then a line for each sample.

use crate::trace::{Sample, Settings, Trace, MOST_BYTES, MOST_SAMPLES};
use crate::Problem;
use std::ops::RangeInclusive;

/// A value of a text by name, with the numbers that its bytes hold.
type Part = (&'static str, RangeInclusive<i64>);

/// The settings. Only the last may be left out.
const SETTINGS: [Part; 7] = [
    ("p", 0..=255),
    ("q", 0..=255),
    ("N", 0..=255),
    ("r", 0..=255),
    ("L", 0..=255),
    ("M", 0..=4_294_967_295),
    ("blocks", 0..=65_535),
];
/// The places of N and of the block count among them.
const N: usize = 2;
const BLOCKS: usize = 6;

/// The values of a sample's line.
const SAMPLE: [Part; 3] = [
    ("m", -32_768..=32_767),
    ("g", 0..=255),
    ("entry", -128..=127),
];

/// A trace with the lines that its parts came from.
#[derive(Clone, Debug, PartialEq, Eq)]
pub struct Read {
    pub trace: Trace,
    /// The lines of p, q, N, r, L and M.
    pub setting_lines: [usize; BLOCKS],
    pub sample_lines: Vec<usize>,
}

/// The trace of a text, or all its problems in the order of lines.
pub fn read(text: &str) -> Result<Read, Vec<Problem>> {
    let mut reader = Reader::default();
    let text = text.trim_start_matches('\u{FEFF}');
    for (at, line) in text.lines().enumerate() {
        reader.line(at + 1, line);
    }
    reader.whole();
    reader.read()
}

/// A word for a message, cut where it is long.
fn shown(word: &str) -> String {
    const MOST: usize = 40;
    let escaped: String = word.escape_debug().collect();
    match escaped.char_indices().nth(MOST) {
        _ if escaped.is_empty() => "nothing".to_string(),
        Some((end, _)) => format!("{}...", &escaped[..end]),
        None => escaped,
    }
}

/// A setting as it stands in the text; no value where it is wrong.
#[derive(Clone, Copy, Default)]
struct Set {
    line: usize,
    value: Option<i64>,
}

#[derive(Default)]
struct Reader {
    /// The line that is being read.
    line: usize,
    settings: [Option<Set>; SETTINGS.len()],
    samples: Vec<Sample>,
    sample_lines: Vec<usize>,
    problems: Vec<Problem>,
}

impl Reader {
    fn problem(&mut self, line: usize, text: impl Into<String>) {
        self.problems.push(Problem::new(line, text));
    }

    fn line(&mut self, at: usize, line: &str) {
        self.line = at;
        let content = line.split('#').next().unwrap_or_default().trim();
        match content.split_once('=') {
            Some((name, value)) => self.setting(name.trim(), value.trim()),
            None if content.is_empty() => (),
            None => self.sample(content),
        }
    }

    /// The number of a word; a wrong one is told.
    fn number(&mut self, (name, range): &Part, word: &str) -> Option<i64> {
        let number = word.parse().ok().filter(|number| range.contains(number));
        if number.is_none() {
            let (word, low, high) = (shown(word), range.start(), range.end());
            let wanted = format!("a whole number from {low} to {high} is wanted");
            self.problem(self.line, format!("{name} = {word}, but {wanted}"));
        }
        number
    }

    fn setting(&mut self, name: &str, word: &str) {
        let line = self.line;
        let Some(place) = SETTINGS.iter().position(|(known, _)| *known == name) else {
            let known = SETTINGS.map(|(name, _)| name).join(", ");
            let text = format!("{} is no setting; there are {known}", shown(name));
            return self.problem(line, text);
        };
        if let Some(first) = self.settings[place] {
            let text = format!("{name} is set again, first in line {}", first.line);
            return self.problem(line, text);
        }
        if let Some(first) = self.sample_lines.first() {
            let text = format!("{name} is set after the first sample, that of line {first}");
            self.problem(line, text);
        }
        let value = self.number(&SETTINGS[place], word);
        self.settings[place] = Some(Set { line, value });
    }

    /// A line of a sample. A wrong one counts too.
    fn sample(&mut self, content: &str) {
        let words: Vec<&str> = content.split_whitespace().collect();
        let sample = match words[..] {
            [m, g] => self.values([m, g, "0"]),
            [m, g, entry] => self.values([m, g, entry]),
            _ => {
                let found = format!("values: {} ({})", words.len(), shown(content));
                let wanted =
                    "m and g are wanted, or m, g and a training entry, with spaces between";
                self.problem(self.line, format!("{found}, but {wanted}"));
                Sample::default()
            }
        };
        self.sample_lines.push(self.line);
        match self.sample_lines.len() {
            ..=MOST_SAMPLES => self.samples.push(sample),
            count if count == MOST_SAMPLES + 1 => {
                let most = format!("the most that the {MOST_BYTES} bytes of a trace hold");
                let text = format!("more than {MOST_SAMPLES} samples, {most}");
                self.problem(self.line, text);
            }
            _ => (),
        }
    }

    fn values(&mut self, words: [&str; 3]) -> Sample {
        let values = [0, 1, 2].map(|part| self.number(&SAMPLE[part], words[part]));
        let [m, g, entry] = values.map(Option::unwrap_or_default);
        Sample {
            m: m as i16,
            g: g as u8,
            entry: entry as i8,
        }
    }

    fn value(&self, place: usize) -> Option<i64> {
        self.settings[place].and_then(|set| set.value)
    }

    /// What the text as a whole must have.
    fn whole(&mut self) {
        self.all_set();
        if let Some(n) = self.value(N) {
            self.whole_blocks(n as usize);
        }
        self.problems.sort_by_key(|problem| problem.line);
    }

    /// A missing setting is told at the first sample, or at the end.
    fn all_set(&mut self) {
        let names = SETTINGS.iter().map(|(name, _)| *name);
        let missing = names.zip(&self.settings).take(BLOCKS);
        let missing: Vec<&str> = missing
            .filter(|(_, set)| set.is_none())
            .map(|(name, _)| name)
            .collect();
        if missing.is_empty() {
            return;
        }
        let missing = missing.join(", ");
        match self.sample_lines.first() {
            Some(&line) => self.problem(line, format!("a sample, but not set before: {missing}")),
            None => self.problem(
                self.line.max(1),
                format!("the text ends, but not set: {missing}"),
            ),
        }
    }

    /// The samples are N for each block, and the blocks are as many as were
    /// said.
    fn whole_blocks(&mut self, n: usize) {
        let count = self.sample_lines.len();
        let Some(&last) = self.sample_lines.last() else {
            return self.block_count(n, 0);
        };
        if n == 0 {
            let first = self.sample_lines[0];
            self.problem(first, "a sample, but with N = 0 there can be none");
        } else if !count.is_multiple_of(n) {
            let text =
                format!("the samples end after {count}, but a multiple of N = {n} is wanted");
            self.problem(last, text);
        } else {
            self.block_count(n, count / n);
        }
    }

    fn block_count(&mut self, n: usize, found: usize) {
        let Some(Set {
            line,
            value: Some(said),
        }) = self.settings[BLOCKS]
        else {
            return;
        };
        if n > 0 && said != found as i64 {
            self.problem(
                line,
                format!("blocks = {said}, but the samples make {found}"),
            );
        }
    }

    fn read(self) -> Result<Read, Vec<Problem>> {
        if !self.problems.is_empty() {
            return Err(self.problems);
        }
        let value = |place| self.value(place).unwrap_or_default();
        let [p, q, n, r, l] = [0, 1, 2, 3, 4].map(|place| value(place) as u8);
        let blocks = match n {
            0 => value(BLOCKS) as u16,
            _ => (self.samples.len() / usize::from(n)) as u16,
        };
        let m = value(5) as u32;
        Ok(Read {
            trace: Trace {
                settings: Settings { p, q, n, r, l, m },
                blocks,
                samples: self.samples,
            },
            setting_lines: [0, 1, 2, 3, 4, 5]
                .map(|place| self.settings[place].unwrap_or_default().line),
            sample_lines: self.sample_lines,
        })
    }
}
