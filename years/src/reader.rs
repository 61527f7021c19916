//! Text of lines `key = value`, blank lines and comment lines that start
//! with #. Keys are taken one by one; what is wrong is gathered.

use std::ops::RangeInclusive;

struct Line<'a> {
    number: usize,
    key: &'a str,
    value: &'a str,
}

/// The lines not yet taken, and what was wrong so far.
pub struct Reader<'a> {
    lines: Vec<Line<'a>>,
    missing: Vec<String>,
    problems: Vec<(usize, String)>,
}

fn split_line(line: &str) -> Option<(&str, &str)> {
    let (key, value) = line.split_once('=')?;
    Some((key.trim(), value.trim()))
}

/// The number of the line that gives a key.
pub fn line_of(text: &str, key: &str) -> usize {
    let gives = |line: &str| split_line(line).is_some_and(|(k, _)| k == key);
    text.lines().position(gives).map_or(0, |place| place + 1)
}

/// The lines that are neither blank nor a comment, with their numbers.
fn lines(text: &str) -> impl Iterator<Item = (usize, &str)> {
    let numbered = text.lines().map(str::trim).enumerate();
    let told = numbered.filter(|(_, line)| !line.is_empty() && !line.starts_with('#'));
    told.map(|(place, line)| (place + 1, line))
}

/// Each key with its value.
pub fn pairs(text: &str) -> Vec<(&str, &str)> {
    lines(text)
        .filter_map(|(_, line)| split_line(line))
        .collect()
}

impl<'a> Reader<'a> {
    pub fn new(text: &'a str) -> Reader<'a> {
        let mut reader = Reader {
            lines: Vec::new(),
            missing: Vec::new(),
            problems: Vec::new(),
        };
        lines(text).for_each(|(number, line)| reader.add(number, line));
        reader
    }

    fn add(&mut self, number: usize, line: &'a str) {
        let Some((key, value)) = split_line(line) else {
            self.problem(number, format!("'{line}' is not of the form key = value"));
            return;
        };
        if let Some(first) = self.lines.iter().find(|other| other.key == key) {
            let sentence = format!("{key} is given in line {} already", first.number);
            self.problem(number, sentence);
        } else {
            self.lines.push(Line { number, key, value });
        }
    }

    fn problem(&mut self, line: usize, sentence: String) {
        self.problems.push((line, sentence));
    }

    /// The value of a key as `read` takes it, or what stands in for it beside
    /// a problem.
    fn take<T>(
        &mut self,
        key: &str,
        wanted: String,
        stand_in: T,
        read: impl Fn(&str) -> Option<T>,
    ) -> T {
        let Some(place) = self.lines.iter().position(|line| line.key == key) else {
            self.missing.push(format!("no line gives {key}, {wanted}"));
            return stand_in;
        };
        let line = self.lines.remove(place);
        read(line.value).unwrap_or_else(|| {
            let sentence = format!("{key} = {}, but {wanted} is wanted", line.value);
            self.problem(line.number, sentence);
            stand_in
        })
    }

    pub fn whole(&mut self, key: &str, limits: RangeInclusive<u64>) -> u64 {
        let (low, high) = (*limits.start(), *limits.end());
        let wanted = format!("a whole number from {low} to {high}");
        let read = |value: &str| value.parse().ok().filter(|v| limits.contains(v));
        self.take(key, wanted, low, read)
    }

    pub fn number(&mut self, key: &str, limits: RangeInclusive<f64>) -> f64 {
        let (low, high) = (*limits.start(), *limits.end());
        let wanted = format!("a number from {low} to {high}");
        let read = |value: &str| value.parse().ok().filter(|v| limits.contains(v));
        self.take(key, wanted, low, read)
    }

    /// One to sixteen numbers.
    pub fn numbers(&mut self, key: &str, limits: RangeInclusive<f64>) -> Vec<f64> {
        let (low, high) = (*limits.start(), *limits.end());
        let wanted = format!("1 to 16 numbers from {low} to {high} with spaces between");
        let read = |value: &str| {
            let words = value.split_whitespace().map(str::parse);
            let list: Vec<f64> = words.collect::<Result<_, _>>().ok()?;
            let fits = (1..=16).contains(&list.len()) && list.iter().all(|v| limits.contains(v));
            fits.then_some(list)
        };
        self.take(key, wanted, vec![low], read)
    }

    /// Every problem in the order of the lines, the keys that nobody took
    /// among them, then the keys that no line gives.
    pub fn finish(mut self) -> Result<(), Vec<String>> {
        for line in std::mem::take(&mut self.lines) {
            self.problem(line.number, format!("unknown key {}", line.key));
        }
        self.problems.sort_by_key(|(line, _)| *line);
        let problems = self.problems.into_iter();
        let sentences: Vec<String> = problems
            .map(|(line, s)| format!("line {line}: {s}"))
            .chain(self.missing)
            .collect();
        if sentences.is_empty() {
            Ok(())
        } else {
            Err(sentences)
        }
    }
}
