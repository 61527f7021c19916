//! The text as keys with their words: lines `key = words`, where a list goes
//! on over the lines below it. # begins a remark.

use traces::Problem;

/// A value and the line that gives it.
#[derive(Clone, Copy, Debug, PartialEq, Eq)]
pub struct At<T> {
    pub line: usize,
    pub value: T,
}

/// Values and the line of their key.
#[derive(Clone, Debug, PartialEq, Eq)]
pub struct List<T> {
    pub line: usize,
    pub values: Vec<At<T>>,
}

impl<T: Copy> List<T> {
    pub fn plain(&self) -> Vec<T> {
        self.values.iter().map(|at| at.value).collect()
    }
}

/// Every key of a text.
pub const SINGLES: [&str; 8] = [
    "p",
    "q",
    "N",
    "r",
    "L",
    "random_symbols",
    "seed",
    "training",
];
pub const LISTS: [&str; 5] = ["response", "response_fractions", "symbols", "M", "shares"];

/// A word for a message, cut where it is long.
pub fn shown(word: &str) -> String {
    cut(word, 40)
}

/// The first so many characters of a word.
pub fn cut(word: &str, most: usize) -> String {
    let escaped: Vec<char> = word.escape_debug().take(most + 1).collect();
    match escaped.get(..most) {
        Some(first) if escaped.len() > most => first.iter().collect::<String>() + "...",
        _ => escaped.iter().collect(),
    }
}

/// What to do about a word with a comma.
fn hint(word: &str) -> &'static str {
    if word.contains(',') {
        "; spaces go between values, a point before decimals, and a comma nowhere"
    } else {
        ""
    }
}

struct Entry<'a> {
    key: &'a str,
    line: usize,
    words: Vec<At<&'a str>>,
}

/// The keys of a text with their words, and what was wrong so far.
pub struct Words<'a> {
    entries: Vec<Entry<'a>>,
    missing: Vec<String>,
    problems: Vec<Problem>,
    last: usize,
}

impl<'a> Words<'a> {
    pub fn new(text: &'a str) -> Words<'a> {
        let mut words = Words {
            entries: Vec::new(),
            missing: Vec::new(),
            problems: Vec::new(),
            last: text.lines().count().max(1),
        };
        let text = text.trim_start_matches('\u{FEFF}');
        for (place, line) in text.lines().enumerate() {
            let content = line.split('#').next().unwrap_or_default();
            words.line(place + 1, content.trim());
        }
        words
    }

    pub fn problem(&mut self, line: usize, sentence: String) {
        self.problems.push(Problem::new(line, sentence));
    }

    fn line(&mut self, line: usize, content: &'a str) {
        if let Some((key, rest)) = content.split_once('=') {
            self.key(line, key.trim());
            self.add(line, rest);
        } else if !content.is_empty() {
            self.rest_of_list(line, content);
        }
    }

    /// A wrong key stays, so that the rest of its list has a place.
    fn key(&mut self, line: usize, key: &'a str) {
        if !SINGLES.contains(&key) && !LISTS.contains(&key) {
            let known = [&SINGLES[..], &LISTS[..]].concat().join(", ");
            let sentence = format!("{} is no key; there are {known}", shown(key));
            self.problem(line, sentence);
        } else if let Some(first) = self.line_of(key) {
            self.problem(line, format!("{key} is given in line {first} already"));
        }
        let words = Vec::new();
        self.entries.push(Entry { key, line, words });
    }

    fn add(&mut self, line: usize, content: &'a str) {
        let words = content.split_whitespace();
        let words = words.map(|value| At { line, value });
        if let Some(entry) = self.entries.last_mut() {
            entry.words.extend(words);
        }
    }

    fn rest_of_list(&mut self, line: usize, content: &'a str) {
        let single = |entry: &Entry| SINGLES.contains(&entry.key);
        if self.entries.last().is_none_or(single) {
            let found = shown(content);
            let sentence = format!("'{found}' is neither key = value nor the rest of a list");
            self.problem(line, sentence);
        } else {
            self.add(line, content);
        }
    }

    /// The line that gives a key first.
    pub fn line_of(&self, key: &str) -> Option<usize> {
        let mut entries = self.entries.iter();
        entries.find(|entry| entry.key == key).map(|e| e.line)
    }

    fn entry(&self, key: &str) -> Option<(usize, Vec<At<&'a str>>)> {
        let mut entries = self.entries.iter();
        let entry = entries.find(|entry| entry.key == key)?;
        Some((entry.line, entry.words.clone()))
    }

    /// How many words a key has.
    pub fn count(&self, key: &str) -> usize {
        self.entry(key).map_or(0, |(_, words)| words.len())
    }

    /// Notes that something is not given.
    pub fn miss(&mut self, what: &str) {
        self.missing.push(what.to_string());
    }

    /// A whole number up to `most`; 0 where it is wrong or missing. What is
    /// told to be wanted is from `low` to `high`, which the library looks at.
    pub fn whole(&mut self, key: &str, most: u64, (low, high): (u64, u64)) -> At<u64> {
        let Some((line, words)) = self.entry(key) else {
            self.miss(key);
            return At { line: 0, value: 0 };
        };
        let number = match words[..] {
            [word] => word.value.parse().ok().filter(|number| *number <= most),
            _ => None,
        };
        let value = number.unwrap_or_else(|| {
            let found: Vec<&str> = words.iter().map(|word| word.value).collect();
            let found = shown(&found.join(" "));
            let wanted = format!("a whole number from {low} to {high} is wanted");
            self.problem(line, format!("{key} = {found}, but {wanted}"));
            0
        });
        At { line, value }
    }

    /// A list, each word as `read` takes it; none where no line gives it. The
    /// minus sign of the summary and of the page counts as a hyphen.
    pub fn list<T>(
        &mut self,
        key: &str,
        wanted: &str,
        read: impl Fn(&str) -> Option<T>,
    ) -> Option<List<T>> {
        let (line, words) = self.entry(key)?;
        let mut values = Vec::new();
        for word in words {
            let line = word.line;
            match read(&word.value.replace('−', "-")) {
                Some(value) => values.push(At { line, value }),
                None => {
                    let (found, hint) = (shown(word.value), hint(word.value));
                    let sentence = format!("{key}: {found}, but {wanted} is wanted{hint}");
                    self.problem(line, sentence);
                }
            }
        }
        Some(List { line, values })
    }

    /// Every problem in the order of the lines.
    pub fn finish(mut self) -> Result<(), Vec<Problem>> {
        if !self.missing.is_empty() {
            let missing = self.missing.join(", ");
            let sentence = format!("the text ends, but these are not given: {missing}");
            self.problem(self.last, sentence);
        }
        self.problems.sort_by_key(|problem| problem.line);
        if self.problems.is_empty() {
            Ok(())
        } else {
            Err(self.problems)
        }
    }
}
