//! A text as keys with their words: lines `key = words`, where a list goes on over the lines below it. # begins a
//! remark. What is wrong is gathered and told in the order of the lines.

use std::fmt::Display;
use std::ops::RangeInclusive;
use std::str::FromStr;
use tigbulode::Settings;

/// Where a value is given.
#[derive(Clone, Copy, Debug, PartialEq, Eq, PartialOrd, Ord)]
pub enum Place {
    Line(usize),
    /// On the command line.
    Set,
    Default,
}

/// Something that is wrong, and where.
#[derive(Clone, Debug, PartialEq, Eq)]
pub struct Problem {
    pub place: Place,
    pub text: String,
}

impl Problem {
    pub fn told(&self, file: &str) -> String {
        let text = &self.text;
        match self.place {
            Place::Line(line) => format!("{file}: line {line}: {text}"),
            Place::Set => format!("--set: {text}"),
            Place::Default => format!("the default: {text}"),
        }
    }
}

/// A number of a text, by its name in messages.
pub trait Number: Copy + Display + FromStr + PartialOrd {
    const NAME: &'static str = "a whole number";
}

impl Number for u8 {}
impl Number for u32 {}
impl Number for u64 {}
impl Number for usize {}
impl Number for f64 {
    const NAME: &'static str = "a number";
}

/// A word for a message, cut where it is long.
pub fn cut(word: &str, most: usize) -> String {
    let escaped: Vec<char> = word.escape_debug().take(most + 1).collect();
    match escaped.get(..most) {
        Some(first) if escaped.len() > most => first.iter().collect::<String>() + "...",
        _ => escaped.iter().collect(),
    }
}

fn shown(word: &str) -> String {
    cut(word, 40)
}

/// A minus sign, as summaries and pages have it, counts as a hyphen.
fn number<T: Number>(word: &str, limits: &RangeInclusive<T>) -> Option<T> {
    word.replace('−', "-").parse().ok().filter(|number| limits.contains(number))
}

fn wanted<T: Number>(limits: &RangeInclusive<T>) -> String {
    format!("{} from {} to {}", T::NAME, limits.start(), limits.end())
}

/// What to do about a word with a comma.
fn hint(word: &str) -> &'static str {
    if word.contains(',') {
        "; spaces go between values, a point before decimals, and a comma nowhere"
    } else {
        ""
    }
}

/// Whether one word becomes the other by so many letters changed, put in or left out.
fn is_near(one: &[u8], other: &[u8], edits: usize) -> bool {
    let rest = |word| <[u8]>::get(word, 1..).unwrap_or_default();
    match (one, other) {
        ([], []) => true,
        ([a, ..], [b, ..]) if a == b => is_near(&one[1..], &other[1..], edits),
        _ => {
            let ways = [(rest(one), rest(other)), (rest(one), other), (one, rest(other))];
            edits > 0 && ways.iter().any(|(one, other)| is_near(one, other, edits - 1))
        }
    }
}

/// Words in one way of writing: 0.28 for 0.280.
fn plain(words: &[(Place, &str)]) -> String {
    let number = |word: &str| {
        let whole = word.parse::<u64>().map(|n| n.to_string());
        whole.or_else(|_| word.parse::<f64>().map(|n| n.to_string())).unwrap_or_else(|_| word.to_string())
    };
    words.iter().map(|(_, word)| number(word)).collect::<Vec<_>>().join(" ")
}

/// The keys of a text: those with one value, and those with a list.
#[derive(Clone, Copy)]
pub struct Keys<'a> {
    pub singles: &'a [&'a str],
    pub lists: &'a [&'a str],
}

impl<'a> Keys<'a> {
    fn all(&self) -> impl Iterator<Item = &'a str> {
        self.singles.iter().chain(self.lists).copied()
    }

    /// The key that is likely meant by another one.
    fn nearest(&self, key: &str) -> Option<&'a str> {
        let near = |edits| self.all().find(|known| is_near(key.as_bytes(), known.as_bytes(), edits));
        (1..key.len().min(4)).find_map(near)
    }
}

struct Entry<'a> {
    key: &'a str,
    place: Place,
    words: Vec<(Place, &'a str)>,
}

/// The keys of a text with their words, and what was wrong so far.
pub struct Text<'a> {
    keys: Keys<'a>,
    entries: Vec<Entry<'a>>,
    missing: Vec<String>,
    problems: Vec<Problem>,
    /// Keys whose value is wrong or missing.
    unsound: Vec<String>,
    /// Values other than the default.
    changes: Vec<String>,
    last: usize,
}

impl<'a> Text<'a> {
    pub fn new(text: &'a str, keys: Keys<'a>) -> Text<'a> {
        let mut read = Text {
            keys,
            entries: Vec::new(),
            missing: Vec::new(),
            problems: Vec::new(),
            unsound: Vec::new(),
            changes: Vec::new(),
            last: text.lines().count().max(1),
        };
        let text = text.trim_start_matches('\u{FEFF}');
        for (place, line) in text.lines().enumerate() {
            let content = line.split('#').next().unwrap_or_default();
            read.line(Place::Line(place + 1), content.trim());
        }
        read
    }

    fn problem(&mut self, place: Place, text: String) {
        self.problems.push(Problem { place, text });
    }

    fn line(&mut self, place: Place, content: &'a str) {
        if let Some((key, rest)) = content.split_once('=') {
            self.key(place, key.trim());
            self.add(place, rest);
        } else if !content.is_empty() {
            self.rest_of_list(place, content);
        }
    }

    /// A wrong key stays, so that the rest of its list has a place.
    fn key(&mut self, place: Place, key: &'a str) {
        if !self.keys.all().any(|known| known == key) {
            let nearest = self.keys.nearest(key).map_or(String::new(), |near| format!("; is {near} meant?"));
            self.problem(place, format!("{} is no key{nearest}", shown(key)));
        } else if let Some(first) = self.place_of(key) {
            let told = match first {
                Place::Line(first) => format!("{key} is given in line {first} already"),
                _ => format!("{key} is set twice"),
            };
            self.problem(place, told);
        }
        self.entries.push(Entry { key, place, words: Vec::new() });
    }

    fn add(&mut self, place: Place, content: &'a str) {
        let words = content.split_whitespace().map(|word| (place, word));
        if let Some(entry) = self.entries.last_mut() {
            entry.words.extend(words);
        }
    }

    fn rest_of_list(&mut self, place: Place, content: &'a str) {
        let single = |entry: &Entry| self.keys.singles.contains(&entry.key);
        if self.entries.last().is_none_or(single) {
            self.problem(place, format!("'{}' is neither key = value nor the rest of a list", shown(content)));
        } else {
            self.add(place, content);
        }
    }

    /// A change that the command line gives, in the place of the text's own value.
    pub fn set(&mut self, change: &'a str) {
        let Some((key, words)) = change.split_once('=') else {
            return self.problem(Place::Set, format!("'{}' is not of the form KEY=VALUE", shown(change)));
        };
        self.entries.retain(|entry| entry.key != key.trim() || entry.place == Place::Set);
        self.key(Place::Set, key.trim());
        self.add(Place::Set, words);
    }

    /// Gives each key that is not given its default, and notes each value that is another one.
    pub fn fill(&mut self, default: &'a str) {
        for mut entry in Text::new(default, self.keys).entries {
            entry.words.iter_mut().for_each(|(place, _)| *place = Place::Default);
            match self.words(entry.key) {
                Some(words) if plain(words) == plain(&entry.words) => (),
                Some(words) => self.changes.push(cut(&format!("{} = {}", entry.key, plain(words)), 57)),
                None => self.entries.push(Entry { place: Place::Default, ..entry }),
            }
        }
    }

    pub fn changes(&self) -> &[String] {
        &self.changes
    }

    /// All keys with their words, those that are not the default first.
    pub fn written(&self) -> String {
        let words = |entry: &Entry| entry.words.iter().map(|(_, word)| *word).collect::<Vec<_>>().join(" ");
        self.entries.iter().map(|entry| format!("{} = {}\n", entry.key, words(entry))).collect()
    }

    fn entry(&self, key: &str) -> Option<&Entry<'a>> {
        self.entries.iter().find(|entry| entry.key == key)
    }

    /// Where a key is given.
    pub fn place_of(&self, key: &str) -> Option<Place> {
        self.entry(key).map(|entry| entry.place)
    }

    fn words(&self, key: &str) -> Option<&[(Place, &'a str)]> {
        self.entry(key).map(|entry| &entry.words[..])
    }

    /// Notes that something is not given.
    pub fn miss(&mut self, what: &str) {
        self.unsound.push(what.to_string());
        self.missing.push(what.to_string());
    }

    /// Notes what is wrong with the value of a key, at a place in it.
    pub fn wrong(&mut self, key: &str, place: Place, text: String) {
        self.unsound.push(key.to_string());
        self.problem(place, text);
    }

    /// Notes what is wrong with the value of a key.
    pub fn wrong_value(&mut self, key: &str, text: String) {
        let place = self.place_of(key).unwrap_or(Place::Default);
        self.wrong(key, place, text);
    }

    /// Whether nothing is wrong with the values of these keys.
    pub fn is_sound(&self, keys: &[&str]) -> bool {
        !self.unsound.iter().any(|key| keys.contains(&key.as_str()))
    }

    /// A number within limits; the least where it is wrong or missing.
    pub fn value<T: Number>(&mut self, key: &str, limits: RangeInclusive<T>) -> T {
        let Some(words) = self.words(key) else {
            self.miss(key);
            return *limits.start();
        };
        let read = match words {
            [(_, word)] => number(word, &limits),
            _ => None,
        };
        let found: Vec<&str> = words.iter().map(|(_, word)| *word).collect();
        let found = shown(&found.join(" "));
        read.unwrap_or_else(|| {
            self.wrong_value(key, format!("{key} = {found}, but {} is wanted", wanted(&limits)));
            *limits.start()
        })
    }

    /// A list, each word as `read` takes it with its place; none where it is not given.
    pub fn list<T>(
        &mut self,
        key: &str,
        counts: RangeInclusive<usize>,
        wanted: &str,
        read: impl Fn(&str) -> Option<T>,
    ) -> Option<Vec<(Place, T)>> {
        let words = self.words(key)?.to_vec();
        if !counts.contains(&words.len()) {
            let (found, least, most) = (words.len(), counts.start(), counts.end());
            self.wrong_value(key, format!("{key} has {found} values, but {least} to {most} are wanted"));
        }
        let mut values = Vec::new();
        for (place, word) in words {
            match read(&word.replace('−', "-")) {
                Some(value) => values.push((place, value)),
                None => {
                    let sentence = format!("{key}: {}, but {wanted} is wanted{}", shown(word), hint(word));
                    self.wrong(key, place, sentence);
                }
            }
        }
        Some(values)
    }

    /// A list of numbers within limits.
    pub fn numbers(&mut self, key: &str, limits: RangeInclusive<f64>) -> Vec<f64> {
        let values = self.list(key, 1..=16, &wanted(&limits), |word| number(word, &limits));
        values.unwrap_or_default().into_iter().map(|(_, value)| value).collect()
    }

    /// The five sizes of an equaliser, each within its limits, with M = 0.
    pub fn sizes(&mut self) -> Settings {
        let least = Settings { p: 1, q: 1, n: 1, r: 0, l: 0, m: 0 };
        let [p, q, n, r, l] = least.sizes().map(|size| self.value(size.name, size.least..=size.most));
        let read = Settings { p, q, n, r, l, m: 0 };
        if self.is_sound(&["p", "N"]) && read.sizes().iter().any(|size| size.is_outside()) {
            let wanted = format!("with p = {p} at least p - 1 = {}", p - 1);
            self.wrong_value("N", format!("N = {n}, but {wanted} is wanted"));
        }
        read
    }

    /// Every problem in the order of the places.
    pub fn finish(mut self) -> Result<(), Vec<Problem>> {
        if !self.missing.is_empty() {
            let missing = self.missing.join(", ");
            self.problem(Place::Line(self.last), format!("the text ends, but these are not given: {missing}"));
        }
        self.problems.sort_by_key(|problem| problem.place);
        if self.problems.is_empty() {
            Ok(())
        } else {
            Err(self.problems)
        }
    }
}

/// An M that set-up does not admit.
pub fn too_large(s: &Settings) -> Option<String> {
    let Settings { p, q, r, l, m, .. } = s;
    let most = s.greatest_m();
    (*m > most).then(|| format!("M = {m}, but with p = {p}, q = {q}, r = {r}, L = {l} at most {most} is admitted"))
}
