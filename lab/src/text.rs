//! The text as a cable and step sizes. Values only need to fit the library's
//! lists: what it turns down is its own to say.

use crate::share::Share;
use crate::words::{At, List, Words};
use tigbulode::{MOST_BLOCK, MOST_GAIN, MOST_R, MOST_TAPS};
use tigbulode_laboratory::MOST_SYMBOLS;
use traces::Problem;
use years::assumptions::Sizes;
use years::random::{Purpose, Random};

/// The most step sizes of a page.
pub const MOST_STEPS: usize = 6;
/// The most symbols of a trace, and the most random ones that are drawn for
/// the library to look at.
const MOST_SENT: u64 = MOST_SYMBOLS as u64;
const MOST_DRAWN: u64 = 999_999;

/// The sizes with their limits.
pub const SIZES: [(&str, u8, u8); 5] = [
    ("p", 1, MOST_TAPS),
    ("q", 1, MOST_TAPS),
    ("N", 1, MOST_BLOCK),
    ("r", 0, MOST_R),
    ("L", 0, MOST_GAIN),
];

/// A step size as it is asked for.
#[derive(Clone, Debug, PartialEq, Eq)]
pub enum Step {
    M(u32),
    Share(Share, String),
}

/// What a text describes, each part with its line.
#[derive(Clone, Debug, PartialEq, Eq)]
pub struct Given {
    pub p: At<u8>,
    pub q: At<u8>,
    pub n: At<u8>,
    pub r: At<u8>,
    pub l: At<u8>,
    pub response: List<i16>,
    pub symbols: List<i8>,
    /// Where the symbols are random ones.
    pub seed: Option<u64>,
    pub training: At<usize>,
    pub steps: Vec<At<Step>>,
}

impl Given {
    /// The sizes with a step M.
    pub fn sizes(&self, m: u32) -> Sizes {
        Sizes {
            p: self.p.value,
            q: self.q.value,
            n: self.n.value,
            r: self.r.value,
            l: self.l.value,
            m,
        }
    }

    /// The greatest M that set-up admits; none where a size is out of limits.
    pub fn greatest_step(&self) -> Option<u32> {
        let (p, q, r, l) = (self.p.value, self.q.value, self.r.value, self.l.value);
        tigbulode::greatest_step(p, q, r, l)
    }
}

/// What a text describes, or all its problems in the order of lines.
pub fn read(text: &str) -> Result<Given, Vec<Problem>> {
    let mut words = Words::new(text);
    let [p, q, n, r, l] = SIZES.map(|(key, low, high)| byte(&mut words, key, (low, high)));
    let response = response(&mut words);
    let (symbols, seed) = symbols(&mut words, r.value);
    let training = words.whole("training", u32::MAX.into(), (0, MOST_SENT));
    let training = At {
        line: training.line,
        value: training.value as usize,
    };
    let steps = steps(&mut words);
    words.finish()?;
    Ok(Given {
        p,
        q,
        n,
        r,
        l,
        response,
        symbols,
        seed,
        training,
        steps,
    })
}

fn byte(words: &mut Words, key: &str, (low, high): (u8, u8)) -> At<u8> {
    let At { line, value } = words.whole(key, 255, (low.into(), high.into()));
    let value = value as u8;
    At { line, value }
}

/// A list that two keys can give: exactly one of them is wanted.
fn either<T>(
    words: &mut Words,
    (key, given): (&str, Option<List<T>>),
    (other_key, other): (&str, Option<List<T>>),
) -> List<T> {
    if let (Some(one), Some(other)) = (&given, &other) {
        let (key, later) = if one.line > other.line {
            (key, one.line)
        } else {
            (other_key, other.line)
        };
        let first = one.line.min(other.line);
        words.problem(
            later,
            format!("{key}, but line {first} gives the same already"),
        );
    }
    given.or(other).unwrap_or_else(|| {
        words.miss(&format!("{key} or {other_key}"));
        let values = Vec::new();
        List { line: 0, values }
    })
}

/// A decimal fraction to the nearest unit of 1/32768.
pub fn fraction(word: &str) -> Option<i16> {
    let units = (word.parse::<f64>().ok()? * 32768.0).round();
    (-32768.0..=32767.0)
        .contains(&units)
        .then_some(units as i16)
}

fn response(words: &mut Words) -> List<i16> {
    let units = "a whole number from -32768 to 32767, in units of 1/32768,";
    let units = words.list("response", units, |word| word.parse().ok());
    let fractions = "a decimal fraction from -1 to 32767/32768";
    let fractions = words.list("response_fractions", fractions, fraction);
    let keys = ["response", "response_fractions"];
    either(words, (keys[0], units), (keys[1], fractions))
}

/// The symbols, and the seed where they are random ones.
fn symbols(words: &mut Words, r: u8) -> (List<i8>, Option<u64>) {
    let wanted = "an odd number of magnitude at most 2^(r+1) - 1";
    let listed = words.list("symbols", wanted, |word| word.parse().ok());
    let random = words.line_of("random_symbols").map(|line| {
        let count = words.whole("random_symbols", MOST_DRAWN, (1, MOST_SENT));
        let count = count.value;
        let seed = words.whole("seed", u64::MAX, (0, u64::MAX)).value;
        let drawn = draw(count as usize, seed, r).into_iter();
        let values = drawn.map(|value| At { line, value }).collect();
        (List { line, values }, seed)
    });
    if let (None, Some(line)) = (&random, words.line_of("seed")) {
        words.problem(line, "seed, but no line gives random_symbols".to_string());
    }
    let (random, seed) = random.unzip();
    let symbols = either(words, ("symbols", listed), ("random_symbols", random));
    (symbols, seed)
}

/// Symbols that are each as likely, the same for a seed on every machine.
pub fn draw(count: usize, seed: u64, r: u8) -> Vec<i8> {
    let kinds = 2u32 << r.min(tigbulode::MOST_R);
    let mut random = Random::new(seed, Purpose::Preamble);
    (0..count)
        .map(|_| (2 * random.below(kinds) as i32 + 1 - kinds as i32) as i8)
        .collect()
}

/// The step sizes in the order of the text.
fn steps(words: &mut Words) -> Vec<At<Step>> {
    let number = "a whole number from 0 to 4294967295";
    let numbers = words.list("M", number, |word| Some(Step::M(word.parse().ok()?)));
    let share = "a share from 0 to 1 of the greatest admitted M, such as 1/8 or 0.125,";
    let shares = words.list("shares", share, |word| {
        Some(Step::Share(Share::of_word(word)?, word.to_string()))
    });
    let mut lists: Vec<List<Step>> = [numbers, shares].into_iter().flatten().collect();
    lists.sort_by_key(|list| list.line);
    let Some(line) = lists.first().map(|list| list.line) else {
        words.miss("M or shares");
        return Vec::new();
    };
    if words.count("M") + words.count("shares") == 0 {
        words.problem(line, "no step size, but at least one is wanted".to_string());
    }
    let steps: Vec<At<Step>> = lists.into_iter().flat_map(|list| list.values).collect();
    if let Some(beyond) = steps.get(MOST_STEPS) {
        let sentence = format!("more than {MOST_STEPS} step sizes, the most of a page");
        words.problem(beyond.line, sentence);
    }
    steps
}
