//! The text as a cable and step sizes. All that the library would turn down is told here, with its line.

use crate::level::{no_symbol, without_gain};
use crate::share::Share;
use plots::random::{Purpose, Random};
use plots::text::{cut, too_large, Keys, Place, Problem, Text};
use tigbulode::Settings;
use tigbulode_laboratory::{MOST_RESPONSE, MOST_SYMBOLS};

/// The most step sizes of a page.
pub const MOST_STEPS: usize = 6;

const KEYS: Keys = Keys {
    singles: &["p", "q", "N", "r", "L", "random_symbols", "seed", "training"],
    lists: &["response", "response_fractions", "symbols", "M", "shares"],
};

/// A step size: its M, and its name on the page.
#[derive(Clone, Debug, PartialEq)]
pub struct StepSize {
    pub m: u32,
    pub name: String,
    /// Of the greatest admitted M.
    pub share: f64,
}

/// What a text describes.
#[derive(Clone, Debug, PartialEq)]
pub struct Given {
    /// With M = 0.
    pub settings: Settings,
    pub response: Vec<i16>,
    pub symbols: Vec<i8>,
    /// Where the symbols are random ones.
    pub seed: Option<u64>,
    pub training: usize,
    pub steps: Vec<StepSize>,
}

/// What a text describes with these changes, or all its problems in the order of lines.
pub fn read(text: &str, changes: &[String]) -> Result<Given, Vec<Problem>> {
    let mut text = Text::new(text, KEYS);
    changes.iter().for_each(|change| text.set(change));
    let settings = text.sizes();
    let response = response(&mut text);
    let (symbols, seed) = symbols(&mut text, settings.r);
    let training = text.value("training", 0..=MOST_SYMBOLS);
    let steps = steps(&mut text, &settings);
    check_symbols(&mut text, &settings, &symbols, training);
    let symbols: Vec<i8> = symbols.into_iter().map(|(_, symbol)| symbol).collect();
    if text.is_sound(&["r", "L", "response", "response_fractions", "symbols", "random_symbols"]) {
        let cause = without_gain(&settings, &response, &symbols);
        cause.into_iter().for_each(|(key, sentence)| {
            let key = if text.place_of(key).is_some() { key } else { "response_fractions" };
            text.wrong_value(key, sentence);
        });
    }
    text.finish()?;
    Ok(Given { settings, response, symbols, seed, training, steps })
}

/// Values with their places.
type Placed<T> = Vec<(Place, T)>;

/// A list that two keys can give: exactly one of them is wanted.
fn either<T>(text: &mut Text, keys: [&str; 2], lists: [Option<Placed<T>>; 2]) -> Placed<T> {
    let mut places: Vec<(Place, &str)> = keys.iter().filter_map(|key| Some((text.place_of(key)?, *key))).collect();
    places.sort();
    if let [(Place::Line(first), _), (later, key)] = places[..] {
        text.wrong(key, later, format!("{key}, but line {first} gives the same already"));
    }
    let [one, other] = lists;
    one.or(other).unwrap_or_else(|| {
        text.miss(&keys.join(" or "));
        Vec::new()
    })
}

/// A decimal fraction to the nearest unit of 1/32768.
pub fn fraction(word: &str) -> Option<i16> {
    let units = (word.parse::<f64>().ok()? * 32768.0).round();
    (-32768.0..=32767.0).contains(&units).then_some(units as i16)
}

fn response(text: &mut Text) -> Vec<i16> {
    let keys = ["response", "response_fractions"];
    let units = "a whole number from -32768 to 32767, in units of 1/32768,";
    let units = text.list(keys[0], 1..=MOST_RESPONSE, units, |word| word.parse().ok());
    let fractions = "a decimal fraction from -1 to 32767/32768";
    let fractions = text.list(keys[1], 1..=MOST_RESPONSE, fractions, fraction);
    either(text, keys, [units, fractions]).into_iter().map(|(_, value)| value).collect()
}

/// The symbols, and the seed where they are random ones.
fn symbols(text: &mut Text, r: u8) -> (Placed<i8>, Option<u64>) {
    let wanted = "an odd number of magnitude at most 2^(r+1) - 1";
    let listed = text.list("symbols", 1..=MOST_SYMBOLS, wanted, |word| word.parse().ok());
    let random = text.place_of("random_symbols").map(|place| {
        let count = text.value("random_symbols", 1..=MOST_SYMBOLS);
        let seed = text.value("seed", 0..=u64::MAX);
        (draw(count, seed, r).into_iter().map(|symbol| (place, symbol)).collect(), seed)
    });
    if let (None, Some(place)) = (&random, text.place_of("seed")) {
        text.wrong("seed", place, "seed, but no line gives random_symbols".to_string());
    }
    let (random, seed) = random.unzip();
    (either(text, ["symbols", "random_symbols"], [listed, random]), seed)
}

/// Symbols that are each as likely, the same for a seed on every machine.
pub fn draw(count: usize, seed: u64, r: u8) -> Vec<i8> {
    let mut random = Random::new(seed, Purpose::Preamble);
    (0..count).map(|_| random.symbol(r)).collect()
}

/// Symbols are whole blocks, each one of r's, and training is on some of them.
fn check_symbols(text: &mut Text, s: &Settings, symbols: &[(Place, i8)], training: usize) {
    let (count, n) = (symbols.len(), usize::from(s.n));
    let Some((last, _)) = symbols.last().filter(|_| text.is_sound(&["symbols", "random_symbols"])) else {
        return;
    };
    if text.is_sound(&["training"]) && training > count {
        text.wrong_value("training", format!("training = {training}, but there are {count} symbols"));
    }
    if text.is_sound(&["N"]) && (!count.is_multiple_of(n) || count > MOST_SYMBOLS / n * n) {
        let most = MOST_SYMBOLS / n;
        let sentence = format!("{count} symbols, but 1 to {most} whole blocks of N = {n} are wanted");
        text.wrong("random_symbols", *last, sentence);
    }
    if let Some((place, sentence)) = no_symbol(s.r, symbols).filter(|_| text.is_sound(&["r"])) {
        text.wrong("symbols", place, sentence);
    }
}

/// A step size as it is asked for.
#[derive(Clone, Debug)]
enum Step {
    M(u32),
    Share(Share, String),
}

impl Step {
    fn size(&self, greatest: u32) -> StepSize {
        let (m, name) = match self {
            Step::M(m) => (*m, format!("M = {m}")),
            Step::Share(share, word) => (share.of(greatest), format!("share {}", cut(word, 8))),
        };
        StepSize { m, name, share: f64::from(m) / f64::from(greatest.max(1)) }
    }
}

/// The step sizes in the order of the text.
fn steps(text: &mut Text, s: &Settings) -> Vec<StepSize> {
    let number = "a whole number from 0 to 4294967295";
    let numbers = text.list("M", 1..=MOST_STEPS, number, |word| Some(Step::M(word.parse().ok()?)));
    let share = "a share from 0 to 1 of the greatest admitted M, such as 1/8 or 0.125,";
    let of_word = |word: &str| Some(Step::Share(Share::of_word(word)?, word.to_string()));
    let shares = text.list("shares", 1..=MOST_STEPS, share, of_word);
    if numbers.is_none() && shares.is_none() {
        text.miss("M or shares");
    }
    let mut steps: Placed<Step> = [numbers, shares].into_iter().flatten().flatten().collect();
    steps.sort_by_key(|(place, _)| *place);
    if let Some((place, _)) = steps.get(MOST_STEPS).filter(|_| text.is_sound(&["M", "shares"])) {
        text.wrong("M", *place, format!("more than {MOST_STEPS} step sizes, the most of a page"));
    }
    let greatest = s.greatest_m();
    let sizes: Placed<StepSize> = steps.into_iter().map(|(place, step)| (place, step.size(greatest))).collect();
    if text.is_sound(&["p", "q", "r", "L"]) {
        check_steps(text, s, &sizes);
    }
    sizes.into_iter().map(|(_, size)| size).collect()
}

/// Each step size is admitted, and two curves of one M would be one.
fn check_steps(text: &mut Text, s: &Settings, steps: &[(Place, StepSize)]) {
    for (at, (place, step)) in steps.iter().enumerate() {
        if let Some(sentence) = too_large(&s.with_m(step.m)) {
            text.wrong("M", *place, sentence);
        } else if let Some((_, first)) = steps[..at].iter().find(|(_, other)| other.m == step.m) {
            let both = format!("{} comes to M = {}, and so does {}", step.name, step.m, first.name);
            text.wrong("M", *place, format!("{both}: each is wanted once"));
        }
    }
}
