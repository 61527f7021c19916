//! The levels at the end of a cable and their gains, to explain why it can't be simulated.

use plots::text::Place;
use tigbulode::{Settings, MOST_GAIN};

/// The sum of the response with a symbol and those before it.
pub fn level(response: &[i16], symbols: &[i8], place: usize) -> i32 {
    let heard = symbols[..=place].iter().rev();
    let products = heard.zip(response).map(|(symbol, h)| i32::from(*symbol) * i32::from(*h));
    products.sum()
}

/// The greatest gain that a level takes.
pub fn gain_of(level: i32, r: u8) -> Option<u8> {
    let fits = |gain: &u8| i64::from(level).abs() << gain < 1 << (15 + r);
    (0..=MOST_GAIN).rev().find(fits)
}

/// The greatest symbol.
pub fn most_symbol(r: u8) -> i32 {
    (2 << r) - 1
}

/// The sum of magnitudes of a response that always fits.
fn safe(s: &Settings) -> String {
    let below = 1 << (15 + s.r - s.l);
    let sum = (below - 1) / most_symbol(s.r);
    let thousandths = sum * 1000 / 32768;
    format!(
        "magnitudes of the response that sum to at most {sum} units of 1/32768, about 0.{thousandths:03}, always fit"
    )
}

/// The first symbol whose level has no gain, or one below L: the key that is to blame, and why.
pub fn without_gain(s: &Settings, response: &[i16], symbols: &[i8]) -> Option<(&'static str, String)> {
    let mut levels = (0..symbols.len()).map(|place| (place, level(response, symbols, place)));
    let (place, level) = levels.find(|(_, level)| gain_of(*level, s.r).is_none_or(|gain| gain < s.l))?;
    let (l, safe, found) = (s.l, safe(s), format!("symbol {place} (from 0) has s = {level}"));
    Some(match gain_of(level, s.r) {
        Some(gain) => ("L", format!("L = {l}, but {found}, so a gain of {gain} ({safe})")),
        None => {
            let wanted = format!("only |s| below 2^(15+r) = {} has a gain", 1 << (15 + s.r));
            ("response", format!("{found}, but {wanted} ({safe})"))
        }
    })
}

/// The first symbol that is none with this r.
pub fn no_symbol(r: u8, symbols: &[(Place, i8)]) -> Option<(Place, String)> {
    let most = most_symbol(r);
    let is_symbol = |value: i8| value % 2 != 0 && i32::from(value).abs() <= most;
    let (at, (place, value)) = symbols.iter().enumerate().find(|(_, (_, value))| !is_symbol(*value))?;
    let wanted = format!("an odd number from -{most} to {most} is wanted");
    Some((*place, format!("symbol {at} (from 0) is {value}, but {wanted}")))
}
