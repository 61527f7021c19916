//! What a text of assumptions gives otherwise than the default.

use crate::reader::pairs;

/// The text that years/run takes where none is given.
pub const DEFAULT: &str = include_str!("../assumptions.txt");

/// Characters of one change at most; a longer one is cut.
const MOST: usize = 60;

/// Each value other than the default, in the order of the default's keys.
pub fn changes(text: &str) -> Vec<String> {
    let given = pairs(text);
    let given_for = |key: &str| given.iter().find(|pair| pair.0 == key);
    let change = |(key, default): (&str, &str)| {
        let value = plain(given_for(key)?.1);
        let other = value != plain(default);
        other.then(|| shortened(format!("{key} = {value}")))
    };
    pairs(DEFAULT).into_iter().filter_map(change).collect()
}

/// A value in one way of writing: 0.28 for 0.280, one space between two.
fn plain(value: &str) -> String {
    let numbers = value.split_whitespace().map(|word| {
        let whole = word.parse::<u64>().map(|n| n.to_string());
        let whole = whole.or_else(|_| word.parse::<f64>().map(|n| n.to_string()));
        whole.unwrap_or_else(|_| word.to_string())
    });
    numbers.collect::<Vec<_>>().join(" ")
}

fn shortened(change: String) -> String {
    if change.chars().count() <= MOST {
        return change;
    }
    let start: String = change.chars().take(MOST - 3).collect();
    format!("{start} ..")
}
