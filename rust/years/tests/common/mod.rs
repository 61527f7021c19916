use std::collections::BTreeMap;
use years::assumptions::{read, Assumptions};
use years::history::{run, History, Reading};

/// The default with other values for some keys; the last of two counts.
#[allow(dead_code)]
pub fn given(changes: &[&str]) -> Assumptions {
    let last: BTreeMap<&str, &str> = changes.iter().filter_map(|change| change.split_once('=')).collect();
    let changes: Vec<String> = last.iter().map(|(key, value)| format!("{key}={value}")).collect();
    read("", &changes).expect("all is in order").0
}

/// A whole history.
#[allow(dead_code)]
pub fn whole(given: &Assumptions) -> History {
    run(given, |_, _| {}).expect("every block is read")
}

/// Its readings.
#[allow(dead_code)]
pub fn history(given: &Assumptions) -> Vec<Reading> {
    whole(given).readings
}
