use std::path::{Path, PathBuf};
use years::assumptions::{parse, Assumptions};
pub use years::changes::DEFAULT;
use years::history::{run, History, Reading};

/// The default text with other values for some keys; the first of two counts.
pub fn text_with(changes: &[(&str, &str)]) -> String {
    let changed = |line: &str| {
        let key = line.split('=').next().unwrap_or("").trim();
        let change = changes.iter().find(|(other, _)| *other == key);
        change.map_or(line.to_string(), |(key, value)| format!("{key} = {value}"))
    };
    DEFAULT.lines().map(|line| changed(line) + "\n").collect()
}

#[allow(dead_code)]
pub fn given(changes: &[(&str, &str)]) -> Assumptions {
    parse(&text_with(changes)).expect("the text is in order")
}

/// The station alone, without the old rule.
#[allow(dead_code)]
pub fn alone(changes: &[(&str, &str)]) -> Assumptions {
    given(&[changes, &[("old_rule", "0")]].concat())
}

/// A whole history.
#[allow(dead_code)]
pub fn whole(given: &Assumptions) -> History {
    run(given, |_| {}).expect("every block is read")
}

/// Its readings.
#[allow(dead_code)]
pub fn history(given: &Assumptions) -> Vec<Reading> {
    whole(given).readings
}

/// An empty folder for one test.
#[allow(dead_code)]
pub fn folder(name: &str) -> PathBuf {
    let path = Path::new(env!("CARGO_TARGET_TMPDIR")).join(name);
    let _ = std::fs::remove_dir_all(&path);
    std::fs::create_dir_all(&path).expect("a folder for the test");
    path
}
