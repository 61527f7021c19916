//! The examples: each text makes its trace, whose text by the second
//! implementation is stored beside it.

use std::path::{Path, PathBuf};
use traces::refusals::refusals;
use traces::text::{read, Read};

fn folder() -> PathBuf {
    Path::new(env!("CARGO_MANIFEST_DIR")).join("../examples/traces")
}

/// The names of the examples, by their texts.
fn names() -> Vec<String> {
    let files = std::fs::read_dir(folder()).unwrap();
    let names = files.map(|file| file.unwrap().file_name().into_string().unwrap());
    let names = names.filter_map(|name| name.strip_suffix(".txt").map(str::to_string));
    names.collect()
}

fn example(name: &str) -> (String, Read) {
    let text = std::fs::read_to_string(folder().join(format!("{name}.txt"))).unwrap();
    let read = read(&text).unwrap();
    (text, read)
}

#[test]
fn every_text_makes_its_trace() {
    assert!(names().len() >= 2);
    for name in names() {
        let (_, read) = example(&name);
        let stored = |kind: &str| std::fs::read(folder().join(format!("{name}.{kind}"))).unwrap();
        let bytes = read.trace.bytes();
        assert_eq!(refusals(&read), [], "{name}");
        assert_eq!(bytes, stored("trace"), "{name}");
        assert_eq!(reference::trace(&bytes).as_bytes(), stored("out"), "{name}");
    }
}

/// The symbols that were sent in training.txt: entries, then remarks.
fn sent() -> Vec<i32> {
    let (text, read) = example("training");
    let entries = read
        .trace
        .samples
        .iter()
        .map(|sample| i32::from(sample.entry));
    let entries = entries.filter(|entry| *entry != 0);
    let remarks = text.lines().filter_map(|line| line.split_once("# sent "));
    let remarks = remarks.map(|(_, symbol)| symbol.parse().unwrap());
    entries.chain(remarks).collect()
}

#[test]
fn training_has_the_samples_of_its_channel() {
    let (_, read) = example("training");
    let sent = sent();
    assert_eq!(sent.len(), read.trace.samples.len());
    let mut before = 0;
    for (sample, symbol) in read.trace.samples.iter().zip(sent) {
        assert_eq!(i32::from(sample.m), 7000 * symbol + 3500 * before);
        before = symbol;
    }
}

#[test]
fn training_decides_what_was_sent() {
    let (_, read) = example("training");
    let text = reference::trace(&read.trace.bytes());
    let last_word = |line: &str| line.split(' ').next_back().unwrap().parse().unwrap();
    let decisions: Vec<i32> = text.lines().map(last_word).collect();
    assert_eq!(decisions[64..], sent()[64..]);
    assert_ne!(decisions[..64], sent()[..64]);
}

/// Without the equaliser, 25 of the last 64 would be read wrong.
#[test]
fn training_has_something_to_undo() {
    let (_, read) = example("training");
    let samples = read.trace.samples.iter().zip(sent()).skip(64);
    let straight = |m: i16| (2 * (f64::from(m) / 14000.0).floor() as i32 + 1).clamp(-3, 3);
    let wrong = samples.filter(|(sample, symbol)| straight(sample.m) != *symbol);
    assert_eq!(wrong.count(), 25);
}
