//! The examples: each text makes its trace, whose text by the second implementation is stored beside it.

use std::path::{Path, PathBuf};
use traces::text::read;
use traces::trace::Trace;

fn folder() -> PathBuf {
    Path::new(env!("CARGO_MANIFEST_DIR")).join("../../examples/traces")
}

/// An example's text and its trace, which no number turns down.
fn example(name: &str) -> (String, Trace) {
    let text = std::fs::read_to_string(folder().join(format!("{name}.txt"))).unwrap();
    let (trace, refused) = read(&text).unwrap();
    assert_eq!(refused, [], "{name}");
    (text, trace)
}

#[test]
fn every_text_makes_its_trace() {
    let files = std::fs::read_dir(folder()).unwrap();
    let names = files.map(|file| file.unwrap().file_name().into_string().unwrap());
    let names: Vec<String> = names.filter_map(|name| Some(name.strip_suffix(".txt")?.to_string())).collect();
    assert!(names.len() >= 4);
    for name in names {
        let stored = |file: String| std::fs::read(folder().join(file)).unwrap();
        let bytes = example(&name).1.bytes();
        assert_eq!(bytes, stored(format!("{name}.trace")), "{name}");
        let out = stored(format!("{}.out", name.trim_end_matches("-swapped")));
        assert_eq!(reference::trace(&bytes).as_bytes(), out, "{name}");
    }
}

/// With the two conductors swapped each sample is negated; that the same is printed is held above.
#[test]
fn training_swapped() {
    let (training, swapped) = (example("training").1, example("training-swapped").1);
    let negated = training.samples.iter().map(|sample| (-sample.m, sample.g, sample.entry));
    let samples = swapped.samples.iter().map(|sample| (sample.m, sample.g, sample.entry));
    assert!(samples.eq(negated));
}

/// The symbols that were sent in training.txt: entries, then remarks.
fn sent() -> Vec<i32> {
    let (text, trace) = example("training");
    let entries = trace.samples.iter().map(|sample| i32::from(sample.entry)).filter(|entry| *entry != 0);
    let remarks = text.lines().filter_map(|line| line.split_once("# sent "));
    entries.chain(remarks.map(|(_, symbol)| symbol.parse().unwrap())).collect()
}

#[test]
fn training_has_the_samples_of_its_channel() {
    let (sent, samples) = (sent(), example("training").1.samples);
    assert_eq!(sent.len(), samples.len());
    let mut before = 0;
    for (sample, symbol) in samples.iter().zip(sent) {
        assert_eq!(i32::from(sample.m), 7000 * symbol + 3500 * before);
        before = symbol;
    }
}

#[test]
fn training_decides_what_was_sent() {
    let text = reference::trace(&example("training").1.bytes());
    let last_word = |line: &str| line.split(' ').next_back().unwrap().parse().unwrap();
    let decisions: Vec<i32> = text.lines().map(last_word).collect();
    assert_eq!(decisions[64..], sent()[64..]);
    assert_ne!(decisions[..64], sent()[..64]);
}

/// Without the equaliser, 25 of the last 64 would be read wrong.
#[test]
fn training_has_something_to_undo() {
    let samples = example("training").1.samples;
    let straight = |m: i16| (2 * (f64::from(m) / 14000.0).floor() as i32 + 1).clamp(-3, 3);
    let wrong = samples.iter().zip(sent()).skip(64).filter(|(sample, symbol)| straight(sample.m) != *symbol);
    assert_eq!(wrong.count(), 25);
}
