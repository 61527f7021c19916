//! The proved trace program prints the second implementation's text for each of its traces. A fault in what is printed
//! is found in each trace that shows it.

mod common;

use common::Ended;
use reference::vectors::{trace_vectors, TraceVector};
use std::path::Path;
use std::process::{Command, Stdio};

const PROGRAM: &str = concat!(env!("CARGO_MANIFEST_DIR"), "/../../target/bin/trace");

fn printed(vector: &TraceVector) -> String {
    let ended = Ended::on(Command::new(PROGRAM).stdout(Stdio::piped()), &vector.input);
    assert_eq!((ended.status, ended.err.as_str()), (Some(0), ""), "{}", vector.about);
    String::from_utf8(ended.out).unwrap()
}

/// The places of the traces for which something else is printed.
fn others(vectors: &[TraceVector], printed: &[String]) -> Vec<usize> {
    assert_eq!(vectors.len(), printed.len());
    (0..vectors.len()).filter(|&place| vectors[place].text != printed[place]).collect()
}

/// With another word in the last line of a sample, or of a stop.
fn with_word(text: &str, of_stop: bool, word: usize) -> String {
    let words = |line: &str| -> Vec<String> { line.split(' ').map(str::to_string).collect() };
    let mut lines: Vec<Vec<String>> = text.lines().map(words).collect();
    if let Some(line) = lines.iter_mut().rfind(|line| (line[0] == "stop") == of_stop) {
        line[word].push('0');
    }
    lines.iter().map(|line| line.join(" ") + "\n").collect()
}

/// With another last byte.
fn with_last(text: &str) -> String {
    let mut bytes = text.as_bytes().to_vec();
    bytes.iter_mut().rev().take(1).for_each(|byte| *byte ^= 1);
    String::from_utf8(bytes).unwrap()
}

fn without_last_line(text: &str) -> String {
    let lines: Vec<&str> = text.split_inclusive('\n').collect();
    lines[..lines.len().saturating_sub(1)].concat()
}

/// Faults, and in how many traces at least each is to be found.
const FAULTS: [(&str, usize, fn(&str) -> String); 12] = [
    ("a sample's place", 300, |text| with_word(text, false, 0)),
    ("Y", 300, |text| with_word(text, false, 1)),
    ("xi", 300, |text| with_word(text, false, 2)),
    ("the decision", 300, |text| with_word(text, false, 3)),
    ("the number of a stop", 120, |text| with_word(text, true, 1)),
    ("the block of a stop", 120, |text| with_word(text, true, 2)),
    ("a sign left out", 200, |text| text.replacen('-', "", 1)),
    ("the last byte", 400, with_last),
    ("the last line left out", 400, without_last_line),
    ("no last newline", 400, |text| text.trim_end().into()),
    ("a line more", 406, |text| format!("{text}stop 6 1\n")),
    ("nothing printed", 400, |_| String::new()),
];

/// The first line of a trace that is printed otherwise.
fn difference(vector: &TraceVector, printed: &str) -> String {
    let same = vector.text.lines().zip(printed.lines()).take_while(|(kept, came)| kept == came).count();
    let line = |text: &str| text.lines().nth(same).unwrap_or("no line").to_string();
    let (came, kept) = (line(printed), line(&vector.text));
    format!("{}, line {}: printed '{came}', not '{kept}'", vector.about, same + 1)
}

#[test]
fn every_trace_is_printed_and_every_fault_found() {
    assert!(Path::new(PROGRAM).exists(), "there is no target/bin/trace: ./tigbulode check programs makes it");
    let vectors = trace_vectors();
    let printed: Vec<String> = vectors.iter().map(printed).collect();
    let differing = others(&vectors, &printed);
    if let Some(&place) = differing.first() {
        panic!("{} traces differ; {place}: {}", differing.len(), difference(&vectors[place], &printed[place]));
    }
    for (about, least, fault) in FAULTS {
        let faulty: Vec<String> = printed.iter().map(|text| fault(text)).collect();
        let shows = |place: &usize| fault(&vectors[*place].text) != vectors[*place].text;
        let showing: Vec<usize> = (0..vectors.len()).filter(shows).collect();
        assert_eq!(others(&vectors, &faulty), showing, "{about}");
        assert!(showing.len() >= least, "{about}: {}", showing.len());
    }
}
