//! The trace program prints the second implementation's text for every stored
//! trace. A fault in what it prints is found in each trace that shows it.

mod common;

use common::{stored, Ended};
use std::process::Command;

const PROGRAM: &str = concat!(env!("CARGO_MANIFEST_DIR"), "/../target/bin/trace");

type Stored = (Vec<u8>, String);

/// What the trace program prints for each trace.
fn printed(stored: &[Stored]) -> Vec<String> {
    let print = |(trace, _): &Stored| {
        let ended = Ended::on(&mut Command::new(PROGRAM), trace);
        assert_eq!((ended.status, ended.err.as_str()), (Some(0), ""));
        String::from_utf8(ended.out).unwrap()
    };
    stored.iter().map(print).collect()
}

/// The places of the traces for which something else is printed than is stored.
fn others(stored: &[Stored], printed: &[String]) -> Vec<usize> {
    assert_eq!(stored.len(), printed.len());
    let differs = |place: &usize| stored[*place].1 != printed[*place];
    (0..stored.len()).filter(differs).collect()
}

/// With another word in the last line of a sample, or of a stop.
fn with_word(text: &str, of_stop: bool, word: usize) -> String {
    let words = |line: &str| -> Vec<String> { line.split(' ').map(str::to_string).collect() };
    let mut lines: Vec<Vec<String>> = text.lines().map(words).collect();
    let of_kind = |line: &&mut Vec<String>| (line[0] == "stop") == of_stop;
    if let Some(line) = lines.iter_mut().rfind(of_kind) {
        line[word].push('0');
    }
    lines.iter().map(|line| line.join(" ") + "\n").collect()
}

/// With another last byte.
fn with_last(text: &str) -> String {
    let mut bytes = text.as_bytes().to_vec();
    bytes.iter_mut().rev().take(1).for_each(|byte| *byte ^= 1);
    String::from_utf8(bytes).unwrap()
}

fn without_last_line(text: &str) -> String {
    let lines: Vec<&str> = text.split_inclusive('\n').collect();
    lines[..lines.len().saturating_sub(1)].concat()
}

/// Faults, and in how many traces at least each is to be found.
const FAULTS: [(&str, usize, fn(&str) -> String); 12] = [
    ("a sample's place", 300, |text| with_word(text, false, 0)),
    ("Y", 300, |text| with_word(text, false, 1)),
    ("xi", 300, |text| with_word(text, false, 2)),
    ("the decision", 300, |text| with_word(text, false, 3)),
    ("the number of a stop", 120, |text| with_word(text, true, 1)),
    ("the block of a stop", 120, |text| with_word(text, true, 2)),
    ("a sign left out", 200, |text| text.replacen('-', "", 1)),
    ("the last byte", 400, with_last),
    ("the last line left out", 400, without_last_line),
    ("no last newline", 400, |text| text.trim_end().into()),
    ("a line more", 406, |text| format!("{text}stop 6 1\n")),
    ("nothing printed", 400, |_| String::new()),
];

/// The first line that is printed otherwise than it is stored.
fn told(stored: &[Stored], printed: &[String]) -> Option<String> {
    let others = others(stored, printed);
    let place = *others.first()?;
    let (kept, came) = (&stored[place].1, &printed[place]);
    let same = kept.lines().zip(came.lines()).take_while(|(kept, came)| kept == came).count();
    let line = |text: &str| text.lines().nth(same).unwrap_or("no line").to_string();
    Some(format!(
        "trace {place} of traces/traces.bin, line {}: printed '{}', stored '{}'; in all {} traces differ",
        same + 1,
        line(came),
        line(kept),
        others.len()
    ))
}

#[test]
fn every_stored_trace_is_printed_and_every_fault_found() {
    let stored = stored();
    let printed = printed(&stored);
    if let Some(difference) = told(&stored, &printed) {
        panic!("{difference}");
    }
    for (about, least, fault) in FAULTS {
        let faulty: Vec<String> = printed.iter().map(|text| fault(text)).collect();
        let shows = |place: &usize| fault(&stored[*place].1) != stored[*place].1;
        let showing: Vec<usize> = (0..stored.len()).filter(shows).collect();
        assert_eq!(others(&stored, &faulty), showing, "{about}");
        assert!(showing.len() >= least, "{about}: {}", showing.len());
    }
}
