//! Every fault is found on one side and in both exactly where the list of faults says so, by its own check, is made
//! short, saved, and found again.

use faults::{CHECKS, FAULTS};
use soak::bench::{Bench, Step};
use soak::format::{parse, text, Saved};
use soak::kinds::{with_sides, Kind};
use soak::run::{failure_of, found, shrunk, Found, Run, Until};
use std::path::PathBuf;

/// What is found first with a fault, in some eighty lists and the cables after them.
fn first_found(kind: Kind) -> Option<Found> {
    let run = Run { until: Until::Calls(1900), seed: 11, kind: Some(kind), out: PathBuf::new() };
    with_sides(run.kind, |sides| found(&run, &mut Bench::new(sides)))
}

/// A fault, and what the text of its failure has to hold.
const OWN_CHECKS: &[(&str, &str)] = &[
    ("outputs-stay", ": Y, place "),
    ("output-in-both", ": y is a unit off"),
    ("exponent", ": xi, place "),
    ("decision", ": decision, place "),
    ("error", ": Z, place 0: library "),
    ("swapped-lent-in-both", "block: swapped pair: library: Z: "),
    ("trial-state", "trial: state, "),
    ("trial-state-in-both", "trial: library: state, "),
    ("weight", ", weight 0: library "),
    ("weight-in-both", "a weight is too far from the exact step"),
    ("trial-weight-in-both", "trial: library: state, weight 0: trial "),
    ("b-lost", "block: record, b: "),
    ("spare-in-both", "a state has a 9"),
    ("trial-last-doubling", "trial: state, psi: "),
    ("trial-last-doubling-in-both", "trial: library: state, psi: "),
    ("trial-refused-fresh", "trial: state, "),
    ("trial-refused-fresh-in-both", "trial: library: state, "),
    ("refused-record-6-in-both", "turned down with 6, but "),
    ("6-early", ": answer, place 0: library 6, second implementation 0"),
    ("trial-0-for-6", "trial: answer, place 0: library 0, second implementation 6"),
    ("trial-0-for-6-in-both", "trial: library: answer, place 0: trial 0, "),
    ("trial-4-before-3", "trial: answer, place 0: library 4, second implementation 3"),
    ("swapped-number-in-both", "block: swapped pair: library: answer: "),
    ("doubled-forward", ", weight "),
    ("doubled-forward-in-both", "a weight is too far from the exact step"),
    ("doubled-but-last-in-both", "a weight is too far from the exact step"),
    ("step", "set-up: answer, "),
    ("trial-kept", "set-up: library: record, M: with the trials "),
    ("save-record", "save: record, weight 0: library "),
    ("save-refused-record", "save: record, weight 0: library "),
    ("save-refused-length", "save: length, "),
    ("after-image", "save: buffer, "),
    ("loaded-fresh", "load: record, N: "),
    ("loaded-number", "load: answer, "),
    ("cable-least-in-both", "of the trace answers 4"),
    ("readings-output", ": y, place "),
    ("readings-zero", ": error, place 0: library -0.0, "),
    ("readings-mean", "floor, place 0: library 0, "),
    ("readings-cut", "with an a of 65535: floor, place 0: library 1, "),
    ("readings-power", ": readings: power, place 0: library "),
    ("readings-refused", "with a Y of 2^29: error, place 0: library 0.0, "),
    ("readings-limit", "with a Y of 2^29: answer, place 0: library 0, second implementation 11"),
    ("readings-length", "with another length of the readings: answer, place 0: library 0, "),
    ("readings-power-in-both", ": readings: power, place 0: given "),
    ("readings-exponent-in-both", "readings with exponents of 24: answer 11"),
];

/// What the text of a kind's failure has to hold, after it was made short.
fn own_check(kind: Kind) -> &'static str {
    let name = kind.name();
    let families = [
        ("trial-given-", "trial: record, ", "trial: library: record, "),
        ("trial-refused-output-", "trial: Z, place 0: library ", "trial: library: Z, place 0: trial "),
        ("refused-output-", ": Z, place 0: library ", ", but Z is touched"),
    ];
    let family = families.into_iter().find(|(family, ..)| name.starts_with(family));
    let own = OWN_CHECKS.iter().find(|(own, _)| *own == name).map(|(_, text)| *text);
    own.or(family.map(|(_, one, both)| if kind.in_both { both } else { one })).unwrap_or("")
}

/// What fails is made short, saved, and fails again in the same check; without the fault it does not fail.
fn is_saved_and_found_again(kind: Kind, Found { steps, failure, .. }: Found) {
    let name = kind.name();
    let steps = shrunk(Some(kind), steps, &failure);
    let samples: usize = steps.iter().map(Step::samples).sum();
    let short = match &steps[..] {
        [Step::Cable(lent)] => samples <= 8 && lent.response.len() <= 8 && lent.settings.p == 1,
        _ => (1..=3).contains(&steps.len()) && samples <= 32,
    };
    assert!(short, "{name}: {steps:?}");
    let saved = Saved { kind: Some(kind), steps };
    assert_eq!(parse(&text(&saved, "one\ntwo")).as_ref(), Ok(&saved), "{name}");
    let again = failure_of(Some(kind), &saved.steps).expect(&name);
    assert_eq!(again.check, failure.check, "{name}");
    assert!(again.to_string().contains(own_check(kind)), "{name}: {again}");
    assert_eq!(failure_of(None, &saved.steps), None, "{name}");
}

fn all_are_found(in_both: bool, letter: char) {
    for fault in FAULTS {
        let kind = Kind { fault: fault.name, in_both };
        let found = first_found(kind);
        assert_eq!(found.is_some(), fault.found.contains(letter), "{}", kind.name());
        assert_eq!(Kind::named(&kind.name()), found.as_ref().map(|_| kind));
        found.into_iter().for_each(|found| is_saved_and_found_again(kind, found));
    }
}

#[test]
fn faults_on_one_side_are_found() {
    all_are_found(false, 's');
}

#[test]
fn faults_in_both_sides_are_found() {
    all_are_found(true, '2');
}

#[test]
fn each_fault_has_a_name_of_its_own() {
    let mut names: Vec<&str> = FAULTS.iter().map(|fault| fault.name).collect();
    names.sort_unstable();
    names.dedup();
    assert_eq!(names.len(), FAULTS.len());
    assert!(OWN_CHECKS.iter().all(|(name, _)| Kind::named(name).is_some()));
    let known = |letter: char| CHECKS.iter().any(|(own, _)| *own == letter);
    assert!(FAULTS.iter().all(|fault| !fault.found.is_empty() && fault.found.chars().all(known)));
}
