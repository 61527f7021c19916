//! The program: every fault is found, made short, saved and found again; bad
//! arguments and files.

mod common;

use common::{soak, Folder};
use soak::cables;
use soak::faults::Fault;
use soak::format::{parse, HEADING};
use tigbulode::calls::Call;

/// What a saved list must be.
fn short_list(text: &str, fault: Fault) {
    let saved = parse(text).unwrap();
    assert_eq!(saved.fault, Some(fault));
    assert!((1..=3).contains(&saved.calls.len()), "{text}");
    let mut lists = saved.calls.iter().filter_map(Call::lists);
    assert!(lists.all(|lists| lists.m.len() <= 8), "{text}");
}

/// What a saved cable must be.
fn short_cable(text: &str, fault: Fault) {
    let saved = cables::format::parse(text).unwrap();
    assert_eq!(saved.fault, Some(fault));
    let lent = &saved.lent;
    assert!(
        lent.symbols.len() <= 4 && lent.response.len() <= 2,
        "{text}"
    );
}

#[test]
fn every_fault_is_found_saved_and_found_again() {
    for (name, fault) in Fault::ALL {
        let folder = Folder::new(&format!("fault-{name}"));
        let ended = soak(&folder, &["--fault", name, "7"]);
        assert_eq!(ended.status, Some(1), "{name}: {}{}", ended.out, ended.err);
        let names = folder.names();
        assert_eq!(names.len(), 1, "{name}: {names:?}");
        let text = std::fs::read_to_string(folder.0.join(&names[0])).unwrap();
        match fault.of_cable() {
            true => short_cable(&text, fault),
            false => short_list(&text, fault),
        }
        let again = soak(&folder, &["replay", &names[0]]);
        assert_eq!(again.status, Some(1), "{name}: {}", again.out);
        let last = again.out.lines().last().unwrap();
        assert!(ended.out.lines().any(|line| line == last), "{name}: {last}");
        let sound = text.replace(&format!("fault {name}\n"), "");
        std::fs::write(folder.0.join("sound"), sound).unwrap();
        let sound = soak(&folder, &["replay", "sound"]);
        assert_eq!(sound.status, Some(0), "{name}: {}", sound.out);
    }
}

/// A fault, and what the text of its difference has to hold.
const OWN_CHECKS: &[(&str, &str)] = &[
    ("trial-state", ", trial: state, "),
    ("trial-refused-output", ", trial: Z, place 0: library "),
    ("trial-record", ", trial: record, weight 0: library "),
    (
        "trial-refused-record",
        ", trial: record, weight 0: library ",
    ),
    ("trial-number", ", trial: answer, place 0: library 0, "),
    ("save-record", ", save: record, weight 0: library "),
    ("weight-in-both", "a weight is too far from the exact step"),
    ("output-in-both", "y is a unit off"),
    ("doubling", ", psi: library "),
    (
        "doubling-in-both",
        "a weight is too far from the exact step",
    ),
    (
        "trial-state-in-both",
        ", trial: library: state, weight 0: trial ",
    ),
    (
        "trial-kept-in-both",
        ", set-up: library: record, M: with the trials ",
    ),
    ("cable-least-in-both", "of the trace answers 4"),
    ("readings-output", ": y of sample "),
    ("readings-zero", ": error of sample "),
    ("readings-mean", "power: library a mean, second "),
    (
        "readings-cut",
        "with an a of 65535: power: library a floor, ",
    ),
    ("readings-power", ": readings: power: library "),
    (
        "readings-refused",
        "with a Y of 2^29: error of sample 0: library 0000000000000000, ",
    ),
    (
        "readings-limit",
        "with a Y of 2^29: answer: library 0, second implementation 11",
    ),
    (
        "readings-length",
        "with another length of the readings: answer: library 0, ",
    ),
    ("readings-power-in-both", ": readings: power: 3"),
    (
        "readings-exponent-in-both",
        "readings with exponents of 24: answer 11",
    ),
    (
        "swapped-number-in-both",
        ", block: swapped pair: library: answer: ",
    ),
    (
        "swapped-lent-in-both",
        ", block: swapped pair: library: Z: ",
    ),
];

#[test]
fn faults_are_found_by_their_own_check() {
    for (name, check) in OWN_CHECKS {
        let folder = Folder::new(&format!("check-{name}"));
        let ended = soak(&folder, &["--fault", name, "3"]);
        assert_eq!(ended.status, Some(1));
        assert!(ended.out.contains(check), "{name}: {}", ended.out);
    }
}

#[test]
fn a_run_prints_the_same_each_time() {
    let folder = Folder::new("same");
    let first = soak(&folder, &["--calls", "700", "--seed", "5"]);
    let second = soak(&folder, &["--seed", "5", "--calls", "700"]);
    assert_eq!((first.status, first.err.as_str()), (Some(0), ""));
    assert_eq!(first.out, second.out);
    assert!(first.out.starts_with("seed 5\n") && first.out.ends_with("no difference\n"));
    assert!(first.out.contains(" doublings; ") && first.out.contains("they were doubled "));
    assert!(folder.names().is_empty());
    let third = soak(&folder, &["--seed", "6", "--calls", "700"]);
    assert_ne!(first.out, third.out);
}

#[test]
fn a_timed_run_ends() {
    let folder = Folder::new("timed");
    let ended = soak(&folder, &["--seconds", "1"]);
    assert_eq!(ended.status, Some(0));
    assert!(ended.out.starts_with("seed ") && ended.out.ends_with("no difference\n"));
}

#[test]
fn bad_arguments_are_turned_down() {
    let folder = Folder::new("arguments");
    let bad: [&[&str]; 15] = [
        &["--calls"],
        &["--calls", "0"],
        &["--calls", "-1"],
        &["--calls", "many"],
        &["--seconds", "0"],
        &["--seconds", "1", "--calls", "1"],
        &["--long", "--long"],
        &["--seed", "18446744073709551616"],
        &["--seed", "1", "--seed", "2"],
        &["--fault", "none", "1"],
        &["--fault", "weight"],
        &["--out"],
        &["replay"],
        &["replay", "a", "b"],
        &["anything"],
    ];
    for words in bad {
        let ended = soak(&folder, words);
        assert_eq!(ended.status, Some(2), "{words:?}");
        assert!(
            ended.out.is_empty() && ended.err.contains("usage: soak"),
            "{words:?}"
        );
    }
    assert!(folder.names().is_empty());
}

/// A file, and what its message has to name.
const BAD_FILES: &[(&str, &str)] = &[
    ("", "first line"),
    ("another 1\nend\n", "first line"),
    ("{H}\nsave 20\n", "end"),
    ("{H}\nsave\nend\n", "line 2"),
    ("{H}\nsave 70000\nend\n", "line 2"),
    ("{H}\n\n# x\nload 0\nend\n", "line 4"),
    ("{H}\nload 0g\nend\n", "line 2"),
    ("{H}\nset-up 1 1 1 0 0\nend\n", "line 2"),
    ("{H}\nset-up 1 1 256 0 0 0\nend\n", "line 2"),
    (
        "{H}\nblock m 1 gains 0 entries 0 rooms 1 1 1 1\nend\n",
        "line 2",
    ),
    (
        "{H}\nblock m 32768 gains 0 entries 0 rooms 1 1 1 1 1\nend\n",
        "line 2",
    ),
    (
        "{H}\nblock gains 0 m 1 entries 0 rooms 1 1 1 1 1\nend\n",
        "line 2",
    ),
    (
        "{H}\ntrial m 1 gains 0 entries 0 rooms 1 1 1 1\nend\n",
        "line 2",
    ),
    ("{H}\ntrial\nend\n", "line 2"),
    ("{H}\nsave 20 on 00\nend\n", "line 2"),
    ("{H}\nfault none\nend\n", "line 2"),
    ("{H}\nrun\nend\n", "line 2"),
    ("{C}\n", "end"),
    ("{C}\nend\n", "no \"settings\""),
    ("{C}\nsettings 1 1 1 0 0\nend\n", "line 2"),
    ("{C}\nresponse 32768\nend\n", "line 2"),
    ("{C}\n# x\nsymbols 128\nend\n", "line 3"),
    ("{C}\ntraining 1\ntraining 1\nend\n", "line 3"),
    ("{C}\nroom 1048577\nend\n", "line 2"),
    ("{C}\nfault none\nend\n", "line 2"),
    ("{C}\nload 00\nend\n", "line 2"),
    (
        "{C}\nsettings 1 1 1 0 0 0\nresponse\nsymbols 1\nroom 16\nend\n",
        "no \"training\"",
    ),
];

#[test]
fn bad_files_are_turned_down() {
    let folder = Folder::new("files");
    for (text, wanted) in BAD_FILES {
        let text = text.replace("{H}", HEADING);
        let text = text.replace("{C}", cables::format::HEADING);
        std::fs::write(folder.0.join("list"), &text).unwrap();
        let ended = soak(&folder, &["replay", "list"]);
        assert_eq!(ended.status, Some(2), "{text:?}");
        assert!(
            ended.out.is_empty() && ended.err.contains(wanted),
            "{text:?}: {}",
            ended.err
        );
    }
}

#[test]
fn what_is_no_list_is_turned_down() {
    let folder = Folder::new("no-list");
    std::fs::write(folder.0.join("list"), [0xFF, 0xFE]).unwrap();
    for file in ["list", ".", "missing"] {
        assert_eq!(soak(&folder, &["replay", file]).status, Some(2), "{file}");
    }
}

#[test]
fn a_folder_that_cannot_be_had_is_turned_down() {
    let folder = Folder::new("out");
    std::fs::write(folder.0.join("taken"), "").unwrap();
    let ended = soak(&folder, &["--out", "taken", "--calls", "10"]);
    assert_eq!(ended.status, Some(2));
    assert!(ended.err.contains("taken"), "{}", ended.err);
    let ended = soak(&folder, &["--out", "new/one", "--fault", "output", "1"]);
    assert_eq!(ended.status, Some(1));
    assert_eq!(
        std::fs::read_dir(folder.0.join("new/one")).unwrap().count(),
        1
    );
}

#[test]
fn a_list_that_cannot_be_saved_is_printed() {
    let folder = Folder::new("unsaved");
    let first = soak(&folder, &["--fault", "output", "1"]);
    let name = folder.names().pop().unwrap();
    let text = std::fs::read_to_string(folder.0.join(&name)).unwrap();
    std::fs::remove_file(folder.0.join(&name)).unwrap();
    std::fs::create_dir_all(folder.0.join(&name).join("taken")).unwrap();
    let second = soak(&folder, &["--fault", "output", "1"]);
    assert_eq!((first.status, second.status), (Some(1), Some(1)));
    assert!(second.out.contains("not saved"), "{}", second.out);
    let calls = text.lines().filter(|line| !line.starts_with('#'));
    assert!(calls.into_iter().all(|line| second.out.contains(line)));
    assert_eq!(folder.names(), [name]);
}
