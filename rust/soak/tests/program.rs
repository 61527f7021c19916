//! The program: what it prints, saves and ends with, for a run, a replay, bad arguments and files, and signals.

use soak::arguments::{asked, Asked};
use soak::format::{parse, text, Saved, HEADING};
use soak::kinds::RIGHT;
use soak::run::Until;
use soak::stop::{end_at_once, listen, SAME, SIGNALS};
use soak::{bench::Bench, bench::Step, cables::cables};
use std::io::{BufRead, BufReader, Read};
use std::os::unix::process::{CommandExt, ExitStatusExt};
use std::path::{Path, PathBuf};
use std::process::{Command, Output, Stdio};
use std::time::Duration;

/// A folder of its own for a test.
struct Folder(PathBuf);

impl Folder {
    fn new(name: &str) -> Folder {
        let path = Path::new(env!("CARGO_TARGET_TMPDIR")).join(name);
        let _ = std::fs::remove_dir_all(&path);
        std::fs::create_dir_all(&path).unwrap();
        Folder(path)
    }

    /// The names of the files that were saved in it.
    fn names(&self) -> Vec<String> {
        let files = std::fs::read_dir(self.0.join("saved")).into_iter().flatten();
        files.map(|file| file.unwrap().file_name().into_string().unwrap()).collect()
    }

    /// The program, which saves in this folder.
    fn program(&self, words: &[&str]) -> Command {
        let mut command = Command::new(env!("CARGO_BIN_EXE_soak"));
        command.args(["--out", "saved"]).args(words).current_dir(&self.0);
        command
    }

    fn soak(&self, words: &[&str]) -> Ended {
        ended(self.program(words).output().unwrap())
    }
}

/// What the program ended with and printed.
struct Ended {
    status: Option<i32>,
    out: String,
    err: String,
}

fn ended(output: Output) -> Ended {
    Ended {
        status: output.status.code(),
        out: String::from_utf8(output.stdout).unwrap(),
        err: String::from_utf8(output.stderr).unwrap(),
    }
}

#[test]
fn a_fault_is_found_saved_and_found_again() {
    for name in ["weight", "output-in-both", "cable-gain"] {
        let folder = Folder::new(&format!("fault-{name}"));
        let ended = folder.soak(&["--fault", name, "7"]);
        assert_eq!(ended.status, Some(1), "{name}: {}{}", ended.out, ended.err);
        let names = folder.names();
        assert!(names.len() == 1 && names[0].ends_with(&format!("-{name}.calls")), "{names:?}");
        let path = format!("saved/{}", names[0]);
        assert!(ended.out.ends_with(&format!("\nonce more: ./tigbulode soak replay {path}\n")), "{}", ended.out);
        let again = folder.soak(&["replay", &path]);
        assert_eq!(again.status, Some(1), "{name}: {}", again.out);
        let last = again.out.lines().last().unwrap();
        assert!(ended.out.lines().any(|line| line == last), "{name}: {last}");
        let text = std::fs::read_to_string(folder.0.join(&path)).unwrap();
        let sound = text.replace(&format!("fault {name}\n"), "");
        std::fs::write(folder.0.join("sound"), sound).unwrap();
        assert_eq!(folder.soak(&["replay", "sound"]).status, Some(0), "{name}");
    }
}

#[test]
fn a_run_prints_the_same_each_time() {
    let folder = Folder::new("same");
    let first = folder.soak(&["--calls", "700", "--seed", "5"]);
    let second = folder.soak(&["--seed", "5", "--calls", "700"]);
    assert_eq!((first.status, first.err.as_str()), (Some(0), ""));
    assert_eq!(first.out, second.out);
    assert!(first.out.starts_with("seed 5\n") && first.out.ends_with("no difference\n"));
    assert!(first.out.contains(" lists, 700 calls\n") && first.out.contains("they were doubled "));
    assert!(folder.names().is_empty());
    assert_ne!(first.out, folder.soak(&["--seed", "6", "--calls", "700"]).out);
    let timed = folder.soak(&["--seconds", "1"]);
    assert_eq!(timed.status, Some(0));
    assert!(timed.out.starts_with("seed ") && timed.out.ends_with("no difference\n"));
}

#[test]
fn help_and_kinds() {
    let folder = Folder::new("help");
    for words in [&["--help"][..], &["-h"], &["--long", "--help"], &["replay", "-h"]] {
        let ended = folder.soak(words);
        assert_eq!((ended.status, ended.err.as_str()), (Some(0), ""));
        assert_eq!(ended.out, include_str!("../usage.txt"));
    }
    let kinds = folder.soak(&["kinds"]).out;
    assert!(kinds.contains("\nbpvs2  weight  ") && kinds.contains("\ns      cable-entry  "), "{kinds}");
    assert!(kinds.ends_with("\n2: found by soak, in both sides, 105 of 119\n"), "{kinds}");
}

#[test]
fn bad_arguments_are_turned_down() {
    let folder = Folder::new("arguments");
    let bad = [
        "--calls",
        "--calls 0",
        "--calls -1",
        "--calls many",
        "--seconds 0",
        "--seconds 1 --calls 1",
        "--long --long",
        "--seed 18446744073709551616",
        "--seed 1 --seed 2",
        "--fault none 1",
        "--fault step-in-both 1",
        "--fault weight",
        "--out",
        "replay",
        "replay a b",
        "anything",
    ];
    for line in bad {
        let ended = folder.soak(&line.split(' ').collect::<Vec<&str>>());
        assert_eq!(ended.status, Some(2), "{line}");
        assert!(ended.out.is_empty() && ended.err.contains("usage: ./tigbulode soak"), "{line}");
    }
}

/// Lines of a file, and what its message has to name.
const BAD_LINES: &[(&str, &str)] = &[
    ("save 20\n", "end"),
    ("save\nend\n", "line 2"),
    ("save 1048577\nend\n", "line 2"),
    ("save 20 20\nend\n", "line 2"),
    ("\n# x\nload x\nend\n", "line 4"),
    ("load 256\nend\n", "line 2"),
    ("set-up 1 1 1 0 0\nend\n", "line 2"),
    ("set-up 1 1 256 0 0 0\nend\n", "line 2"),
    ("set-up 1 1 1 0 0 0 more\nend\n", "line 2"),
    ("block m 1 gains 0 entries 0 rooms 1 1 1 1\nend\n", "line 2"),
    ("block m 32768 gains 0 entries 0 rooms 1 1 1 1 1\nend\n", "line 2"),
    ("block gains 0 m 1 entries 0 rooms 1 1 1 1 1\nend\n", "line 2"),
    ("block m 1 gains 0 entries 0 rooms 1 1 1 1 1048577\nend\n", "line 2"),
    ("trial\nend\n", "line 2"),
    ("save 20 on 1 1 1 0 0 0 0 0 0 weights 0 past 0\nend\n", "line 2"),
    ("fault none\nend\n", "line 2"),
    ("run\nend\n", "line 2"),
    ("cable 1 1 1 0 0 response 1 symbols 1 training 0 room 16\nend\n", "line 2"),
    ("cable 1 1 1 0 0 0 response 32768 symbols 1 training 0 room 16\nend\n", "line 2"),
    ("# x\ncable 1 1 1 0 0 0 response 1 symbols 128 training 0 room 16\nend\n", "line 3"),
    ("cable 1 1 1 0 0 0 response 1 symbols 1 training 0 room 1048577\nend\n", "line 2"),
    ("cable 1 1 1 0 0 0 response 1 symbols 1 room 16\nend\n", "line 2"),
];

#[test]
fn bad_files_are_turned_down() {
    let folder = Folder::new("files");
    let lines = BAD_LINES.iter().map(|(lines, wanted)| (format!("{HEADING}\n{lines}"), *wanted));
    let headings = ["", "another 1\nend\n"].map(|text| (text.to_string(), "first line"));
    for (text, wanted) in lines.chain(headings) {
        let wrong = parse(&text).unwrap_err();
        assert!(wrong.contains(wanted), "{text:?}: {wrong}");
    }
    std::fs::write(folder.0.join("bytes"), [0xFF, 0xFE]).unwrap();
    std::fs::write(folder.0.join("bad"), format!("{HEADING}\nrun\nend\n")).unwrap();
    for file in ["bytes", "bad", ".", "missing"] {
        let ended = folder.soak(&["replay", file]);
        assert_eq!((ended.status, ended.out.as_str()), (Some(2), ""), "{file}");
        assert!(ended.err.contains(&format!("soak: {file}: ")), "{}", ended.err);
    }
}

/// Lists and cables are the same after their text; one that is cut off is turned down.
#[test]
fn a_list_is_the_same_after_its_text() {
    let mut bench = Bench::new(RIGHT);
    let lists = (0..100).map(|list| bench.made(9, list, &mut |_| true).0);
    let cables = (0..20).flat_map(|list| cables(9, list)).map(|lent| vec![Step::Cable(lent)]);
    for (at, steps) in lists.chain(cables).enumerate() {
        let saved = Saved { kind: None, steps };
        let text = text(&saved, "one\ntwo");
        assert_eq!(parse(&text).unwrap(), saved);
        if at % 50 == 2 {
            assert!((0..text.len() - 4).all(|end| parse(&text[..end]).is_err()));
        }
    }
}

#[test]
fn a_folder_that_cannot_be_had_is_turned_down() {
    let folder = Folder::new("out");
    std::fs::write(folder.0.join("taken"), "").unwrap();
    let ended = folder.soak(&["--out", "taken", "--calls", "10"]);
    assert_eq!(ended.status, Some(2));
    assert!(ended.err.contains("taken"), "{}", ended.err);
    let ended = folder.soak(&["--out", "new/one", "--fault", "output", "1"]);
    assert_eq!(ended.status, Some(1));
    assert_eq!(std::fs::read_dir(folder.0.join("new/one")).unwrap().count(), 1);
}

#[test]
fn without_a_folder_it_is_the_repositorys() {
    let Ok(Asked::Run(run)) = asked(&[]) else { panic!("no run") };
    let root = run.out.ancestors().nth(3).unwrap();
    assert!(run.out.ends_with("target/soak/failed") && root.join("rust/soak/usage.txt").is_file());
}

#[test]
fn a_list_that_cannot_be_saved_is_printed() {
    let folder = Folder::new("unsaved");
    let first = folder.soak(&["--fault", "output", "1"]);
    let path = folder.0.join("saved").join(folder.names().pop().unwrap());
    let text = std::fs::read_to_string(&path).unwrap();
    std::fs::remove_file(&path).unwrap();
    std::fs::create_dir_all(path.join("taken")).unwrap();
    let second = folder.soak(&["--fault", "output", "1"]);
    assert_eq!((first.status, second.status), (Some(1), Some(1)));
    assert!(second.out.contains("not saved") && second.out.contains(&text), "{}", second.out);
    assert_eq!(folder.names().len(), 1);
}

const TERM: i32 = 15;

extern "C" {
    fn kill(process: i32, number: i32) -> i32;
}

/// Starts a run and sends it a signal once it has printed its seed.
fn stopped(mut command: Command, number: i32) -> Ended {
    command.stdout(Stdio::piped()).stderr(Stdio::piped());
    let mut child = command.spawn().unwrap();
    let mut seed = [0; 7];
    child.stdout.as_mut().unwrap().read_exact(&mut seed).unwrap();
    assert_eq!(&seed, b"seed 5\n");
    std::thread::sleep(Duration::from_millis(300));
    assert_eq!(unsafe { kill(child.id() as i32, number) }, 0);
    ended(child.wait_with_output().unwrap())
}

#[test]
fn a_run_that_is_stopped_tells_what_it_has_seen() {
    for (name, number) in SIGNALS {
        let folder = Folder::new(&format!("stopped-{name}"));
        let mut command = folder.program(&["--seconds", "60", "--seed", "5"]);
        // One that this test's own caller has ignored would be left so.
        unsafe {
            command.pre_exec(|| {
                end_at_once();
                Ok(())
            })
        };
        let ended = stopped(command, number);
        let last = format!("stopped by a signal, {name}: no difference up to there\n");
        assert_eq!(ended.status, Some(128 + number), "{}", ended.err);
        assert!(ended.out.contains(" lists, ") && ended.out.contains("|Z| "), "{}", ended.out);
        assert!(ended.out.ends_with(&last), "{}", ended.out);
        assert!(folder.names().is_empty());
    }
}

#[test]
fn a_signal_that_is_ignored_stays_so() {
    let folder = Folder::new("ignored");
    let mut command = Command::new("sh");
    let words = ["-c", "trap '' HUP; exec \"$0\" --out saved --seconds 2 --seed 5", env!("CARGO_BIN_EXE_soak")];
    command.args(words).current_dir(&folder.0);
    let ended = stopped(command, 1);
    assert_eq!(ended.status, Some(0), "{}", ended.out);
    assert!(ended.out.ends_with("no difference\n"));
}

/// Started by the next test as a program that notes a signal and goes on.
#[test]
#[ignore]
fn goes_on() {
    end_at_once();
    listen();
    println!("\nlistening");
    std::thread::sleep(Duration::from_secs(20));
}

#[test]
fn a_second_signal_ends_at_once() {
    let mut child = Command::new(std::env::current_exe().unwrap())
        .args(["--exact", "goes_on", "--ignored", "--nocapture"])
        .stdout(Stdio::piped())
        .spawn()
        .unwrap();
    let lines = BufReader::new(child.stdout.take().unwrap()).lines();
    assert!(lines.map_while(Result::ok).any(|line| line == "listening"));
    let child_id = child.id() as i32;
    let send = |number: i32| assert_eq!(unsafe { kill(child_id, number) }, 0);
    send(TERM);
    send(TERM);
    std::thread::sleep(Duration::from_millis(3 * SAME));
    assert!(child.try_wait().unwrap().is_none());
    send(TERM);
    assert_eq!(child.wait().unwrap().signal(), Some(TERM));
}

#[test]
fn how_far_a_run_is() {
    let cases = [
        (Until::Seconds(600), 12_345, "12,345 calls, 61 of 600 s"),
        (Until::Seconds(600), 999, "999 calls, 61 of 600 s"),
        (Until::Calls(80_000), 1_002_003, "1,002,003 of 80,000 calls, 61 s"),
    ];
    for (until, calls, wanted) in cases {
        assert_eq!(until.so_far(calls, 61), wanted);
    }
}
