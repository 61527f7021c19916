//! Signals: a run that is stopped tells what it has seen, and a second signal
//! ends it.

mod common;

use common::{ended, program, soak, Ended, Folder};
use soak::faults::Fault;
use soak::soak::Until;
use soak::stop::{end_at_once, listen, SAME, SIGNALS};
use std::io::{BufRead, BufReader, Read};
use std::os::unix::process::{CommandExt, ExitStatusExt};
use std::process::{Command, Stdio};
use std::time::Duration;

const TERM: i32 = 15;

extern "C" {
    fn kill(process: i32, number: i32) -> i32;
}

/// Starts a run and sends it a signal once it has printed its seed.
fn stopped(mut command: Command, number: i32) -> Ended {
    command.stdout(Stdio::piped()).stderr(Stdio::piped());
    let mut child = command.spawn().unwrap();
    let mut seed = [0; 7];
    child
        .stdout
        .as_mut()
        .unwrap()
        .read_exact(&mut seed)
        .unwrap();
    assert_eq!(&seed, b"seed 5\n");
    std::thread::sleep(Duration::from_millis(300));
    assert_eq!(unsafe { kill(child.id() as i32, number) }, 0);
    ended(child.wait_with_output().unwrap())
}

#[test]
fn a_run_that_is_stopped_tells_what_it_has_seen() {
    for (name, number) in SIGNALS {
        let folder = Folder::new(&format!("stopped-{name}"));
        let mut command = program(&folder, &["--seconds", "60", "--seed", "5"]);
        // one that this test's own caller has ignored would be left so
        unsafe {
            command.pre_exec(|| {
                end_at_once();
                Ok(())
            })
        };
        let ended = stopped(command, number);
        let last = format!("stopped by a signal, {name}: no difference up to there\n");
        assert_eq!(ended.status, Some(128 + number), "{}", ended.err);
        assert!(
            ended.out.contains(" lists, ") && ended.out.contains("|Z| "),
            "{}",
            ended.out
        );
        assert!(ended.out.ends_with(&last), "{}", ended.out);
        assert!(folder.names().is_empty());
    }
}

#[test]
fn a_signal_that_is_ignored_stays_so() {
    let folder = Folder::new("ignored");
    let mut command = Command::new("sh");
    let words = [
        "-c",
        "trap '' HUP; exec \"$0\" --seconds 2 --seed 5",
        env!("CARGO_BIN_EXE_soak"),
    ];
    command.args(words).current_dir(&folder.0);
    let ended = stopped(command, 1);
    assert_eq!(ended.status, Some(0), "{}", ended.out);
    assert!(ended.out.ends_with("no difference\n"));
}

/// Started by the next test as a program that notes a signal and goes on.
#[test]
#[ignore]
fn goes_on() {
    end_at_once();
    listen();
    println!("\nlistening");
    std::thread::sleep(Duration::from_secs(20));
}

#[test]
fn a_second_signal_ends_at_once() {
    let mut child = Command::new(std::env::current_exe().unwrap())
        .args(["--exact", "goes_on", "--ignored", "--nocapture"])
        .stdout(Stdio::piped())
        .spawn()
        .unwrap();
    let lines = BufReader::new(child.stdout.take().unwrap()).lines();
    assert!(lines.map_while(Result::ok).any(|line| line == "listening"));
    let child_id = child.id() as i32;
    let send = |number: i32| assert_eq!(unsafe { kill(child_id, number) }, 0);
    send(TERM);
    send(TERM);
    std::thread::sleep(Duration::from_millis(3 * SAME));
    assert!(child.try_wait().unwrap().is_none());
    send(TERM);
    assert_eq!(child.wait().unwrap().signal(), Some(TERM));
}

#[test]
fn how_far_a_run_is() {
    let cases = [
        (Until::Seconds(600), 12_345, "12,345 calls, 61 of 600 s"),
        (Until::Seconds(600), 999, "999 calls, 61 of 600 s"),
        (
            Until::Calls(80_000),
            1_002_003,
            "1,002,003 of 80,000 calls, 61 s",
        ),
    ];
    for (until, calls, wanted) in cases {
        assert_eq!(until.so_far(calls, 61), wanted);
    }
}

#[test]
fn help() {
    let folder = Folder::new("help");
    for words in [
        &["--help"][..],
        &["-h"],
        &["--long", "--help"],
        &["replay", "-h"],
    ] {
        let ended = soak(&folder, words);
        assert_eq!((ended.status, ended.err.as_str()), (Some(0), ""));
        assert!(ended.out.starts_with("usage: soak/run "), "{}", ended.out);
        let words: Vec<&str> = ended.out.split([' ', ',', '.', '\n']).collect();
        let missing = Fault::ALL.iter().find(|(name, _)| !words.contains(name));
        assert_eq!(missing, None);
    }
}
