//! The program itself: its files, messages and exit statuses.

mod common;

use common::{folder, text_with};
use std::path::Path;
use std::process::{Command, Output};

fn years(assumptions: &Path, outdir: &Path) -> Output {
    let program = env!("CARGO_BIN_EXE_years");
    let output = Command::new(program).arg(assumptions).arg(outdir).output();
    output.expect("the program runs")
}

/// By a history without a loud spell or a noisy joint.
const WRITTEN: [&str; 4] = [
    "summary.txt",
    "years-assumptions.txt",
    "years.csv",
    "years.gnuplot",
];

fn files(folder: &Path) -> Vec<String> {
    let entries = std::fs::read_dir(folder).expect("the folder");
    let name = |entry: std::io::Result<std::fs::DirEntry>| entry.expect("an entry").file_name();
    let mut names: Vec<String> = entries
        .map(|e| name(e).to_string_lossy().into_owned())
        .collect();
    names.sort();
    names
}

#[test]
fn two_runs_write_the_same_bytes() {
    let (one, two) = (folder("one"), folder("two"));
    let assumptions = folder("given").join("short.txt");
    std::fs::write(&assumptions, text_with(&[("years", "1")])).expect("written");
    for outdir in [&one, &two] {
        assert!(years(&assumptions, outdir).status.success());
        assert_eq!(files(outdir), WRITTEN);
    }
    for name in WRITTEN {
        let read = |folder: &Path| std::fs::read(folder.join(name)).expect("read");
        assert_eq!(read(&one), read(&two));
    }
}

#[test]
fn a_bad_text_ends_with_2_and_writes_nothing() {
    let outdir = folder("bad");
    let assumptions = folder("bad-given").join("bad.txt");
    let unmade = outdir.join("unmade");
    std::fs::write(&assumptions, text_with(&[("p", "none")])).expect("written");
    let output = years(&assumptions, &unmade);
    assert_eq!(output.status.code(), Some(2));
    let message = String::from_utf8_lossy(&output.stderr);
    assert!(
        message.contains("bad.txt: line ") && message.contains("p = none"),
        "{message}"
    );
    assert!(files(&outdir).is_empty());
}

#[test]
fn a_text_that_is_not_there_ends_with_2() {
    let outdir = folder("absent");
    let output = years(&outdir.join("absent.txt"), &outdir);
    assert_eq!(output.status.code(), Some(2));
    assert!(String::from_utf8_lossy(&output.stderr).contains("absent.txt: can't be read"));
}

#[test]
fn a_folder_that_cannot_be_made_ends_with_1() {
    let outdir = folder("in-the-way");
    let assumptions = outdir.join("short.txt");
    std::fs::write(&assumptions, text_with(&[("years", "1")])).expect("written");
    let output = years(&assumptions, &assumptions);
    assert_eq!(output.status.code(), Some(1));
    assert!(String::from_utf8_lossy(&output.stderr).contains("short.txt: can't be made"));
}

#[test]
fn a_table_that_cannot_be_renamed_leaves_no_part() {
    let outdir = folder("no-rename");
    std::fs::create_dir(outdir.join("years.csv")).expect("a folder in the way");
    let assumptions = outdir.join("short.txt");
    std::fs::write(&assumptions, text_with(&[("years", "1")])).expect("written");
    let output = years(&assumptions, &outdir);
    assert_eq!(output.status.code(), Some(1));
    assert_eq!(files(&outdir), ["short.txt", "years.csv"]);
}

#[test]
fn help_is_told_and_wrong_arguments_end_with_2() {
    let program = || Command::new(env!("CARGO_BIN_EXE_years"));
    for word in ["--help", "-h"] {
        let output = program().arg(word).output().expect("the program runs");
        assert_eq!(output.status.code(), Some(0));
        assert!(output
            .stdout
            .starts_with(b"usage: years ASSUMPTIONS OUTDIR"));
    }
    let output = program().arg("one").output().expect("the program runs");
    assert_eq!(output.status.code(), Some(2));
    assert!(output.stdout.is_empty() && output.stderr.starts_with(b"usage: years"));
    let output = program().args(["--bogus", "one"]).output();
    let output = output.expect("the program runs");
    assert_eq!(output.status.code(), Some(2));
    assert!(output
        .stderr
        .starts_with(b"no such option: --bogus\nusage: years"));
}

/// A run of one year with a seed into a folder that has a picture.
fn run_beside_a_picture(outdir: &Path, seed: &str) -> Output {
    let assumptions = folder(&format!("given-{seed}")).join("short.txt");
    std::fs::write(&assumptions, text_with(&[("years", "1"), ("seed", seed)])).expect("written");
    std::fs::write(outdir.join("years.png"), "an earlier picture").expect("written");
    years(&assumptions, outdir)
}

/// The copy of the assumptions.
fn kept(outdir: &Path) -> String {
    std::fs::read_to_string(outdir.join("years-assumptions.txt")).expect("read")
}

#[test]
fn the_assumptions_are_kept_beside_the_table() {
    let outdir = folder("kept");
    for seed in ["34", "37"] {
        assert!(run_beside_a_picture(&outdir, seed).status.success());
        let wanted = text_with(&[("years", "1"), ("seed", seed)]);
        assert_eq!(kept(&outdir), wanted);
    }
    let summary = std::fs::read_to_string(outdir.join("summary.txt")).expect("read");
    assert!(summary.contains("\nother than the default: seed = 37, years = 1\n"));
}

#[test]
fn assumptions_that_are_in_the_folder_already_stay_as_they_are() {
    let outdir = folder("own");
    let text = text_with(&[("years", "1")]) + "# a note\n";
    let path = outdir.join("years-assumptions.txt");
    std::fs::write(&path, &text).expect("written");
    let written = || std::fs::metadata(&path).expect("there").modified().ok();
    let before = written();
    assert!(years(&path, &outdir).status.success());
    assert_eq!(files(&outdir), WRITTEN);
    assert_eq!((kept(&outdir), written()), (text, before));
}

#[test]
fn a_folder_in_the_way_of_the_assumptions_leaves_the_earlier_table() {
    let outdir = folder("in-the-way-of-a-copy");
    std::fs::create_dir(outdir.join("years-assumptions.txt")).expect("a folder in the way");
    std::fs::write(outdir.join("years.csv"), "an earlier table").expect("written");
    let output = run_beside_a_picture(&outdir, "36");
    assert_eq!(output.status.code(), Some(1));
    let message = String::from_utf8_lossy(&output.stderr);
    assert!(
        message.contains("years-assumptions.txt: can't be removed"),
        "{message}"
    );
    assert_eq!(
        std::fs::read(outdir.join("years.csv")).expect("read"),
        b"an earlier table"
    );
}

#[test]
fn a_new_table_never_stands_beside_an_earlier_picture() {
    let outdir = folder("earlier");
    assert!(run_beside_a_picture(&outdir, "31").status.success());
    assert_eq!(files(&outdir), WRITTEN);
}

#[test]
fn a_run_that_cannot_write_leaves_the_earlier_one_whole() {
    let outdir = folder("full");
    assert!(run_beside_a_picture(&outdir, "32").status.success());
    let table = std::fs::read(outdir.join("years.csv")).expect("read");
    std::fs::create_dir(outdir.join("years.gnuplot.part")).expect("a folder in the way");
    let output = run_beside_a_picture(&outdir, "33");
    assert_eq!(output.status.code(), Some(1));
    let message = String::from_utf8_lossy(&output.stderr);
    assert!(
        message.contains("years.gnuplot: can't be written"),
        "{message}"
    );
    assert_eq!(
        std::fs::read(outdir.join("years.csv")).expect("read"),
        table
    );
    assert!(kept(&outdir).contains("seed = 32\n"));
    let there = [
        "summary.txt",
        "years-assumptions.txt",
        "years.csv",
        "years.gnuplot",
        "years.gnuplot.part",
        "years.png",
    ];
    assert_eq!(files(&outdir), there);
}
