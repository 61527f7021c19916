//! The program itself: its files, messages and exit statuses.

mod common;

use common::{with_line, EXAMPLE, WORKED};
use std::path::{Path, PathBuf};
use std::process::{Command, Output};

/// An empty folder for one test.
fn folder(name: &str) -> PathBuf {
    let path = Path::new(env!("CARGO_TARGET_TMPDIR")).join(name);
    let _ = std::fs::remove_dir_all(&path);
    std::fs::create_dir_all(&path).expect("a folder");
    path
}

fn lab(words: &[&Path]) -> Output {
    let mut program = Command::new(env!("CARGO_BIN_EXE_lab"));
    program.args(words).output().expect("the program runs")
}

/// Runs a text that is put beside the output's folder.
fn run(outdir: &Path, text: &[u8]) -> Output {
    let file = outdir.with_extension("txt");
    std::fs::write(&file, text).expect("written");
    lab(&[&file, outdir])
}

fn names(folder: &Path) -> Vec<String> {
    let entries = std::fs::read_dir(folder).expect("the folder");
    let names = entries.map(|entry| entry.expect("an entry").file_name());
    let mut names: Vec<String> = names
        .map(|name| name.to_string_lossy().into_owned())
        .collect();
    names.sort();
    names
}

fn told(output: &Output) -> String {
    String::from_utf8_lossy(&output.stderr).into_owned()
}

const COPY: &str = "lab-cable.txt";
const WRITTEN: [&str; 5] = [
    COPY,
    "lab.csv",
    "lab.gnuplot",
    "readings.csv",
    "summary.txt",
];

#[test]
fn two_runs_write_the_same_bytes_and_tell_their_progress() {
    let folders = [folder("one"), folder("two")];
    let written = folders.each_ref().map(|outdir| {
        let file = outdir.join("../example.txt");
        std::fs::write(&file, EXAMPLE).expect("written");
        let output = lab(&[&file, outdir]);
        assert_eq!(output.status.code(), Some(0), "{}", told(&output));
        let lines = "step size 1 of 3: M = 131072\nstep size 2 of 3: M = 524288\nstep size 3 of 3: M = 2097152\n";
        assert_eq!(told(&output), lines);
        assert_eq!(names(outdir), WRITTEN);
        let summary = std::fs::read(outdir.join("summary.txt")).expect("read");
        assert_eq!(output.stdout, summary);
        WRITTEN.map(|name| std::fs::read(outdir.join(name)).expect("read"))
    });
    assert_eq!(written[0], written[1]);
    let other = folder("other-seed");
    assert!(
        run(&other, EXAMPLE.replace("seed = 1", "seed = 2").as_bytes())
            .status
            .success()
    );
    assert_ne!(
        std::fs::read(other.join("lab.csv")).expect("read"),
        written[0][1]
    );
}

#[test]
fn the_text_is_kept_as_it_was_given() {
    let outdir = folder("copy");
    let copy = || std::fs::read_to_string(outdir.join(COPY)).expect("read");
    let text = format!("\u{FEFF}# mine\r\n{WORKED}").replace("training", "\ttraining");
    assert!(run(&outdir, text.as_bytes()).status.success());
    assert_eq!(copy(), text);
    assert!(run(&outdir, WORKED.as_bytes()).status.success());
    assert_eq!(copy(), WORKED);
}

/// By its name, and by another one.
#[test]
fn a_copy_that_is_given_itself_stays() {
    let outdir = folder("own-copy");
    let (copy, link) = (outdir.join(COPY), outdir.join("../own-copy-link.txt"));
    let _ = std::fs::remove_file(&link);
    std::os::unix::fs::symlink(&copy, &link).expect("a link");
    std::fs::write(&copy, WORKED).expect("written");
    let before = std::fs::metadata(&copy).expect("a file");
    for file in [&copy, &link] {
        let output = lab(&[file, &outdir]);
        assert!(output.status.success(), "{}", told(&output));
        assert_eq!(names(&outdir), WRITTEN);
        let after = std::fs::metadata(&copy).expect("a file");
        assert_eq!(after.modified().ok(), before.modified().ok());
    }
}

#[test]
fn a_bad_line_ends_with_2_and_nothing_is_written() {
    let bad = [
        (with_line(WORKED, 2, "q = none"), "line 2: q = none, but"),
        (
            with_line(WORKED, 1, "p = 17"),
            "line 1: p = 17, but 1 to 16",
        ),
        (
            with_line(WORKED, 9, "M = 67108865"),
            "line 9: M = 67108865, but at most",
        ),
        (
            with_line(WORKED, 7, "symbols = 2"),
            "line 7: symbol 0 (from 0) is 2, but",
        ),
        (
            with_line(WORKED, 9, "M = 4 4"),
            "line 9: M = 4 comes to M = 4",
        ),
    ];
    for (place, (text, sentence)) in bad.iter().enumerate() {
        let outdir = folder("bad").join(place.to_string());
        let output = run(&outdir, text.as_bytes());
        assert_eq!(output.status.code(), Some(2));
        assert!(
            told(&output).contains(&format!("{place}.txt: {sentence}")),
            "{}",
            told(&output)
        );
        assert!(!outdir.exists() && output.stdout.is_empty());
    }
}

#[test]
fn a_bad_text_leaves_an_earlier_run_as_it_was() {
    let outdir = folder("earlier-good");
    assert!(run(&outdir, WORKED.as_bytes()).status.success());
    std::fs::write(outdir.join("lab.png"), "a picture").expect("written");
    let all = || {
        names(&outdir)
            .into_iter()
            .map(|name| std::fs::read(outdir.join(name)).expect("read"))
    };
    let before: Vec<Vec<u8>> = all().collect();
    assert_eq!(run(&outdir, b"p = 1").status.code(), Some(2));
    assert_eq!(all().collect::<Vec<_>>(), before);
}

#[test]
fn many_problems_are_cut_to_twenty() {
    let outdir = folder("many").join("out");
    let text = with_line(WORKED, 7, &format!("symbols = {}", "x ".repeat(30)));
    let output = run(&outdir, text.as_bytes());
    assert_eq!(told(&output).lines().count(), 21);
    assert!(told(&output).ends_with("out.txt: and 10 more problems\n"));
}

#[test]
fn what_cannot_be_read_ends_with_2() {
    let outdir = folder("unread").join("out");
    let output = lab(&[&outdir.join("absent.txt"), &outdir]);
    assert_eq!(output.status.code(), Some(2));
    assert!(told(&output).contains("absent.txt: can't be read: "));
    let output = run(&outdir, b"p = 1\nq = \xFF\n");
    assert_eq!(output.status.code(), Some(2));
    assert!(told(&output).contains("out.txt: line 2: not a text in UTF-8"));
    assert!(!outdir.exists());
}

#[test]
fn a_new_table_never_stands_beside_an_earlier_picture() {
    let outdir = folder("picture");
    std::fs::write(outdir.join("lab.png"), "an earlier picture").expect("written");
    assert!(run(&outdir, WORKED.as_bytes()).status.success());
    assert_eq!(names(&outdir), WRITTEN);
}

#[test]
fn a_run_that_cannot_write_leaves_the_earlier_one_whole() {
    let outdir = folder("in-the-way");
    assert!(run(&outdir, WORKED.as_bytes()).status.success());
    let both = || ["lab.csv", COPY].map(|name| std::fs::read(outdir.join(name)).expect("read"));
    let before = both();
    std::fs::create_dir(outdir.join("lab.gnuplot.part")).expect("a folder in the way");
    let output = run(&outdir, EXAMPLE.as_bytes());
    assert_eq!(output.status.code(), Some(1));
    assert!(
        told(&output).contains("lab.gnuplot: can't be written"),
        "{}",
        told(&output)
    );
    assert_eq!(both(), before);
    assert_eq!(
        names(&outdir),
        [
            COPY,
            "lab.csv",
            "lab.gnuplot",
            "lab.gnuplot.part",
            "readings.csv",
            "summary.txt"
        ]
    );
}

#[test]
fn a_folder_that_cannot_be_made_ends_with_1() {
    let file = folder("no-folder").join("cable.txt");
    std::fs::write(&file, WORKED).expect("written");
    let output = lab(&[&file, &file]);
    assert_eq!(output.status.code(), Some(1));
    assert!(told(&output).ends_with("cable.txt: is not a folder\n"));
    let output = lab(&[&file, &file.join("below")]);
    assert_eq!(output.status.code(), Some(1));
    assert!(told(&output).contains("below: can't be made"));
}

#[test]
fn a_summary_that_cannot_be_printed_is_told_and_its_files_are_there() {
    let outdir = folder("full-output");
    let file = outdir.with_extension("txt");
    std::fs::write(&file, WORKED).expect("written");
    let full = std::fs::File::options().write(true).open("/dev/full");
    let mut program = Command::new(env!("CARGO_BIN_EXE_lab"));
    let program = program.args([&file, &outdir]).stdout(full.expect("opened"));
    let output = program.output().expect("the program runs");
    assert_eq!(output.status.code(), Some(1));
    let last = told(&output).lines().last().map(str::to_string);
    let wanted = "the summary can't be written to standard output: No space left on device (os error 28); summary.txt has it";
    assert_eq!(last.as_deref(), Some(wanted));
    assert_eq!(names(&outdir), WRITTEN);
}

#[test]
fn help_is_told_and_wrong_arguments_end_with_2() {
    for word in ["--help", "-h"] {
        let output = lab(&[Path::new(word)]);
        assert_eq!(output.status.code(), Some(0));
        assert!(output.stdout.starts_with(b"usage: lab FILE OUTDIR"));
    }
    for words in [&[][..], &["one"], &["one", "two", "three"]] {
        let words: Vec<&Path> = words.iter().map(Path::new).collect();
        let output = lab(&words);
        assert_eq!(output.status.code(), Some(2));
        assert!(told(&output).starts_with("usage: lab FILE OUTDIR"));
    }
    let output = lab(&[Path::new("--bogus"), Path::new("one")]);
    assert_eq!(output.status.code(), Some(2));
    assert!(told(&output).starts_with("no such option: --bogus\nusage: lab"));
}
