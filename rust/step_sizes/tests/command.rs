//! The program itself: its files, messages and exit statuses.

mod common;
#[path = "../../plots/tests/shared/mod.rs"]
mod shared;

use common::{with_line, EXAMPLE, WORKED};
use shared::{files, folder, names, path_with_gnuplot};
use std::io::Read;
use std::os::unix::process::ExitStatusExt;
use std::path::Path;
use std::process::{Command, Output, Stdio};

/// The program on a text that is put beside the output's folder, with no signal ignored. Where there is no gnuplot one
/// stands in for it.
fn program(outdir: &Path, text: &[u8]) -> Command {
    let file = outdir.with_extension("txt");
    std::fs::write(&file, text).expect("written");
    let test = outdir.parent().and_then(Path::file_name).expect("a name").to_string_lossy();
    let mut command = Command::new("env");
    command.args(["--default-signal", env!("CARGO_BIN_EXE_step_sizes")]);
    command.env("PATH", path_with_gnuplot(&test)).arg(file).arg("--out").arg(outdir);
    command
}

fn run(outdir: &Path, text: &[u8]) -> Output {
    program(outdir, text).output().expect("the program runs")
}

fn told(output: &Output) -> String {
    String::from_utf8_lossy(&output.stderr).into_owned()
}

const WRITTEN: [&str; 6] =
    ["cable.txt", "readings.csv", "step-sizes.csv", "step-sizes.gnuplot", "step-sizes.png", "summary.txt"];

/// gnuplot, where there is one, has nothing to say of them.
#[test]
fn two_runs_write_the_same_bytes_and_tell_their_progress() {
    let written = ["one", "two"].map(|name| {
        let outdir = folder("same").join(name).join("out");
        std::fs::create_dir_all(&outdir).expect("a folder");
        let output = run(&outdir, EXAMPLE.as_bytes());
        let steps = "step size 1 of 3: M = 131072\nstep size 2 of 3: M = 524288\nstep size 3 of 3: M = 2097152\n";
        assert_eq!(
            (output.status.code(), told(&output)),
            (Some(0), format!("{steps}drawing step-sizes.png, 1 of 1\n"))
        );
        assert_eq!(names(&outdir), WRITTEN);
        let files = files(&outdir);
        assert!(output.stdout.starts_with(&files[5].1) && files[0].1 == EXAMPLE.as_bytes());
        files
    });
    assert_eq!(written[0], written[1]);
    let outdir = folder("other").join("out");
    let output = program(&outdir, EXAMPLE.as_bytes()).args(["--set", "seed=2"]).output().expect("the program runs");
    assert!(output.status.success());
    assert_ne!(files(&outdir)[2], written[0][2]);
    for text in [common::loud(), common::silent(), WORKED.to_string()] {
        let output = run(&outdir, text.as_bytes());
        assert!(output.status.success() && told(&output).lines().count() <= 3, "{}", told(&output));
    }
}

#[test]
fn a_bad_text_ends_with_2_and_an_earlier_run_stays() {
    let bad: [(Vec<u8>, &str); 3] = [
        (
            with_line(WORKED, 2, "q = 17\n5").into_bytes(),
            "out.txt: line 2: q = 17, but a whole number from 1 to 16 is wanted",
        ),
        (with_line(WORKED, 9, "M = 67108865").into_bytes(), "out.txt: line 9: M = 67108865, but with p = 1, "),
        (b"p = 1\nq = \xFF\n".to_vec(), "out.txt: line 2: not a text in UTF-8"),
    ];
    let outdir = folder("bad").join("out");
    for (text, sentence) in &bad {
        let output = run(&outdir, text);
        assert_eq!(output.status.code(), Some(2));
        assert!(told(&output).contains(sentence), "{}", told(&output));
        assert!(!outdir.exists() && output.stdout.is_empty());
    }
    assert!(run(&outdir, WORKED.as_bytes()).status.success());
    let before = files(&outdir);
    assert_eq!(run(&outdir, b"p = 1").status.code(), Some(2));
    assert_eq!(files(&outdir), before);
}

#[test]
fn what_cannot_be_written_or_printed_ends_with_1() {
    let outdir = folder("undone").join("out");
    std::fs::write(&outdir, "in the way").expect("written");
    let output = run(&outdir, WORKED.as_bytes());
    assert!(output.status.code() == Some(1) && output.stdout.is_empty());
    assert!(told(&output).ends_with("out: is not a folder\n") && told(&output).lines().count() == 1, "before the run");
    std::fs::remove_file(&outdir).expect("removed");
    let table = outdir.join("step-sizes.csv.part");
    std::fs::create_dir_all(&table).expect("a folder in the way");
    let output = run(&outdir, WORKED.as_bytes());
    assert!(output.status.code() == Some(1) && output.stdout.starts_with(b"1 feed forward tap (p), "));
    std::fs::remove_dir(&table).expect("removed");
    let full = std::fs::File::options().write(true).open("/dev/full").expect("opened");
    let output = program(&outdir, WORKED.as_bytes()).stdout(full).output().expect("the program runs");
    assert_eq!(output.status.code(), Some(1));
    assert!(told(&output).contains("standard output can't be written: No space left on device"), "{}", told(&output));
    assert_eq!(names(&outdir), WRITTEN);
}

/// A pipe holds the table up, which is longer than it takes; the signal waits until all is read, and nothing half written
/// is left.
#[test]
fn an_interruption_leaves_no_unfinished_file() {
    for number in [1, 2, 15] {
        let outdir = folder("stopped").join("out");
        std::fs::create_dir(&outdir).expect("a folder");
        let pipe = outdir.join("step-sizes.csv.part");
        assert!(Command::new("mkfifo").arg(&pipe).status().expect("mkfifo runs").success());
        let mut child = program(&outdir, EXAMPLE.as_bytes()).stderr(Stdio::null()).spawn().expect("the program runs");
        let mut reader = std::fs::File::open(&pipe).expect("opened when it is written to");
        let signal = Command::new("kill").args([format!("-{number}"), child.id().to_string()]).status();
        assert!(signal.expect("kill runs").success());
        let mut table = String::new();
        reader.read_to_string(&mut table).expect("read");
        assert!(table.starts_with("step,M,") && table.ends_with('\n'));
        assert_eq!(child.wait().expect("it ends").signal(), Some(number));
        assert_eq!(names(&outdir), Vec::<String>::new());
    }
}

#[test]
fn help_is_told_and_wrong_arguments_end_with_2() {
    let run = |words: &[&str]| Command::new(env!("CARGO_BIN_EXE_step_sizes")).args(words).output().expect("it runs");
    for word in ["--help", "-h"] {
        assert!(
            run(&[word]).status.success() && run(&[word]).stdout.starts_with(b"usage: ./tigbulode step-sizes FILE")
        );
    }
    for words in [&[][..], &["one", "two"], &["one", "--out"], &["--bogus", "one"]] {
        assert_eq!(run(words).status.code(), Some(2));
        assert!(told(&run(words)).contains("usage: ./tigbulode step-sizes FILE"));
    }
}
