//! The program `descriptions` with the second implementation in place of the
//! two programs, with faulty ones, and with bad arguments and files.

use reference::vectors::description_vectors;
use std::path::{Path, PathBuf};
use std::process::{Command, Output};

const STORED: &str = include_str!("../../descriptions.out");

/// The names of the second implementation, and those of its faulty kinds.
const SECOND: [&str; 3] = ["cable", "trace", "faulty"];
const FAULTY_TRACES: [&str; 6] = [
    "silent",
    "silent-for-traces",
    "stopping",
    "stopping-late",
    "breaking-off",
    "deciding-wrongly",
];

/// A folder with the second implementation under each of its names.
fn folder(name: &str) -> PathBuf {
    let folder = Path::new(env!("CARGO_TARGET_TMPDIR")).join(name);
    let _ = std::fs::remove_dir_all(&folder);
    std::fs::create_dir_all(&folder).unwrap();
    let tests = std::env::current_exe().unwrap();
    let second = tests.ancestors().nth(2).unwrap().join("examples/second");
    for name in SECOND.iter().chain(&FAULTY_TRACES) {
        std::os::unix::fs::symlink(&second, folder.join(name)).unwrap();
    }
    let vectors = description_vectors();
    let bytes: Vec<u8> = vectors.iter().flat_map(|one| one.bytes()).collect();
    std::fs::write(folder.join("all"), &bytes).unwrap();
    std::fs::write(folder.join("cut"), &bytes[..bytes.len() - 1]).unwrap();
    std::fs::write(folder.join("empty"), "").unwrap();
    folder
}

fn descriptions(folder: &Path, words: &[&str]) -> Output {
    let mut command = Command::new(env!("CARGO_BIN_EXE_descriptions"));
    command.current_dir(folder).args(words).output().unwrap()
}

#[test]
fn the_second_implementation_passes() {
    let ended = descriptions(&folder("second"), &["./cable", "./trace", "all"]);
    assert_eq!(String::from_utf8(ended.stdout).unwrap(), STORED);
    assert!(ended.status.success());
}

/// A run of the two programs ends with 1 and tells this.
fn told_apart(folder: &Path, [cable, trace]: [&str; 2], about: &str) {
    let ended = descriptions(folder, &[cable, trace, "all"]);
    let text = String::from_utf8(ended.stdout).unwrap();
    assert!(text.contains(about), "{cable} {trace}: {text}");
    assert_eq!(ended.status.code(), Some(1));
}

#[test]
fn faulty_programs_are_told_apart() {
    let folder = folder("faulty-programs");
    let other = "cable writes something else";
    told_apart(&folder, ["./faulty", "./trace"], other);
    told_apart(&folder, ["cat", "./trace"], other);
    told_apart(&folder, ["true", "./trace"], other);
    told_apart(&folder, ["./cable", "false"], "exit status: 1");
    for trace in FAULTY_TRACES {
        let trace = format!("./{trace}");
        told_apart(&folder, ["./cable", &trace], "trace writes something else");
    }
}

/// Lines alone: here the programs that are wrong about traces are right.
#[test]
fn some_programs_are_wrong_about_traces_alone() {
    let folder = folder("lines-alone");
    let vectors = description_vectors();
    let lines = vectors.iter().filter(|one| one.text == "stop 8 0\n");
    let bytes: Vec<u8> = lines.flat_map(|one| one.bytes()).collect();
    std::fs::write(folder.join("all"), bytes).unwrap();
    told_apart(
        &folder,
        ["./cable", "./silent"],
        "trace writes something else",
    );
    for trace in &FAULTY_TRACES[1..] {
        let ended = descriptions(&folder, &["./cable", &format!("./{trace}"), "all"]);
        assert!(ended.status.success(), "{trace}");
    }
}

#[test]
fn bad_arguments_and_files_are_turned_down() {
    let folder = folder("bad");
    let bad: [&[&str]; 6] = [
        &[],
        &["./cable", "./trace"],
        &["./cable", "./trace", "all", "more"],
        &["./cable", "./trace", "missing"],
        &["./cable", "./trace", "cut"],
        &["./cable", "./trace", "empty"],
    ];
    for words in bad {
        let ended = descriptions(&folder, words);
        assert_eq!(ended.status.code(), Some(2), "{words:?}");
        assert!(ended.stdout.is_empty() && !ended.stderr.is_empty());
    }
    let ended = descriptions(&folder, &["--help"]);
    assert!(ended.status.success() && ended.stdout.starts_with(b"usage: "));
}

#[test]
fn the_stored_file_is_the_second_implementations() {
    let stored = include_bytes!("../../descriptions.bin");
    let vectors = description_vectors();
    let bytes: Vec<u8> = vectors.iter().flat_map(|one| one.bytes()).collect();
    assert!(bytes == stored);
}
