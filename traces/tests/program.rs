//! The program: files and streams, warnings, exit statuses.

mod common;

use common::{Ended, WORKED};
use std::os::unix::fs::FileTypeExt;
use std::path::{Path, PathBuf};
use std::process::{Command, Stdio};

const TEXT: &str = "p = 1\nq = 1\nN = 1\nr = 0\nL = 0\nM = 67108864\n16384 0 1\n16384 0\n";

struct Folder(PathBuf);

impl Folder {
    fn new(name: &str) -> Folder {
        let path = Path::new(env!("CARGO_TARGET_TMPDIR")).join(name);
        let _ = std::fs::remove_dir_all(&path);
        std::fs::create_dir_all(&path).unwrap();
        Folder(path)
    }

    fn put(&self, name: &str, bytes: impl AsRef<[u8]>) {
        std::fs::write(self.0.join(name), bytes).unwrap();
    }

    fn get(&self, name: &str) -> Vec<u8> {
        std::fs::read(self.0.join(name)).unwrap()
    }

    fn names(&self) -> Vec<String> {
        let files = std::fs::read_dir(&self.0).unwrap();
        let names = files.map(|file| file.unwrap().file_name().into_string().unwrap());
        let mut names: Vec<String> = names.collect();
        names.sort();
        names
    }

    fn run(&self, words: &[&str], input: &[u8]) -> Ended {
        let mut command = Command::new(env!("CARGO_BIN_EXE_traces"));
        Ended::on(command.args(words).current_dir(&self.0), input)
    }
}

#[test]
fn streams_and_files() {
    let folder = Folder::new("streams");
    folder.put("text", TEXT);
    for words in [
        &["make"][..],
        &["make", "-"],
        &["make", "-", "-"],
        &["make", "text", "-"],
    ] {
        let ended = folder.run(words, TEXT.as_bytes());
        assert_eq!(
            (ended.status, ended.err.as_str()),
            (Some(0), ""),
            "{words:?}"
        );
        assert_eq!(ended.out, WORKED);
    }
    let ended = folder.run(&["make", "text", "trace"], b"");
    assert_eq!((ended.status, ended.out.len()), (Some(0), 0));
    assert_eq!(folder.get("trace"), WORKED);
    let ended = folder.run(&["show", "trace", "shown"], b"");
    assert_eq!((ended.status, ended.out.len()), (Some(0), 0));
    let ended = folder.run(&["show"], &WORKED);
    assert_eq!(folder.get("shown"), ended.out);
    assert_eq!(folder.run(&["make", "shown"], b"").out, WORKED);
    assert_eq!(folder.names(), ["shown", "text", "trace"]);
}

#[test]
fn a_link_stays() {
    let folder = Folder::new("link");
    folder.put("trace", "old");
    std::os::unix::fs::symlink("trace", folder.0.join("link")).unwrap();
    let ended = folder.run(&["make", "-", "link"], TEXT.as_bytes());
    assert_eq!(ended.status, Some(0));
    assert!(folder.0.join("link").is_symlink());
    assert_eq!(folder.get("trace"), WORKED);
}

/// What is no file, here a pipe with a name, is written to and not replaced.
#[test]
fn a_pipe_stays() {
    let folder = Folder::new("pipe");
    let pipe = folder.0.join("pipe");
    assert!(Command::new("mkfifo")
        .arg(&pipe)
        .status()
        .unwrap()
        .success());
    let reader = Command::new("cat")
        .arg(&pipe)
        .stdout(Stdio::piped())
        .spawn();
    let mut reader = reader.unwrap();
    let ended = folder.run(&["make", "-", "pipe"], TEXT.as_bytes());
    let stays = std::fs::metadata(&pipe).unwrap().file_type().is_fifo();
    if !stays {
        reader.kill().unwrap();
    }
    let read = reader.wait_with_output().unwrap().stdout;
    assert_eq!((ended.status, stays), (Some(0), true), "{}", ended.err);
    assert_eq!(read, WORKED);
}

#[test]
fn a_wrong_text_makes_nothing() {
    let folder = Folder::new("wrong");
    folder.put("text", TEXT.replace("16384 0 1", "40000 0 1"));
    let wanted = "text: line 7: m = 40000, but a whole number from -32768 to 32767 is wanted\n";
    for words in [&["make", "text", "trace"][..], &["make", "text"]] {
        let ended = folder.run(words, b"");
        assert_eq!((ended.status, ended.err.as_str()), (Some(2), wanted));
        assert!(ended.out.is_empty());
    }
    let ended = folder.run(&["make"], b"p = 1\xFF\n");
    assert!(
        ended
            .err
            .starts_with("standard input: line 1: p = 1\u{FFFD}, but "),
        "{}",
        ended.err
    );
    assert_eq!(folder.names(), ["text"]);
}

#[test]
fn warnings_and_strict() {
    let folder = Folder::new("warnings");
    let text = TEXT.replace("16384 0 1", "16384 16 1");
    let told = "g = 16, but L = 0 to 15 is admitted; trace turns it down with 4\n";
    let ended = folder.run(&["make", "-", "trace"], text.as_bytes());
    assert_eq!(ended.status, Some(0));
    assert_eq!(
        ended.err,
        format!("standard input: line 7: warning: {told}")
    );
    assert_eq!(folder.get("trace")[14], 16);
    folder.put("trace", "");
    let ended = folder.run(&["make", "--strict", "-", "trace"], text.as_bytes());
    assert_eq!(ended.status, Some(2));
    assert_eq!(ended.err, format!("standard input: line 7: {told}"));
    assert_eq!(folder.get("trace"), b"");
    let ended = folder.run(&["make", "--strict"], TEXT.as_bytes());
    assert_eq!((ended.status, ended.out), (Some(0), WORKED.to_vec()));
}

#[test]
fn at_most_twenty_are_told() {
    let folder = Folder::new("twenty");
    for (line, warning) in [("x 0\n", ""), ("0 16\n", "warning: ")] {
        for (count, lines, last) in [
            (20, 20, format!("standard input: line 26: {warning}")),
            (23, 21, "standard input: 3 more".to_string()),
        ] {
            let settings = TEXT.replace("16384 0 1\n16384 0\n", "");
            let text = format!("{settings}{}", line.repeat(count));
            let ended = folder.run(&["make"], text.as_bytes());
            assert_eq!(ended.err.lines().count(), lines, "{}", ended.err);
            assert!(
                ended.err.lines().last().unwrap().starts_with(&last),
                "{}",
                ended.err
            );
        }
    }
}

#[test]
fn what_is_no_trace_is_told() {
    let folder = Folder::new("no-trace");
    folder.put("trace", &WORKED[..19]);
    let ended = folder.run(&["show", "trace", "text"], b"");
    let wanted =
        "trace: no trace: 19 bytes, but N = 1 and a block count of 2 ask for 12 + 4·1·2 = 20\n";
    assert_eq!((ended.status, ended.err.as_str()), (Some(2), wanted));
    assert_eq!(folder.names(), ["trace"]);
    let ended = folder.run(&["show", "/dev/zero"], b"");
    assert_eq!(ended.status, Some(2));
    assert!(ended.err.contains("more than 65536 bytes"), "{}", ended.err);
    let ended = folder.run(&["make", "/dev/zero"], b"");
    assert_eq!(ended.status, Some(2));
    assert!(ended.err.contains("bytes of text"), "{}", ended.err);
}

#[test]
fn files_that_cannot_be_had() {
    let folder = Folder::new("files");
    folder.put("text", TEXT);
    std::fs::create_dir(folder.0.join("taken")).unwrap();
    let cases: [(&[&str], i32, &str); 5] = [
        (&["make", "missing"], 2, "missing: "),
        (&["make", "taken"], 2, "taken: "),
        (
            &["make", "text", "text"],
            2,
            "text: input and output are the same file",
        ),
        (&["make", "text", "taken"], 1, "taken: "),
        (&["make", "text", "missing/trace"], 1, "missing/trace: "),
    ];
    for (words, status, wanted) in cases {
        let ended = folder.run(words, b"");
        assert_eq!(ended.status, Some(status), "{words:?}");
        assert!(ended.err.starts_with(wanted), "{words:?}: {}", ended.err);
    }
    assert_eq!(folder.names(), ["taken", "text"]);
    assert_eq!(folder.get("text"), TEXT.as_bytes());
}

#[test]
fn help_and_bad_arguments() {
    let folder = Folder::new("arguments");
    for words in [
        &["make", "--help"][..],
        &["show", "-h"],
        &["--help"],
        &["make", "a", "--help"],
    ] {
        let ended = folder.run(words, b"");
        assert_eq!((ended.status, ended.err.as_str()), (Some(0), ""));
        assert!(ended.out.starts_with(b"usage: traces/make"));
    }
    let bad: [&[&str]; 6] = [
        &[],
        &["draw"],
        &["make", "a", "b", "c"],
        &["show", "a", "b", "c"],
        &["show", "--strict"],
        &["make", "--loose"],
    ];
    for words in bad {
        let ended = folder.run(words, b"");
        assert_eq!((ended.status, ended.out.len()), (Some(2), 0), "{words:?}");
        assert!(ended.err.contains("usage: traces/make"), "{words:?}");
    }
}
