//! The program: files and streams, warnings, a terminal, exit statuses.

mod common;

use common::{Ended, TEXT, WORKED};
use std::fs::File;
use std::os::unix::fs::FileTypeExt;
use std::path::{Path, PathBuf};
use std::process::{Command, Stdio};

struct Folder(PathBuf);

impl Folder {
    fn new(name: &str) -> Folder {
        let path = Path::new(env!("CARGO_TARGET_TMPDIR")).join(name);
        let _ = std::fs::remove_dir_all(&path);
        std::fs::create_dir_all(&path).unwrap();
        Folder(path)
    }

    fn put(&self, name: &str, bytes: impl AsRef<[u8]>) {
        std::fs::write(self.0.join(name), bytes).unwrap();
    }

    fn get(&self, name: &str) -> Vec<u8> {
        std::fs::read(self.0.join(name)).unwrap()
    }

    fn names(&self) -> Vec<String> {
        let files = std::fs::read_dir(&self.0).unwrap();
        let mut names: Vec<String> = files.map(|file| file.unwrap().file_name().into_string().unwrap()).collect();
        names.sort();
        names
    }

    fn run(&self, words: &[&str], input: impl AsRef<[u8]>) -> Ended {
        self.run_on(Stdio::piped(), words, input)
    }

    fn run_on(&self, output: Stdio, words: &[&str], input: impl AsRef<[u8]>) -> Ended {
        let mut command = Command::new(env!("CARGO_BIN_EXE_traces"));
        Ended::on(command.args(words).current_dir(&self.0).stdout(output), input.as_ref())
    }
}

#[test]
fn streams_and_files() {
    let folder = Folder::new("streams");
    folder.put("text", TEXT);
    for words in [&["make"][..], &["make", "-"], &["make", "-", "-"], &["make", "text", "-"]] {
        let ended = folder.run(words, TEXT);
        assert_eq!((ended.status, ended.err.as_str()), (Some(0), ""), "{words:?}");
        assert_eq!(ended.out, WORKED);
    }
    for words in [["make", "text", "trace"], ["show", "trace", "shown"]] {
        let ended = folder.run(&words, "");
        assert_eq!((ended.status, ended.out.len()), (Some(0), 0));
    }
    assert_eq!(folder.get("trace"), WORKED);
    let shown = String::from_utf8(folder.run(&["show"], WORKED).out).unwrap();
    assert!(shown.ends_with("\n# block 1, sample 1\n16384 0 0\n"), "{shown}");
    assert_eq!(folder.get("shown"), shown.as_bytes());
    assert_eq!(folder.run(&["make", "shown"], "").out, WORKED);
    assert_eq!(folder.names(), ["shown", "text", "trace"]);
}

/// Bytes come out of a text or of bytes, whether these are a trace or not.
#[test]
fn bytes_of_either() {
    let folder = Folder::new("bytes");
    let none = "standard input: no trace: ";
    let given = [(TEXT.as_bytes(), &WORKED[..], ""), (&WORKED, &WORKED, ""), (b"", b"", none), (b"p\0", b"p\0", none)];
    for (input, output, told) in given {
        let ended = folder.run(&["bytes"], input);
        assert_eq!((ended.status, ended.err.is_empty()), (Some(0), told.is_empty()));
        assert!(ended.err.starts_with(told), "{}", ended.err);
        assert_eq!(ended.out, output);
    }
    let ended = folder.run(&["bytes"], "no text");
    assert_eq!((ended.status, ended.out.len()), (Some(2), 0));
    assert!(ended.err.starts_with("standard input: line 1: m = no, but"), "{}", ended.err);
}

/// A pseudo-terminal's own side is a terminal too.
#[test]
fn a_terminal_gets_texts_alone() {
    let folder = Folder::new("terminal");
    let terminal = || File::options().read(true).write(true).open("/dev/ptmx").unwrap();
    let ended = folder.run_on(terminal().into(), &["make"], TEXT);
    let wanted = "trace: the bytes of a trace are not written to a terminal: name a file, or pipe it\n";
    assert_eq!((ended.status, ended.err.as_str()), (Some(2), wanted));
    assert_eq!(folder.run_on(terminal().into(), &["show"], WORKED).status, Some(0));
    assert_eq!(folder.run_on(terminal().into(), &["make", "-", "trace"], TEXT).status, Some(0));
}

#[test]
fn a_link_stays() {
    let folder = Folder::new("link");
    folder.put("trace", "old");
    std::os::unix::fs::symlink("trace", folder.0.join("link")).unwrap();
    assert_eq!(folder.run(&["make", "-", "link"], TEXT).status, Some(0));
    assert!(folder.0.join("link").is_symlink());
    assert_eq!(folder.get("trace"), WORKED);
}

/// What is no file, here a pipe with a name, is written to and not replaced.
#[test]
fn a_pipe_stays() {
    let folder = Folder::new("pipe");
    let pipe = folder.0.join("pipe");
    assert!(Command::new("mkfifo").arg(&pipe).status().unwrap().success());
    let mut reader = Command::new("cat").arg(&pipe).stdout(Stdio::piped()).spawn().unwrap();
    let ended = folder.run(&["make", "-", "pipe"], TEXT);
    let stays = std::fs::metadata(&pipe).unwrap().file_type().is_fifo();
    if !stays {
        reader.kill().unwrap();
    }
    let read = reader.wait_with_output().unwrap().stdout;
    assert_eq!((ended.status, stays), (Some(0), true), "{}", ended.err);
    assert_eq!(read, WORKED);
}

#[test]
fn a_wrong_text_makes_nothing() {
    let folder = Folder::new("wrong");
    folder.put("text", TEXT.replace("16384 0 1", "40000 16 1"));
    let warned = "text: line 7: warning: g = 16, but L = 0 to 15 is admitted; trace turns it down with 4\n";
    let wanted = format!("text: line 7: m = 40000, but a whole number from -32768 to 32767 is wanted\n{warned}");
    for words in [&["make", "text", "trace"][..], &["make", "text"]] {
        let ended = folder.run(words, "");
        assert_eq!((ended.status, ended.err.as_str()), (Some(2), wanted.as_str()));
        assert!(ended.out.is_empty());
    }
    let ended = folder.run(&["make"], b"p = 1\xFF\n");
    assert!(ended.err.starts_with("standard input: line 1: p = 1\u{FFFD}, but "), "{}", ended.err);
    assert_eq!(folder.names(), ["text"]);
}

#[test]
fn warnings_and_strict() {
    let folder = Folder::new("warnings");
    let text = TEXT.replace("16384 0 1", "16384 16 1");
    let told = "g = 16, but L = 0 to 15 is admitted; trace turns it down with 4\n";
    let ended = folder.run(&["make", "-", "trace"], &text);
    assert_eq!((ended.status, ended.err), (Some(0), format!("standard input: line 7: warning: {told}")));
    assert_eq!(folder.get("trace")[14], 16);
    folder.put("trace", "");
    let ended = folder.run(&["make", "--strict", "-", "trace"], &text);
    assert_eq!((ended.status, ended.err), (Some(2), format!("standard input: line 7: {told}")));
    assert_eq!(folder.get("trace"), b"");
    let ended = folder.run(&["make", "--strict"], TEXT);
    assert_eq!((ended.status, ended.out), (Some(0), WORKED.to_vec()));
}

#[test]
fn at_most_twenty_are_told() {
    let folder = Folder::new("twenty");
    let settings = TEXT.replace("16384 0 1\n16384 0\n", "");
    for (line, warning) in [("x 0\n", ""), ("0 16\n", "warning: ")] {
        let last = format!("standard input: line 26: {warning}");
        for (count, lines, last) in [(20, 20, last.as_str()), (23, 21, "standard input: 3 more")] {
            let ended = folder.run(&["make"], format!("{settings}{}", line.repeat(count)));
            assert_eq!(ended.err.lines().count(), lines, "{}", ended.err);
            assert!(ended.err.lines().last().unwrap().starts_with(last), "{}", ended.err);
        }
    }
    let ended = folder.run(&["make"], format!("{settings}{}x 0\n", "0 16\n".repeat(30)));
    assert!(ended.err.contains("standard input: line 37: m = x, but"), "{}", ended.err);
}

#[test]
fn what_cannot_be_had() {
    let folder = Folder::new("files");
    folder.put("text", TEXT);
    folder.put("trace", &WORKED[..19]);
    std::fs::create_dir(folder.0.join("taken")).unwrap();
    let short = "trace: no trace: 19 bytes, but N = 1 and a block count of 2 ask for 12 + 4·1·2 = 20\n";
    let cases: [(&[&str], i32, &str); 10] = [
        (&["make", "missing"], 2, "missing: "),
        (&["make", "taken"], 2, "taken: "),
        (&["make", "text", "text"], 2, "text: input and output are the same file"),
        (&["make", "text", "taken"], 1, "taken: "),
        (&["make", "text", "missing/trace"], 1, "missing/trace: "),
        (&["make", "trace"], 2, "trace: a byte is 0, so it is no text"),
        (&["show", "text"], 2, "text: no byte is 0, so it is no trace"),
        (&["make", "/dev/zero"], 2, "/dev/zero: more than 16777216 bytes of text"),
        (&["show", "/dev/zero"], 2, "/dev/zero: no trace: more than 65536 bytes"),
        (&["show", "trace", "new"], 2, short),
    ];
    for (words, status, wanted) in cases {
        let ended = folder.run(words, "");
        assert_eq!(ended.status, Some(status), "{words:?}");
        assert!(ended.err.starts_with(wanted), "{words:?}: {}", ended.err);
    }
    assert_eq!(folder.names(), ["taken", "text", "trace"]);
    assert_eq!(folder.get("text"), TEXT.as_bytes());
}

#[test]
fn help_and_bad_arguments() {
    let folder = Folder::new("arguments");
    let usage = "usage: ./tigbulode trace run [FILE]\n";
    for words in [&["make", "--help"][..], &["show", "-h"], &["--help"], &["make", "a", "--help"]] {
        let ended = folder.run(words, "");
        assert_eq!((ended.status, ended.err.as_str()), (Some(0), ""));
        assert!(ended.out.starts_with(usage.as_bytes()));
    }
    let bad: [&[&str]; 7] = [
        &[],
        &["bytes", "--strict"],
        &["draw"],
        &["make", "a", "b", "c"],
        &["show", "a", "b", "c"],
        &["show", "--strict"],
        &["make", "--loose"],
    ];
    for words in bad {
        let ended = folder.run(words, "");
        assert_eq!((ended.status, ended.out.len()), (Some(2), 0), "{words:?}");
        assert!(ended.err.contains(usage), "{words:?}");
    }
}
