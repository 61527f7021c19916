//! What a program of pictures is asked for, and how it ends.

use crate::text::{Place, Problem};
use std::ffi::OsString;
use std::io::Write;
use std::path::{Path, PathBuf};
use std::process::ExitCode;

/// The most problems that are told.
const MOST_TOLD: usize = 20;

/// An exit status and the lines for standard error.
#[derive(Clone, Debug, PartialEq, Eq)]
pub struct Failure {
    pub status: u8,
    pub text: String,
}

impl Failure {
    /// Of wrong arguments or a wrong text.
    pub fn wrong(text: impl Into<String>) -> Failure {
        Failure { status: 2, text: text.into() }
    }

    /// Of what can't be written or drawn.
    pub fn undone(text: impl Into<String>) -> Failure {
        Failure { status: 1, text: text.into() }
    }

    /// Problems of a text in a file of this name.
    pub fn of_text(file: &str, problems: &[Problem]) -> Failure {
        let first = problems.iter().take(MOST_TOLD);
        let mut lines: Vec<String> = first.map(|problem| problem.told(file)).collect();
        if problems.len() > MOST_TOLD {
            lines.push(format!("{file}: and {} more problems", problems.len() - MOST_TOLD));
        }
        Failure::wrong(lines.join("\n"))
    }
}

/// What is asked for: a text, changes to it, and the folder for what is written.
#[derive(Clone, Debug, Default, PartialEq, Eq)]
pub struct Arguments {
    pub file: Option<PathBuf>,
    pub changes: Vec<String>,
    pub outdir: Option<PathBuf>,
}

impl Arguments {
    /// Those of the words, or what is wrong with them.
    fn of(mut words: impl Iterator<Item = OsString>) -> Result<Arguments, String> {
        let mut asked = Arguments::default();
        while let Some(word) = words.next() {
            match word.to_str() {
                Some(option @ ("--set" | "--out")) => {
                    let is_value = |word: &OsString| !word.is_empty() && !word.as_encoded_bytes().starts_with(b"-");
                    let value = words.next().filter(is_value);
                    let value = value.ok_or(format!("{option} wants a value\n"))?;
                    match option {
                        "--set" => asked.changes.push(value.to_string_lossy().into_owned()),
                        _ => asked.outdir = Some(value.into()),
                    }
                }
                Some(option) if option.starts_with('-') => return Err(format!("no such option: {option}\n")),
                _ if word.is_empty() => return Err("the name of FILE is empty\n".to_string()),
                _ if asked.file.is_some() => return Err("more than one FILE\n".to_string()),
                _ => asked.file = Some(word.into()),
            }
        }
        Ok(asked)
    }
}

/// Runs a program with the arguments of the command line. What it gives is for standard output.
pub fn main(usage: &str, run: impl FnOnce(Arguments) -> Result<String, Failure>) -> ExitCode {
    let words: Vec<OsString> = std::env::args_os().skip(1).collect();
    let done = if words.iter().any(|word| word == "--help" || word == "-h") {
        Ok(usage.to_string())
    } else {
        let asked = Arguments::of(words.into_iter());
        asked.map_err(|told| Failure::wrong(told + usage.trim_end())).and_then(run)
    };
    match done.and_then(print) {
        Ok(()) => ExitCode::SUCCESS,
        Err(Failure { status, text }) => {
            eprintln!("{text}");
            ExitCode::from(status)
        }
    }
}

/// To standard output, which may be a full disk or a closed pipe.
pub fn print(text: String) -> Result<(), Failure> {
    let mut out = std::io::stdout().lock();
    let written = out.write_all(text.as_bytes()).and_then(|()| out.flush());
    written.map_err(|error| Failure::undone(format!("standard output can't be written: {error}")))
}

/// The text of a file.
pub fn read(file: &Path) -> Result<String, Failure> {
    let name = file.display();
    let bytes = std::fs::read(file).map_err(|error| Failure::wrong(format!("{name}: can't be read: {error}")))?;
    String::from_utf8(bytes).map_err(|error| {
        let before = &error.as_bytes()[..error.utf8_error().valid_up_to()];
        let line = 1 + before.iter().filter(|byte| **byte == b'\n').count();
        let text = "not a text in UTF-8; save it as one".to_string();
        Failure::of_text(&name.to_string(), &[Problem { place: Place::Line(line), text }])
    })
}
