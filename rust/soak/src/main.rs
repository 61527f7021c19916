//! Lists of calls on the static libraries and on the second implementation side by side, with the figures of demand 3:
//! `usage.txt` says how. Exit status 1: something failed; 2: bad arguments or files; 128 and the number of the signal
//! that stopped a run.

use soak::arguments::{asked, Asked, USAGE};
use soak::run::{replay, run, Verdict};
use soak::{kinds, stop};
use std::io::Write;
use std::process::ExitCode;

fn main() -> ExitCode {
    let words: Vec<String> = std::env::args().skip(1).collect();
    let done = asked(&words).map_err(|message| format!("{message}\n{}", USAGE.trim_end())).and_then(made);
    let done = done.and_then(|(text, status)| print(&text).map(|()| status));
    done.map(ExitCode::from).unwrap_or_else(|message| {
        let _ = writeln!(std::io::stderr(), "soak: {message}");
        ExitCode::from(2)
    })
}

fn made(asked: Asked) -> Result<Verdict, String> {
    match asked {
        Asked::Help => Ok((USAGE.to_string(), 0)),
        Asked::Kinds => Ok((kinds::list(), 0)),
        Asked::Replay(file) => replay(&file),
        Asked::Run(wanted) => {
            stop::listen();
            print(&format!("seed {}\n", wanted.seed))?;
            run(&wanted)
        }
    }
}

fn print(text: &str) -> Result<(), String> {
    let mut stream = std::io::stdout().lock();
    let written = stream.write_all(text.as_bytes()).and_then(|()| stream.flush());
    written.map_err(|error| format!("nothing can be printed: {error}"))
}
