//! Lists of calls on the static library and on the second implementation side
//! by side, with the figures of demand 3: see `soak/README.md`. Exit status 1:
//! something failed; 2: bad arguments or files; 128 and the number of the signal
//! that stopped a run.

use soak::arguments::{asked, Asked, USAGE};
use soak::soak::{replay, run, Verdict};
use soak::stop;
use std::io::Write;
use std::process::ExitCode;

fn main() -> ExitCode {
    let words: Vec<String> = std::env::args().skip(1).collect();
    let asked = match asked(&words) {
        Ok(asked) => asked,
        Err(message) => return bad(&format!("{message}\n{}", USAGE.trim_end())),
    };
    let result = match &asked {
        Asked::Help => Ok(Verdict::good(USAGE.to_string())),
        Asked::Run(wanted) => {
            stop::listen();
            if let Err(message) = print(&format!("seed {}\n", wanted.seed)) {
                return bad(&message);
            }
            run(wanted)
        }
        Asked::Replay(file) => replay(file),
    };
    let result = match result {
        Ok(result) => result,
        Err(message) => return bad(&message),
    };
    match print(&result.text) {
        Err(message) => bad(&message),
        Ok(()) => ExitCode::from(result.status),
    }
}

fn print(text: &str) -> Result<(), String> {
    let mut stream = std::io::stdout().lock();
    let written = stream.write_all(text.as_bytes());
    let written = written.and_then(|()| stream.flush());
    written.map_err(|error| format!("nothing can be printed: {error}"))
}

fn bad(message: &str) -> ExitCode {
    let _ = writeln!(std::io::stderr(), "soak: {message}");
    ExitCode::from(2)
}
