//! Prints the lines of a station that uses the static library: `station`.
//! `station --second` prints those of the second implementation. Exit status
//! 1: something that was turned down or tried left a mark, a block did
//! something else than its trial, or a bent image was taken; 2: bad arguments.

use std::process::ExitCode;
use tigbulode::sides::{Library, Operations, Second};
use tigbulode::station::text;

const USAGE: &str = "usage: station [--second]
The lines of a station that uses the static library, or the second implementation.";

fn main() -> ExitCode {
    let words: Vec<String> = std::env::args().skip(1).collect();
    let side: &dyn Operations = match words.iter().map(String::as_str).collect::<Vec<_>>()[..] {
        [] => &Library,
        ["--second"] => &Second,
        ["--help" | "-h"] => {
            println!("{USAGE}");
            return ExitCode::SUCCESS;
        }
        [word] => return turned_down(&format!("no such argument: {word}")),
        _ => return turned_down(&format!("arguments given: {}, at most 1", words.len())),
    };
    let (text, good) = text(side);
    print!("{text}");
    if good {
        ExitCode::SUCCESS
    } else {
        ExitCode::FAILURE
    }
}

fn turned_down(message: &str) -> ExitCode {
    eprintln!("station: {message}\n{USAGE}");
    ExitCode::from(2)
}
