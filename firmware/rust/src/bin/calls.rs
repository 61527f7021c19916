//! The same random list of calls on the static library and on the second
//! implementation, compared after every call: `calls [SEED [COUNT]]`. Each
//! trial is also compared with a run on a copy by the same side, and the list
//! with itself without its trials. `calls --changed` changes what the library
//! gave, a bit at a time, and sees that each change is told apart. Exit status
//! 1: a difference, or a change that was not told apart; 2: bad arguments.

use std::process::ExitCode;
use tigbulode::compare::{text, text_changed, CHANGED_COUNT, COUNT, SEED};
use tigbulode::sides::{Library, Second};

const USAGE: &str = "usage: calls [SEED [COUNT]] or calls --changed";

enum Asked {
    Help,
    Compare(u64, u64),
    Changed,
}

fn main() -> ExitCode {
    let words: Vec<String> = std::env::args().skip(1).collect();
    let (text, good) = match asked(&words) {
        Ok(Asked::Help) => (format!("{USAGE}\n"), true),
        Ok(Asked::Compare(seed, count)) => text(&Library, &Second, seed, count),
        Ok(Asked::Changed) => text_changed(&Library, &Second, SEED, CHANGED_COUNT),
        Err(message) => {
            eprintln!("calls: {message}");
            eprintln!("{USAGE}");
            return ExitCode::from(2);
        }
    };
    print!("{text}");
    if good {
        ExitCode::SUCCESS
    } else {
        ExitCode::FAILURE
    }
}

fn asked(words: &[String]) -> Result<Asked, String> {
    let number = |word: &String| {
        let number = word.parse::<u64>();
        number.map_err(|_| format!("{word:?} is no number from 0 to 2^64 - 1"))
    };
    match words {
        [] => Ok(Asked::Compare(SEED, COUNT)),
        [word] if word == "--help" || word == "-h" => Ok(Asked::Help),
        [word] if word == "--changed" => Ok(Asked::Changed),
        [seed] => Ok(Asked::Compare(number(seed)?, COUNT)),
        [seed, count] => match (number(seed)?, number(count)?) {
            (_, 0) => Err("a list has at least 1 call".to_string()),
            (seed, count) => Ok(Asked::Compare(seed, count)),
        },
        _ => Err(format!("{} arguments, at most 2 are taken", words.len())),
    }
}
