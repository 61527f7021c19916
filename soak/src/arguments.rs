//! What is asked for on the command line.

use crate::faults::Fault;
use crate::soak::{Run, Until};
use std::path::PathBuf;
use std::time::{SystemTime, UNIX_EPOCH};

/// The calls and the seed of the short run.
pub const CALLS: u64 = 80_000;
pub const SEED: u64 = 2026;
/// The seconds of the long run.
pub const LONG: u64 = 600;

/// It is a file of its own for `soak/run`, which prints it before anything is
/// built.
pub const USAGE: &str = include_str!("../usage.txt");

#[derive(Clone, Debug, PartialEq, Eq)]
pub enum Asked {
    Help,
    Run(Run),
    Replay(PathBuf),
}

fn number(word: &str) -> Result<u64, String> {
    let number = word.parse();
    number.map_err(|_| format!("{word:?} is no number from 0 to 2^64 - 1"))
}

fn positive(word: &str) -> Result<u64, String> {
    match number(word)? {
        0 => Err("a run has at least 1 call or second".to_string()),
        number => Ok(number),
    }
}

fn fault(name: &str) -> Result<Fault, String> {
    let names = Fault::ALL.map(|(name, _)| name).join(", ");
    Fault::named(name).ok_or(format!("no fault {name:?}; there are {names}"))
}

/// A timed run without a seed takes one from the clock.
fn clock() -> u64 {
    let since = SystemTime::now().duration_since(UNIX_EPOCH);
    since.map_or(SEED, |since| since.as_secs())
}

/// What the words ask for.
pub fn asked(words: &[String]) -> Result<Asked, String> {
    let words: Vec<&str> = words.iter().map(String::as_str).collect();
    if words.contains(&"--help") || words.contains(&"-h") {
        return Ok(Asked::Help);
    }
    match words[..] {
        ["replay", file] => Ok(Asked::Replay(PathBuf::from(file))),
        ["replay", ..] => Err("replay takes one file".to_string()),
        _ => run(&words).map(Asked::Run),
    }
}

#[derive(Default)]
struct Options {
    until: Option<Until>,
    seed: Option<u64>,
    fault: Option<Fault>,
    out: Option<PathBuf>,
}

impl Options {
    fn end(&mut self, until: Until) -> Result<(), String> {
        match self.until.replace(until) {
            None => Ok(()),
            Some(_) => Err("only one of --calls, --seconds and --long is taken".to_string()),
        }
    }

    fn seed(&mut self, word: &str) -> Result<(), String> {
        match self.seed.replace(number(word)?) {
            None => Ok(()),
            Some(_) => Err("only one seed is taken".to_string()),
        }
    }

    /// Takes the first option; gives the words after it.
    fn take<'a, 'b>(&mut self, words: &'a [&'b str]) -> Result<&'a [&'b str], String> {
        let (taken, rest) = match words {
            ["--calls", count, rest @ ..] => (self.end(Until::Calls(positive(count)?)), rest),
            ["--seconds", count, rest @ ..] => (self.end(Until::Seconds(positive(count)?)), rest),
            ["--long", rest @ ..] => (self.end(Until::Seconds(LONG)), rest),
            ["--seed", word, rest @ ..] => (self.seed(word), rest),
            ["--fault", name, word, rest @ ..] => {
                self.fault = Some(fault(name)?);
                (self.seed(word), rest)
            }
            ["--out", folder, rest @ ..] => {
                self.out = Some(PathBuf::from(folder));
                (Ok(()), rest)
            }
            _ => return Err(format!("{:?} is not known or lacks its value", words[0])),
        };
        taken.map(|()| rest)
    }
}

fn run(words: &[&str]) -> Result<Run, String> {
    let mut options = Options::default();
    let mut rest = words;
    while !rest.is_empty() {
        rest = options.take(rest)?;
    }
    let until = options.until.unwrap_or(Until::Calls(CALLS));
    let timed = matches!(until, Until::Seconds(_));
    let usual = || if timed { clock() } else { SEED };
    Ok(Run {
        until,
        seed: options.seed.unwrap_or_else(usual),
        fault: options.fault,
        out: options.out.unwrap_or(PathBuf::from(".")),
    })
}
