//! What is asked for on the command line.

use crate::kinds::Kind;
use crate::run::{Run, Until};
use std::path::{Path, PathBuf};
use std::time::{SystemTime, UNIX_EPOCH};

/// The calls and the seed of the short run.
pub const CALLS: u64 = 80_000;
pub const SEED: u64 = 2026;
/// The seconds of the long run.
pub const LONG: u64 = 600;
/// Where a failing list is saved, in the repository that the package is of.
const OUT: &str = "target/soak/failed";

/// It is a file of its own so that it can be printed before anything is built.
pub const USAGE: &str = include_str!("../usage.txt");

#[derive(Clone, Debug, PartialEq, Eq)]
pub enum Asked {
    Help,
    Kinds,
    Run(Run),
    Replay(PathBuf),
}

fn number(word: &str) -> Result<u64, String> {
    let number = word.parse();
    number.map_err(|_| format!("{word:?} is no number from 0 to 2^64 - 1"))
}

fn positive(word: &str) -> Result<u64, String> {
    match number(word)? {
        0 => Err("a run has at least 1 call or second".to_string()),
        number => Ok(number),
    }
}

/// A timed run without a seed takes one from the clock.
fn clock() -> u64 {
    let since = SystemTime::now().duration_since(UNIX_EPOCH);
    since.map_or(SEED, |since| since.as_secs())
}

#[derive(Default)]
struct Options {
    until: Option<Until>,
    seed: Option<u64>,
    kind: Option<Kind>,
    out: Option<PathBuf>,
}

/// Sets what may be said once.
fn once<T>(option: &mut Option<T>, value: T, about: &str) -> Result<(), String> {
    match option.replace(value) {
        None => Ok(()),
        Some(_) => Err(format!("only one {about} is taken")),
    }
}

impl Options {
    fn end(&mut self, until: Until) -> Result<(), String> {
        once(&mut self.until, until, "of --calls, --seconds and --long")
    }

    /// Takes the first option; gives the words after it.
    fn take<'a, 'b>(&mut self, words: &'a [&'b str]) -> Result<&'a [&'b str], String> {
        let (taken, rest) = match words {
            ["--calls", count, rest @ ..] => (self.end(Until::Calls(positive(count)?)), rest),
            ["--seconds", count, rest @ ..] => (self.end(Until::Seconds(positive(count)?)), rest),
            ["--long", rest @ ..] => (self.end(Until::Seconds(LONG)), rest),
            ["--seed", word, rest @ ..] => (once(&mut self.seed, number(word)?, "seed"), rest),
            ["--fault", name, word, rest @ ..] => {
                self.kind = Some(Kind::named(name).ok_or(format!("no kind {name:?}"))?);
                (once(&mut self.seed, number(word)?, "seed"), rest)
            }
            ["--out", folder, rest @ ..] => {
                self.out = Some(PathBuf::from(folder));
                (Ok(()), rest)
            }
            _ => return Err(format!("{:?} is not known or lacks its value", words[0])),
        };
        taken.map(|()| rest)
    }

    fn run(self) -> Run {
        let until = self.until.unwrap_or(Until::Calls(CALLS));
        let timed = matches!(until, Until::Seconds(_));
        let usual = || if timed { clock() } else { SEED };
        let root = Path::new(env!("CARGO_MANIFEST_DIR")).ancestors().nth(2).expect("the repository");
        Run { until, seed: self.seed.unwrap_or_else(usual), kind: self.kind, out: self.out.unwrap_or(root.join(OUT)) }
    }
}

/// What the words ask for.
pub fn asked(words: &[String]) -> Result<Asked, String> {
    let words: Vec<&str> = words.iter().map(String::as_str).collect();
    if words.contains(&"--help") || words.contains(&"-h") {
        return Ok(Asked::Help);
    }
    let mut options = Options::default();
    let mut rest = &words[..];
    loop {
        rest = match rest {
            [] => return Ok(Asked::Run(options.run())),
            ["kinds"] => return Ok(Asked::Kinds),
            ["replay", file] => return Ok(Asked::Replay(PathBuf::from(file))),
            ["replay", ..] => return Err("replay takes one file".to_string()),
            _ => options.take(rest)?,
        }
    }
}
