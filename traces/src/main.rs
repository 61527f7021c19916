//! Turns a text into a trace and back: `traces make` and `traces show`, for the
//! scripts of the same names. Exit status 1: something could not be written; 2:
//! bad arguments or input.

use std::io::Write;
use std::process::ExitCode;
use traces::arguments::{asked, Asked, USAGE};
use traces::files::{named, read, same, write};
use traces::refusals::refusals;
use traces::trace::{Trace, MOST_BYTES};
use traces::{show, text, Problem};

/// The most bytes of a text, and the most problems that are told.
const MOST_TEXT: u64 = 16 << 20;
const MOST_TOLD: usize = 20;

/// The lines for standard error and the exit status.
struct Failure(Vec<String>, u8);

fn bad(text: String) -> Failure {
    Failure(vec![text], 2)
}

fn main() -> ExitCode {
    let words: Vec<String> = std::env::args().skip(1).collect();
    let done = match asked(&words) {
        Ok(Asked::Help) => put("-", USAGE.as_bytes()),
        Ok(Asked::Make {
            strict,
            input,
            output,
        }) => make(strict, &input, &output),
        Ok(Asked::Show { input, output }) => show(&input, &output),
        Err(message) => Err(bad(format!("traces: {message}\n{}", USAGE.trim_end()))),
    };
    match done {
        Ok(()) => ExitCode::SUCCESS,
        Err(Failure(lines, status)) => {
            tell(&lines);
            ExitCode::from(status)
        }
    }
}

fn tell(lines: &[String]) {
    let lines: String = lines.iter().map(|line| format!("{line}\n")).collect();
    let _ = std::io::stderr().write_all(lines.as_bytes());
}

/// A line for each problem, and one for those that are left out.
fn told(input: &str, kind: &str, problems: &[Problem]) -> Vec<String> {
    let name = named(input);
    let first = problems.iter().take(MOST_TOLD);
    let mut lines: Vec<String> = first
        .map(|problem| format!("{name}: line {}: {kind}{}", problem.line, problem.text))
        .collect();
    if problems.len() > MOST_TOLD {
        let more = problems.len() - MOST_TOLD;
        lines.push(format!("{name}: {more} more"));
    }
    lines
}

fn take(input: &str, output: &str, most: u64) -> Result<Vec<u8>, Failure> {
    if same(input, output) {
        return Err(bad(format!("{output}: input and output are the same file")));
    }
    read(input, most).map_err(bad)
}

fn put(output: &str, bytes: &[u8]) -> Result<(), Failure> {
    write(output, bytes).map_err(|text| Failure(vec![text], 1))
}

fn make(strict: bool, input: &str, output: &str) -> Result<(), Failure> {
    let bytes = take(input, output, MOST_TEXT + 1)?;
    if bytes.len() as u64 > MOST_TEXT {
        let name = named(input);
        return Err(bad(format!("{name}: more than {MOST_TEXT} bytes of text")));
    }
    let read = text::read(&String::from_utf8_lossy(&bytes));
    let read = read.map_err(|problems| Failure(told(input, "", &problems), 2))?;
    let refusals = refusals(&read).into_iter();
    let refused: Vec<Problem> = refusals.map(|refusal| refusal.problem).collect();
    if strict && !refused.is_empty() {
        return Err(Failure(told(input, "", &refused), 2));
    }
    tell(&told(input, "warning: ", &refused));
    put(output, &read.trace.bytes())
}

fn show(input: &str, output: &str) -> Result<(), Failure> {
    let bytes = take(input, output, MOST_BYTES as u64 + 1)?;
    let trace = Trace::of_bytes(&bytes).map_err(|reasons| {
        let reasons = reasons.iter();
        let lines = reasons.map(|reason| format!("{}: no trace: {reason}", named(input)));
        Failure(lines.collect(), 2)
    })?;
    put(output, show::text(&trace).as_bytes())
}
