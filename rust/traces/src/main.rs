//! Turns a text into the bytes of a trace and back, for `./tigbulode trace`: `traces make` and `traces show`, and
//! `traces bytes`, which makes them from a text and leaves bytes as they are. Exit status 1: something could not be
//! written; 2: bad arguments or input.

use std::io::Write;
use std::process::ExitCode;
use traces::files::{is_terminal, named, read, same, write};
use traces::trace::{Trace, MOST_BYTES};
use traces::{text, Problem};

/// It is a file of its own for `./tigbulode trace --help`, which builds nothing.
const USAGE: &str = include_str!("../usage.txt");
/// The most bytes of a text, and the most problems that are told.
const MOST_TEXT: u64 = 16 << 20;
const MOST_TOLD: usize = 20;

/// The lines for standard error and the exit status.
struct Failure(Vec<String>, u8);

fn bad(text: String) -> Failure {
    Failure(vec![text], 2)
}

fn main() -> ExitCode {
    let words: Vec<String> = std::env::args().skip(1).collect();
    match asked(&words.iter().map(String::as_str).collect::<Vec<_>>()) {
        Ok(()) => ExitCode::SUCCESS,
        Err(Failure(lines, status)) => {
            tell(&lines);
            ExitCode::from(status)
        }
    }
}

/// Does what the words ask for.
fn asked(words: &[&str]) -> Result<(), Failure> {
    let turned_down = |message: String| bad(format!("trace: {message}\n{}", USAGE.trim_end()));
    if words.iter().any(|word| ["--help", "-h"].contains(word)) {
        return put("-", USAGE.as_bytes());
    }
    let is_option = |word: &&str| word.starts_with('-') && *word != "-";
    let (options, names): (Vec<&str>, Vec<&str>) = words.iter().partition(|word| is_option(word));
    let (command, input, output) = match names[..] {
        [command] => (command, "-", "-"),
        [command, input] => (command, input, "-"),
        [command, input, output] => (command, input, output),
        [] => return Err(turned_down("make or show is wanted".to_string())),
        _ => return Err(turned_down(format!("{} files, but at most 2 are taken", names.len() - 1))),
    };
    match (command, &options[..]) {
        ("make", [] | ["--strict"]) => make(input, output, !options.is_empty(), false),
        ("bytes", []) => make(input, output, false, true),
        ("show", []) => show(input, output),
        ("make" | "bytes" | "show", _) => Err(turned_down(format!("no such option: {}", options.join(" ")))),
        _ => Err(turned_down(format!("{command} is neither make nor show"))),
    }
}

fn tell(lines: &[String]) {
    let lines: String = lines.iter().map(|line| format!("{line}\n")).collect();
    let _ = std::io::stderr().write_all(lines.as_bytes());
}

/// A line for each problem, and one for those that are left out, which are warnings first.
fn told(input: &str, strict: bool, problems: &[Problem]) -> Vec<String> {
    let name = named(input);
    let line = |problem: &Problem| {
        let kind = if problem.stop.is_some() && !strict { "warning: " } else { "" };
        format!("{name}: line {}: {kind}{}", problem.line, problem.text)
    };
    let mut first: Vec<&Problem> = problems.iter().collect();
    first.sort_by_key(|problem| problem.stop.is_some());
    first.truncate(MOST_TOLD);
    first.sort_by_key(|problem| problem.line);
    let mut lines: Vec<String> = first.into_iter().map(line).collect();
    if problems.len() > MOST_TOLD {
        lines.push(format!("{name}: {} more", problems.len() - MOST_TOLD));
    }
    lines
}

fn take(input: &str, output: &str, most: u64) -> Result<Vec<u8>, Failure> {
    if same(input, output) {
        return Err(bad(format!("{output}: input and output are the same file")));
    }
    read(input, most).map_err(bad)
}

fn put(output: &str, bytes: &[u8]) -> Result<(), Failure> {
    write(output, bytes).map_err(|text| Failure(vec![text], 1))
}

/// The bytes of a trace from a text. Bytes may be given too, where `or_bytes` says so: a trace has a byte 0, the sixth at
/// least, and a text has none.
fn make(input: &str, output: &str, strict: bool, or_bytes: bool) -> Result<(), Failure> {
    if is_terminal(output) {
        let hint = "name a file, or pipe it";
        return Err(bad(format!("trace: the bytes of a trace are not written to a terminal: {hint}")));
    }
    let given = take(input, output, MOST_TEXT + 1)?;
    if given.len() as u64 > MOST_TEXT {
        return Err(bad(format!("{}: more than {MOST_TEXT} bytes of text", named(input))));
    }
    if or_bytes && (given.is_empty() || given.contains(&0)) {
        tell(&Trace::of_bytes(&given).map_or_else(|reasons| no_trace(input, &reasons), |_| Vec::new()));
        return put(output, &given);
    }
    if given.contains(&0) {
        return Err(bad(format!("{}: a byte is 0, so it is no text; trace show makes one of a trace", named(input))));
    }
    match text::read(&String::from_utf8_lossy(&given)) {
        Ok((trace, refused)) if !strict || refused.is_empty() => {
            tell(&told(input, strict, &refused));
            put(output, &trace.bytes())
        }
        Ok((_, problems)) | Err(problems) => Err(Failure(told(input, strict, &problems), 2)),
    }
}

/// A line for each reason that bytes are no trace.
fn no_trace(input: &str, reasons: &[String]) -> Vec<String> {
    reasons.iter().map(|reason| format!("{}: no trace: {reason}", named(input))).collect()
}

fn show(input: &str, output: &str) -> Result<(), Failure> {
    let bytes = take(input, output, MOST_BYTES as u64 + 1)?;
    if !bytes.is_empty() && !bytes.contains(&0) {
        return Err(bad(format!("{}: no byte is 0, so it is no trace; trace make makes one of a text", named(input))));
    }
    let trace = Trace::of_bytes(&bytes).map_err(|reasons| Failure(no_trace(input, &reasons), 2))?;
    put(output, trace.text().as_bytes())
}
