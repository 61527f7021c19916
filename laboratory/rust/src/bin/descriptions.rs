//! Pipes descriptions through the program `cable`, and what that writes through
//! the program `trace`, and compares: `descriptions CABLE TRACE FILE`, with the
//! paths of the two programs and a file such as `laboratory/descriptions.bin`.
//! Each comparison is also made with changed expectations, which must be told
//! apart. Exit status 1: a difference, with its place; 2: bad arguments or files.

use std::fmt::Write as _;
use std::io::{Read, Write as _};
use std::process::{Command, ExitCode, Stdio};

const USAGE: &str = "usage: descriptions CABLE TRACE FILE";

/// An input of the program `cable`, what it writes, and what the program
/// `trace` writes for that.
struct Described<'a> {
    input: &'a [u8],
    written: &'a [u8],
    text: &'a [u8],
}

impl Described<'_> {
    /// Whether a line is written, and no trace.
    fn is_line(&self) -> bool {
        self.written.starts_with(b"cable: ")
    }
}

/// A count of four bytes and so many bytes after it, from the front of `file`.
fn part<'a>(file: &mut &'a [u8]) -> Option<&'a [u8]> {
    let (count, rest) = file.split_first_chunk::<4>()?;
    let count = u32::from_le_bytes(*count) as usize;
    let (part, rest) = rest.split_at_checked(count)?;
    *file = rest;
    Some(part)
}

/// The inputs of a file.
fn described(mut file: &[u8]) -> Result<Vec<Described<'_>>, String> {
    let mut all = Vec::new();
    while !file.is_empty() {
        let parts = [(); 3].map(|()| part(&mut file));
        let [Some(input), Some(written), Some(text)] = parts else {
            return Err(format!("input {} breaks off", all.len()));
        };
        all.push(Described {
            input,
            written,
            text,
        });
    }
    match all.len() {
        0 => Err("it has no input".to_string()),
        _ => Ok(all),
    }
}

/// What a program writes for an input. It may end without reading it all.
fn piped(program: &str, input: &[u8]) -> Result<Vec<u8>, String> {
    let told = |error: std::io::Error| format!("{program}: {error}");
    let mut command = Command::new(program);
    command.stdin(Stdio::piped()).stdout(Stdio::piped());
    let mut child = command.spawn().map_err(told)?;
    let (stdin, stdout) = (child.stdin.take(), child.stdout.take());
    let mut written = Vec::new();
    let read = std::thread::scope(|scope| {
        scope.spawn(|| stdin.map(|mut stdin| stdin.write_all(input)));
        stdout.map_or(Ok(0), |mut stdout| stdout.read_to_end(&mut written))
    });
    read.map_err(told)?;
    match child.wait().map_err(told)? {
        status if status.success() => Ok(written),
        status => Err(format!("{program}: {status}")),
    }
}

/// The place of the first byte in which two lists differ, if they do.
fn apart(one: &[u8], other: &[u8]) -> Option<usize> {
    let same = one.iter().zip(other).take_while(|(a, b)| a == b).count();
    (one != other).then_some(same)
}

/// What is wrong with what the two programs wrote, if anything is.
fn wrong(expected: [&[u8]; 2], written: [&[u8]; 2]) -> Option<String> {
    let parts = ["cable", "trace"].into_iter().zip(expected).zip(written);
    let mut faults = parts.filter_map(|((program, expected), written)| {
        let place = apart(expected, written)?;
        Some(format!("{program} writes something else from byte {place}"))
    });
    faults.next()
}

/// Others than these bytes: none, one less, one more, a bit changed.
fn others(bytes: &[u8], place: usize) -> [Vec<u8>; 4] {
    let mut bit = bytes.to_vec();
    let at = place * 7919 % bytes.len().max(1);
    bit.iter_mut().skip(at).take(1).for_each(|byte| *byte ^= 1);
    let less = &bytes[..bytes.len().saturating_sub(1)];
    [Vec::new(), less.to_vec(), [bytes, b"\0"].concat(), bit]
}

/// What was seen.
#[derive(Default)]
struct Tally {
    lines: usize,
    traces: usize,
    tried: usize,
    told: usize,
}

impl Tally {
    /// Changed expectations of each program, and a trace that stops.
    fn try_changed(&mut self, place: usize, seen: [&[u8]; 2]) {
        let [written, text] = seen;
        let of_cable = others(written, place).map(|other| wrong([&other, text], seen));
        let of_trace = others(text, place).map(|other| wrong([written, &other], seen));
        let stopped = wrong([written, &[text, b"stop 6 1\n"].concat()], seen);
        for wrong in of_cable.into_iter().chain(of_trace).chain([stopped]) {
            self.tried += 1;
            self.told += usize::from(wrong.is_some());
        }
    }

    fn text(&self) -> String {
        let mut text = String::new();
        let all = self.lines + self.traces;
        let (lines, traces) = (self.lines, self.traces);
        let _ = writeln!(text, "descriptions {all}: traces {traces}, lines {lines}");
        let (told, tried) = (self.told, self.tried);
        let _ = writeln!(text, "changed expectations told apart: {told} of {tried}");
        text
    }
}

/// Pipes one input; gives what is wrong.
fn try_one(
    tally: &mut Tally,
    place: usize,
    one: &Described,
    programs: [&str; 2],
) -> Result<(), String> {
    let written = piped(programs[0], one.input)?;
    let text = piped(programs[1], &written)?;
    if let Some(wrong) = wrong([one.written, one.text], [&written, &text]) {
        return Err(wrong);
    }
    match one.is_line() {
        true => tally.lines += 1,
        false => tally.traces += 1,
    }
    tally.try_changed(place, [&written, &text]);
    Ok(())
}

/// What is printed, and whether all was well.
fn run(all: &[Described], programs: [&str; 2]) -> (String, bool) {
    let mut tally = Tally::default();
    for (place, one) in all.iter().enumerate() {
        if let Err(wrong) = try_one(&mut tally, place, one, programs) {
            return (format!("description {place}: {wrong}\n"), false);
        }
    }
    match tally.told == tally.tried {
        true => (tally.text() + "no difference\n", true),
        false => (tally.text(), false),
    }
}

fn bad(message: &str) -> ExitCode {
    eprintln!("descriptions: {message}");
    ExitCode::from(2)
}

fn main() -> ExitCode {
    let words: Vec<String> = std::env::args().skip(1).collect();
    let (programs, name) = match &words[..] {
        [word] if word == "--help" || word == "-h" => {
            println!("{USAGE}");
            return ExitCode::SUCCESS;
        }
        [cable, trace, file] => ([&cable[..], &trace[..]], file),
        _ => return bad(&format!("{} arguments, 3 are taken\n{USAGE}", words.len())),
    };
    let file = match std::fs::read(name) {
        Ok(file) => file,
        Err(error) => return bad(&format!("{name}: {error}")),
    };
    let (text, good) = match described(&file) {
        Ok(all) => run(&all, programs),
        Err(wrong) => return bad(&format!("{name}: {wrong}")),
    };
    print!("{text}");
    match good {
        true => ExitCode::SUCCESS,
        false => ExitCode::FAILURE,
    }
}
