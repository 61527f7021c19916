//! `lab FILE OUTDIR`: see USAGE.

use lab::cable::traces;
use lab::page::page;
use lab::run::run;
use lab::script::script;
use lab::text::read;
use lab::{readings, summary, table};
use std::ffi::OsString;
use std::io::Write;
use std::path::Path;
use std::process::ExitCode;
use traces::trace::Trace;
use traces::Problem;
use years::files::{is_same, remove, Part};

const USAGE: &str = "\
usage: lab FILE OUTDIR
Runs the cable that the text FILE describes with each of its step sizes and writes to the folder OUTDIR:
  lab.csv       a row for each step size and block
  readings.csv  a row for each step size and sample: y and the error
  summary.txt   what came of them
  lab.gnuplot   the page; gnuplot writes its picture to standard output
  lab-cable.txt a copy of FILE, where that isn't this file itself
Those of an earlier run are replaced, and its picture removed. The script lab/run draws the picture too.
";

/// The most problems that are told.
const MOST_TOLD: usize = 20;

/// The copy of the text.
const COPY: &str = "lab-cable.txt";

/// An exit status and the lines for standard error.
type Failure = (u8, String);

fn main() -> ExitCode {
    let words: Vec<OsString> = std::env::args_os().skip(1).collect();
    if words.iter().any(|word| word == "--help" || word == "-h") {
        print!("{USAGE}");
        return ExitCode::SUCCESS;
    }
    let is_option = |word: &&OsString| word.as_encoded_bytes().starts_with(b"-");
    let done = match (words.iter().find(is_option), &words[..]) {
        (Some(option), _) => {
            let option = option.to_string_lossy();
            Err((2, format!("no such option: {option}\n{}", USAGE.trim_end())))
        }
        (None, [file, outdir]) => lab(Path::new(file), Path::new(outdir)),
        _ => Err((2, USAGE.trim_end().to_string())),
    };
    match done.and_then(print) {
        Ok(()) => ExitCode::SUCCESS,
        Err((status, lines)) => {
            eprintln!("{lines}");
            ExitCode::from(status)
        }
    }
}

/// The summary to standard output, which may be a full disk or a closed pipe.
fn print(summary: String) -> Result<(), Failure> {
    let mut out = std::io::stdout().lock();
    let written = out.write_all(summary.as_bytes()).and_then(|()| out.flush());
    written.map_err(|error| {
        let sentence = "the summary can't be written to standard output";
        (1, format!("{sentence}: {error}; summary.txt has it"))
    })
}

/// Problems with the file's name, in the order of lines.
fn told(file: &Path, problems: Vec<Problem>) -> Failure {
    let name = file.display();
    let more = problems.len().saturating_sub(MOST_TOLD);
    let first = problems.into_iter().take(MOST_TOLD);
    let mut lines: Vec<String> = first
        .map(|problem| format!("{name}: line {}: {}", problem.line, problem.text))
        .collect();
    if more > 0 {
        lines.push(format!("{name}: and {more} more problems"));
    }
    (2, lines.join("\n"))
}

fn text(file: &Path) -> Result<String, Failure> {
    let bytes = std::fs::read(file)
        .map_err(|error| (2, format!("{}: can't be read: {error}", file.display())))?;
    String::from_utf8(bytes).map_err(|error| {
        let before = &error.as_bytes()[..error.utf8_error().valid_up_to()];
        let line = 1 + before.iter().filter(|byte| **byte == b'\n').count();
        told(
            file,
            vec![Problem::new(line, "not a text in UTF-8; save it as one")],
        )
    })
}

fn lab(file: &Path, outdir: &Path) -> Result<String, Failure> {
    let text = text(file)?;
    let given = read(&text).map_err(|problems| told(file, problems))?;
    let made = traces(&given).map_err(|problem| told(file, vec![problem]))?;
    let sent = given.symbols.plain();
    let steps = made.len();
    let mut runs = Vec::new();
    for (place, (step, bytes)) in made.into_iter().enumerate() {
        eprintln!("step size {} of {steps}: M = {}", place + 1, step.m);
        let trace = Trace::of_bytes(&bytes).map_err(|wrong| (1, wrong.join("\n")))?;
        let ran = run(step, &trace, &sent, given.training.value);
        runs.push(ran.map_err(|message| (1, message))?);
    }
    let summary = summary::summary(&given, &runs);
    let name = file.file_name().unwrap_or_default().to_string_lossy();
    let mut texts = vec![
        ("lab.csv", table::csv(&given, &runs)),
        ("readings.csv", readings::csv(&given, &runs)),
        ("summary.txt", summary.clone()),
        ("lab.gnuplot", script(&page(&given, &runs, &name))),
    ];
    if !is_same(file, &outdir.join(COPY)) {
        texts.push((COPY, text));
    }
    write(&texts, outdir).map_err(|message| (1, message))?;
    Ok(summary)
}

/// Writes every file in full first. Then what an earlier run left beside its
/// table goes, and the new files take their names, the table first.
fn write(texts: &[(&str, String)], outdir: &Path) -> Result<(), String> {
    if outdir.exists() && !outdir.is_dir() {
        return Err(format!("{}: is not a folder", outdir.display()));
    }
    std::fs::create_dir_all(outdir)
        .map_err(|error| format!("{}: can't be made: {error}", outdir.display()))?;
    let part = |(name, text): &(&str, String)| {
        Part::write(outdir.join(name), |out| out.write_all(text.as_bytes()))
    };
    let parts: Vec<Part> = texts.iter().map(part).collect::<Result<_, _>>()?;
    remove(&outdir.join("lab.png"))?;
    for (name, _) in &texts[1..] {
        remove(&outdir.join(name))?;
    }
    parts.into_iter().try_for_each(Part::put_in_place)
}
