//! `step_sizes`: see usage.txt.

use plots::files::{Files, Folder};
use plots::program::{self, Arguments, Failure};
use std::process::ExitCode;
use step_sizes::page::page;
use step_sizes::run::run;
use step_sizes::text::{read, Given};
use step_sizes::{run::Run, summary::summary, table};

const USAGE: &str = include_str!("../usage.txt");

fn main() -> ExitCode {
    program::main(USAGE, step_sizes)
}

fn step_sizes(asked: Arguments) -> Result<String, Failure> {
    let file = asked.file.ok_or(Failure::wrong(USAGE.trim_end()))?;
    let text = program::read(&file)?;
    let given = read(&text, &asked.changes).map_err(|wrong| Failure::of_text(&file.display().to_string(), &wrong))?;
    let folder = Folder::make(asked.outdir, "step-sizes").map_err(Failure::undone)?;
    let runs = runs(&given).map_err(Failure::undone)?;
    let name = file.file_name().unwrap_or_default().to_string_lossy();
    let summary = summary(&given, &runs);
    let changes: String = asked.changes.iter().map(|change| format!("# changed: {change}\n")).collect();
    let files = Files {
        texts: vec![
            ("step-sizes.csv", table::csv(&given, &runs)),
            ("readings.csv", table::readings(&given, &runs)),
            ("summary.txt", summary.clone()),
            ("cable.txt", text + &changes),
        ],
        pages: vec![("step-sizes", page(&given, &runs, &name))],
        earlier: &["step-sizes"],
    };
    let written = files.write(&folder);
    program::print(summary)?;
    written.map_err(Failure::undone)
}

fn runs(given: &Given) -> Result<Vec<Run>, String> {
    let steps = given.steps.iter().cloned().enumerate();
    let runs = steps.map(|(place, step)| {
        eprintln!("step size {} of {}: M = {}", place + 1, given.steps.len(), step.m);
        run(given, step)
    });
    runs.collect()
}
