//! `years`: see usage.txt.

use plots::files::{Files, Folder};
use plots::program::{self, Arguments, Failure};
use plots::{page::Page, words};
use std::process::ExitCode;
use years::assumptions::{read, Assumptions};
use years::history::{self, History};
use years::page::page;
use years::view::View;
use years::{progress::Progress, swap_page, swap_words, table};

/// The names of all pages.
const PAGES: [&str; 5] = ["years", "loud-spell", "faint-spell", "noisy-joint", "swapped-joint"];

fn main() -> ExitCode {
    program::main(include_str!("../usage.txt"), run)
}

fn run(asked: Arguments) -> Result<String, Failure> {
    let given = assumptions(&asked)?;
    let folder = Folder::make(asked.outdir, "years").map_err(Failure::undone)?;
    let mut progress = Progress::new(given.readings());
    let history = history::run(&given, |reading, _| progress.at(reading.number + 1)).map_err(Failure::undone)?;
    let summary = table::summary(&given, &history);
    let mut texts = vec![
        ("years.csv", table::csv(&given, &history.readings)),
        ("summary.txt", summary.clone()),
        ("assumptions.txt", given.text.clone()),
    ];
    texts.extend(swap_words::csv(&given, &history.swapped).map(|text| ("swapped-joint.csv", text)));
    let files = Files { texts, pages: pages(&given, &history), earlier: &PAGES };
    let written = files.write(&folder);
    program::print(summary)?;
    written.map_err(Failure::undone)
}

/// The assumptions that are asked for; what is to be noted of them is told.
fn assumptions(asked: &Arguments) -> Result<Assumptions, Failure> {
    let name = asked.file.as_ref().map_or(String::new(), |file| file.display().to_string());
    let text = asked.file.as_ref().map_or(Ok(String::new()), |file| program::read(file))?;
    let (given, noted) = read(&text, &asked.changes).map_err(|problems| Failure::of_text(&name, &problems))?;
    noted.iter().for_each(|note| eprintln!("{}", note.told(&name)));
    Ok(given)
}

/// The pages that there are.
fn pages(given: &Assumptions, history: &History) -> Vec<(&'static str, Page)> {
    let readings = &history.readings;
    let years = words::count(given.years, "year");
    let around = |mark: &str| format!("One station, the days around its {mark}");
    let views = [
        (Some(View::all(given, readings)), format!("One station, {years} of readings")),
        (View::near(given, readings, |x| x.loud), around("loud spell")),
        (View::near(given, readings, |x| x.faint), around("faint spell")),
        (View::near(given, readings, |x| x.joint), around("noisy joint")),
    ];
    let of_views = views.into_iter().map(|(view, title)| Some(page(&view?, title)));
    let all = of_views.chain([swap_page::page(given, &history.swapped)]);
    PAGES.into_iter().zip(all).filter_map(|(name, page)| Some((name, page?))).collect()
}
