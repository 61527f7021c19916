//! `years ASSUMPTIONS OUTDIR`: see USAGE.

use std::io::Write;
use std::path::Path;
use std::process::ExitCode;
use years::assumptions::{notes, parse, Assumptions};
use years::files::{is_same, remove, remove_unlike, Part};
use years::history::{self, History, Reading};
use years::page::page;
use years::view::View;
use years::{progress::Progress, script, swap_page, swap_words, table, words};

const USAGE: &str = "\
usage: years ASSUMPTIONS OUTDIR
Runs one station through the years that the file ASSUMPTIONS describes and writes to the folder OUTDIR:
  years.csv             a row for each reading
  summary.txt           what came of them
  years-assumptions.txt a copy of ASSUMPTIONS, where that isn't this file itself
  swapped-joint.csv     the readings around a swapped joint, where there is one
  years.gnuplot, loud-spell.gnuplot, faint-spell.gnuplot, noisy-joint.gnuplot, swapped-joint.gnuplot
                        a page each; gnuplot writes its picture to standard output
Those of an earlier run are replaced, and its pictures removed. The script years/run draws the pictures too.
";

/// The pages' names.
const PAGES: [&str; 5] = [
    "years",
    "loud-spell",
    "faint-spell",
    "noisy-joint",
    "swapped-joint",
];

/// The table of a swapped joint.
const SWAPPED: &str = "swapped-joint.csv";

fn main() -> ExitCode {
    let arguments: Vec<_> = std::env::args_os().skip(1).collect();
    if arguments.iter().any(|a| a == "--help" || a == "-h") {
        print!("{USAGE}");
        return ExitCode::SUCCESS;
    }
    let is_option = |a: &&std::ffi::OsString| a.as_encoded_bytes().starts_with(b"-");
    if let Some(option) = arguments.iter().find(is_option) {
        eprint!("no such option: {}\n{USAGE}", option.to_string_lossy());
        return ExitCode::from(2);
    }
    let [given, outdir] = &arguments[..] else {
        eprint!("{USAGE}");
        return ExitCode::from(2);
    };
    match run(Path::new(given), Path::new(outdir)) {
        Ok(summary) => {
            print!("{summary}");
            ExitCode::SUCCESS
        }
        Err((status, message)) => {
            eprintln!("{message}");
            ExitCode::from(status)
        }
    }
}

fn run(path: &Path, outdir: &Path) -> Result<String, (u8, String)> {
    let (text, given) = read(path).map_err(|message| (2, message))?;
    std::fs::create_dir_all(outdir)
        .map_err(|e| (1, format!("{}: can't be made: {e}", outdir.display())))?;
    let mut progress = Progress::new(given.readings());
    let history = history::run(&given, |done| progress.at(done)).map_err(|message| (1, message))?;
    let summary = table::summary(&given, &history);
    let mut texts = vec![("summary.txt".to_string(), summary.clone())];
    if !is_same(path, &outdir.join("years-assumptions.txt")) {
        texts.push(("years-assumptions.txt".to_string(), text));
    }
    let swapped = swap_words::csv(&given, &history.swapped);
    texts.extend(swapped.map(|text| (SWAPPED.to_string(), text)));
    texts.extend(scripts(&given, &history));
    write(&given, &history.readings, &texts, outdir).map_err(|message| (1, message))?;
    Ok(summary)
}

/// The assumptions in a file, as a text and as taken; what is to be noted of
/// them is told.
fn read(path: &Path) -> Result<(String, Assumptions), String> {
    let text = std::fs::read_to_string(path)
        .map_err(|e| format!("{}: can't be read: {e}", path.display()))?;
    let with_path = |lines: Vec<String>| {
        let lines = lines
            .iter()
            .map(|line| format!("{}: {line}", path.display()));
        lines.collect::<Vec<_>>().join("\n")
    };
    let given = parse(&text).map_err(with_path)?;
    let noted = notes(&text, &given);
    if !noted.is_empty() {
        eprintln!("{}", with_path(noted));
    }
    Ok((text, given))
}

/// Writes every file in full first. Then what an earlier run left goes, and
/// the new files take their names.
fn write(
    given: &Assumptions,
    readings: &[Reading],
    texts: &[(String, String)],
    outdir: &Path,
) -> Result<(), String> {
    let table = Part::write(outdir.join("years.csv"), |out| {
        table::csv(given, readings, out)
    })?;
    let part = |(name, text): &(String, String)| {
        Part::write(outdir.join(name), |out| out.write_all(text.as_bytes()))
    };
    let parts = texts.iter().map(part).collect::<Result<Vec<_>, _>>()?;
    clear(texts, outdir)?;
    let mut all = std::iter::once(table).chain(parts);
    all.try_for_each(Part::put_in_place)
}

/// Removes what would not belong to the new table.
fn clear(texts: &[(String, String)], outdir: &Path) -> Result<(), String> {
    let drawn = PAGES
        .iter()
        .flat_map(|name| ["png", "gnuplot"].map(|end| format!("{name}.{end}")));
    for (name, text) in texts {
        remove_unlike(&outdir.join(name), text)?;
    }
    drawn
        .chain([SWAPPED.to_string()])
        .map(|name| outdir.join(name))
        .try_for_each(|path| remove(&path))
}

/// The script of each page that there is.
fn scripts(given: &Assumptions, history: &History) -> Vec<(String, String)> {
    let readings = &history.readings;
    let years = words::count(given.years.into(), "year");
    let around = |mark: &str| format!("One station, the days around its {mark}");
    let views = [
        (
            Some(View::all(given, readings)),
            format!("One station, {years} of readings"),
        ),
        (
            View::near(given, readings, |x| x.loud),
            around("loud spell"),
        ),
        (
            View::near(given, readings, |x| x.faint),
            around("faint spell"),
        ),
        (
            View::near(given, readings, |x| x.joint),
            around("noisy joint"),
        ),
    ];
    let of_views = views
        .into_iter()
        .map(|(view, title)| Some(page(&view?, title)));
    let pages = of_views.chain([swap_page::page(given, &history.swapped)]);
    let named = PAGES.into_iter().zip(pages);
    let there = named.filter_map(|(name, page)| Some((name, page?)));
    there
        .map(|(name, page)| (format!("{name}.gnuplot"), script::script(&page)))
        .collect()
}
