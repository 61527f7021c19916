//! Many lists of calls with cables between them, until enough were made or one fails; a failing list or cable is made
//! short and saved.

use crate::bench::{Bench, Failure, Step};
use crate::cables::cables;
use crate::format::{self, Saved};
use crate::kinds::{with_sides, Kind};
use crate::progress::Progress;
use crate::report::covered;
use crate::shrink::shrink;
use crate::stop;
use std::path::{Path, PathBuf};

/// When a run ends.
#[derive(Clone, Copy, Debug, PartialEq, Eq)]
pub enum Until {
    Calls(u64),
    Seconds(u64),
}

impl Until {
    /// How far a run is.
    pub fn so_far(self, calls: u64, seconds: u64) -> String {
        let calls = grouped(calls);
        match self {
            Until::Calls(count) => format!("{calls} of {} calls, {seconds} s", grouped(count)),
            Until::Seconds(end) => format!("{calls} calls, {seconds} of {end} s"),
        }
    }

    /// Whether a run is at its end, or was stopped.
    fn ended(self, calls: u64, seconds: u64) -> bool {
        match self {
            _ if stop::noted().is_some() => true,
            Until::Calls(count) => calls >= count,
            Until::Seconds(end) => seconds >= end,
        }
    }
}

/// A number with a comma before every three digits.
fn grouped(number: u64) -> String {
    match number {
        0..1000 => number.to_string(),
        _ => format!("{},{:03}", grouped(number / 1000), number % 1000),
    }
}

/// A run that is asked for.
#[derive(Clone, Debug, PartialEq, Eq)]
pub struct Run {
    pub until: Until,
    pub seed: u64,
    pub kind: Option<Kind>,
    /// The folder for a failing list.
    pub out: PathBuf,
}

/// What is printed, and the exit status.
pub type Verdict = (String, u8);

/// A run that saw no difference and came to its end, or was stopped; then the exit status is the one that shells give
/// for the signal.
fn seen(text: String) -> Verdict {
    match stop::noted() {
        None => (format!("{text}no difference\n"), 0),
        Some((name, number)) => {
            (format!("{text}stopped by a signal, {name}: no difference up to there\n"), 128 + number as u8)
        }
    }
}

/// What fails, and its place in the run.
pub struct Found {
    pub place: String,
    pub steps: Vec<Step>,
    pub failure: Failure,
}

/// What fails first in a run, if anything does up to its end or a signal.
pub fn found(run: &Run, bench: &mut Bench) -> Option<Found> {
    let mut progress = Progress::new();
    let mut goes_on = |calls: u64| {
        progress.show(|seconds| run.until.so_far(calls, seconds));
        !run.until.ended(calls, progress.seconds())
    };
    let (mut list, mut found) = (0, None);
    while found.is_none() && goes_on(bench.counts.of("calls")) {
        let (steps, failure) = bench.made(run.seed, list, &mut goes_on);
        let failing = failure.map(|failure| Found { place: format!("list {list}"), steps, failure });
        found = failing.or_else(|| failing_cable(run.seed, list, bench));
        bench.counts.add("lists", true);
        list += 1;
    }
    progress.clear();
    found
}

/// One of the cables after a list that fails.
fn failing_cable(seed: u64, list: u64, bench: &mut Bench) -> Option<Found> {
    cables(seed, list).into_iter().enumerate().find_map(|(place, lent)| {
        let steps = vec![Step::Cable(lent)];
        let failure = bench.list(&steps).err()?;
        Some(Found { place: format!("list {list}, cable {place}"), steps, failure })
    })
}

/// The first failure of a list from its start.
pub fn failure_of(kind: Option<Kind>, steps: &[Step]) -> Option<Failure> {
    with_sides(kind, |sides| Bench::new(sides).list(steps).err())
}

/// A short list that fails in the same check. A signal ends the search.
pub fn shrunk(kind: Option<Kind>, steps: Vec<Step>, failure: &Failure) -> Vec<Step> {
    let check = &failure.check;
    let mut fails = |steps: &[Step]| {
        let failure = stop::noted().map_or_else(|| failure_of(kind, steps), |_| None);
        failure.is_some_and(|failure| failure.check == *check)
    };
    shrink(steps, &mut fails)
}

/// Runs what is asked for, until its end or a signal. A folder that can't be had is an error.
pub fn run(run: &Run) -> Result<Verdict, String> {
    std::fs::create_dir_all(&run.out).map_err(|error| format!("{}: {error}", run.out.display()))?;
    Ok(with_sides(run.kind, |sides| {
        let mut bench = Bench::new(sides);
        match found(run, &mut bench) {
            Some(found) => failed(run, found),
            None => seen(covered(&bench)),
        }
    }))
}

/// Makes what fails short and saves it.
fn failed(run: &Run, Found { place, steps, failure }: Found) -> Verdict {
    let from = format!("seed {}, {place}", run.seed);
    let samples = |steps: &[Step]| steps.iter().map(Step::samples).sum::<usize>();
    let (count, all) = (steps.len(), samples(&steps));
    let short = shrunk(run.kind, steps, &failure);
    let again = failure_of(run.kind, &short).unwrap_or_else(|| failure.clone());
    let made = format!("made short: {} of {count} calls, {} of {all} samples", short.len(), samples(&short));
    let saved = Saved { kind: run.kind, steps: short };
    let saved = saved_in(run, &from, &format::text(&saved, &format!("{from}\n{again}")));
    (format!("{from}, {failure}\n{made}\n{again}\n{saved}"), 1)
}

/// Saves a text, and says where; where it can't be saved it is told whole.
fn saved_in(run: &Run, from: &str, text: &str) -> String {
    let kind = run.kind.map(|kind| format!("-{}", kind.name())).unwrap_or_default();
    let path = run.out.join(format!("{}{kind}.calls", from.replace(", ", "-").replace(' ', "-")));
    match format::write(&path, text) {
        Ok(()) => {
            let path = path.display();
            format!("saved: {path}\nonce more: ./tigbulode soak replay {path}\n")
        }
        Err(error) => format!("not saved: {error}\n{text}"),
    }
}

/// Makes the calls of a saved list, or a saved cable, again.
pub fn replay(path: &Path) -> Result<Verdict, String> {
    let Saved { kind, steps } = format::read(path)?;
    let fault = kind.map(|kind| format!(", fault {}", kind.name())).unwrap_or_default();
    let what = format!("{} calls{fault}\n", steps.len());
    Ok(match failure_of(kind, &steps) {
        Some(failure) => (format!("{what}{failure}\n"), 1),
        None => (format!("{what}no difference\n"), 0),
    })
}
