//! Many lists of calls with cables between them, until enough were made or one
//! fails; a failing list or cable is made short and saved.

use crate::bench::{Bench, Failing, Failure};
use crate::cables::bench::{CableBench, Side};
use crate::cables::format::{self as cable_format, SavedCable};
use crate::cables::shrink::shrink as shrink_cable;
use crate::cables::{CableInputs, CableMaker, PER_LIST};
use crate::faults::{Fault, Faulty};
use crate::format::{self, Saved};
use crate::lists::Lister;
use crate::progress::Progress;
use crate::report::covered;
use crate::shrink::shrink;
use crate::stop;
use std::path::{Path, PathBuf};
use tigbulode::calls::Call;
use tigbulode::sides::{Library, Second};

/// When a run ends.
#[derive(Clone, Copy, Debug, PartialEq, Eq)]
pub enum Until {
    Calls(u64),
    Seconds(u64),
}

impl Until {
    /// How far a run is.
    pub fn so_far(self, calls: u64, seconds: u64) -> String {
        let calls = grouped(calls);
        match self {
            Until::Calls(count) => format!("{calls} of {} calls, {seconds} s", grouped(count)),
            Until::Seconds(end) => format!("{calls} calls, {seconds} of {end} s"),
        }
    }
}

/// A number with a comma before every three digits.
fn grouped(number: u64) -> String {
    match number {
        0..1000 => number.to_string(),
        _ => format!("{},{:03}", grouped(number / 1000), number % 1000),
    }
}

/// A run that is asked for.
#[derive(Clone, Debug, PartialEq, Eq)]
pub struct Run {
    pub until: Until,
    pub seed: u64,
    pub fault: Option<Fault>,
    /// The folder for a failing list.
    pub out: PathBuf,
}

/// What is printed, and the exit status.
pub struct Verdict {
    pub text: String,
    pub status: u8,
}

impl Verdict {
    pub fn good(text: String) -> Verdict {
        Verdict { text, status: 0 }
    }

    fn failing(text: String) -> Verdict {
        Verdict { text, status: 1 }
    }

    /// A run that saw no difference and came to its end, or was stopped; then
    /// the exit status is the one that shells give for the signal.
    fn seen(text: String) -> Verdict {
        let Some((name, number)) = stop::noted() else {
            return Verdict::good(format!("{text}no difference\n"));
        };
        Verdict {
            text: format!("{text}stopped by a signal, {name}: no difference up to there\n"),
            status: 128 + number as u8,
        }
    }
}

/// Both sides, with a fault or without, for `work`.
pub fn with_sides<T>(fault: Option<Fault>, work: impl FnOnce(&dyn Side, &dyn Side) -> T) -> T {
    let Some(fault) = fault else {
        return work(&Library, &Second);
    };
    let library = Faulty::new(&Library, fault);
    let second = Faulty::new(&Second, fault);
    if fault.in_both() {
        work(&library, &second)
    } else {
        work(&library, &Second)
    }
}

/// What fails, by its place in the run.
enum Found {
    List {
        list: u64,
        calls: Vec<Call>,
        failure: Failure,
    },
    Cable {
        list: u64,
        place: u64,
        lent: CableInputs,
        failing: Failing,
    },
}

struct Running<'a> {
    run: &'a Run,
    bench: Bench<'a>,
    cables: CableBench<'a>,
    calls: u64,
    lists: u64,
    progress: Progress,
}

impl Running<'_> {
    fn ended(&self) -> bool {
        if stop::noted().is_some() {
            return true;
        }
        match self.run.until {
            Until::Calls(count) => self.calls >= count,
            Until::Seconds(seconds) => self.progress.seconds() >= seconds,
        }
    }

    /// Makes one list; gives it if it fails.
    fn list(&mut self) -> Option<Found> {
        let mut calls = Vec::new();
        self.bench.start_list();
        let made = self.calls(&mut calls);
        let failure = made.and_then(|()| self.bench.end_list()).err()?;
        let list = self.lists;
        Some(Found::List {
            list,
            calls,
            failure,
        })
    }

    /// Makes the calls of a list to its end, or to the end of the run.
    fn calls(&mut self, calls: &mut Vec<Call>) -> Result<(), Failure> {
        let mut lister = Lister::new(self.run.seed, self.lists);
        while !self.ended() {
            let Some(call) = lister.next(self.bench.record()) else {
                break;
            };
            calls.push(call.clone());
            let image = self.bench.call(&call)?;
            image.iter().for_each(|image| lister.keep(image));
            self.calls += 1;
            let (until, calls) = (self.run.until, self.calls);
            self.progress.show(|seconds| until.so_far(calls, seconds));
        }
        Ok(())
    }

    /// The cables after a list; gives one that fails.
    fn cables(&mut self) -> Option<Found> {
        let list = self.lists;
        let mut maker = CableMaker::new(self.run.seed, list);
        (0..PER_LIST).find_map(|place| {
            let lent = maker.cable();
            let failing = self.cables.cable(&lent).err()?;
            Some(Found::Cable {
                list,
                place,
                lent,
                failing,
            })
        })
    }

    /// Makes lists and cables until the end or a failure.
    fn lists(&mut self) -> Option<Found> {
        while !self.ended() {
            if let Some(found) = self.list().or_else(|| self.cables()) {
                return Some(found);
            }
            self.lists += 1;
        }
        None
    }
}

/// The first failure of a list from its start.
pub fn failure_of(fault: Option<Fault>, calls: &[Call]) -> Option<Failure> {
    with_sides(fault, |library, second| {
        Bench::new(library, second).list(calls).err()
    })
}

/// A short list that fails in the same check. A signal ends the search.
pub fn shrunk(fault: Option<Fault>, calls: Vec<Call>, failure: &Failure) -> Vec<Call> {
    let check = &failure.failing.check;
    let mut fails = |calls: &[Call]| {
        let failure = match stop::noted() {
            Some(_) => None,
            None => failure_of(fault, calls),
        };
        failure.is_some_and(|failure| failure.failing.check == *check)
    };
    shrink(calls, &mut fails)
}

/// What fails with a cable.
pub fn failing_of(fault: Option<Fault>, lent: &CableInputs) -> Option<Failing> {
    with_sides(fault, |library, second| {
        CableBench::new(library, second).cable(lent).err()
    })
}

/// A simple cable that fails in the same check. A signal ends the search.
pub fn shrunk_cable(fault: Option<Fault>, lent: CableInputs, failing: &Failing) -> CableInputs {
    let mut fails = |lent: &CableInputs| {
        let failing_now = match stop::noted() {
            Some(_) => None,
            None => failing_of(fault, lent),
        };
        failing_now.is_some_and(|now| now.check == failing.check)
    };
    shrink_cable(lent, &mut fails)
}

/// Runs what is asked for, until its end or a signal. A folder that can't be had is an error.
pub fn run(run: &Run) -> Result<Verdict, String> {
    std::fs::create_dir_all(&run.out).map_err(|error| format!("{}: {error}", run.out.display()))?;
    let verdict = with_sides(run.fault, |library, second| {
        let mut running = Running {
            run,
            bench: Bench::new(library, second),
            cables: CableBench::new(library, second),
            calls: 0,
            lists: 0,
            progress: Progress::new(),
        };
        let found = running.lists();
        running.progress.clear();
        match found {
            Some(found) => failed(run, found),
            None => Verdict::seen(counts(&running)),
        }
    });
    Ok(verdict)
}

/// What a run has covered.
fn counts(running: &Running) -> String {
    let counts = format!("{} lists, {} calls\n", running.lists, running.calls);
    format!(
        "{counts}{}{}",
        covered(&running.bench),
        running.cables.tally
    )
}

/// Makes what fails short and saves it.
fn failed(run: &Run, found: Found) -> Verdict {
    match found {
        Found::List {
            list,
            calls,
            failure,
        } => failed_list(run, list, calls, failure),
        Found::Cable {
            list,
            place,
            lent,
            failing,
        } => failed_cable(run, (list, place), lent, failing),
    }
}

/// The name of a file for what failed at a place of the run.
fn name(run: &Run, place: &str, ending: &str) -> String {
    let fault = run.fault.map(|fault| format!("-{}", fault.name()));
    let fault = fault.unwrap_or_default();
    format!("seed-{}-{place}{fault}.{ending}", run.seed)
}

/// Saves a text, and says where; where it can't be saved it is told whole.
fn saved(run: &Run, name: &str, text: &str) -> String {
    let path = run.out.join(name);
    match format::write(&path, text) {
        Ok(()) => {
            let path = path.display();
            format!("saved: {path}\nonce more: soak/run replay {path}\n")
        }
        Err(error) => format!("not saved: {error}\n{text}"),
    }
}

fn failed_list(run: &Run, list: u64, calls: Vec<Call>, failure: Failure) -> Verdict {
    let from = format!("seed {}, list {list}", run.seed);
    let mut text = format!("{from}, {failure}\n");
    let count = calls.len();
    let calls = shrunk(run.fault, calls, &failure);
    let failure = failure_of(run.fault, &calls).unwrap_or(failure);
    let (short, samples) = (calls.len(), samples(&calls));
    text += &format!("made short: {short} of {count} calls, {samples} samples\n{failure}\n");
    let list_ = Saved {
        fault: run.fault,
        calls,
    };
    let list_ = format::text(&list_, &format!("{from}\n{failure}"));
    text += &saved(run, &name(run, &format!("list-{list}"), "calls"), &list_);
    Verdict::failing(text)
}

fn failed_cable(
    run: &Run,
    (list, place): (u64, u64),
    lent: CableInputs,
    failing: Failing,
) -> Verdict {
    let from = format!("seed {}, list {list}, cable {place}", run.seed);
    let mut text = format!("{from}: {}\n", failing.text);
    let (symbols, values) = (lent.symbols.len(), lent.response.len());
    let lent = shrunk_cable(run.fault, lent, &failing);
    let failing = failing_of(run.fault, &lent).unwrap_or(failing);
    let (fewer, few) = (lent.symbols.len(), lent.response.len());
    text += &format!("made short: {fewer} of {symbols} symbols, {few} of {values} values\n");
    text += &format!("cable: {}\n", failing.text);
    let cable = SavedCable {
        fault: run.fault,
        lent,
    };
    let cable = cable_format::text(&cable, &format!("{from}\n{}", failing.text));
    let place = format!("list-{list}-cable-{place}");
    text += &saved(run, &name(run, &place, "cable"), &cable);
    Verdict::failing(text)
}

fn samples(calls: &[Call]) -> usize {
    let lists = calls.iter().filter_map(Call::lists);
    lists.map(|lists| lists.m.len()).sum()
}

/// What a file holds.
enum Kept {
    List(Saved),
    Cable(SavedCable),
}

fn kept(text: &str) -> Result<Kept, String> {
    match cable_format::is_cable(text) {
        true => cable_format::parse(text).map(Kept::Cable),
        false => format::parse(text).map(Kept::List),
    }
}

/// Makes the calls of a saved list, or a saved cable, again.
pub fn replay(path: &Path) -> Result<Verdict, String> {
    let (what, fault, failure) = match format::read(path, kept)? {
        Kept::List(saved) => {
            let failure = failure_of(saved.fault, &saved.calls);
            let failure = failure.map(|failure| failure.to_string());
            (format!("{} calls", saved.calls.len()), saved.fault, failure)
        }
        Kept::Cable(saved) => {
            let failing = failing_of(saved.fault, &saved.lent);
            let failing = failing.map(|failing| format!("cable: {}", failing.text));
            let symbols = saved.lent.symbols.len();
            (format!("a cable, {symbols} symbols"), saved.fault, failing)
        }
    };
    let fault = fault.map(|fault| format!(", fault {}", fault.name()));
    let what = format!("{what}{}\n", fault.unwrap_or_default());
    Ok(match failure {
        Some(failure) => Verdict::failing(format!("{what}{failure}\n")),
        None => Verdict::good(format!("{what}no difference\n")),
    })
}
