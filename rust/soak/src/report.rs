//! What a run has covered, and the worst figures of demand 3.

use crate::bench::Bench;
use faults::Counts;
use harness::calls::{Call, Lists};
use harness::perform::Outcome;
use reference::block::BlockDetail;
use reference::demand3::Worst;
use reference::exact::Exact;
use tigbulode::Equaliser;

/// What is printed, with names of counts in braces; one that ends in * stands for all counts behind their numbers. A line
/// that ends in \ goes on in the next.
const REPORT: &str = include_str!("report.txt");

/// Everything that a run has covered.
pub fn covered(bench: &Bench) -> String {
    // A text stands before each name.
    let parts = REPORT.split(['{', '}']).enumerate();
    let filled = parts.map(|(at, part)| match part {
        _ if at % 2 == 0 => part.replace("\\\n", ""),
        "worst" => worst(&bench.checker.worst),
        name => counted(&bench.counts, name),
    });
    filled.collect()
}

fn counted(counts: &Counts, name: &str) -> String {
    match name.strip_suffix(" *") {
        None => counts.of(name).to_string(),
        Some(name) => {
            let counts = counts.by_number(name).into_iter();
            let texts: Vec<String> = counts.map(|(number, count)| format!(" {number}: {count}")).collect();
            texts.join(",")
        }
    }
}

/// The names of the counts that are printed alone.
pub fn names() -> impl Iterator<Item = &'static str> {
    let names = REPORT.split(['{', '}']).skip(1).step_by(2);
    names.filter(|name| *name != "worst" && !name.ends_with('*'))
}

impl Bench<'_> {
    /// Counts a call from the list's record before it.
    pub(crate) fn count(&mut self, call: &Call, outcome: &Outcome, before: &Equaliser) {
        let kind = Call::KINDS[call.kind()];
        self.counts.add("calls", true);
        self.counts.add(kind, true);
        self.counts.add(&format!("{kind} answer {}", outcome.number), true);
        let Some(lists) = call.lists() else { return };
        match (outcome.number, call.other()) {
            (0, None) => {
                let after = outcome.state.unwrap_or(*self.record());
                self.counts.add(&format!("{kind} samples"), lists.m.len() as u64);
                self.count_accepted(kind, before, &after);
            }
            (3, other) => self.count_length(kind, lists, other.unwrap_or(before).n),
            _ => (),
        }
    }

    /// How the state after a block or a trial differs from the one before.
    fn count_accepted(&mut self, kind: &str, before: &Equaliser, after: &Equaliser) {
        let seen = [
            ("raised", after.psi > before.psi),
            ("raised to 15", after.psi == 15 && before.psi < 15),
            ("left at 15", after.psi == 15),
            ("lowered", after.psi < before.psi),
            ("lowered from 15", after.psi < 15 && before.psi == 15),
            ("lowered to 0", after.psi == 0 && before.psi > 0),
            ("lowered by more", after.psi + 1 < before.psi),
            ("larger B", after.bmax > before.bmax),
            ("smaller B", after.bmax < before.bmax),
            ("another b", after.b != before.b),
        ];
        for (name, seen) in seen {
            self.counts.add(&format!("{kind} {name}"), seen);
        }
    }

    /// Counts a list that alone has a wrong length.
    fn count_length(&mut self, kind: &str, lists: &Lists, n: u8) {
        let lengths = lists.lengths();
        let wrong: Vec<usize> = (0..8).filter(|&list| lengths[list] != usize::from(n)).collect();
        if let [list] = wrong[..] {
            self.counts.add(&format!("{kind} length {list}"), true);
        }
    }

    /// Counts an accepted block or trial in which ψ fell.
    pub(crate) fn count_moves(&mut self, detail: &BlockDetail) {
        let samples = &detail.samples;
        let fell = samples.iter().any(|d| d.psi_after < d.psi_before);
        let rose = samples.iter().any(|d| d.psi_after > d.psi_before);
        let from_15 = samples.first().is_some_and(|d| d.psi_before == 15);
        let to_0 = samples.last().is_some_and(|d| d.psi_after == 0);
        self.counts.add("fell", fell);
        self.counts.add("from 15 to 0", from_15 && to_0);
        self.counts.add("fell and rose", fell && rose);
    }
}

/// A figure, its bound, and the one as a part of the other, cut to nine places.
fn part(name: &str, seen: impl std::fmt::Display, of: &str, part: f64) -> String {
    format!("  {name:<38} {seen:>11} of {of:<13}{:.9}\n", cut(part))
}

fn cut(number: f64) -> f64 {
    (number * 1e9).floor() / 1e9
}

/// The worst figures, each beside its bound and as a part of it.
fn worst(w: &Worst) -> String {
    let whole = |name: &str, seen: i128, of: &str, bound: f64| part(name, seen, of, seen as f64 / bound);
    let units = |name: &str, seen: &Exact, of: &str, bound: f64| {
        let seen = seen.roughly();
        part(name, format!("{:.9}", cut(seen)), of, seen / bound)
    };
    let step = |name: &str, seen: &Exact| units(name, seen, "1 + 1/1024", 1025.0 / 1024.0);
    let stored = |name: &str, seen: &Exact| units(name, seen, "2^(gamma-15)", 1.0);
    let (samples, halvings, doublings) = (w.samples, w.halvings, w.doublings);
    [
        format!("demand 3 at {samples} samples, {halvings} halvings, {doublings} doublings; "),
        "the worst of each figure, and as a part of its bound:\n".to_string(),
        whole("|W| before and after", w.weight, "16383", 16383.0),
        whole("new |W| before step 7", w.new_weight, "2^15", 15f64.exp2()),
        whole("|F|", w.f, "2^28", 28f64.exp2()),
        whole("|H|", w.h, "2^28", 28f64.exp2()),
        whole("|Y|", w.y, "2^29", 29f64.exp2()),
        whole("|Z|", w.z, "2^30", 30f64.exp2()),
        step("weight to the exact step, in units", &w.step),
        step("the same where the weights were halved", &w.halved_step),
        step("the same where they were doubled", &w.doubled_step),
        units("|y - y*|", &w.output, "2^(xi-30)", 1.0),
        stored("stored sample in its own block", &w.stored),
        stored("stored sample in the next block", &w.past),
    ]
    .concat()
}
