//! What a run has covered, and the worst figures of demand 3.

use crate::bench::Bench;
use reference::demand3::Worst;
use reference::exact::Exact;

/// The counts that are not 0, each behind its number.
pub fn by_number(counts: &[u64]) -> String {
    let given = counts.iter().enumerate().filter(|(_, &count)| count > 0);
    let texts = given.map(|(n, count)| format!(" {n}: {count}"));
    texts.collect::<Vec<String>>().join(",")
}

/// A figure, its bound, and the one as a part of the other, cut to nine places.
fn part(name: &str, seen: impl std::fmt::Display, of: &str, part: f64) -> String {
    format!("  {name:<38} {seen:>11} of {of:<13}{:.9}\n", cut(part))
}

fn cut(number: f64) -> f64 {
    (number * 1e9).floor() / 1e9
}

fn whole(name: &str, seen: i128, of: &str, bound: f64) -> String {
    part(name, seen, of, seen as f64 / bound)
}

fn units(name: &str, seen: &Exact, of: &str, bound: f64) -> String {
    let seen = seen.roughly();
    part(name, format!("{:.9}", cut(seen)), of, seen / bound)
}

/// The worst figures, each beside its bound and as a part of it.
pub fn worst(w: &Worst) -> String {
    heading(w) + &largest_numbers(w) + &distances(w)
}

fn heading(w: &Worst) -> String {
    let (samples, halvings, doublings) = (w.samples, w.halvings, w.doublings);
    format!(
        "demand 3 at {samples} samples, {halvings} halvings, {doublings} doublings; \
         the worst of each figure, and as a part of its bound:\n"
    )
}

fn largest_numbers(w: &Worst) -> String {
    [
        whole("|W| before and after", w.weight, "16383", 16383.0),
        whole("new |W| before step 7", w.new_weight, "2^15", 15f64.exp2()),
        whole("|F|", w.f, "2^28", 28f64.exp2()),
        whole("|H|", w.h, "2^28", 28f64.exp2()),
        whole("|Y|", w.y, "2^29", 29f64.exp2()),
        whole("|Z|", w.z, "2^30", 30f64.exp2()),
    ]
    .concat()
}

/// How far weights, outputs and stored samples are from the exact ones.
fn distances(w: &Worst) -> String {
    let step = |name: &str, seen: &Exact| units(name, seen, "1 + 1/1024", 1025.0 / 1024.0);
    let stored = |name: &str, seen: &Exact| units(name, seen, "2^(gamma-15)", 1.0);
    [
        step("weight to the exact step, in units", &w.step),
        step("the same where the weights were halved", &w.halved_step),
        step("the same where they were doubled", &w.doubled_step),
        units("|y - y*|", &w.output, "2^(xi-30)", 1.0),
        stored("stored sample in its own block", &w.stored),
        stored("stored sample in the next block", &w.past),
    ]
    .concat()
}

/// Everything that a run has covered.
pub fn covered(bench: &Bench) -> String {
    let f = bench.followed;
    let followed = format!(
        "next blocks on past samples that were followed: at once {}, after other calls {}, after a load {}\n",
        f.at_once, f.after_calls, f.loaded_back,
    );
    let m = bench.moves;
    let moves = format!(
        "accepted blocks and trials in which psi fell: {}; from 15 to 0: {}; fell and rose: {}\n",
        m.fell, m.from_15_to_0, m.fell_and_rose,
    );
    let worst = worst(&bench.checker.worst);
    let others = bench.others;
    let others =
        format!("accepted blocks and trials on a record other than the list's own: {others}\n");
    let (readings, swapped) = (bench.readings.tally, bench.swapped.tally);
    format!(
        "{}{followed}{others}{moves}{readings}{swapped}{worst}",
        bench.tally
    )
}
