//! What stands on the page: its words and its panels, a curve in each for every step size.

use crate::counts::Counts;
use crate::run::{joined, Ran, Run};
use crate::summary::{cable, last_blocks, named, stop, wrong};
use crate::text::{Given, MOST_STEPS};
use plots::axis::Axis;
use plots::curve::{floors, guide, range, Curve, Rows};
use plots::page::{Page, Panel};
use plots::power::{ErrorPower, CUT_NOTE, ZERO_NOTE};
use plots::text::cut;
use plots::words::{count, decibels, fitting, percent};

/// A look for each step size: wide and light to thin and black, so that each is seen over the one before, in grey too;
/// then dots and dashes.
const LOOKS: [&str; MOST_STEPS] = [
    "lw 6 lc rgb '#b8b8b8'",
    "lw 3 lc rgb '#4a86c5'",
    "lw 1.5 lc rgb '#000000'",
    "lw 4 dt 3 lc rgb '#999999'",
    "lw 2.5 dt 2 lc rgb '#4a86c5'",
    "lw 1.5 dt 4 lc rgb '#000000'",
];
/// The marks of weights.
const MARKS: [&str; MOST_STEPS] = ["pt 7", "pt 5", "pt 9", "pt 6", "pt 4", "pt 8"];
/// A curve's points at most.
const MOST_POINTS: usize = 160;

const PROVED: &str =
    "Trace and each block's error power by the laboratory's library, blocks run by the station's: both are proved.";

pub fn page(given: &Given, runs: &[Run], file: &str) -> Page {
    let mut lines = vec![outcome(runs)];
    lines.extend(cable(given));
    lines.push(PROVED.to_string());
    let stopped = |run: &Run| Some(format!("{}: {}; it ends there", named(&run.step), stop(run)?));
    lines.extend(runs.iter().filter_map(stopped));
    let title = format!("Step sizes on a cable: {}", cut(file, 40));
    Page { title, lines, shades: Vec::new(), panels: panels(given, runs) }
}

fn panels(given: &Given, runs: &[Run]) -> Vec<Panel> {
    let mut panels = vec![error_power(given, runs)];
    if runs.iter().any(|run| run.decided() > 0) {
        panels.push(wrong_decisions(given, runs));
    }
    panels.push(exponent(given, runs));
    let samples = Axis::between(0.0, samples(given), 10, 1.0);
    Page::share_axis(&mut panels, &samples, "samples received, one for each symbol");
    for panel in &mut panels {
        panel.curves.splice(..0, end_of_training(given, &panel.up));
    }
    let first = panels[0].curves.iter_mut().find(|curve| curve.style == TRAINING);
    first.into_iter().for_each(|curve| curve.title = Some(format!("training ends, sample {}", given.training)));
    let p = usize::from(given.settings.p);
    let notes = ["W·2^(ψ−15); 0 is the newest sample's", "W·2^(ψ−15); 1 is the newest symbol's"];
    panels.push(weights("feed forward weights at the end", notes[0], 0, runs, |run| last_weights(run, p).0));
    panels.push(weights("feedback weights at the end", notes[1], 1, runs, |run| last_weights(run, p).1));
    panels
}

/// The wrong decisions of each step size, as many as fit a line.
fn outcome(runs: &[Run]) -> String {
    if runs.iter().all(|run| run.decided() == 0) {
        return "no decision after training".to_string();
    }
    let share = |run: &Run| format!("{} with {}", percent(run.wrong(), run.decided()), run.step.name);
    fitting("wrong decisions after training: ", &runs.iter().map(share).collect::<Vec<_>>(), ", ", "", 100)
}

fn samples(given: &Given) -> f64 {
    given.symbols.len() as f64
}

/// The axis of samples with its labels in blocks, and what they are.
fn over_blocks(given: &Given) -> (Axis, String) {
    let n = f64::from(given.settings.n);
    let mut axis = Axis::between(0.0, samples(given) / n, 10, 1.0);
    axis.labels.iter_mut().for_each(|(at, _)| *at *= n);
    let words = format!("blocks of {}", count(given.settings.n, "sample"));
    (Axis { high: samples(given), ..axis }, words)
}

const TRAINING: &str = "with lines dt 2 lw 2 lc rgb '#777777'";

/// A line at the end of training, where that is within the page.
fn end_of_training(given: &Given, up: &Axis) -> Option<Curve> {
    let end = given.training as f64;
    let rows = [(end, up.low), (end, up.high)].into_iter().collect();
    (end > 0.0 && end < samples(given)).then(|| Curve::new(rows, TRAINING.to_string(), None))
}

/// A curve for each step size, with a title of its own.
fn curves(runs: &[Run], rows: impl Fn(usize, &Run) -> Rows, title: impl Fn(&Run) -> String) -> Vec<Curve> {
    let looks = runs.iter().zip(LOOKS).enumerate();
    let curve = |(place, (run, look))| Curve::new(rows(place, run), format!("with lines {look}"), Some(&title(run)));
    looks.map(curve).collect()
}

/// How many blocks in a row make a point.
fn together(given: &Given) -> usize {
    let blocks = given.symbols.len() / usize::from(given.settings.n);
    blocks.div_ceil(MOST_POINTS)
}

/// The power of blocks in a row, each in the middle of its samples.
fn middles(given: &Given, run: &Run) -> Vec<(f64, ErrorPower)> {
    let (n, few) = (f64::from(given.settings.n), together(given));
    let groups = run.blocks.chunks(few).enumerate();
    let middles = groups.filter_map(|(place, blocks)| {
        let middle = (place * few) as f64 + blocks.len() as f64 / 2.0;
        Some((middle * n, joined(blocks)?))
    });
    middles.collect()
}

/// The same in dB; the first and the last reach to the ends.
fn powers(given: &Given, run: &Run) -> Rows {
    let points: Vec<(f64, f64)> = middles(given, run).iter().map(|(at, power)| (*at, power.decibels())).collect();
    let first = points.first().map(|(_, level)| (0.0, *level));
    let end = run.blocks.len() as f64 * f64::from(given.settings.n);
    let last = points.last().map(|(_, level)| (end, *level));
    first.into_iter().chain(points).chain(last).collect()
}

fn error_notes(given: &Given, runs: &[Run], zero: bool) -> Vec<String> {
    let mut notes = vec![
        "0 dB: one symbol unit (r.m.s.), half the",
        "distance between neighbours; the error is",
        "to the training symbol, then to the station's",
        "own decision, right or wrong: a low one is no",
        "success where decisions below are wrong;",
        CUT_NOTE,
    ];
    notes.extend(zero.then_some(ZERO_NOTE));
    let mean = match together(given) {
        1 => "each point the mean of a block".to_string(),
        few => format!("each point the mean of {few} blocks in a row"),
    };
    let last = runs.iter().map(|run| run.last_blocks().len()).max().unwrap_or(0);
    let notes = notes.into_iter().map(str::to_string);
    notes.chain([mean, format!("dB below: the mean of {}", last_blocks(last))]).collect()
}

/// An error that is anything within ±1 of a decision has the mean square 1/3.
fn error_power(given: &Given, runs: &[Run]) -> Panel {
    let all = runs.iter().flat_map(|run| middles(given, run));
    let ends = range(all.clone().map(|(_, power)| power.decibels()), -5.0, 1.0);
    let title = |run: &Run| {
        let end = run.last_error_power().map_or(String::new(), |power| format!(", {}", power.in_words()));
        format!("{}{end}", named(&run.step))
    };
    let mut drawn = vec![guide((0.0, samples(given)), &[decibels(1.0 / 3.0)], "−5 dB: any error within one unit")];
    drawn.extend(curves(runs, |_, run| powers(given, run), title));
    drawn.push(floors(all.clone()));
    let notes = error_notes(given, runs, all.clone().any(|(_, power)| power.is_zero()));
    let panel = Panel::new(330.0, "error power, dB", "error power", Axis::around(ends, 7, 1.0), drawn);
    Panel { above: Some(over_blocks(given)), ..panel.with_notes(notes) }
}

/// A value after each block as steps, from `start` on, where it is 0.
fn steps(given: &Given, run: &Run, start: f64, value: impl Fn(usize, &Ran) -> usize) -> Vec<(f64, usize)> {
    let n = f64::from(given.settings.n);
    let (mut points, mut last) = (vec![(start, 0)], 0);
    for (place, block) in run.blocks.iter().enumerate() {
        let (next, end) = (value(last, block), (place + 1) as f64 * n);
        if next != last {
            points.extend([(end, last), (end, next)]);
        }
        last = next;
    }
    points.push((run.blocks.len() as f64 * n, last));
    points
}

fn wrong_decisions(given: &Given, runs: &[Run]) -> Panel {
    let most = runs.iter().map(Run::wrong).max().unwrap_or(0);
    let counts = Counts::new(most, runs.len());
    let rows = |place: usize, run: &Run| {
        let steps = steps(given, run, given.training as f64, |sum, block| sum + block.wrong);
        let drawn = steps.into_iter().filter(|_| run.decided() > 0);
        drawn.map(|(at, count)| (at, counts.height(place, count))).collect()
    };
    let notes = match runs.len() {
        1 => &["after each block; 0 is at the foot"][..],
        _ => &["after each block; 0 is at the foot, where", "each step size has a line of its own"],
    };
    let drawn = curves(runs, rows, |run| format!("{}: {}", run.step.name, wrong(run)));
    let name = "wrong decisions after training, so far";
    Panel::new(210.0, "wrong so far", name, counts.up, drawn).with_notes(notes)
}

fn exponent(given: &Given, runs: &[Run]) -> Panel {
    let psi = |_, run: &Run| {
        let steps = steps(given, run, 0.0, |_, block| block.psi.into());
        steps.into_iter().map(|(at, psi)| (at, psi as f64)).collect()
    };
    let last = |run: &Run| run.blocks.last().map_or(0, |block| block.psi);
    let most = runs.iter().flat_map(|run| &run.blocks).map(|block| block.psi).max().unwrap_or(0);
    let drawn = curves(runs, psi, |run| format!("{}: {} at the end", run.step.name, last(run)));
    Panel::new(130.0, "ψ", "ψ, the weights' exponent", Axis::counts(most.into(), 5), drawn)
}

/// The feed forward weights, which are p, and the feedback weights after the last block.
fn last_weights(run: &Run, p: usize) -> (&[f64], &[f64]) {
    run.blocks.last().map_or((&[], &[]), |block| block.weights.split_at(p))
}

/// The weights of a filter after the last block, the first of them with a number, as stems, those of each step size side
/// by side.
fn weights<'a>(name: &str, note: &str, first: usize, runs: &'a [Run], of: impl Fn(&'a Run) -> &'a [f64]) -> Panel {
    let ends = range(runs.iter().flat_map(&of).copied(), 0.0, 0.0);
    let width = 0.7 / runs.len() as f64;
    let curve = |(place, run): (usize, &'a Run), kind: &str, title: Option<&str>| {
        let aside = (place as f64 - (runs.len() - 1) as f64 / 2.0) * width;
        let stems = of(run).iter().enumerate().map(|(tap, weight)| ((first + tap) as f64 + aside, *weight));
        Curve::new(stems.collect(), format!("with {kind} {}", LOOKS[place]), title)
    };
    let drawn = runs.iter().enumerate().map(|run| curve(run, "impulses", None));
    let marks = runs.iter().enumerate().map(|run| {
        let mark = format!("points {} ps 1.4", MARKS[run.0]);
        curve(run, &mark, Some(&run.1.step.name))
    });
    let taps = runs.iter().map(|run| of(run).len()).max().unwrap_or(0);
    let labels = (first..first + taps).map(|tap| (tap as f64, tap.to_string())).collect();
    let across = Axis { low: first as f64 - 0.6, high: (first + taps) as f64 - 0.4, labels, logarithmic: false };
    let curves = drawn.chain(marks).collect();
    let panel = Panel::new(160.0, "weight", name, Axis::around(ends, 5, 0.0001), curves).with_notes([note]);
    Panel { across, below: Some("tap".to_string()), ..panel }
}
