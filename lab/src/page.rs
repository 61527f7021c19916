//! What stands on the page: its words and its panels, a curve in each for
//! every step size.

use crate::counts::Counts;
use crate::run::{joined, Ran, Run};
use crate::summary::{cable, last_blocks, named, stop, wrong};
use crate::text::{Given, MOST_STEPS};
use crate::words::shown;
use years::axis::Axis;
use years::curve::{floors, Curve, Rows, GREY};
use years::power::{ErrorPower, CUT_NOTE, ZERO_NOTE};
use years::words::{count, decibels, percent};

pub struct Page {
    pub title: String,
    pub lines: Vec<String>,
    pub panels: Vec<Panel>,
}

pub struct Panel {
    /// In the picture's points, where its legend doesn't need more.
    pub least_height: f64,
    /// At the left.
    pub label: &'static str,
    /// At the right, above the legend: the panel's name, then more of it.
    pub name: &'static str,
    pub notes: Vec<String>,
    pub across: Axis,
    pub up: Axis,
    /// What is across; none where the next panel has the same axis.
    pub below: Option<&'static str>,
    /// The same in other words, above the panel.
    pub above: Option<(Axis, String)>,
    /// Where training ends.
    pub mark: Option<f64>,
    pub curves: Vec<Curve>,
}

/// From the top of a panel to its notes, and the lines of notes and legend.
pub const NOTES: f64 = 28.0;
pub const NOTE: f64 = 20.0;
const KEY: f64 = 24.5;

impl Panel {
    /// In the picture's points.
    pub fn height(&self) -> f64 {
        let titles = self.curves.iter().filter(|curve| curve.title.is_some());
        let keys = titles.count() + usize::from(self.mark.is_some());
        let legend = NOTES + NOTE * self.notes.len() as f64 + KEY * keys as f64;
        self.least_height.max(legend)
    }
}

/// A look for each step size: wide and light to thin and black, so that each
/// is seen over the one before, in grey too; then dots and dashes.
const LOOKS: [&str; MOST_STEPS] = [
    "lw 6 lc rgb '#b8b8b8'",
    "lw 3 lc rgb '#4a86c5'",
    "lw 1.5 lc rgb '#000000'",
    "lw 4 dt 3 lc rgb '#999999'",
    "lw 2.5 dt 2 lc rgb '#4a86c5'",
    "lw 1.5 dt 4 lc rgb '#000000'",
];
/// The marks of weights.
const MARKS: [&str; MOST_STEPS] = ["pt 7", "pt 5", "pt 9", "pt 6", "pt 4", "pt 8"];
/// A curve's points at most.
const MOST_POINTS: usize = 160;

pub fn page(given: &Given, runs: &[Run], file: &str) -> Page {
    let mut lines = vec![outcome(runs)];
    lines.extend(cable(given));
    lines.push(
        "Trace and each block's error power by the laboratory's library, blocks run by the station's: both are proved."
            .to_string(),
    );
    lines.extend(runs.iter().filter_map(stopped));
    Page {
        title: format!("Step sizes on a cable: {}", shown(file)),
        lines,
        panels: panels(given, runs),
    }
}

fn panels(given: &Given, runs: &[Run]) -> Vec<Panel> {
    let mut panels = vec![error_power(given, runs)];
    if runs.iter().any(|run| run.decided() > 0) {
        panels.push(wrong_decisions(given, runs));
    }
    panels.push(exponent(given, runs));
    panels.extend(filters(given).iter().map(|filter| weights(filter, runs)));
    panels
}

fn stopped(run: &Run) -> Option<String> {
    Some(format!(
        "{}: {}, and ends there",
        named(&run.step),
        stop(run)?
    ))
}

/// The wrong decisions of each step size, with their names where they fit a
/// line.
fn outcome(runs: &[Run]) -> String {
    const LINE: usize = 95;
    if runs.iter().all(|run| run.decided() == 0) {
        return "no decision after training".to_string();
    }
    let share = |run: &Run| percent(run.wrong() as u64, run.decided() as u64);
    let named = runs.iter().map(|run| (share(run), &run.step.name));
    let named: Vec<String> = named
        .map(|(share, name)| format!("{share} with {name}"))
        .collect();
    let line = format!("wrong decisions after training: {}", named.join(", "));
    if line.chars().count() <= LINE {
        return line;
    }
    let shares: Vec<String> = runs.iter().map(share).collect();
    let shares = shares.join(", ");
    format!("wrong after training, as in the legend: {shares}")
}

fn samples(given: &Given) -> f64 {
    given.symbols.values.len() as f64
}

/// The axis of samples.
fn over_samples(given: &Given) -> Axis {
    Axis::between(0.0, samples(given), 10, 1.0)
}

/// The same axis with its labels in blocks, and what they are.
fn over_blocks(given: &Given) -> (Axis, String) {
    let n = f64::from(given.n.value);
    let blocks = Axis::between(0.0, samples(given) / n, 10, 1.0);
    let in_samples = |(at, word): (f64, String)| (at * n, word);
    let axis = Axis {
        labels: blocks.labels.into_iter().map(in_samples).collect(),
        ..over_samples(given)
    };
    let words = format!("blocks of {}", count(given.n.value.into(), "sample"));
    (axis, words)
}

/// The end of training, where it is within the page.
fn end_of_training(given: &Given) -> Option<f64> {
    let end = given.training.value as f64;
    (end > 0.0 && end < samples(given)).then_some(end)
}

/// A curve for each step size, with a title of its own.
fn curves(
    runs: &[Run],
    rows: impl Fn(usize, &Run) -> Rows,
    title: impl Fn(&Run) -> String,
) -> Vec<Curve> {
    let looks = runs.iter().zip(LOOKS).enumerate();
    looks
        .map(|(place, (run, look))| {
            let style = format!("with lines {look}");
            Curve::new(rows(place, run), style, Some(&title(run)))
        })
        .collect()
}

/// How many blocks in a row make a point.
fn together(given: &Given) -> usize {
    let blocks = given.symbols.values.len() / usize::from(given.n.value);
    blocks.div_ceil(MOST_POINTS)
}

/// The power of blocks in a row, each in the middle of its samples.
fn middles(given: &Given, run: &Run) -> Vec<(f64, ErrorPower)> {
    let (n, few) = (f64::from(given.n.value), together(given));
    let groups = run.blocks.chunks(few).enumerate();
    let middles = groups.filter_map(|(place, blocks)| {
        let middle = (place * few) as f64 + blocks.len() as f64 / 2.0;
        Some((middle * n, joined(blocks)?))
    });
    middles.collect()
}

/// The same in dB; the first and the last reach to the ends.
fn powers(given: &Given, run: &Run) -> Vec<(f64, f64)> {
    let n = f64::from(given.n.value);
    let middles = middles(given, run).into_iter();
    let middles: Vec<(f64, f64)> = middles.map(|(at, power)| (at, power.decibels())).collect();
    let first = middles.first().map(|(_, value)| (0.0, *value));
    let end = run.blocks.len() as f64 * n;
    let last = middles.last().map(|(_, value)| (end, *value));
    let ends = |end: Option<(f64, f64)>| end.into_iter();
    ends(first)
        .chain(middles.clone())
        .chain(ends(last))
        .collect()
}

fn in_rows(points: &[(f64, f64)]) -> Rows {
    let mut rows = Rows::default();
    points
        .iter()
        .for_each(|(at, value)| rows.add(&[*at, *value]));
    rows
}

/// An error that is anything within ±1 of a decision has the mean square 1/3.
fn guessing(given: &Given) -> Curve {
    let level = decibels(1.0 / 3.0);
    let rows = in_rows(&[(0.0, level), (samples(given), level)]);
    let style = format!("with lines dt 3 lw 2 lc rgb '{GREY}'");
    Curve::new(rows, style, Some("−5 dB: any error within one unit"))
}

/// Marks of powers that are only floors, where there are any.
fn floor_marks(given: &Given, runs: &[Run]) -> Option<Curve> {
    let all = runs.iter().flat_map(|run| middles(given, run));
    let only_floors = all.filter(|(_, power)| power.is_floor());
    let marks = floors(only_floors.map(|(at, power)| (at, power.decibels())));
    (!marks.rows.is_empty()).then_some(marks)
}

/// Where a power of 0 is drawn, if there is one.
fn zero_note(given: &Given, runs: &[Run]) -> Option<String> {
    let mut all = runs.iter().flat_map(|run| middles(given, run));
    let any = all.any(|(_, power)| power.is_zero());
    any.then(|| ZERO_NOTE.to_string())
}

fn error_notes(given: &Given, runs: &[Run]) -> Vec<String> {
    let mean = match together(given) {
        1 => "each point the mean of a block".to_string(),
        few => format!("each point the mean of {few} blocks in a row"),
    };
    let fixed = [
        "0 dB: one symbol unit (r.m.s.), half the",
        "distance between neighbours; the error is",
        "to the training symbol, then to the station's",
        "own decision, right or wrong: a low one is no",
        "success where decisions below are wrong;",
        CUT_NOTE,
    ];
    let last = runs.iter().map(|run| run.last_blocks().len()).max();
    let fixed = fixed.map(str::to_string).into_iter();
    fixed
        .chain(zero_note(given, runs))
        .chain([
            mean,
            format!("dB below: the mean of {}", last_blocks(last.unwrap_or(0))),
        ])
        .collect()
}

fn error_power(given: &Given, runs: &[Run]) -> Panel {
    let points = runs.iter().flat_map(|run| powers(given, run));
    let start = (-5.0f64, 1.0f64);
    let (low, high) = points.fold(start, |(low, high), (_, v)| (low.min(v), high.max(v)));
    let title = |run: &Run| {
        let end = run
            .last_error_power()
            .map_or(String::new(), |power| format!(", {}", power.in_words()));
        format!("{}{end}", named(&run.step))
    };
    let mut drawn = vec![guessing(given)];
    drawn.extend(curves(runs, |_, run| in_rows(&powers(given, run)), title));
    drawn.extend(floor_marks(given, runs));
    Panel {
        least_height: 330.0,
        label: "error power, dB",
        name: "error power",
        notes: error_notes(given, runs),
        across: over_samples(given),
        up: Axis::around(low, high, 7, 1.0),
        below: None,
        above: Some(over_blocks(given)),
        mark: end_of_training(given),
        curves: drawn,
    }
}

/// A value after each block, from the block where it changes.
fn changes(given: &Given, run: &Run, mut value: impl FnMut(&Ran) -> f64) -> Vec<(f64, f64)> {
    let n = f64::from(given.n.value);
    let mut points: Vec<(f64, f64)> = Vec::new();
    for (place, block) in run.blocks.iter().enumerate() {
        let (value, end) = (value(block), (place + 1) as f64 * n);
        match points.last().copied() {
            Some((_, last)) if last == value => (),
            Some((_, last)) => points.extend([(end, last), (end, value)]),
            None => points.push((end - n, value)),
        }
    }
    if let Some((_, last)) = points.last().copied() {
        points.push((run.blocks.len() as f64 * n, last));
    }
    points
}

/// Wrong decisions after each block, from the end of training on; nothing
/// where no decision came after it.
fn wrong_so_far(given: &Given, run: &Run) -> Vec<(f64, usize)> {
    if run.decided() == 0 {
        return Vec::new();
    }
    let n = f64::from(given.n.value);
    let mut sum = 0;
    let mut points = vec![(given.training.value as f64, sum)];
    let with_wrong = |(_, block): &(usize, &Ran)| block.wrong > 0;
    for (place, block) in run.blocks.iter().enumerate().filter(with_wrong) {
        let end = (place + 1) as f64 * n;
        points.extend([(end, sum), (end, sum + block.wrong)]);
        sum += block.wrong;
    }
    points.push((run.blocks.len() as f64 * n, sum));
    points
}

fn wrong_notes(steps: usize) -> Vec<String> {
    let notes = match steps {
        1 => &["after each block; 0 is at the foot"][..],
        _ => &[
            "after each block; 0 is at the foot, where",
            "each step size has a line of its own",
        ],
    };
    notes.iter().map(|note| note.to_string()).collect()
}

fn wrong_decisions(given: &Given, runs: &[Run]) -> Panel {
    let title = |run: &Run| format!("{}: {}", run.step.name, wrong(run));
    let most = runs.iter().map(Run::wrong).max();
    let counts = Counts::new(most.unwrap_or(0), runs.len());
    let rows = |place: usize, run: &Run| {
        let points = wrong_so_far(given, run).into_iter();
        let drawn = points.map(|(at, count)| (at, counts.height(place, count)));
        in_rows(&drawn.collect::<Vec<_>>())
    };
    Panel {
        least_height: 210.0,
        label: "wrong so far",
        name: "wrong decisions after training, so far",
        notes: wrong_notes(runs.len()),
        across: over_samples(given),
        curves: curves(runs, rows, title),
        up: counts.up,
        below: None,
        above: None,
        mark: end_of_training(given),
    }
}

fn exponent(given: &Given, runs: &[Run]) -> Panel {
    let psi = |_, run: &Run| in_rows(&changes(given, run, |block| block.psi.into()));
    let last = |run: &Run| run.blocks.last().map_or(0, |block| block.psi);
    let title = |run: &Run| format!("{}: {} at the end", run.step.name, last(run));
    let blocks = runs.iter().flat_map(|run| &run.blocks);
    let most = blocks.map(|block| block.psi).max().unwrap_or(0);
    Panel {
        least_height: 130.0,
        label: "ψ",
        name: "ψ, the weights' exponent",
        notes: Vec::new(),
        across: over_samples(given),
        up: Axis::counts(most.into(), 5),
        below: Some("samples received, one for each symbol"),
        above: None,
        mark: end_of_training(given),
        curves: curves(runs, psi, title),
    }
}

/// The weights of one filter.
struct Filter {
    name: &'static str,
    note: &'static str,
    /// The first weight's place among all, its number, and how many there are.
    start: usize,
    first: usize,
    count: usize,
}

fn filters(given: &Given) -> [Filter; 2] {
    let (p, q) = (given.p.value.into(), given.q.value.into());
    let forward = Filter {
        name: "feed forward weights at the end",
        note: "W·2^(ψ−15); 0 is the newest sample's",
        start: 0,
        first: 0,
        count: p,
    };
    let back = Filter {
        name: "feedback weights at the end",
        note: "W·2^(ψ−15); 1 is the newest symbol's",
        start: p,
        first: 1,
        count: q,
    };
    [forward, back]
}

/// A filter's weights after the last block.
fn last_weights<'a>(filter: &Filter, run: &'a Run) -> &'a [f64] {
    let last = run.blocks.last();
    last.map_or(&[], |block| &block.weights[filter.start..][..filter.count])
}

/// Stems of the weights, those of each step size side by side.
fn stems(filter: &Filter, runs: &[Run], place: usize) -> Rows {
    let width = 0.7 / runs.len() as f64;
    let aside = (place as f64 - (runs.len() - 1) as f64 / 2.0) * width;
    let weights = last_weights(filter, &runs[place]).iter().enumerate();
    let points = weights.map(|(tap, weight)| ((filter.first + tap) as f64 + aside, *weight));
    in_rows(&points.collect::<Vec<_>>())
}

fn weights(filter: &Filter, runs: &[Run]) -> Panel {
    let all = runs.iter().flat_map(|run| last_weights(filter, run));
    let (low, high) = all.fold((0.0f64, 0.0f64), |(low, high), w| {
        (low.min(*w), high.max(*w))
    });
    let (first, last) = (
        filter.first as f64,
        (filter.first + filter.count - 1) as f64,
    );
    let taps = (0..filter.count).map(|tap| filter.first + tap);
    let drawn = (0..runs.len()).map(|place| {
        let style = format!("with impulses {}", LOOKS[place]);
        Curve::new(stems(filter, runs, place), style, None)
    });
    let marks = (0..runs.len()).map(|place| {
        let style = format!("with points {} ps 1.4 {}", MARKS[place], LOOKS[place]);
        let title = Some(runs[place].step.name.as_str());
        Curve::new(stems(filter, runs, place), style, title)
    });
    Panel {
        least_height: 160.0,
        label: "weight",
        name: filter.name,
        notes: vec![filter.note.to_string()],
        across: Axis {
            low: first - 0.6,
            high: last + 0.6,
            labels: taps.map(|tap| (tap as f64, tap.to_string())).collect(),
            logarithmic: false,
        },
        up: Axis::around(low, high, 5, 0.0001),
        below: Some("tap"),
        above: None,
        mark: None,
        curves: drawn.chain(marks).collect(),
    }
}
