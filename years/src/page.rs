//! What stands on a page: its words and its panels.

use crate::axis::Axis;
use crate::curve::{floors, line, steps, Curve, Look, Point, Rows, BLACK, BLUE, GREY, ORANGE, RED};
use crate::history::Reading;
use crate::outcome::Outcome;
use crate::power::{ErrorPower, CUT_NOTE, ZERO_NOTE};
use crate::station::Return;
use crate::table::{largest_back, largest_forward};
use crate::view::{Drawn, Span, View};
use crate::words::{self, decibels};

pub struct Page {
    pub title: String,
    pub lines: Vec<String>,
    pub time: Axis,
    pub time_label: String,
    pub shades: Vec<Shade>,
    /// The first panel that has dots in place of a line, and what they are.
    pub dots: Option<(usize, &'static str)>,
    pub panels: Vec<Panel>,
}

/// A time in which the cable was out of its ordinary.
pub struct Shade {
    pub name: &'static str,
    pub colour: &'static str,
    pub times: Vec<(f64, f64)>,
}

pub struct Panel {
    /// In the picture's points.
    pub height: f64,
    /// At the left.
    pub label: &'static str,
    /// At the right, above the legend: the panel's name, then more of it.
    pub name: String,
    pub notes: Vec<String>,
    pub axis: Axis,
    pub curves: Vec<Curve>,
}

const THICK: Look = Look::solid(2.5, BLACK);
const WIDE: Look = Look::solid(7.0, BLUE);
/// The station by the old rule; the station's own line covers it where both are
/// the same.
const OLD: Look = Look {
    width: 2.0,
    colour: ORANGE,
    dashes: "dt (14,10) ",
};

fn values(points: &[Point]) -> impl Iterator<Item = f64> + '_ {
    points.iter().filter_map(|p| p.value)
}

/// The least and the greatest value, and the given ones among them.
pub fn ends(points: &[Point], low: f64, high: f64) -> (f64, f64) {
    values(points).fold((low, high), |(low, high), v| (low.min(v), high.max(v)))
}

pub fn page(view: &View, title: String) -> Page {
    let years = view.unit > 1.0;
    let most = if years && view.to > 10.0 { 20 } else { 10 };
    let panels = panels(view);
    Page {
        title,
        lines: head(view),
        time: Axis::between(view.from, view.to, most, 0.1),
        time_label: format!(
            "time since installation, {}",
            if years { "years" } else { "days" }
        ),
        shades: shades(view),
        dots: dots(view, &panels),
        panels,
    }
}

fn head(view: &View) -> Vec<String> {
    let past = view.total(|x| x.is_wrong().into());
    let readings = view.readings.len() as u64;
    let lost = words::share(view.total(is_lost), readings, "reading", "lost");
    let past = words::count(past, "wrong pressure");
    let [taps, step] = words::settings(&view.given.sizes);
    let mut lines = vec![
        format!("{lost}, {past} past the check"),
        PROVED.to_string(),
        taps,
        format!("{step}; {}", words::extent(view.given)),
    ];
    lines.extend(view.has_old().then(|| OLD_RULE.to_string()));
    lines.extend(words::other_than_default(&view.given.changes));
    lines
}

/// What is assumed, and what is not.
pub const PROVED: &str = "Assumed: cable, noise, gain control, converter. \
     By proved libraries: every block, save and load, each block's error power.";

const OLD_RULE: &str =
    "Broken orange line, seen where it differs: the same station by the old rule \
     (ψ only rises), on the second implementation.";

fn dots(view: &View, panels: &[Panel]) -> Option<(usize, &'static str)> {
    let words = match view.span {
        Span::Reading => "dots: the reading was lost",
        Span::Day => "dots: a day without a reading",
        Span::Week => "dots: a week without a reading",
    };
    let first = panels
        .iter()
        .position(|panel| panel.curves.iter().any(Curve::is_dots))?;
    Some((first, words))
}

fn shades(view: &View) -> Vec<Shade> {
    let all = [
        ("loud spell", "#999999", view.marked(|x| x.loud)),
        ("faint spell", "#9bc39b", view.marked(|x| x.faint)),
        ("noisy joint", "#d3bf75", view.marked(|x| x.joint)),
    ];
    let shade = |(name, colour, times)| Shade {
        name,
        colour,
        times,
    };
    let there = all.into_iter().map(shade);
    there.filter(|s| !s.times.is_empty()).collect()
}

fn panels(view: &View) -> Vec<Panel> {
    let mut panels = vec![
        pressure(view),
        difference(view),
        lost(view),
        wrong(view),
        clipped(view),
        error_power(view),
        weight(view, "largest feed forward weight", largest_forward, 130.0),
        weight(view, "largest feedback weight", largest_back, 100.0),
        exponent_and_gain(view),
        lengths(view),
    ];
    panels.extend(power(view));
    panels.extend(refused(view));
    panels
}

fn received_bar(view: &View, reading: &Reading) -> Option<f64> {
    let number = reading.pressure_received;
    number.map(|n| view.given.pressure.bar(n))
}

/// Marks of wrong pressures that passed the check.
fn wrong_marks(view: &View, title: &str, height: impl Fn(&Reading) -> Option<f64>) -> Curve {
    let wrong = view.readings.iter().filter(|x| x.is_wrong());
    let places = wrong.filter_map(|x| Some((x.day / view.unit, height(x)?)));
    let style = format!("points pt 9 ps 1.4 lc rgb '{RED}'");
    Curve::marks(places, &style, title)
}

fn pressure(view: &View) -> Panel {
    let truth = view.single(|x| Some(x.pressure_true));
    let right = |x: &Reading| received_bar(view, x).filter(|_| !x.is_wrong());
    let (low, high) = ends(&truth, f64::INFINITY, f64::NEG_INFINITY);
    let thin = Look::solid(1.4, BLACK);
    let axis = Axis::around(low, high, 7, view.given.pressure.unit);
    let on_scale = |x: &Reading| received_bar(view, x).filter(|v| axis.holds(*v));
    let mut curves = line(&truth, WIDE, Some("true"));
    curves.extend(line(&view.single(right), thin, Some("received")));
    curves.push(wrong_marks(view, "wrong past the check", on_scale));
    Panel {
        height: 270.0,
        label: "pressure, bar",
        name: "pressure".to_string(),
        notes: match view.thinned() {
            1 => Vec::new(),
            few => vec![format!("each point the mean of {few} readings")],
        },
        axis,
        curves,
    }
}

/// Received less true, of readings that are right but for their rounding.
fn right_differences<'a>(view: &'a View, part: &'a [Reading]) -> impl Iterator<Item = f64> + 'a {
    let right = part.iter().filter(|x| !x.is_wrong());
    right.filter_map(|x| Some(received_bar(view, x)? - x.pressure_true))
}

/// A box for each span, from its least difference to its greatest; a point for
/// a single reading.
fn differences(view: &View) -> Curve {
    let mut rows = Rows::default();
    for part in &view.parts {
        let (at, reach) = view.place(part);
        let start = (f64::INFINITY, f64::NEG_INFINITY);
        let found = right_differences(view, part);
        let (low, high) = found.fold(start, |(l, h), d| (l.min(d), h.max(d)));
        if low <= high {
            rows.add(&[at, low, at - reach, at + reach, low, high]);
        }
    }
    let colour = format!("lc rgb '{BLUE}'");
    if view.span == Span::Reading {
        return Curve::new(
            rows,
            format!("with points pt 7 ps 0.4 {colour}"),
            Some("of a reading"),
        );
    }
    let style =
        format!("using 1:2:3:4:5:6 with boxxyerror fs solid border {colour} fc rgb '{BLUE}'");
    let title = format!("least to greatest of {}", view.span.name());
    Curve::new(rows, style, Some(&title))
}

/// Broken lines across the panel at some heights.
fn guide(view: &View, heights: &[f64], title: &str) -> Curve {
    let mut rows = Rows::default();
    for height in heights {
        rows.break_off();
        rows.add(&[view.from, *height]);
        rows.add(&[view.to, *height]);
    }
    let style = format!("with lines dt 2 lw 1.5 lc rgb '{GREY}'");
    Curve::new(rows, style, Some(title))
}

fn difference(view: &View) -> Panel {
    let unit = view.given.pressure.unit;
    let half = unit / 2.0;
    let title = format!("half the sensor's unit of {unit} bar");
    Panel {
        height: 90.0,
        label: "bar",
        name: "pressure received − true".to_string(),
        notes: Vec::new(),
        axis: Axis::between(-unit, unit, 4, unit / 2.0),
        curves: vec![
            differences(view),
            guide(view, &[-half, half], &title),
            wrong_marks(view, "wrong, off the scale", |_| Some(0.85 * unit)),
        ],
    }
}

/// Shares of a span in per cent: how many of how many.
fn share(
    view: &View,
    colour: &str,
    part: impl Fn(&Reading) -> u64,
    whole: impl Fn(&Reading) -> u64,
) -> (Axis, Curve) {
    let sum = |readings: &[Reading], of: &dyn Fn(&Reading) -> u64| readings.iter().map(of).sum();
    let wholes = view.parts.iter().map(|p| -> u64 { sum(p, &whole) });
    let axis = Axis::shares(wholes.max().unwrap_or(1));
    let mut rows = Rows::default();
    for readings in &view.parts {
        let (some, all): (u64, u64) = (sum(readings, &part), sum(readings, &whole));
        if some > 0 {
            rows.add(&[view.place(readings).0, 100.0 * some as f64 / all as f64]);
        }
    }
    let style = format!("with impulses lw 2.5 lc rgb '{colour}'");
    (axis, Curve::new(rows, style, None))
}

fn is_lost(reading: &Reading) -> u64 {
    reading.pressure_received.is_none().into()
}

fn share_panel(
    view: &View,
    (label, name, what): (&'static str, &str, &str),
    (height, colour): (f64, &str),
    part: impl Fn(&Reading) -> u64,
    whole: impl Fn(&Reading) -> u64,
) -> Panel {
    let note = words::share(view.total(&part), view.total(&whole), what, "");
    let (axis, curve) = share(view, colour, part, whole);
    Panel {
        height,
        label,
        name: format!("{name}{}", view.span.share()),
        notes: vec![note],
        axis,
        curves: vec![curve],
    }
}

/// A note on how many there are by the old rule.
fn count_old(view: &View, of: impl Fn(&Outcome) -> u64) -> Option<String> {
    let all = view.total(|x| x.old.as_ref().map_or(0, &of));
    view.has_old().then(|| format!("by the old rule: {all}"))
}

fn lost(view: &View) -> Panel {
    let words = ("lost, %", "readings lost", "reading");
    let mut panel = share_panel(view, words, (70.0, RED), is_lost, |_| 1);
    panel
        .notes
        .extend(count_old(view, |b| b.received.is_none().into()));
    panel
}

fn wrong(view: &View) -> Panel {
    let words = ("wrong, %", "wrong decisions", "symbol");
    let symbols = |x: &Reading| x.symbols.into();
    let mut panel = share_panel(view, words, (100.0, BLACK), |x| x.wrong.into(), symbols);
    panel.notes.extend(count_old(view, |b| b.wrong.into()));
    panel
}

fn clipped(view: &View) -> Panel {
    let words = ("clipped, %", "samples clipped", "sample");
    let samples = view.given.samples_of_reading();
    let clipped = |x: &Reading| x.clipped.into();
    share_panel(view, words, (100.0, BLACK), clipped, |_| samples)
}

/// The level at which a station only guesses: an error that is anything
/// within ±1 of a decision has the mean square 1/3.
fn guessing(view: &View, axis: &Axis) -> Option<Curve> {
    let level = decibels(1.0 / 3.0);
    let curve = guide(view, &[level], "about −5 dB: guessing");
    axis.holds(level).then_some(curve)
}

/// The powers of single readings, beside which spans have their means.
fn single_powers(view: &View) -> Vec<Drawn> {
    if view.span == Span::Reading {
        return Vec::new();
    }
    let few = view.readings.iter().step_by(view.thinned());
    few.map(|x| view.power_of(x)).collect()
}

fn single_marks(view: &View, powers: &[Drawn]) -> Curve {
    let few = match view.thinned() {
        1 => String::new(),
        every => format!(", 1 in {every} drawn"),
    };
    let style = format!("points pt 7 ps 0.15 lc rgb '{BLUE}'");
    let title = format!("mean of a reading{few}");
    Curve::marks(powers.iter().filter_map(place), &style, &title)
}

/// Where a power stands, where there is one.
fn place(drawn: &Drawn) -> Option<(f64, f64)> {
    Some((drawn.point.at, drawn.point.value?))
}

fn points(powers: &[Drawn]) -> Vec<Point> {
    powers.iter().map(|drawn| drawn.point).collect()
}

fn any(powers: &[Drawn], of: fn(ErrorPower) -> bool) -> bool {
    powers.iter().any(|drawn| drawn.power.is_some_and(of))
}

/// Marks of powers that are only floors.
fn floor_marks(powers: &[Drawn]) -> Curve {
    let is_floor = |drawn: &&Drawn| drawn.power.is_some_and(ErrorPower::is_floor);
    floors(powers.iter().filter(is_floor).filter_map(place))
}

pub fn power_notes(zero: bool) -> Vec<String> {
    let mut notes = vec![
        "0 dB: one symbol unit (r.m.s.), half the",
        "distance between neighbours; the error",
        "is to the station's own decision, so one",
        "that only guesses shows about −5 dB;",
        CUT_NOTE,
    ];
    notes.extend(zero.then_some(ZERO_NOTE));
    notes.into_iter().map(str::to_string).collect()
}

fn error_power(view: &View) -> Panel {
    let (own, old, single) = (view.powers(), view.powers_old(), single_powers(view));
    let all = [&own[..], &old, &single].concat();
    let (low, high) = ends(&points(&all), -20.0, 0.0);
    let axis = Axis::around(low, high, 6, 5.0);
    let mut curves: Vec<Curve> = guessing(view, &axis).into_iter().collect();
    curves.push(single_marks(view, &single));
    let title = format!("mean of {}", view.span.name());
    let old_title = format!("{title}, by the old rule");
    curves.extend(line(&points(&old), OLD, Some(&old_title)));
    curves.extend(line(&points(&own), THICK, Some(&title)));
    curves.push(floor_marks(&all));
    let notes = power_notes(any(&all, ErrorPower::is_zero));
    let marked = any(&all, ErrorPower::is_floor);
    Panel {
        height: 150.0 + 20.0 * notes.len() as f64 + if marked { 24.0 } else { 0.0 },
        label: "dB",
        name: "error power".to_string(),
        notes,
        axis,
        curves,
    }
}

fn weight(view: &View, name: &str, of: fn(&Reading) -> f64, height: f64) -> Panel {
    let means = view.means(|x| Some(of(x).abs()));
    let (low, high) = ends(&means, 0.0, 0.0);
    Panel {
        height,
        label: "magnitude",
        name: name.to_string(),
        notes: vec![format!("magnitude, W·2^(ψ−15), {}", view.span.after())],
        axis: Axis::around(low, high, 5, 0.01),
        curves: line(&means, THICK, None),
    }
}

fn exponent_and_gain(view: &View) -> Panel {
    let psi = view.held(|x| x.record.psi.into());
    let old = view.held_old(|b| b.record.psi.into());
    let gain = view.means(|x| Some((f64::from(x.gain_least) + f64::from(x.gain_most)) / 2.0));
    let (_, high) = ends(&psi, 0.0, 1.0);
    let (_, high) = ends(&old, 0.0, high);
    let (_, high) = ends(&gain, 0.0, high);
    let gain_title = format!("gain g, mean of {}", view.span.name());
    let mut curves = steps(&old, OLD, Some("ψ by the old rule"));
    curves.extend(steps(&psi, THICK, Some("ψ, the weights' exponent")));
    curves.extend(line(&gain, Look::solid(2.5, BLUE), Some(&gain_title)));
    Panel {
        height: 150.0,
        label: "ψ, g",
        name: "exponent and gain".to_string(),
        notes: Vec::new(),
        axis: Axis::counts(high, 5),
        curves,
    }
}

fn lengths(view: &View) -> Panel {
    let block = view.means(|x| Some(x.record.b.into()));
    let window = view.means(|x| Some(x.record.bmax.into()));
    let (low, high) = ends(&window, f64::INFINITY, f64::NEG_INFINITY);
    let (low, high) = ends(&block, low, high);
    let mut curves = line(&window, WIDE, Some("B"));
    curves.extend(line(&block, THICK, Some("b")));
    Panel {
        height: 118.0,
        label: "b, B",
        name: format!("bits of samples, {}", view.span.after()),
        notes: vec![
            "b: bits of a block's largest sample".to_string(),
            "B: the larger of this b and that of".to_string(),
            "the block before".to_string(),
        ],
        axis: Axis::around(low, high, 4, 1.0),
        curves,
    }
}

/// How the station came back, in words, and the mark for it.
const RETURNS: [(Return, &str, &str, &str); 4] = [
    (Return::Loaded, "image loaded", "pt 6", BLACK),
    (Return::LoadedDamaged, "damaged image loaded", "pt 8", RED),
    (
        Return::SetUpAnew,
        "no image taken, set up anew",
        "pt 5",
        RED,
    ),
    (
        Return::CheckSumWrong,
        "check sum wrong, set up anew",
        "pt 13",
        RED,
    ),
];

/// A row of marks for each way that the station came back; none where power
/// was never lost.
fn power(view: &View) -> Option<Panel> {
    let count = |how: Return| view.total(|x| (x.power_lost == Some(how)).into());
    let there: Vec<_> = RETURNS.iter().filter(|r| count(r.0) > 0).collect();
    let total: u64 = there.iter().map(|r| count(r.0)).sum();
    let rows = there.len() as f64;
    let curves = there
        .iter()
        .enumerate()
        .map(|(row, (how, words, mark, colour))| {
            let parts = view.parts.iter();
            let first = parts.filter_map(|part| part.iter().find(|x| x.power_lost == Some(*how)));
            let places = first.map(|x| (x.day / view.unit, rows - row as f64));
            let style = format!("points {mark} ps 1.5 lw 2 lc rgb '{colour}'");
            Curve::marks(places, &style, &format!("{words}: {}", count(*how)))
        });
    let curves: Vec<Curve> = curves.collect();
    (total > 0).then(|| Panel {
        height: 30.0 + 26.0 * rows,
        label: "power",
        name: format!("power lost {}", words::count(total, "time")),
        notes: Vec::new(),
        axis: Axis {
            labels: Vec::new(),
            ..Axis::between(0.2, rows + 0.8, 1, 1.0)
        },
        curves,
    })
}

/// None where no call was turned down.
fn refused(view: &View) -> Option<Panel> {
    let all = |x: &Reading| f64::from(x.refused.iter().sum::<u32>());
    let so_far = view.held(all);
    let (_, high) = ends(&so_far, 0.0, 0.0);
    let last = view.readings.last().map_or([0; 10], |x| x.refused);
    let some = (1..10).filter(|n| last[*n] > 0);
    let numbers: Vec<String> = some.map(|n| format!("{n}: {}", last[n])).collect();
    (high > 0.0).then(|| Panel {
        height: 90.0,
        label: "calls",
        name: "calls turned down so far, by number".to_string(),
        notes: numbers.chunks(3).map(|few| few.join(", ")).collect(),
        axis: Axis::counts(high, 4),
        curves: steps(&so_far, THICK, None),
    })
}
