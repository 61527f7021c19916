//! The pages of all the years and of the days around a spell.

use crate::history::Reading;
use crate::station::Return;
use crate::table::{extent, largest_back, largest_forward, other_than_default};
use crate::view::{Span, View};
use plots::axis::Axis;
use plots::curve::{ends, floors, guide, line, range, steps, Curve, Look, Rows, BLACK, BLUE, RED};
use plots::page::{Page, Panel, Shade};
use plots::power::{ErrorPower, CUT_NOTE, ZERO_NOTE};
use plots::words::{self, decibels};

const THICK: Look = Look::solid(2.5, BLACK);
const WIDE: Look = Look::solid(7.0, BLUE);

/// What is assumed, and what is not.
pub const PROVED: &str = "Assumed: cable, noise, gain control, converter. \
     By proved libraries: every block, save and load, each block's error power.";

pub fn page(view: &View, title: String) -> Page {
    let (most, unit) = match view.unit > 1.0 {
        true => (if view.to > 10.0 { 20 } else { 10 }, "years"),
        false => (10, "days"),
    };
    let mut panels = panels(view);
    let time = Axis::between(view.from, view.to, most, 0.1);
    Page::share_axis(&mut panels, &time, &format!("time since installation, {unit}"));
    let dots = match view.span {
        Span::Reading => "dots: the reading was lost",
        Span::Day => "dots: a day without a reading",
        Span::Week => "dots: a week without a reading",
    };
    Page { title, lines: head(view), shades: shades(view), panels }.with_keys(dots)
}

fn head(view: &View) -> Vec<String> {
    let lost = words::share(view.total(is_lost), view.readings.len(), "reading", "lost");
    let past = words::count(view.total(|x| x.is_wrong().into()), "wrong pressure");
    let mut lines = vec![format!("{lost}, {past} past the check"), PROVED.to_string()];
    lines.extend(extent(view.given));
    lines.extend(other_than_default(view.given));
    lines
}

fn shades(view: &View) -> Vec<Shade> {
    let all = [
        ("loud spell", "#999999", view.marked(|x| x.loud)),
        ("faint spell", "#9bc39b", view.marked(|x| x.faint)),
        ("noisy joint", "#d3bf75", view.marked(|x| x.joint)),
    ];
    let there = all.into_iter().filter(|(_, _, times)| !times.is_empty());
    there.map(|(name, colour, times)| Shade { name, colour, times }).collect()
}

fn panels(view: &View) -> Vec<Panel> {
    let mut panels = vec![
        pressure(view),
        difference(view),
        share(view, ("lost, %", "readings lost", "reading"), RED, is_lost, 1),
        share(
            view,
            ("wrong, %", "wrong decisions", "symbol"),
            BLACK,
            |x| x.outcome.wrong,
            view.given.payload_symbols(),
        ),
        share(view, ("clipped, %", "samples clipped", "sample"), BLACK, |x| x.clipped, view.given.samples_of_reading()),
        error_power(view),
        weight(view, "largest feed forward weight", largest_forward),
        weight(view, "largest feedback weight", largest_back),
        exponent_and_gain(view),
        lengths(view),
    ];
    panels.extend(power(view));
    panels.extend(refused(view));
    panels
}

fn is_lost(reading: &Reading) -> usize {
    reading.is_lost().into()
}

fn received_bar(view: &View, reading: &Reading) -> Option<f64> {
    reading.outcome.received.map(|number| view.given.bar(number))
}

/// Marks of wrong pressures that passed the check.
fn wrong_marks(view: &View, title: &str, height: impl Fn(&Reading) -> Option<f64>) -> Curve {
    let wrong = view.readings.iter().filter(|x| x.is_wrong());
    let places = wrong.filter_map(|x| Some((x.day / view.unit, height(x)?)));
    Curve::marks(places, &format!("pt 9 ps 1.4 lc rgb '{RED}'"), title)
}

fn pressure(view: &View) -> Panel {
    let truth = view.single(|x| Some(x.pressure));
    let right = view.single(|x| received_bar(view, x).filter(|_| !x.is_wrong()));
    let up = Axis::around(ends(&truth, f64::INFINITY, f64::NEG_INFINITY), 7, view.given.pressure_unit);
    let on_scale = |x: &Reading| received_bar(view, x).filter(|v| up.holds(*v));
    let mut curves = line(&truth, WIDE, Some("true"));
    curves.extend(line(&right, Look::solid(1.4, BLACK), Some("received")));
    curves.push(wrong_marks(view, "wrong past the check", on_scale));
    let few = view.thinned();
    let notes = (few > 1).then(|| format!("each point the mean of {few} readings"));
    Panel::new(270.0, "pressure, bar", "pressure", up, curves).with_notes(notes)
}

/// Received less true, of readings that are right but for their rounding: a box for each span, from its least difference
/// to its greatest; a point for a single reading.
fn differences(view: &View) -> Curve {
    let mut rows = Rows::default();
    for part in &view.parts {
        let right = part.iter().filter(|x| !x.is_wrong());
        let found = right.filter_map(|x| Some(received_bar(view, x)? - x.pressure));
        let (low, high) = range(found, f64::INFINITY, f64::NEG_INFINITY);
        let (at, reach) = view.place(part);
        if low <= high {
            rows.add(&[at, low, at - reach, at + reach, low, high]);
        }
    }
    if view.span == Span::Reading {
        return Curve::new(rows, format!("with points pt 7 ps 0.4 lc rgb '{BLUE}'"), Some("of a reading"));
    }
    let style = format!("using 1:2:3:4:5:6 with boxxyerror fs solid border lc rgb '{BLUE}' fc rgb '{BLUE}'");
    Curve::new(rows, style, Some(&format!("least to greatest of {}", view.span.name())))
}

fn difference(view: &View) -> Panel {
    let unit = view.given.pressure_unit;
    let title = format!("half the sensor's unit of {unit} bar");
    let curves = vec![
        differences(view),
        guide((view.from, view.to), &[-unit / 2.0, unit / 2.0], &title),
        wrong_marks(view, "wrong, off the scale", |_| Some(0.85 * unit)),
    ];
    Panel::new(90.0, "bar", "pressure received − true", Axis::between(-unit, unit, 4, unit / 2.0), curves)
}

/// Shares of a span in per cent: how many of so many in each reading.
fn share(
    view: &View,
    (label, name, what): (&'static str, &str, &str),
    colour: &str,
    part: impl Fn(&Reading) -> usize,
    whole: usize,
) -> Panel {
    let of_span = |readings: &&[Reading]| {
        let some: usize = readings.iter().map(&part).sum();
        (some > 0).then(|| (view.place(readings).0, 100.0 * some as f64 / (whole * readings.len()) as f64))
    };
    let rows = view.parts.iter().filter_map(of_span).collect();
    let most = view.parts.iter().map(|readings| readings.len()).max().unwrap_or(1);
    let of = match view.span {
        Span::Reading => String::new(),
        span => format!(", share of {}", span.name()),
    };
    let curve = Curve::new(rows, format!("with impulses lw 2.5 lc rgb '{colour}'"), None);
    let note = words::share(view.total(&part), whole * view.readings.len(), what, "");
    Panel::new(90.0, label, &format!("{name}{of}"), Axis::shares(whole * most), vec![curve]).with_notes([note])
}

/// What a panel of error powers says of them.
pub fn power_notes(powers: impl IntoIterator<Item = ErrorPower>) -> Vec<&'static str> {
    let mut notes = vec![
        "0 dB: one symbol unit (r.m.s.), half the",
        "distance between neighbours; the error",
        "is to the station's own decision, so one",
        "that only guesses shows about −5 dB;",
        CUT_NOTE,
    ];
    notes.extend(powers.into_iter().any(ErrorPower::is_zero).then_some(ZERO_NOTE));
    notes
}

/// An error that is anything within ±1 of a decision has the mean square 1/3: the level at which a station only guesses.
fn error_power(view: &View) -> Panel {
    let (own, (every, single)) = (view.powers(), view.single_powers());
    let points = view.points(own.iter().map(|power| power.map(ErrorPower::decibels)));
    let of_spans = points.iter().zip(&own).filter_map(|(point, power)| Some((point.at, (*power)?)));
    let all = of_spans.chain(single.iter().copied());
    let ends = range(all.clone().map(|(_, power)| power.decibels()), -20.0, 0.0);
    let few = if every > 1 { format!(", 1 in {every} drawn") } else { String::new() };
    let places = single.iter().map(|(at, power)| (*at, power.decibels()));
    let mut curves = vec![
        guide((view.from, view.to), &[decibels(1.0 / 3.0)], "about −5 dB: guessing"),
        Curve::marks(places, &format!("pt 7 ps 0.25 lc rgb '{BLUE}'"), &format!("mean of a reading{few}")),
    ];
    curves.extend(line(&points, THICK, Some(&format!("mean of {}", view.span.name()))));
    curves.push(floors(all.clone()));
    let notes = power_notes(all.map(|(_, power)| power));
    Panel::new(250.0, "dB", "error power", Axis::around(ends, 6, 5.0), curves).with_notes(notes)
}

/// What the station holds after each reading, in words.
fn held(view: &View) -> String {
    match view.span {
        Span::Reading => "after a reading".to_string(),
        span => format!("mean of {}", span.name()),
    }
}

/// Means of magnitudes: those of a weight whose sign changes would cancel.
fn weight(view: &View, name: &str, of: fn(&Reading) -> f64) -> Panel {
    let means = view.means(|x| of(x).abs());
    let note = format!("magnitude, W·2^(ψ−15), {}", held(view));
    let up = Axis::around(ends(&means, 0.0, 0.0), 5, 0.01);
    Panel::new(115.0, "magnitude", name, up, line(&means, THICK, None)).with_notes([note])
}

fn exponent_and_gain(view: &View) -> Panel {
    let psi = view.held(|x| x.outcome.record.psi.into());
    let gain = view.means(|x| (f64::from(x.gain_least) + f64::from(x.gain_most)) / 2.0);
    let (_, high) = ends(psi.iter().chain(&gain), 0.0, 1.0);
    let mut curves = steps(&psi, THICK, Some("ψ, the weights' exponent"));
    curves.extend(line(&gain, Look::solid(2.5, BLUE), Some(&format!("gain g, mean of {}", view.span.name()))));
    Panel::new(150.0, "ψ, g", "exponent and gain", Axis::counts(high, 5), curves)
}

fn lengths(view: &View) -> Panel {
    let block = view.means(|x| x.outcome.record.b.into());
    let window = view.means(|x| x.outcome.record.bmax.into());
    let both = window.iter().chain(&block);
    let mut curves = line(&window, WIDE, Some("B"));
    curves.extend(line(&block, THICK, Some("b")));
    let notes = ["b: bits of a block's largest sample", "B: the larger of this b and that of", "the block before"];
    let up = Axis::around(ends(both, f64::INFINITY, f64::NEG_INFINITY), 4, 1.0);
    Panel::new(118.0, "b, B", &format!("bits of samples, {}", held(view)), up, curves).with_notes(notes)
}

/// How the station came back, in words, and the mark for it.
const RETURNS: [(Return, &str, &str, &str); 4] = [
    (Return::Loaded, "image loaded", "pt 6", BLACK),
    (Return::LoadedDamaged, "damaged image loaded", "pt 8", RED),
    (Return::SetUpAnew, "no image taken, set up anew", "pt 5", RED),
    (Return::CheckSumWrong, "check sum wrong, set up anew", "pt 13", RED),
];

/// A row of marks, one a span at most, for each way that the station came back; none where power was never lost.
fn power(view: &View) -> Option<Panel> {
    let came = |how: Return| view.readings.iter().filter(move |x| x.power_lost == Some(how));
    let there: Vec<_> = RETURNS.iter().filter(|(how, ..)| came(*how).count() > 0).collect();
    let total: usize = there.iter().map(|(how, ..)| came(*how).count()).sum();
    let rows = there.len();
    let marks = there.into_iter().enumerate().map(|(row, (how, words, mark, colour))| {
        let first = view.parts.iter().filter_map(|part| part.iter().find(|x| x.power_lost == Some(*how)));
        let places = first.map(|x| (x.day / view.unit, (rows - row) as f64));
        let style = format!("{mark} ps 1.5 lw 2 lc rgb '{colour}'");
        Curve::marks(places, &style, &format!("{words}: {}", came(*how).count()))
    });
    let name = format!("power lost {}", words::count(total, "time"));
    (total > 0).then(|| Panel::new(30.0 + 26.0 * rows as f64, "power", &name, Axis::rows(rows), marks.collect()))
}

/// None where no call was turned down.
fn refused(view: &View) -> Option<Panel> {
    let so_far = view.held(|x| x.refused.iter().sum::<u32>().into());
    let (_, high) = ends(&so_far, 0.0, 0.0);
    let last = view.readings.last().map_or([0; 10], |x| x.refused);
    let some = (1..10).filter(|n| last[*n] > 0);
    let numbers: Vec<String> = some.map(|n| format!("{n}: {}", last[n])).collect();
    let (name, curves) = ("calls turned down so far, by number", steps(&so_far, THICK, None));
    let panel = Panel::new(90.0, "calls", name, Axis::counts(high, 4), curves);
    (high > 0.0).then(|| panel.with_notes(numbers.chunks(3).map(|few| few.join(", "))))
}
