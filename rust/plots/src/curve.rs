//! Points that are drawn, and where their line breaks.

use crate::power::{ErrorPower, FLOOR_TITLE};
use std::fmt::Write;

/// A point of a line: a place, how far it reaches either way, a value where it has one, and whether anything was
/// received there.
#[derive(Clone, Copy, Debug)]
pub struct Point {
    pub at: f64,
    pub reach: f64,
    pub value: Option<f64>,
    pub received: bool,
}

impl Point {
    fn on_line(&self) -> Option<f64> {
        self.value.filter(|_| self.received)
    }

    fn place(&self) -> Option<(f64, f64)> {
        Some((self.at, self.value?))
    }
}

/// The least and the greatest of values, and the given ones among them.
pub fn range(values: impl Iterator<Item = f64>, low: f64, high: f64) -> (f64, f64) {
    values.fold((low, high), |(low, high), v| (low.min(v), high.max(v)))
}

/// The same of points.
pub fn ends<'a>(points: impl IntoIterator<Item = &'a Point>, low: f64, high: f64) -> (f64, f64) {
    range(points.into_iter().filter_map(|p| p.value), low, high)
}

pub const BLACK: &str = "#000000";
pub const BLUE: &str = "#5b9bd5";
pub const RED: &str = "#b00000";
pub const GREY: &str = "#777777";
pub const ORANGE: &str = "#e66100";
/// How dots in place of a line are drawn, but for their colour.
pub const DOTTED: &str = "with points pt 7 ps 0.3";
/// Dots across a page, about.
const DOTS: f64 = 150.0;

/// Rows of numbers, a blank one where a line breaks.
#[derive(Clone, Debug, Default)]
pub struct Rows(String);

impl Rows {
    pub fn add(&mut self, numbers: &[f64]) {
        let mut between = "";
        for number in numbers {
            let _ = write!(self.0, "{between}{number:.6}");
            between = " ";
        }
        self.0.push('\n');
    }

    pub fn break_off(&mut self) {
        if !self.0.is_empty() && !self.0.ends_with("\n\n") {
            self.0.push('\n');
        }
    }
}

impl FromIterator<(f64, f64)> for Rows {
    fn from_iter<T: IntoIterator<Item = (f64, f64)>>(places: T) -> Rows {
        let mut rows = Rows::default();
        places.into_iter().for_each(|(at, height)| rows.add(&[at, height]));
        rows
    }
}

/// Rows as gnuplot reads them, and how they are drawn. One without a row is on no page, in its legend neither.
#[derive(Clone, Debug)]
pub struct Curve {
    pub rows: String,
    pub style: String,
    /// None: not in the legend.
    pub title: Option<String>,
}

impl Curve {
    pub fn new(rows: Rows, style: String, title: Option<&str>) -> Curve {
        Curve { rows: rows.0, style, title: title.map(str::to_string) }
    }

    /// Whether it has dots in place of a line.
    pub fn is_dots(&self) -> bool {
        self.style.starts_with(DOTTED) && !self.rows.is_empty()
    }

    /// Marks, each at a place and a height.
    pub fn marks(places: impl Iterator<Item = (f64, f64)>, style: &str, title: &str) -> Curve {
        Curve::new(places.collect(), format!("with points {style}"), Some(title))
    }
}

/// Dotted lines across a panel at some heights.
pub fn guide((from, to): (f64, f64), heights: &[f64], title: &str) -> Curve {
    let mut rows = Rows::default();
    for height in heights {
        rows.break_off();
        rows.add(&[from, *height]);
        rows.add(&[to, *height]);
    }
    Curve::new(rows, format!("with lines dt 3 lw 2 lc rgb '{GREY}'"), Some(title))
}

/// Marks of those error powers that are only floors.
pub fn floors(powers: impl Iterator<Item = (f64, ErrorPower)>) -> Curve {
    let only_floors = powers.filter(|(_, power)| power.is_floor());
    let places = only_floors.map(|(at, power)| (at, power.decibels()));
    Curve::marks(places, &format!("pt 8 ps 1.4 lw 2 lc rgb '{RED}'"), FLOOR_TITLE)
}

/// Points in a row that a line goes through, each with its value, and where the line begins and ends.
struct Run<'a> {
    points: Vec<(&'a Point, f64)>,
    from: f64,
    to: f64,
}

/// The run of points that all have a value; the page is from `begin` to `end`. A run that ends within it ends at its last
/// point; at the page's ends, and alone, a point is drawn as wide as it reaches.
fn run(part: &[Point], begin: f64, end: f64) -> Run<'_> {
    let (first, last) = (&part[0], &part[part.len() - 1]);
    let wide = |at: f64, edge: f64, reach: f64| if part.len() == 1 || at == edge { at + reach } else { at };
    Run {
        from: wide(first.at, begin, -first.reach),
        to: wide(last.at, end, last.reach),
        points: part.iter().filter_map(|p| Some((p, p.on_line()?))).collect(),
    }
}

fn runs(points: &[Point]) -> Vec<Run<'_>> {
    let parts = points.chunk_by(|a, b| a.on_line().is_some() == b.on_line().is_some());
    let parts = parts.filter(|part| part[0].on_line().is_some());
    parts.map(|part| run(part, points[0].at, points[points.len() - 1].at)).collect()
}

fn line_rows(rows: &mut Rows, run: &Run) {
    let (first, last) = (run.points[0], run.points[run.points.len() - 1]);
    rows.add(&[run.from, first.1]);
    run.points.iter().for_each(|(p, value)| rows.add(&[p.at, *value]));
    rows.add(&[run.to, last.1]);
}

/// The two ends of each value.
fn step_rows(rows: &mut Rows, run: &Run) {
    for same in run.points.chunk_by(|a, b| a.1 == b.1) {
        let (first, last) = (same[0], same[same.len() - 1]);
        rows.add(&[(first.0.at - first.0.reach).max(run.from), first.1]);
        rows.add(&[(last.0.at + last.0.reach).min(run.to), last.1]);
    }
}

/// Of points in a row, those that are so far apart in time or in value.
fn spaced(run: &[Point], (time, height): (f64, f64)) -> Vec<(f64, f64)> {
    let mut kept: Vec<(f64, f64)> = Vec::new();
    for (at, value) in run.iter().filter_map(Point::place) {
        if kept.last().is_none_or(|last| at - last.0 >= time || (value - last.1).abs() > height) {
            kept.push((at, value));
        }
    }
    kept
}

/// Dots where nothing was received, so that what the station held is seen.
fn dots(points: &[Point], colour: &str, title: Option<&str>) -> Curve {
    let times = points.first().zip(points.last()).map_or(0.0, |(first, last)| last.at - first.at);
    let (low, high) = ends(points, f64::INFINITY, f64::NEG_INFINITY);
    let apart = (times / DOTS, (high - low) / 20.0);
    let silent = points.chunk_by(|a, b| a.received == b.received).filter(|run| !run[0].received);
    let rows = silent.flat_map(|run| spaced(run, apart)).collect();
    Curve::new(rows, format!("{DOTTED} lc rgb '{colour}'"), title)
}

/// How a line is drawn.
#[derive(Clone, Copy)]
pub struct Look {
    pub width: f64,
    pub colour: &'static str,
    pub dashes: &'static str,
}

impl Look {
    pub const fn solid(width: f64, colour: &'static str) -> Look {
        Look { width, colour, dashes: "" }
    }
}

fn drawn(points: &[Point], look: Look, title: Option<&str>, through: fn(&mut Rows, &Run)) -> Vec<Curve> {
    let mut rows = Rows::default();
    for run in runs(points) {
        rows.break_off();
        through(&mut rows, &run);
    }
    let Look { width, colour, dashes } = look;
    let line = Curve::new(rows, format!("with lines lw {width} {dashes}lc rgb '{colour}'"), title);
    let dots_title = title.filter(|_| line.rows.is_empty());
    vec![dots(points, colour, dots_title), line]
}

/// A line that breaks where nothing was received.
pub fn line(points: &[Point], look: Look, title: Option<&str>) -> Vec<Curve> {
    drawn(points, look, title, line_rows)
}

/// Steps that break where nothing was received.
pub fn steps(points: &[Point], look: Look, title: Option<&str>) -> Vec<Curve> {
    drawn(points, look, title, step_rows)
}
