//! Points that are drawn, and where their line breaks.

use std::fmt::Write;

/// A point of a line: a place, how far it reaches either way, a value where it
/// has one, and whether anything was received there.
#[derive(Clone, Copy, Debug)]
pub struct Point {
    pub at: f64,
    pub reach: f64,
    pub value: Option<f64>,
    pub received: bool,
}

impl Point {
    fn on_line(&self) -> Option<f64> {
        self.value.filter(|_| self.received)
    }

    fn start(&self) -> f64 {
        self.at - self.reach
    }

    fn end(&self) -> f64 {
        self.at + self.reach
    }
}

/// Rows as gnuplot reads them, and how they are drawn.
#[derive(Clone, Debug)]
pub struct Curve {
    pub rows: String,
    pub style: String,
    /// None: not in the legend.
    pub title: Option<String>,
}

pub const BLACK: &str = "#000000";
pub const BLUE: &str = "#5b9bd5";
pub const RED: &str = "#b00000";
pub const GREY: &str = "#777777";
pub const ORANGE: &str = "#e66100";
/// How dots in place of a line are drawn, but for their colour.
pub const DOTTED: &str = "with points pt 7 ps 0.3";
/// Dots across a page, about.
const DOTS: f64 = 150.0;

/// Rows of numbers, a blank one where a line breaks.
#[derive(Default)]
pub struct Rows(String);

impl Rows {
    pub fn add(&mut self, numbers: &[f64]) {
        let mut between = "";
        for number in numbers {
            let _ = write!(self.0, "{between}{number:.6}");
            between = " ";
        }
        self.0.push('\n');
    }

    pub fn break_off(&mut self) {
        if !self.0.is_empty() && !self.0.ends_with("\n\n") {
            self.0.push('\n');
        }
    }

    pub fn text(self) -> String {
        self.0
    }
}

impl Curve {
    pub fn new(rows: Rows, style: String, title: Option<&str>) -> Curve {
        let title = title.map(str::to_string);
        let rows = rows.text();
        Curve { rows, style, title }
    }

    /// Whether it has dots in place of a line.
    pub fn is_dots(&self) -> bool {
        self.style.starts_with(DOTTED) && !self.rows.is_empty()
    }

    /// Marks, each at a place and a height.
    pub fn marks(places: impl Iterator<Item = (f64, f64)>, style: &str, title: &str) -> Curve {
        let mut rows = Rows::default();
        places.for_each(|(at, height)| rows.add(&[at, height]));
        Curve::new(rows, format!("with {style}"), Some(title))
    }
}

/// Marks of error powers that are only floors.
pub fn floors(places: impl Iterator<Item = (f64, f64)>) -> Curve {
    let style = format!("points pt 8 ps 1.4 lw 2 lc rgb '{RED}'");
    Curve::marks(places, &style, "only a floor: an error of 256 or more")
}

/// Points in a row that a line goes through, each with its value, and where
/// the line begins and ends.
struct Run<'a> {
    points: Vec<(&'a Point, f64)>,
    from: f64,
    to: f64,
}

/// The runs of a line. One that ends within the page ends at its last point;
/// at the page's ends, and alone, a point is drawn as wide as it reaches.
fn runs(points: &[Point]) -> Vec<Run<'_>> {
    let ends = points
        .first()
        .map(|p| p.at)
        .zip(points.last().map(|p| p.at));
    let (begin, end) = ends.unwrap_or((0.0, 0.0));
    let together = |a: &Point, b: &Point| a.on_line().is_some() == b.on_line().is_some();
    let parts = points.chunk_by(together);
    parts
        .filter(|part| part[0].on_line().is_some())
        .map(|part| {
            let (first, last) = (&part[0], &part[part.len() - 1]);
            let alone = part.len() == 1;
            let wide =
                |at: f64, edge: f64, reach: f64| if alone || at == edge { reach } else { at };
            Run {
                points: part
                    .iter()
                    .filter_map(|p| Some((p, p.on_line()?)))
                    .collect(),
                from: wide(first.at, begin, first.start()),
                to: wide(last.at, end, last.end()),
            }
        })
        .collect()
}

fn line_rows(rows: &mut Rows, run: &Run) {
    let (first, last) = (run.points[0], run.points[run.points.len() - 1]);
    rows.add(&[run.from, first.1]);
    run.points
        .iter()
        .for_each(|(p, value)| rows.add(&[p.at, *value]));
    rows.add(&[run.to, last.1]);
}

/// The two ends of each value.
fn step_rows(rows: &mut Rows, run: &Run) {
    for same in run.points.chunk_by(|a, b| a.1 == b.1) {
        let (first, last) = (same[0], same[same.len() - 1]);
        rows.add(&[first.0.start().max(run.from), first.1]);
        rows.add(&[last.0.end().min(run.to), last.1]);
    }
}

/// How far apart two points have to be, in time or in value, to be seen apart.
#[derive(Clone, Copy)]
struct Apart {
    time: f64,
    value: f64,
}

impl Apart {
    fn of(places: &[(f64, f64)]) -> Apart {
        let across = |all: &mut dyn Iterator<Item = f64>| {
            let start = (f64::INFINITY, f64::NEG_INFINITY);
            let (low, high) = all.fold(start, |(low, high), v| (low.min(v), high.max(v)));
            high - low
        };
        Apart {
            time: across(&mut places.iter().map(|p| p.0)) / DOTS,
            value: across(&mut places.iter().map(|p| p.1)) / 20.0,
        }
    }

    fn seen(self, one: (f64, f64), other: (f64, f64)) -> bool {
        other.0 - one.0 >= self.time || (other.1 - one.1).abs() > self.value
    }
}

/// Of points in a row, those that are seen apart.
fn spaced(run: &[(f64, f64)], apart: Apart) -> Vec<(f64, f64)> {
    let mut kept: Vec<(f64, f64)> = Vec::new();
    for place in run {
        if kept.last().is_none_or(|last| apart.seen(*last, *place)) {
            kept.push(*place);
        }
    }
    kept
}

/// Dots where nothing was received, so that what the station held is seen.
fn dots(points: &[Point], colour: &str, title: Option<&str>) -> Curve {
    let place = |p: &Point| Some((p.at, p.value?));
    let apart = Apart::of(&points.iter().filter_map(place).collect::<Vec<_>>());
    let runs = points.chunk_by(|a, b| a.received == b.received);
    let silent = runs.filter(|run| !run[0].received);
    let places = silent.map(|run| run.iter().filter_map(place).collect::<Vec<_>>());
    let mut rows = Rows::default();
    let kept = places.flat_map(|run| spaced(&run, apart));
    kept.for_each(|(at, value)| rows.add(&[at, value]));
    let style = format!("{DOTTED} lc rgb '{colour}'");
    Curve::new(rows, style, title)
}

/// How a line is drawn.
#[derive(Clone, Copy)]
pub struct Look {
    pub width: f64,
    pub colour: &'static str,
    pub dashes: &'static str,
}

impl Look {
    pub const fn solid(width: f64, colour: &'static str) -> Look {
        Look {
            width,
            colour,
            dashes: "",
        }
    }
}

fn drawn(
    points: &[Point],
    look: Look,
    title: Option<&str>,
    through: fn(&mut Rows, &Run),
) -> Vec<Curve> {
    let mut rows = Rows::default();
    for run in runs(points) {
        rows.break_off();
        through(&mut rows, &run);
    }
    let Look {
        width,
        colour,
        dashes,
    } = look;
    let style = format!("with lines lw {width} {dashes}lc rgb '{colour}'");
    let line = Curve::new(rows, style, title);
    let dots_title = title.filter(|_| line.rows.is_empty());
    vec![dots(points, colour, dots_title), line]
}

/// A line that breaks where nothing was received.
pub fn line(points: &[Point], look: Look, title: Option<&str>) -> Vec<Curve> {
    drawn(points, look, title, line_rows)
}

/// Steps that break where nothing was received.
pub fn steps(points: &[Point], look: Look, title: Option<&str>) -> Vec<Curve> {
    drawn(points, look, title, step_rows)
}
