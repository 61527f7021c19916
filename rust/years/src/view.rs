//! The readings of one page, and the spans of time that it draws.

use crate::assumptions::{Assumptions, DAYS_A_YEAR};
use crate::history::Reading;
use plots::curve::Point;
use plots::power::ErrorPower;

/// A page draws reading by reading up to so many, days up to so many, weeks beyond.
const MOST_SPANS: usize = 3000;
/// Points of one curve that follows single readings, and single points beside a curve, about.
const MOST_POINTS: usize = 20_000;
const MOST_MARKS: usize = 5000;

#[derive(Clone, Copy, Debug, PartialEq)]
pub enum Span {
    Reading,
    Day,
    Week,
}

pub struct View<'a> {
    pub given: &'a Assumptions,
    pub readings: &'a [Reading],
    /// The readings of each span.
    pub parts: Vec<&'a [Reading]>,
    pub span: Span,
    /// Days in a unit of the time axis.
    pub unit: f64,
    /// In that unit.
    pub from: f64,
    pub to: f64,
}

impl Span {
    pub fn name(self) -> &'static str {
        match self {
            Span::Reading => "a reading",
            Span::Day => "a day",
            Span::Week => "a week",
        }
    }

    /// The span in which a day is.
    fn number(self, reading: &Reading) -> f64 {
        match self {
            Span::Reading => reading.number.into(),
            Span::Day => reading.day.floor(),
            Span::Week => (reading.day / 7.0).floor(),
        }
    }

    fn for_window(readings: usize, days: f64) -> Span {
        if readings <= MOST_SPANS {
            Span::Reading
        } else if days <= MOST_SPANS as f64 {
            Span::Day
        } else {
            Span::Week
        }
    }

    fn parts(self, readings: &[Reading]) -> Vec<&[Reading]> {
        readings.chunk_by(|a, b| self.number(a) == self.number(b)).collect()
    }
}

/// Whether any of them was received.
fn received(part: &[Reading]) -> bool {
    part.iter().any(|x| !x.is_lost())
}

/// The mean of what the readings have, where one has any.
fn mean(part: &[Reading], of: impl Fn(&Reading) -> Option<f64>) -> Option<f64> {
    let values: Vec<f64> = part.iter().filter_map(of).collect();
    (!values.is_empty()).then(|| values.iter().sum::<f64>() / values.len() as f64)
}

impl<'a> View<'a> {
    /// All the years, week by week.
    pub fn all(given: &'a Assumptions, readings: &'a [Reading]) -> View<'a> {
        let (span, to) = (Span::Week, given.years.into());
        View { given, readings, parts: span.parts(readings), span, unit: DAYS_A_YEAR, from: 0.0, to }
    }

    /// The days around marked readings; none where none is marked.
    pub fn near(
        given: &'a Assumptions,
        readings: &'a [Reading],
        marked: impl Fn(&Reading) -> bool,
    ) -> Option<View<'a>> {
        let first = readings.iter().find(|x| marked(x))?.day;
        let last = readings.iter().rfind(|x| marked(x))?.day;
        let from = ((first / 10.0).floor() * 10.0 - 20.0).max(0.0);
        let to = ((last / 10.0).ceil() * 10.0 + 20.0).min(given.days().into());
        let start = readings.partition_point(|x| x.day < from);
        let end = readings.partition_point(|x| x.day < to);
        let readings = &readings[start..end];
        let span = Span::for_window(readings.len(), to - from);
        Some(View { given, readings, parts: span.parts(readings), span, unit: 1.0, from, to })
    }

    /// Readings that one point of a curve of single readings stands for.
    pub fn thinned(&self) -> usize {
        self.readings.len().div_ceil(MOST_POINTS).max(1)
    }

    /// Where readings in a row stand on the time axis, and how far they reach.
    pub fn place(&self, part: &[Reading]) -> (f64, f64) {
        let (first, last) = (part[0].day, part[part.len() - 1].day);
        let apart = 1.0 / f64::from(self.given.readings_a_day);
        let reach = (last - first + apart) / 2.0;
        ((first + last) / 2.0 / self.unit, reach / self.unit)
    }

    fn point(&self, part: &[Reading], received: bool, value: Option<f64>) -> Point {
        let (at, reach) = self.place(part);
        Point { at, reach, value, received }
    }

    /// A point for each span: the mean of its readings.
    pub fn means(&self, of: impl Fn(&Reading) -> f64) -> Vec<Point> {
        self.points(self.parts.iter().map(|part| mean(part, |x| Some(of(x)))))
    }

    /// The error power of each span, where it has one.
    pub fn powers(&self) -> Vec<Option<ErrorPower>> {
        let joined = |part: &&[Reading]| ErrorPower::joined(part.iter().filter_map(|x| x.outcome.error_power));
        self.parts.iter().map(joined).collect()
    }

    /// A point for each span, of values that they have.
    pub fn points(&self, values: impl Iterator<Item = Option<f64>>) -> Vec<Point> {
        let parts = self.parts.iter().zip(values);
        parts.map(|(part, value)| self.point(part, received(part), value)).collect()
    }

    /// The powers of single readings, one in so many, beside which spans have their means.
    pub fn single_powers(&self) -> (usize, Vec<(f64, ErrorPower)>) {
        let every = self.readings.len().div_ceil(MOST_MARKS).max(1);
        let few = self.readings.iter().step_by(every).filter(|_| self.span != Span::Reading);
        (every, few.filter_map(|x| Some((x.day / self.unit, x.outcome.error_power?))).collect())
    }

    /// A point for each reading, or each few where there are many; what the readings have, received or not.
    pub fn single(&self, of: impl Fn(&Reading) -> Option<f64>) -> Vec<Point> {
        let parts = self.readings.chunks(self.thinned());
        parts.map(|part| self.point(part, true, mean(part, &of))).collect()
    }

    /// A point for each reading, or the last of each few, by whether its span had a reading received.
    pub fn held(&self, of: impl Fn(&Reading) -> f64) -> Vec<Point> {
        let few = self.thinned();
        let few = self.parts.iter().flat_map(|part| part.chunks(few).map(|few| (few, received(part))));
        few.map(|(few, any)| self.point(few, any, few.last().map(&of))).collect()
    }

    /// The times from and to which marked readings follow each other.
    pub fn marked(&self, marked: impl Fn(&Reading) -> bool) -> Vec<(f64, f64)> {
        let runs = self.readings.chunk_by(|a, b| marked(a) == marked(b));
        let places = runs.filter(|run| marked(&run[0])).map(|run| self.place(run));
        places.map(|(at, reach)| (at - reach, at + reach)).collect()
    }

    pub fn total(&self, of: impl Fn(&Reading) -> usize) -> usize {
        self.readings.iter().map(of).sum()
    }
}
