//! The readings of one page, and the spans of time that it draws.

use crate::assumptions::{Assumptions, DAYS_A_YEAR};
use crate::curve::Point;
use crate::history::Reading;
use crate::outcome::Outcome;
use crate::power::ErrorPower;

/// A page draws reading by reading up to so many, days up to so many, weeks
/// beyond.
const MOST_SPANS: usize = 3000;
/// Points of one curve that follows single readings, about.
const MOST_POINTS: usize = 20_000;

#[derive(Clone, Copy, Debug, PartialEq)]
pub enum Span {
    Reading,
    Day,
    Week,
}

pub struct View<'a> {
    pub given: &'a Assumptions,
    pub readings: &'a [Reading],
    /// The readings of each span.
    pub parts: Vec<&'a [Reading]>,
    pub span: Span,
    /// Days in a unit of the time axis.
    pub unit: f64,
    /// In that unit.
    pub from: f64,
    pub to: f64,
}

impl Span {
    pub fn name(self) -> &'static str {
        match self {
            Span::Reading => "a reading",
            Span::Day => "a day",
            Span::Week => "a week",
        }
    }

    /// After the name of a share.
    pub fn share(self) -> String {
        match self {
            Span::Reading => String::new(),
            _ => format!(", share of {}", self.name()),
        }
    }

    /// After the name of what the station holds after each reading.
    pub fn after(self) -> String {
        match self {
            Span::Reading => "after a reading".to_string(),
            _ => format!("mean of {}", self.name()),
        }
    }

    fn holds(self, a: &Reading, b: &Reading) -> bool {
        match self {
            Span::Reading => false,
            Span::Day => a.day.floor() == b.day.floor(),
            Span::Week => (a.day / 7.0).floor() == (b.day / 7.0).floor(),
        }
    }

    fn for_window(readings: usize, days: f64) -> Span {
        if readings <= MOST_SPANS {
            Span::Reading
        } else if days <= MOST_SPANS as f64 {
            Span::Day
        } else {
            Span::Week
        }
    }
}

/// An error power and its point, in dB.
#[derive(Clone, Copy, Debug)]
pub struct Drawn {
    pub point: Point,
    pub power: Option<ErrorPower>,
}

/// Whether any of them was received.
pub fn received(part: &[Reading]) -> bool {
    part.iter().any(|x| x.pressure_received.is_some())
}

fn received_old(part: &[Reading]) -> bool {
    part.iter()
        .any(|x| x.old.is_some_and(|b| b.received.is_some()))
}

/// The mean of what the readings have, where one has any.
pub fn mean(part: &[Reading], of: impl Fn(&Reading) -> Option<f64>) -> Option<f64> {
    let values: Vec<f64> = part.iter().filter_map(of).collect();
    (!values.is_empty()).then(|| values.iter().sum::<f64>() / values.len() as f64)
}

impl<'a> View<'a> {
    /// All the years, week by week.
    pub fn all(given: &'a Assumptions, readings: &'a [Reading]) -> View<'a> {
        View {
            given,
            readings,
            parts: readings.chunk_by(|a, b| Span::Week.holds(a, b)).collect(),
            span: Span::Week,
            unit: DAYS_A_YEAR,
            from: 0.0,
            to: given.years.into(),
        }
    }

    /// The days around marked readings; none where none is marked.
    pub fn near(
        given: &'a Assumptions,
        readings: &'a [Reading],
        marked: impl Fn(&Reading) -> bool,
    ) -> Option<View<'a>> {
        let first = readings.iter().find(|x| marked(x))?.day;
        let last = readings.iter().rev().find(|x| marked(x))?.day;
        let from = ((first / 10.0).floor() * 10.0 - 20.0).max(0.0);
        let to = ((last / 10.0).ceil() * 10.0 + 20.0).min(given.days().into());
        let start = readings.partition_point(|x| x.day < from);
        let end = readings.partition_point(|x| x.day < to);
        let readings = &readings[start..end];
        let span = Span::for_window(readings.len(), to - from);
        Some(View {
            given,
            readings,
            parts: readings.chunk_by(|a, b| span.holds(a, b)).collect(),
            span,
            unit: 1.0,
            from,
            to,
        })
    }

    /// Readings that one point of a curve of single readings stands for.
    pub fn thinned(&self) -> usize {
        self.readings.len().div_ceil(MOST_POINTS).max(1)
    }

    /// Where readings in a row stand on the time axis, and how far they reach.
    pub fn place(&self, part: &[Reading]) -> (f64, f64) {
        let (first, last) = (part[0].day, part[part.len() - 1].day);
        let apart = 1.0 / f64::from(self.given.readings_a_day);
        let reach = (last - first + apart) / 2.0;
        ((first + last) / 2.0 / self.unit, reach / self.unit)
    }

    fn point(&self, part: &[Reading], received: bool, value: Option<f64>) -> Point {
        let (at, reach) = self.place(part);
        Point {
            at,
            reach,
            value,
            received,
        }
    }

    /// A point for each span: the mean of its readings.
    pub fn means(&self, of: impl Fn(&Reading) -> Option<f64>) -> Vec<Point> {
        let point = |part: &&[Reading]| self.point(part, received(part), mean(part, &of));
        self.parts.iter().map(point).collect()
    }

    /// The error power of each span.
    pub fn powers(&self) -> Vec<Drawn> {
        self.powers_by(received, |x| x.error_power)
    }

    /// The same by the old rule.
    pub fn powers_old(&self) -> Vec<Drawn> {
        self.powers_by(received_old, |x| x.old.as_ref()?.error_power)
    }

    /// The error power of a reading.
    pub fn power_of(&self, reading: &Reading) -> Drawn {
        self.power_by(std::slice::from_ref(reading), true, |x| x.error_power)
    }

    fn powers_by(
        &self,
        received: fn(&[Reading]) -> bool,
        of: impl Fn(&Reading) -> Option<ErrorPower>,
    ) -> Vec<Drawn> {
        let drawn = |part: &&[Reading]| self.power_by(part, received(part), &of);
        self.parts.iter().map(drawn).collect()
    }

    fn power_by(
        &self,
        part: &[Reading],
        received: bool,
        of: impl Fn(&Reading) -> Option<ErrorPower>,
    ) -> Drawn {
        let power = ErrorPower::joined(part.iter().filter_map(of));
        let level = power.map(ErrorPower::decibels);
        Drawn {
            point: self.point(part, received, level),
            power,
        }
    }

    /// A point for each reading, or each few where there are many; what the
    /// readings have, received or not.
    pub fn single(&self, of: impl Fn(&Reading) -> Option<f64>) -> Vec<Point> {
        let parts = self.readings.chunks(self.thinned());
        parts
            .map(|part| self.point(part, true, mean(part, &of)))
            .collect()
    }

    /// A point for each reading, or the last of each few, by whether its span
    /// had a reading received.
    pub fn held(&self, of: impl Fn(&Reading) -> f64) -> Vec<Point> {
        self.held_by(received, |x| Some(of(x)))
    }

    /// The same by the old rule.
    pub fn held_old(&self, of: impl Fn(&Outcome) -> f64) -> Vec<Point> {
        self.held_by(received_old, |x| x.old.as_ref().map(&of))
    }

    fn held_by(
        &self,
        received: fn(&[Reading]) -> bool,
        of: impl Fn(&Reading) -> Option<f64>,
    ) -> Vec<Point> {
        let few = self.thinned();
        let parts = self.parts.iter().flat_map(|part| {
            let any = received(part);
            part.chunks(few).map(move |few| (few, any))
        });
        parts
            .map(|(few, any)| self.point(few, any, few.last().and_then(&of)))
            .collect()
    }

    /// Whether the old rule was run too.
    pub fn has_old(&self) -> bool {
        self.readings.iter().any(|x| x.old.is_some())
    }

    /// The times from and to which marked readings follow each other.
    pub fn marked(&self, marked: impl Fn(&Reading) -> bool) -> Vec<(f64, f64)> {
        let runs = self.readings.chunk_by(|a, b| marked(a) == marked(b));
        let ends = |run: &[Reading]| {
            let (at, reach) = self.place(run);
            (at - reach, at + reach)
        };
        runs.filter(|run| marked(&run[0])).map(ends).collect()
    }

    pub fn total(&self, of: impl Fn(&Reading) -> u64) -> u64 {
        self.readings.iter().map(of).sum()
    }
}
