//! The page of a swapped joint.

use crate::assumptions::Assumptions;
use crate::axis::Axis;
use crate::curve::{floors, line, steps, Curve, Look, Point, BLACK, BLUE, GREY, ORANGE, RED};
use crate::outcome::Outcome;
use crate::page::{ends, power_notes, Page, Panel, Shade, PROVED};
use crate::power::ErrorPower;
use crate::swap::{Course, SwapReading};
use crate::swap_words::{
    after, after_known, block_of, decided, lost, near_from, pair, received_from, same, since, Pair,
};
use crate::table::weights;
use crate::words;

/// The wide line is seen below the thin one that covers it.
fn look(course: Course) -> Look {
    let dashed = |width, colour, dashes| Look {
        width,
        colour,
        dashes,
    };
    match course {
        Course::Unswapped => Look::solid(7.0, BLUE),
        Course::Negated => Look::solid(2.0, BLACK),
        Course::Kept => Look::solid(2.5, RED),
        Course::SetUpAnew => dashed(2.5, ORANGE, "dt (14,8) "),
        Course::Untrained => dashed(2.5, GREY, "dt (3,5) "),
    }
}

struct Drawn<'a> {
    given: &'a Assumptions,
    readings: &'a [SwapReading],
}

/// The page of the readings around a swap; none where no joint is swapped.
pub fn page(given: &Assumptions, readings: &[SwapReading]) -> Option<Page> {
    let first = since(readings).first()?;
    let drawn = Drawn { given, readings };
    let (from, to) = (drawn.ends(0), drawn.ends(readings.len() - 1));
    Some(Page {
        title: format!("One station, a joint swapped on day {}", first.day.floor()),
        lines: drawn.head(),
        time: Axis::between(from.0, to.1, 12, 1.0),
        time_label: "blocks since the swap".to_string(),
        shades: vec![Shade {
            name: "joint swapped, but for the blue line",
            colour: "#e2e2e2",
            times: vec![(0.0, to.1)],
        }],
        dots: None,
        panels: vec![
            drawn.error_power(),
            drawn.wrong(),
            drawn.lost(),
            drawn.weight("main feed forward weight", 0, given.sizes.p),
            drawn.weight("main feedback weight", given.sizes.p, given.sizes.q),
            drawn.exponent(),
        ],
    })
}

impl Drawn<'_> {
    fn head(&self) -> Vec<String> {
        let received = |course| {
            let place = received_from(self.readings, course);
            after_known(self.given, course, place)
        };
        let near = |course| after(self.given, near_from(self.readings, course));
        let [taps, step] = words::settings(&self.given.sizes);
        let mut lines = vec![
            format!(
                "weights kept, all readings received again: {}",
                received(Course::Kept)
            ),
            format!(
                "Set up anew, all received again: {}.",
                received(Course::SetUpAnew)
            ),
            format!(
                "Error power within 3 dB of the blue line: kept {}, set up anew {}.",
                near(Course::Kept),
                near(Course::SetUpAnew)
            ),
            self.negated(),
            format!(
                "Never trained again: {}.",
                decided(self.given, self.readings, Course::Untrained)
            ),
            PROVED.to_string(),
            taps,
            format!("{step}; {}", words::extent(self.given)),
        ];
        lines.extend(words::other_than_default(&self.given.changes));
        lines
    }

    fn negated(&self) -> String {
        let (same, all) = (same(self.readings), since(self.readings).len());
        let readings = words::count(same as u64, "reading");
        let (told, more) = match pair(self.readings) {
            Pair::Proved => (
                "the same outputs, decisions and errors in",
                "which is proved",
            ),
            Pair::UpToLowest => (
                "the same in",
                "a sample was −32768, not covered by the proof",
            ),
            Pair::AgainstTheProof => ("the same in", "AGAINST THE PROOF"),
        };
        format!("Weights and past samples negated: {told} {readings} of {all}, {more}.")
    }

    /// From where to where a reading's blocks stand.
    fn ends(&self, reading: usize) -> (f64, f64) {
        let burst = &self.given.burst;
        let payload = block_of(self.given, self.readings[reading].place);
        let from = payload - burst.preamble_blocks as i32;
        let to = payload + burst.payload_blocks as i32;
        (f64::from(from), f64::from(to))
    }

    /// A point for each reading, in the middle of its payload.
    fn points(&self, of: impl Fn(&SwapReading) -> Option<f64>) -> Vec<Point> {
        let payload = f64::from(self.given.burst.payload_blocks);
        let preamble = f64::from(self.given.burst.preamble_blocks);
        let point = |reading: &SwapReading| Point {
            at: f64::from(block_of(self.given, reading.place)) + payload / 2.0,
            reach: (payload + preamble) / 2.0,
            value: of(reading),
            received: true,
        };
        self.readings.iter().map(point).collect()
    }

    /// Of each course; all but the first from the last reading ahead of the swap
    /// on, where they part.
    fn all(&self, of: impl Fn(&Outcome) -> Option<f64>) -> [Vec<Point>; 5] {
        let part = since(self.readings).len() + 1;
        let start = self.readings.len().saturating_sub(part);
        Course::ALL.map(|course| {
            let points = self.points(|reading| of(reading.of(course)));
            match course {
                Course::Unswapped => points,
                _ => points[start..].to_vec(),
            }
        })
    }

    fn error_power(&self) -> Panel {
        let all = self.all(|x| x.error_power.map(ErrorPower::decibels));
        let (low, high) = ends(&all.concat(), -20.0, 0.0);
        let powers = self
            .readings
            .iter()
            .flat_map(|x| x.outcomes.map(|o| o.error_power));
        let powers: Vec<ErrorPower> = powers.flatten().collect();
        let mut curves = lines(&all, true);
        curves.push(self.floor_marks());
        Panel {
            height: 320.0,
            label: "dB",
            name: "error power of the payload".to_string(),
            notes: power_notes(powers.iter().any(|power| power.is_zero())),
            axis: Axis::around(low, high, 6, 5.0),
            curves,
        }
    }

    fn floor_marks(&self) -> Curve {
        let mut places = Vec::new();
        for course in Course::ALL {
            let floor = |x: &SwapReading| x.of(course).error_power.filter(|p| p.is_floor());
            let points = self.points(|x| floor(x).map(ErrorPower::decibels));
            places.extend(points.iter().filter_map(|p| Some((p.at, p.value?))));
        }
        floors(places.into_iter())
    }

    fn wrong(&self) -> Panel {
        let symbols = self.given.payload_symbols() as f64;
        let all = self.all(|x| Some(100.0 * f64::from(x.wrong) / symbols));
        Panel {
            height: 130.0,
            label: "wrong, %",
            name: "wrong decisions of the payload".to_string(),
            notes: vec!["other than what was sent".to_string()],
            axis: Axis::counts(100.0, 5),
            curves: lines(&all, false),
        }
    }

    /// A row of marks for each course that loses any.
    fn lost(&self) -> Panel {
        let rows = Course::ALL.len();
        let all = since(self.readings).len();
        let told = |course: Course| {
            let name = course.name().trim_start_matches("swapped, ");
            format!("{} of {all}: {name}", lost(self.readings, course))
        };
        let marks = |(row, course): (usize, Course)| {
            let height = (rows - row) as f64;
            let lost = |x: &SwapReading| x.place >= 0 && !x.right(course);
            let points = self.points(|x| lost(x).then_some(height));
            let places = points.iter().filter_map(|p| Some((p.at, p.value?)));
            let style = format!("points pt 7 ps 0.6 lc rgb '{}'", look(course).colour);
            Curve::marks(places, &style, &told(course))
        };
        let curves = Course::ALL.into_iter().enumerate().map(marks);
        let none = Course::ALL
            .into_iter()
            .filter(|course| lost(self.readings, *course) == 0);
        Panel {
            height: 40.0 + 24.0 * rows as f64,
            label: "lost",
            name: "readings lost".to_string(),
            notes: none.map(told).collect(),
            axis: Axis {
                labels: Vec::new(),
                ..Axis::between(0.2, rows as f64 + 0.8, 1, 1.0)
            },
            curves: curves.collect(),
        }
    }

    /// The weight of a filter that is largest at the swap, with its sign.
    fn weight(&self, name: &str, first: u8, count: u8) -> Panel {
        let (first, count) = (usize::from(first), usize::from(count));
        let record = &since(self.readings)[0].of(Course::Unswapped).record;
        let before = &weights(record)[first..first + count];
        let sizes = before.iter().map(|weight| weight.abs());
        let main = sizes.enumerate().fold(
            (0, 0.0),
            |most, one| if one.1 > most.1 { one } else { most },
        );
        let all = self.all(|x| Some(weights(&x.record)[first + main.0]));
        let (low, high) = ends(&all.concat(), 0.0, 0.0);
        Panel {
            height: 150.0,
            label: "weight",
            name: name.to_string(),
            notes: vec![
                "with its sign, W·2^(ψ−15): the one".to_string(),
                "that is the largest at the swap".to_string(),
            ],
            axis: Axis::around(low, high, 5, 0.01),
            curves: lines(&all, false),
        }
    }

    fn exponent(&self) -> Panel {
        let all = self.all(|x| Some(x.record.psi.into()));
        let (_, high) = ends(&all.concat(), 0.0, 1.0);
        let drawn = Course::ALL.into_iter().zip(&all);
        Panel {
            height: 110.0,
            label: "ψ",
            name: "ψ, the weights' exponent".to_string(),
            notes: Vec::new(),
            axis: Axis::counts(high, 5),
            curves: drawn
                .flat_map(|(course, points)| steps(points, look(course), None))
                .collect(),
        }
    }
}

/// A line for each course, named where that is asked for.
fn lines(all: &[Vec<Point>; 5], named: bool) -> Vec<Curve> {
    let courses = Course::ALL.into_iter().zip(all);
    let drawn = courses
        .flat_map(|(course, points)| line(points, look(course), named.then_some(course.name())));
    drawn.collect()
}
