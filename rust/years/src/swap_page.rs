//! The page of a swapped joint.

use crate::assumptions::Assumptions;
use crate::outcome::Outcome;
use crate::page::{power_notes, PROVED};
use crate::swap::{Course, SwapReading};
use crate::swap_words::{after, block_of, decided, lost, near_from, received_from, same_in, since};
use crate::table::{extent, other_than_default};
use plots::axis::Axis;
use plots::block::weights;
use plots::curve::{ends, floors, line, steps, Curve, Look, Point, BLACK, BLUE, GREY, ORANGE, RED};
use plots::page::{Page, Panel, Shade};
use plots::power::ErrorPower;

/// The wide line is seen below the thin one that covers it.
fn look(course: Course) -> Look {
    let dashed = |width, colour, dashes| Look { width, colour, dashes };
    match course {
        Course::Unswapped => Look::solid(7.0, BLUE),
        Course::Negated => Look::solid(2.0, BLACK),
        Course::Kept => Look::solid(2.5, RED),
        Course::SetUpAnew => dashed(2.5, ORANGE, "dt (14,8) "),
        Course::Untrained => dashed(2.5, GREY, "dt (3,5) "),
    }
}

struct Drawn<'a> {
    given: &'a Assumptions,
    readings: &'a [SwapReading],
}

/// The page of the readings around a swap; none where no joint is swapped.
pub fn page(given: &Assumptions, readings: &[SwapReading]) -> Option<Page> {
    let first = since(readings).first()?;
    let drawn = Drawn { given, readings };
    let begin = |reading: &SwapReading| f64::from(reading.place) * given.blocks() as f64;
    let (from, to) = (begin(&readings[0]), begin(&readings[readings.len() - 1]) + given.blocks() as f64);
    let mut panels = vec![
        drawn.error_power(),
        drawn.wrong(),
        drawn.lost(),
        drawn.weight("main feed forward weight", 0, given.settings.p),
        drawn.weight("main feedback weight", given.settings.p, given.settings.q),
        drawn.exponent(),
    ];
    Page::share_axis(&mut panels, &Axis::between(from, to, 12, 1.0), "blocks since the swap");
    let (name, colour) = ("joint swapped, but for the blue line", "#e2e2e2");
    let title = format!("One station, a joint swapped on day {}", first.day.floor());
    let shades = vec![Shade { name, colour, times: vec![(0.0, to)] }];
    Some(Page { title, lines: drawn.head(), shades, panels }.with_keys(""))
}

impl Drawn<'_> {
    fn head(&self) -> Vec<String> {
        let received = |course| after(self.given, course, received_from(self.readings, course));
        let near = |course| after(self.given, course, near_from(self.readings, course));
        let mut lines = vec![
            format!("weights kept, all readings received again: {}", received(Course::Kept)),
            format!("Set up anew, all received again: {}.", received(Course::SetUpAnew)),
            format!("Error power within 3 dB of the blue line, weights kept: {}.", near(Course::Kept)),
            format!("Error power within 3 dB of the blue line, set up anew: {}.", near(Course::SetUpAnew)),
            format!("Weights and past samples negated: {}.", same_in(self.readings)),
            format!("Never trained again: {}.", decided(self.given, self.readings, Course::Untrained)),
            PROVED.to_string(),
        ];
        lines.extend(extent(self.given));
        lines.extend(other_than_default(self.given));
        lines
    }

    /// The middle of a reading's payload.
    fn middle(&self, reading: &SwapReading) -> f64 {
        f64::from(block_of(self.given, reading.place)) + self.given.payload_blocks as f64 / 2.0
    }

    /// A point for each reading of a course; all but the first course from the last reading ahead of the swap on, where
    /// they part.
    fn points(&self, course: Course, of: impl Fn(&Outcome) -> Option<f64>) -> Vec<Point> {
        let reach = self.given.blocks() as f64 / 2.0;
        let drawn = self.readings.iter().filter(|x| course == Course::Unswapped || x.place >= -1);
        let point = |x: &SwapReading| Point { at: self.middle(x), reach, value: of(x.of(course)), received: true };
        drawn.map(point).collect()
    }

    fn all(&self, of: impl Fn(&Outcome) -> Option<f64>) -> Vec<(Course, Vec<Point>)> {
        Course::ALL.map(|course| (course, self.points(course, &of))).to_vec()
    }

    fn error_power(&self) -> Panel {
        let all = self.all(|x| x.error_power.map(ErrorPower::decibels));
        let places = self.readings.iter().flat_map(|x| x.outcomes.iter().map(move |outcome| (x, outcome)));
        let powers = places.filter_map(|(x, outcome)| Some((self.middle(x), outcome.error_power?)));
        let mut curves = lines(&all, true);
        curves.push(floors(powers.clone()));
        let up = Axis::around(ends_of(&all, -20.0, 0.0), 6, 5.0);
        let notes = power_notes(powers.map(|(_, power)| power));
        Panel::new(320.0, "dB", "error power of the payload", up, curves).with_notes(notes)
    }

    fn wrong(&self) -> Panel {
        let symbols = self.given.payload_symbols() as f64;
        let all = self.all(|x| Some(100.0 * x.wrong as f64 / symbols));
        let (name, up) = ("wrong decisions of the payload", Axis::counts(100.0, 5));
        Panel::new(130.0, "wrong, %", name, up, lines(&all, false)).with_notes(["other than what was sent"])
    }

    /// A row of marks for each course that loses any.
    fn lost(&self) -> Panel {
        let rows = Course::ALL.len();
        let told = |course: Course| {
            let (lost, all) = (lost(self.readings, course), since(self.readings).len());
            format!("{lost} of {all}: {}", course.name().trim_start_matches("swapped, "))
        };
        let marks = |course: Course| {
            let height = (rows - course as usize) as f64;
            let lost = since(self.readings).iter().filter(|x| !x.right(course));
            let style = format!("pt 7 ps 0.6 lc rgb '{}'", look(course).colour);
            Curve::marks(lost.map(|x| (self.middle(x), height)), &style, &told(course))
        };
        let none = Course::ALL.into_iter().filter(|course| lost(self.readings, *course) == 0);
        let (height, curves) = (40.0 + 24.0 * rows as f64, Course::ALL.map(marks).to_vec());
        Panel::new(height, "lost", "readings lost", Axis::rows(rows), curves).with_notes(none.map(told))
    }

    /// The weight of a filter that is largest at the swap, with its sign.
    fn weight(&self, name: &str, first: u8, count: u8) -> Panel {
        let filter = usize::from(first)..usize::from(first) + usize::from(count);
        let before = weights(&since(self.readings)[0].of(Course::Unswapped).record);
        let main = filter.rev().max_by(|a, b| before[*a].abs().total_cmp(&before[*b].abs()));
        let all = self.all(|x| Some(weights(&x.record)[main?]));
        let notes = ["with its sign, W·2^(ψ−15): the one", "that is the largest at the swap"];
        let up = Axis::around(ends_of(&all, 0.0, 0.0), 5, 0.01);
        Panel::new(150.0, "weight", name, up, lines(&all, false)).with_notes(notes)
    }

    fn exponent(&self) -> Panel {
        let all = self.all(|x| Some(x.record.psi.into()));
        let up = Axis::counts(ends_of(&all, 0.0, 1.0).1, 5);
        let curves = all.iter().flat_map(|(course, points)| steps(points, look(*course), None));
        Panel::new(110.0, "ψ", "ψ, the weights' exponent", up, curves.collect())
    }
}

fn ends_of(all: &[(Course, Vec<Point>)], low: f64, high: f64) -> (f64, f64) {
    ends(all.iter().flat_map(|(_, points)| points), low, high)
}

/// A line for each course, named where that is asked for.
fn lines(all: &[(Course, Vec<Point>)], named: bool) -> Vec<Curve> {
    let drawn = all.iter().flat_map(|(course, points)| line(points, look(*course), named.then_some(course.name())));
    drawn.collect()
}
