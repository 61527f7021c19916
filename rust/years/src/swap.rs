//! A joint swapped in the middle of a history. From then on five copies of the station hear what it hears: one with the
//! joint as it was, the others with its two conductors swapped. Losses of power don't reach them, and nothing that they do
//! reaches the station.

use crate::assumptions::Assumptions;
use crate::burst::Burst;
use crate::outcome::Outcome;
use crate::station::{Ran, Station};
use tigbulode::Equaliser;

/// Readings that are kept from ahead of the swap.
const BEFORE: u32 = 10;

/// What a copy hears from the swap on, and what its record is then.
#[derive(Clone, Copy, Debug, PartialEq, Eq)]
pub enum Course {
    /// The joint stays as it was.
    Unswapped,
    /// Swapped; feed forward weights and past samples are negated.
    Negated,
    /// Swapped; the record is kept.
    Kept,
    /// Swapped; the station is set up anew.
    SetUpAnew,
    /// Swapped; the record is kept, and no symbol is known.
    Untrained,
}

/// The record with its feed forward weights and past samples negated: with it the other of a swapped pair.
pub fn partner(record: &Equaliser) -> Equaliser {
    let mut other = *record;
    let p = usize::from(record.p);
    let negated = other.weights[..p].iter_mut().chain(&mut other.past[..p - 1]);
    negated.for_each(|place| *place = -*place);
    other
}

impl Course {
    pub const ALL: [Course; 5] =
        [Course::Unswapped, Course::Negated, Course::Kept, Course::SetUpAnew, Course::Untrained];

    pub fn name(self) -> &'static str {
        match self {
            Course::Unswapped => "not swapped",
            Course::Negated => "swapped, weights negated too",
            Course::Kept => "swapped, weights kept",
            Course::SetUpAnew => "swapped, set up anew",
            Course::Untrained => "swapped, kept, never trained",
        }
    }

    /// The copy that begins with the swap.
    fn copy<'a>(self, station: &Station<'a>) -> Station<'a> {
        match self {
            Course::Negated => station.with_record(partner(station.record())),
            Course::SetUpAnew => station.set_up_anew(),
            Course::Unswapped | Course::Kept | Course::Untrained => station.clone(),
        }
    }

    /// The blocks that its copy makes of a burst.
    fn hear(self, copy: &mut Station, levels: &[f64], burst: &Burst) -> Result<Vec<Ran>, String> {
        let sign = if self == Course::Unswapped { 1.0 } else { -1.0 };
        let levels: Vec<f64> = levels.iter().map(|level| sign * level).collect();
        match self {
            Course::Untrained => copy.burst(&levels, &vec![0; burst.entries.len()]),
            _ => copy.burst(&levels, &burst.entries),
        }
    }
}

/// One reading by every course.
#[derive(Clone, Debug)]
pub struct SwapReading {
    /// Its place from the swap on, below 0 ahead of it.
    pub place: i32,
    pub number: u32,
    pub day: f64,
    pub sent: u16,
    /// In the order of [`Course::ALL`].
    pub outcomes: [Outcome; 5],
    /// Whether Unswapped and Negated decide the same, with the same outputs and errors, at every sample, and their records
    /// are a swapped pair.
    pub same: bool,
    /// Whether one of these two was lent a sample of −32768, which has no negative.
    pub lowest: bool,
}

impl SwapReading {
    pub fn of(&self, course: Course) -> &Outcome {
        &self.outcomes[course as usize]
    }

    /// Whether the pressure that was sent is received.
    pub fn right(&self, course: Course) -> bool {
        self.of(course).received == Some(self.sent)
    }
}

pub struct Swap<'a> {
    given: &'a Assumptions,
    /// The number of the first reading that is heard with the joint swapped.
    first: u32,
    copies: Option<[Station<'a>; 5]>,
    pub readings: Vec<SwapReading>,
}

impl<'a> Swap<'a> {
    pub fn new(given: &'a Assumptions) -> Swap<'a> {
        let days = (0..given.readings()).map(|number| given.day_of(number));
        let first = days.take_while(|day| *day < given.swap_day).count() as u32;
        Swap { given, first, copies: None, readings: Vec::new() }
    }

    /// A reading that the station is about to hear, where it is near the swap.
    pub fn hear(
        &mut self,
        (number, sent): (u32, u16),
        station: &Station<'a>,
        levels: &[f64],
        burst: &Burst,
    ) -> Result<(), String> {
        let place = i64::from(number) - i64::from(self.first);
        let near = -i64::from(BEFORE)..self.given.swap_readings as i64;
        if self.given.swap_readings == 0 || !near.contains(&place) {
            return Ok(());
        }
        let all = match place < 0 {
            true => vec![station.clone().burst(levels, &burst.entries)?; Course::ALL.len()],
            false => self.by_copies(station, levels, burst)?,
        };
        let (one, two) = (&all[0], &all[1]);
        let lowest = |block: &Ran| block.samples.contains(&i16::MIN);
        self.readings.push(SwapReading {
            place: place as i32,
            number,
            day: self.given.day_of(number),
            sent,
            outcomes: [0, 1, 2, 3, 4].map(|at| Outcome::of(self.given, burst, &all[at])),
            same: place < 0 || same(one, two),
            lowest: place >= 0 && one.iter().chain(two).any(lowest),
        });
        Ok(())
    }

    /// The blocks of every copy.
    fn by_copies(&mut self, station: &Station<'a>, levels: &[f64], burst: &Burst) -> Result<Vec<Vec<Ran>>, String> {
        let started = || Course::ALL.map(|course| course.copy(station));
        let copies = self.copies.get_or_insert_with(started);
        let courses = Course::ALL.into_iter().zip(copies);
        courses.map(|(course, copy)| course.hear(copy, levels, burst)).collect()
    }
}

/// Whether two stations decide the same, with the same outputs and errors, and have a swapped pair of records after each
/// block.
pub fn same(one: &[Ran], two: &[Ran]) -> bool {
    let mut pairs = one.iter().zip(two);
    one.len() == two.len() && pairs.all(|(a, b)| b.after == partner(&a.after) && a.heard == b.heard)
}
