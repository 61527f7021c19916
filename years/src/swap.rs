//! A joint swapped in the middle of a history. From then on five copies of the
//! station hear what it hears: one with the joint as it was, the others with
//! its two conductors swapped. Losses of power don't reach them, and nothing
//! that they do reaches the station.

use crate::assumptions::Assumptions;
use crate::burst::Burst;
use crate::outcome::Outcome;
use crate::station::{Decided, Station};
use reference::swapped::{partner, unpaired};
use tigbulode::sides::{record_of, state_of};

/// Readings that are kept from ahead of the swap.
const BEFORE: u32 = 10;

/// What a copy hears from the swap on, and what its record is then.
#[derive(Clone, Copy, Debug, PartialEq, Eq)]
pub enum Course {
    /// The joint stays as it was.
    Unswapped,
    /// Swapped; feed forward weights and past samples are negated.
    Negated,
    /// Swapped; the record is kept.
    Kept,
    /// Swapped; the station is set up anew.
    SetUpAnew,
    /// Swapped; the record is kept, and no symbol is known.
    Untrained,
}

impl Course {
    pub const ALL: [Course; 5] = [
        Course::Unswapped,
        Course::Negated,
        Course::Kept,
        Course::SetUpAnew,
        Course::Untrained,
    ];

    /// The copy that begins with the swap.
    fn copy<'a>(self, station: &Station<'a>) -> Station<'a> {
        match self {
            Course::Negated => {
                let negated = partner(&state_of(station.record()));
                station.with_record(record_of(&negated))
            }
            Course::SetUpAnew => station.set_up_anew(),
            Course::Unswapped | Course::Kept | Course::Untrained => station.clone(),
        }
    }

    /// The blocks that its copy makes of a burst.
    fn hear(
        self,
        copy: &mut Station,
        levels: &[f64],
        burst: &Burst,
    ) -> Result<Vec<Decided>, String> {
        let sign = if self == Course::Unswapped { 1.0 } else { -1.0 };
        let levels: Vec<f64> = levels.iter().map(|level| sign * level).collect();
        match self {
            Course::Untrained => copy.burst(&levels, &vec![0; burst.entries.len()]),
            _ => copy.burst(&levels, &burst.entries),
        }
    }
}

/// One reading by every course.
#[derive(Clone, Debug)]
pub struct SwapReading {
    /// Its place from the swap on, below 0 ahead of it.
    pub place: i32,
    pub number: u32,
    pub day: f64,
    pub sent: u16,
    /// In the order of [`Course::ALL`].
    pub outcomes: [Outcome; 5],
    /// Whether Unswapped and Negated decide the same, with the same outputs and
    /// errors, at every sample, and their records are a swapped pair.
    pub same: bool,
    /// Whether one of these two was lent a sample of −32768, which has no
    /// negative.
    pub lowest: bool,
}

impl SwapReading {
    pub fn of(&self, course: Course) -> &Outcome {
        &self.outcomes[course as usize]
    }

    /// Whether the pressure that was sent is received.
    pub fn right(&self, course: Course) -> bool {
        self.of(course).received == Some(self.sent)
    }
}

pub struct Swap<'a> {
    given: &'a Assumptions,
    /// The number of the first reading that is heard with the joint swapped.
    first: u32,
    copies: Option<[Station<'a>; 5]>,
    pub readings: Vec<SwapReading>,
}

impl<'a> Swap<'a> {
    pub fn new(given: &'a Assumptions) -> Swap<'a> {
        let days = (0..given.readings()).map(|number| given.day_of(number));
        Swap {
            given,
            first: days.take_while(|day| *day < given.swap.day).count() as u32,
            copies: None,
            readings: Vec::new(),
        }
    }

    /// A reading that the station is about to hear, where it is near the swap.
    pub fn hear(
        &mut self,
        (number, sent): (u32, u16),
        station: &Station<'a>,
        levels: &[f64],
        burst: &Burst,
    ) -> Result<(), String> {
        let place = i64::from(number) - i64::from(self.first);
        let near = -i64::from(BEFORE)..i64::from(self.given.swap.readings);
        if self.given.swap.readings == 0 || !near.contains(&place) {
            return Ok(());
        }
        let all = match place < 0 {
            true => ahead(station, levels, burst)?,
            false => self.by_copies(station, levels, burst)?,
        };
        let (one, two) = (&all[0], &all[1]);
        self.readings.push(SwapReading {
            place: place as i32,
            number,
            day: self.given.day_of(number),
            sent,
            outcomes: [0, 1, 2, 3, 4].map(|at| Outcome::of(self.given, burst, &all[at])),
            same: place < 0 || same(one, two),
            lowest: place >= 0 && one.iter().chain(two).any(|block| block.lowest),
        });
        Ok(())
    }

    /// The blocks of every copy.
    fn by_copies(
        &mut self,
        station: &Station<'a>,
        levels: &[f64],
        burst: &Burst,
    ) -> Result<Vec<Vec<Decided>>, String> {
        let started = || Course::ALL.map(|course| course.copy(station));
        let copies = self.copies.get_or_insert_with(started);
        let courses = Course::ALL.into_iter().zip(copies);
        courses
            .map(|(course, copy)| course.hear(copy, levels, burst))
            .collect()
    }
}

/// Ahead of the swap every course is the station's own.
fn ahead(station: &Station, levels: &[f64], burst: &Burst) -> Result<Vec<Vec<Decided>>, String> {
    let own = station.clone().burst(levels, &burst.entries)?;
    Ok(vec![own; Course::ALL.len()])
}

/// Whether two stations decide the same, with the same outputs and errors, and
/// have a swapped pair of records after each block.
pub fn same(one: &[Decided], two: &[Decided]) -> bool {
    let mut pairs = one.iter().zip(two);
    let all = pairs.all(|(a, b)| {
        let paired = unpaired(&state_of(&a.record), &state_of(&b.record)).is_none();
        paired && a.decisions == b.decisions && a.readings == b.readings
    });
    one.len() == two.len() && all
}
