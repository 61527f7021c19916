//! A swapped joint in words and as a table.

use crate::assumptions::Assumptions;
use crate::power::ErrorPower;
use crate::swap::{Course, SwapReading};
use crate::table::{power_fields, weight_names, weights};
use crate::words;

impl Course {
    pub fn name(self) -> &'static str {
        match self {
            Course::Unswapped => "not swapped",
            Course::Negated => "swapped, weights negated too",
            Course::Kept => "swapped, weights kept",
            Course::SetUpAnew => "swapped, set up anew",
            Course::Untrained => "swapped, kept, never trained",
        }
    }
}

/// Those from the swap on.
pub fn since(readings: &[SwapReading]) -> &[SwapReading] {
    let ahead = readings.iter().take_while(|reading| reading.place < 0);
    &readings[ahead.count()..]
}

/// Readings at the end that have to be good, so that chance alone isn't told as
/// a return.
const LAST: usize = 5;

/// The readings at the end that are all good: at least so many, or all.
fn good_at_end(readings: &[SwapReading], good: impl Fn(&SwapReading) -> bool) -> &[SwapReading] {
    let all = since(readings);
    let first = match all.iter().rposition(|reading| !good(reading)) {
        Some(bad) if all.len() - 1 - bad < LAST => all.len(),
        Some(bad) => bad + 1,
        None => 0,
    };
    &all[first..]
}

/// The first reading that a course receives and from which on it receives all
/// that are received where the joint is not swapped.
pub fn received_from(readings: &[SwapReading], course: Course) -> Option<i32> {
    let good = |x: &SwapReading| x.right(course) || !x.right(Course::Unswapped);
    let mut last = good_at_end(readings, good).iter();
    let first = last.find(|x| x.right(course))?;
    Some(first.place)
}

/// The first reading from which on its error power is at most twice that where
/// the joint is not swapped.
pub fn near_from(readings: &[SwapReading], course: Course) -> Option<i32> {
    let good = |x: &SwapReading| {
        let [own, other] = [course, Course::Unswapped].map(|course| x.of(course).error_power);
        let both = own.zip(other);
        both.is_some_and(|(own, other)| own.value() <= 2.0 * other.value())
    };
    Some(good_at_end(readings, good).first()?.place)
}

/// Blocks from the swap to the payload of a reading.
pub fn block_of(given: &Assumptions, place: i32) -> i32 {
    let burst = &given.burst;
    place * (burst.preamble_blocks + burst.payload_blocks) as i32 + burst.preamble_blocks as i32
}

/// Those of them whose symbols a course knows.
fn known(given: &Assumptions, course: Course, place: i32) -> i32 {
    match course {
        Course::Untrained => 0,
        _ => (place + 1) * given.burst.preamble_blocks as i32,
    }
}

/// "after 74 blocks".
pub fn after(given: &Assumptions, place: Option<i32>) -> String {
    match place {
        Some(0) => "at once".to_string(),
        Some(place) => {
            let blocks = block_of(given, place) as u64;
            format!("after {}", words::count(blocks, "block"))
        }
        None => "not in these blocks".to_string(),
    }
}

/// "after 74 blocks, 50 of them known".
pub fn after_known(given: &Assumptions, course: Course, place: Option<i32>) -> String {
    let later = place.filter(|place| *place > 0);
    let known = later.map_or(0, |place| known(given, course, place));
    let told = match known {
        0 => String::new(),
        known => format!(", {known} of them known"),
    };
    after(given, place) + &told
}

/// How many readings a course loses.
pub fn lost(readings: &[SwapReading], course: Course) -> usize {
    let lost = since(readings).iter().filter(|x| !x.right(course));
    lost.count()
}

/// How many readings are the same with the joint swapped, weights and past
/// samples negated.
pub fn same(readings: &[SwapReading]) -> usize {
    since(readings).iter().filter(|x| x.same).count()
}

/// What is to be said of a pair: whether a sample was −32768, and else, or
/// before it, whether it was none.
#[derive(Clone, Copy, Debug, PartialEq, Eq)]
pub enum Pair {
    /// As is proved.
    Proved,
    /// As is proved up to a sample of −32768, of which nothing is.
    UpToLowest,
    AgainstTheProof,
}

pub fn pair(readings: &[SwapReading]) -> Pair {
    let lowest = readings.iter().position(|x| x.lowest);
    let before = &readings[..lowest.unwrap_or(readings.len())];
    match (before.iter().all(|x| x.same), lowest) {
        (false, _) => Pair::AgainstTheProof,
        (true, None) => Pair::Proved,
        (true, Some(_)) => Pair::UpToLowest,
    }
}

/// "0 of 3840 payload symbols wrong (0 %), error power −17.0 dB".
pub fn decided(given: &Assumptions, readings: &[SwapReading], course: Course) -> String {
    let all = since(readings);
    let symbols = (all.len() * given.payload_symbols()) as u64;
    let wrong = all.iter().map(|x| u64::from(x.of(course).wrong)).sum();
    let wrong = words::share(wrong, symbols, "payload symbol", "wrong");
    let powers = all.iter().filter_map(|x| x.of(course).error_power);
    let power = ErrorPower::joined(powers).map_or("none".to_string(), ErrorPower::in_words);
    format!("{wrong}, error power {power}")
}

/// A pair that is no longer one is told of as the other courses are.
fn negated(given: &Assumptions, readings: &[SwapReading]) -> String {
    let (same, all) = (same(readings), since(readings).len());
    let share = words::share(same as u64, all as u64, "reading", "");
    let lowest = match pair(readings) {
        Pair::Proved => "",
        Pair::UpToLowest => "; a sample was −32768, which has no negative",
        Pair::AgainstTheProof => "; AGAINST THE PROOF",
    };
    let other = match same == all {
        true => String::new(),
        false => format!("; {}", course(given, readings, Course::Negated)),
    };
    format!("{share} the same at every sample, the records a swapped pair after each block{lowest}{other}")
}

fn course(given: &Assumptions, readings: &[SwapReading], course: Course) -> String {
    let (lost, all) = (lost(readings, course), since(readings).len());
    let lost = words::share(lost as u64, all as u64, "reading", "lost");
    let mut text = format!("{lost}; {}", decided(given, readings, course));
    if course != Course::Unswapped {
        let received = after_known(given, course, received_from(readings, course));
        let near = after_known(given, course, near_from(readings, course));
        text += &format!("; all received again: {received}; error power within 3 dB: {near}");
    }
    text
}

/// Lines for the summary; none where no joint is swapped.
pub fn lines(given: &Assumptions, readings: &[SwapReading]) -> String {
    let Some(first) = since(readings).first() else {
        return String::new();
    };
    let blocks = since(readings).len() as u64
        * u64::from(given.burst.preamble_blocks + given.burst.payload_blocks);
    let head = format!(
        "joint swapped on day {}, for copies of the station, {}, {}:\n",
        words::plain(first.day),
        words::count(since(readings).len() as u64, "reading"),
        words::count(blocks, "block")
    );
    let line = |one: Course| {
        let text = match one {
            Course::Negated => negated(given, readings),
            _ => course(given, readings, one),
        };
        format!("  {}: {text}\n", one.name())
    };
    head + &Course::ALL.map(line).concat()
}

fn header(given: &Assumptions) -> String {
    let names = weight_names(given).join(",");
    format!(
        "reading,day (days),readings since the swap,blocks from the swap to the payload,course,\
         pressure sent (bar),pressure received (bar),wrong decisions,error power (squared symbol units),mean or floor,psi,{names}\n"
    )
}

fn row(given: &Assumptions, reading: &SwapReading, course: Course) -> String {
    let outcome = reading.of(course);
    let bar = |number: u16| format!("{:.4}", given.pressure.bar(number));
    let mut fields = vec![
        reading.number.to_string(),
        format!("{:.4}", reading.day),
        reading.place.to_string(),
        block_of(given, reading.place).to_string(),
        format!("\"{}\"", course.name()),
        bar(reading.sent),
        outcome.received.map_or(String::new(), bar),
        outcome.wrong.to_string(),
    ];
    fields.extend(power_fields(outcome.error_power));
    fields.push(outcome.record.psi.to_string());
    fields.extend(weights(&outcome.record).iter().map(|w| format!("{w:.6}")));
    fields.join(",") + "\n"
}

/// The whole table, a row for each reading and course; none where no joint is
/// swapped.
pub fn csv(given: &Assumptions, readings: &[SwapReading]) -> Option<String> {
    let rows = readings
        .iter()
        .flat_map(|reading| Course::ALL.map(|course| row(given, reading, course)));
    (!since(readings).is_empty()).then(|| header(given) + &rows.collect::<String>())
}
