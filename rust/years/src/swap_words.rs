//! A swapped joint in words and as a table.

use crate::assumptions::Assumptions;
use crate::swap::{Course, SwapReading};
use crate::table::bar;
use plots::block::{weight_fields, weight_names, weights};
use plots::power::ErrorPower;
use plots::words;

/// Those from the swap on.
pub fn since(readings: &[SwapReading]) -> &[SwapReading] {
    &readings[readings.partition_point(|reading| reading.place < 0)..]
}

/// Readings at the end that have to be good, so that chance alone isn't told as a return.
const LAST: usize = 5;

/// The readings at the end that are all good: at least so many, or all.
fn good_at_end(readings: &[SwapReading], good: impl Fn(&SwapReading) -> bool) -> &[SwapReading] {
    let all = since(readings);
    let first = match all.iter().rposition(|reading| !good(reading)) {
        Some(bad) if all.len() - 1 - bad < LAST => all.len(),
        Some(bad) => bad + 1,
        None => 0,
    };
    &all[first..]
}

/// The first reading that a course receives and from which on it receives all that are received where the joint is not
/// swapped.
pub fn received_from(readings: &[SwapReading], course: Course) -> Option<i32> {
    let good = |x: &SwapReading| x.right(course) || !x.right(Course::Unswapped);
    let first = good_at_end(readings, good).iter().find(|x| x.right(course))?;
    Some(first.place)
}

/// The first reading from which on its error power is at most twice that where the joint is not swapped.
pub fn near_from(readings: &[SwapReading], course: Course) -> Option<i32> {
    let good = |x: &SwapReading| {
        let both = x.of(course).error_power.zip(x.of(Course::Unswapped).error_power);
        both.is_some_and(|(own, other)| own.value() <= 2.0 * other.value())
    };
    Some(good_at_end(readings, good).first()?.place)
}

/// Blocks from the swap to the payload of a reading.
pub fn block_of(given: &Assumptions, place: i32) -> i32 {
    place * given.blocks() as i32 + given.preamble_blocks as i32
}

/// "after 74 blocks, 50 of them known": those whose symbols a course knows.
pub fn after(given: &Assumptions, course: Course, place: Option<i32>) -> String {
    let known = |place: i32| match course {
        Course::Untrained => String::new(),
        _ => format!(", {} of them known", (place + 1) * given.preamble_blocks as i32),
    };
    match place {
        Some(0) => "at once".to_string(),
        Some(place) => format!("after {}{}", words::count(block_of(given, place), "block"), known(place)),
        None => "not in these blocks".to_string(),
    }
}

/// How many readings a course loses.
pub fn lost(readings: &[SwapReading], course: Course) -> usize {
    since(readings).iter().filter(|x| !x.right(course)).count()
}

/// "0 of 3840 payload symbols wrong (0 %), error power −17.0 dB".
pub fn decided(given: &Assumptions, readings: &[SwapReading], course: Course) -> String {
    let all = since(readings).iter().map(|x| x.of(course));
    let symbols = all.len() * given.payload_symbols();
    let wrong = words::share(all.clone().map(|x| x.wrong).sum(), symbols, "payload symbol", "wrong");
    let power = ErrorPower::joined(all.filter_map(|x| x.error_power));
    format!("{wrong}, error power {}", power.map_or("none".to_string(), ErrorPower::in_words))
}

/// Whether Unswapped and Negated are the same, which is proved up to a sample of −32768: "60 of 60 readings (100 %) the
/// same at every sample, as is proved".
pub fn same_in(readings: &[SwapReading]) -> String {
    let same = since(readings).iter().filter(|x| x.same).count();
    let share = words::share(same, since(readings).len(), "reading", "");
    let lowest = readings.iter().position(|x| x.lowest);
    let before = &readings[..lowest.unwrap_or(readings.len())];
    let more = match (before.iter().all(|x| x.same), lowest) {
        (true, None) => "as is proved",
        (true, Some(_)) => "but a sample was −32768, which has no negative",
        (false, _) => "AGAINST THE PROOF",
    };
    format!("{share} the same at every sample, {more}")
}

fn told(given: &Assumptions, readings: &[SwapReading], course: Course) -> String {
    let lost = words::share(lost(readings, course), since(readings).len(), "reading", "lost");
    let text = format!("{lost}; {}", decided(given, readings, course));
    if course == Course::Unswapped {
        return text;
    }
    let received = after(given, course, received_from(readings, course));
    let near = after(given, course, near_from(readings, course));
    format!("{text}; all received again: {received}; error power within 3 dB: {near}")
}

/// Lines for the summary; none where no joint is swapped.
pub fn lines(given: &Assumptions, readings: &[SwapReading]) -> Vec<String> {
    let all = since(readings);
    let head = all.first().map(|first| {
        let (day, count) = (words::short(first.day, 4), words::count(all.len(), "reading"));
        let blocks = words::count(all.len() * given.blocks(), "block");
        format!("joint swapped on day {day}, for copies of the station, {count}, {blocks}:")
    });
    let line = |course: Course| {
        let same = if course == Course::Negated { same_in(readings) + "; " } else { String::new() };
        format!("  {}: {same}{}", course.name(), told(given, readings, course))
    };
    head.into_iter().flat_map(|head| std::iter::once(head).chain(Course::ALL.map(line))).collect()
}

const HEADER: &str = "reading,day (days),readings since the swap,blocks from the swap to the payload,course,\
     pressure sent (bar),pressure received (bar),wrong decisions,error power (squared symbol units),mean or floor,psi";

fn row(given: &Assumptions, reading: &SwapReading, course: Course) -> String {
    let outcome = reading.of(course);
    let mut fields = vec![
        reading.number.to_string(),
        format!("{:.4}", reading.day),
        reading.place.to_string(),
        block_of(given, reading.place).to_string(),
        format!("\"{}\"", course.name()),
        bar(given, Some(reading.sent)),
        bar(given, outcome.received),
        outcome.wrong.to_string(),
    ];
    fields.extend(ErrorPower::fields(outcome.error_power));
    fields.push(outcome.record.psi.to_string());
    fields.extend(weight_fields(&weights(&outcome.record)));
    fields.join(",") + "\n"
}

/// The whole table, a row for each reading and course; none where no joint is swapped.
pub fn csv(given: &Assumptions, readings: &[SwapReading]) -> Option<String> {
    let names = weight_names(given.settings.p, given.settings.q).join(",");
    let rows = readings.iter().flat_map(|reading| Course::ALL.map(|course| row(given, reading, course)));
    (!since(readings).is_empty()).then(|| format!("{HEADER},{names}\n") + &rows.collect::<String>())
}
