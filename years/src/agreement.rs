//! What is wrong with assumptions that are each in their range: values that
//! can't be together.

use crate::assumptions::Assumptions;
use crate::payload;
use crate::words;

/// A key, and what is to be said at its line.
pub type Sentence = (&'static str, String);

/// What is impossible, each with the reason.
pub fn problems(given: &Assumptions) -> Vec<Sentence> {
    let checks = [
        block, step, taps, room, delay, levels, shut_in, losses, negative, beyond,
    ];
    checks.iter().filter_map(|check| check(given)).collect()
}

/// What is possible and leaves no trace in the history.
pub fn notes(given: &Assumptions) -> Vec<Sentence> {
    let (loud, faint, joint) = (&given.loud, &given.faint, &given.joint);
    let (swap, swap_readings) = (&given.swap, given.swap.readings.into());
    let spells = [
        ("loud_first_day", "loud spell", loud.first_day, loud.days),
        (
            "faint_first_day",
            "faint spell",
            faint.first_day,
            faint.days,
        ),
        (
            "joint_first_day",
            "noisy joint",
            joint.first_day,
            joint.days,
        ),
        ("swap_day", "swapped joint", swap.day, swap_readings),
    ];
    let last = given.day_of(given.readings() - 1);
    let absent = spells
        .into_iter()
        .filter(|(_, _, first, length)| *length > 0.0 && *first > last);
    absent
        .map(|(key, name, first, _)| {
            let sentence = format!(
                "the {name} from day {first} on is not in these years: the last reading is on day {}",
                words::plain(last)
            );
            (key, sentence)
        })
        .collect()
}

fn block(given: &Assumptions) -> Option<Sentence> {
    let (p, n) = (given.sizes.p, given.sizes.n);
    (n + 1 < p).then(|| {
        let sentence = format!(
            "N = {n}, but with p = {p} at least p - 1 = {} is wanted",
            p - 1
        );
        ("N", sentence)
    })
}

fn step(given: &Assumptions) -> Option<Sentence> {
    let s = given.sizes;
    let most = tigbulode::greatest_step(s.p, s.q, s.r, s.l)?;
    (s.m > most).then(|| {
        let sizes = format!("p = {}, q = {}, r = {}, L = {}", s.p, s.q, s.r, s.l);
        let sentence = format!("M = {}, but with {sizes} at most {most} is admitted", s.m);
        ("M", sentence)
    })
}

fn taps(given: &Assumptions) -> Option<Sentence> {
    let (new, old) = (given.cable.new.len(), given.cable.old.len());
    (new != old).then(|| {
        let sentence = format!("cable_old has {old} taps, but cable_new has {new}");
        ("cable_old", sentence)
    })
}

fn room(given: &Assumptions) -> Option<Sentence> {
    let room = given.payload_symbols();
    let needed = payload::symbols_of_word(given.sizes.r);
    (room < needed).then(|| {
        let sentence = format!("the payload has {room} symbols, but a pressure takes {needed}");
        ("payload_blocks", sentence)
    })
}

/// A symbol is in the samples that the feed forward taps hold for as many
/// symbols as the response and the taps are long.
fn delay(given: &Assumptions) -> Option<Sentence> {
    let (p, response) = (usize::from(given.sizes.p), given.cable.new.len());
    let most = p + response - 2;
    let delay = given.burst.delay;
    (delay > most).then(|| {
        let sentence = format!(
            "delay = {delay}, but with p = {p} and {response} taps of the cable no tap meets the symbol after {most}"
        );
        ("delay", sentence)
    })
}

fn levels(given: &Assumptions) -> Option<Sentence> {
    let (season, day) = (given.cable.season_loss, given.cable.day_loss);
    (season + day > 1.0).then(|| {
        let sentence =
            format!("season_loss = {season} and day_loss = {day} take more than the whole level");
        ("day_loss", sentence)
    })
}

fn shut_in(given: &Assumptions) -> Option<Sentence> {
    let (first, days) = (given.pressure.shut_in_day, given.pressure.shut_in_days);
    (first + days > 365.0).then(|| {
        let sentence = format!(
            "a shut-in of {days} days from day {first} goes beyond its year: at most {} days are wanted",
            365.0 - first
        );
        ("shut_in_days", sentence)
    })
}

/// Power is lost at most once ahead of a reading.
fn losses(given: &Assumptions) -> Option<Sentence> {
    let (days, a_day) = (given.power.loss_days, given.readings_a_day);
    (days > 0.0 && days * f64::from(a_day) < 1.0).then(|| {
        let sentence = format!(
            "power_loss_days = {days} is less than the time between readings: 0 or at least {} is wanted",
            1.0 / f64::from(a_day)
        );
        ("power_loss_days", sentence)
    })
}

/// Every reading's day and pressure.
fn pressures(given: &Assumptions) -> impl Iterator<Item = (f64, f64)> + '_ {
    let days = (0..given.readings()).map(|reading| given.day_of(reading));
    days.map(|day| (day, given.pressure.at(day)))
}

fn negative(given: &Assumptions) -> Option<Sentence> {
    let (day, least) = pressures(given).min_by(|a, b| a.1.total_cmp(&b.1))?;
    (least < 0.0).then(|| {
        let sentence = format!(
            "the pressure falls to {least:.4} bar on day {day:.0}, but none below 0 can be sent"
        );
        ("pressure_first", sentence)
    })
}

fn beyond(given: &Assumptions) -> Option<Sentence> {
    let (day, greatest) = pressures(given).max_by(|a, b| a.1.total_cmp(&b.1))?;
    let (unit, most) = (given.pressure.unit, f64::from(u16::MAX));
    ((greatest / unit).round() > most).then(|| {
        let sentence = format!(
            "the pressure comes to {greatest:.4} bar on day {day:.0}, but a 16-bit number of {unit} bar holds at most \
             {:.4} bar: a unit of at least {:.4} bar is wanted",
            unit * most,
            (greatest / most * 10000.0).ceil() / 10000.0
        );
        ("pressure_unit", sentence)
    })
}
