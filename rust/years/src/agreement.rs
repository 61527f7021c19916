//! What is wrong with assumptions that are each in their range: values that can't be together.

use crate::assumptions::Assumptions;
use crate::payload::symbols_of_word;
use plots::text::too_large;
use plots::words::short;

/// A key, and what is to be said of its value.
pub type Sentence = (&'static str, String);

/// A key, the others that its value has to agree with, and why it doesn't.
type Check = (&'static str, &'static [&'static str], fn(&Assumptions) -> Option<String>);

/// What the pressures of a history are made of.
const PRESSURES: &[&str] = &[
    "years",
    "readings_a_day",
    "pressure_first",
    "pressure_fall",
    "pressure_half_years",
    "pressure_season",
    "shut_in_day",
    "shut_in_days",
    "shut_in_rise",
];

const CHECKS: [Check; 9] = [
    ("M", &["p", "q", "r", "L"], |given| too_large(&given.settings)),
    ("cable_old", &["cable_new"], cables),
    ("payload_blocks", &["N", "r"], payload),
    ("delay", &["p", "cable_new"], delay),
    ("day_loss", &["season_loss"], losses),
    ("shut_in_days", &["shut_in_day"], shut_in),
    ("power_loss_days", &["readings_a_day"], power_losses),
    ("pressure_first", PRESSURES, least_pressure),
    ("pressure_unit", PRESSURES, greatest_pressure),
];

/// What is impossible, each with the reason, where nothing is wrong with the values of its keys.
pub fn problems(given: &Assumptions, is_sound: impl Fn(&[&str]) -> bool) -> Vec<Sentence> {
    let checks = CHECKS.into_iter().filter(|(key, others, _)| is_sound(&[key]) && is_sound(others));
    checks.filter_map(|(key, _, check)| Some((key, check(given)?))).collect()
}

/// What is possible and leaves no trace in the history.
pub fn notes(given: &Assumptions) -> Vec<Sentence> {
    let spells = [
        ("loud_first_day", "loud spell", given.loud_first_day, given.loud_days),
        ("faint_first_day", "faint spell", given.faint_first_day, given.faint_days),
        ("joint_first_day", "noisy joint", given.joint_first_day, given.joint_days),
        ("swap_day", "swapped joint", given.swap_day, given.swap_readings as f64),
    ];
    let last = given.day_of(given.readings() - 1);
    let absent = spells.into_iter().filter(|(_, _, first, length)| *length > 0.0 && *first > last);
    let last = short(last, 4);
    let told = |name, first| format!("the {name} from day {first} on is not in these years: the last is day {last}");
    absent.map(|(key, name, first, _)| (key, told(name, first))).collect()
}

fn cables(given: &Assumptions) -> Option<String> {
    let (new, old) = (given.cable_new.len(), given.cable_old.len());
    (new != old).then(|| format!("cable_old has {old} taps, but cable_new has {new}"))
}

fn payload(given: &Assumptions) -> Option<String> {
    let (room, needed) = (given.payload_symbols(), symbols_of_word(given.settings.r));
    (room < needed).then(|| format!("the payload has {room} symbols, but a pressure takes {needed}"))
}

/// A symbol is in the samples that the feed forward taps hold for as long as the response and the taps are.
fn delay(given: &Assumptions) -> Option<String> {
    let (p, taps, delay) = (usize::from(given.settings.p), given.cable_new.len(), given.delay);
    let (sizes, latest) = (format!("p = {p} and {taps} taps of the cable"), p + taps - 2);
    (delay > latest).then(|| format!("delay = {delay}, but with {sizes} no tap meets the symbol after {latest}"))
}

fn losses(given: &Assumptions) -> Option<String> {
    let (season, day) = (given.season_loss, given.day_loss);
    let told = || format!("season_loss = {season} and day_loss = {day} take more than the whole level");
    (season + day > 1.0).then(told)
}

fn shut_in(given: &Assumptions) -> Option<String> {
    let (first, length) = (given.shut_in_day, given.shut_in_days);
    let shut_in = format!("a shut-in of {length} days from day {first} goes beyond its year");
    (first + length > 365.0).then(|| format!("{shut_in}: at most {} days are wanted", 365.0 - first))
}

fn power_losses(given: &Assumptions) -> Option<String> {
    let (losses, apart) = (given.power_loss_days, 1.0 / f64::from(given.readings_a_day));
    let rare = format!("power_loss_days = {losses} is less than the time between readings");
    (losses > 0.0 && losses < apart).then(|| format!("{rare}: 0 or at least {apart} is wanted"))
}

/// Every pressure of the history, with its day.
fn pressures(given: &Assumptions) -> impl Iterator<Item = (f64, f64)> + '_ {
    let days = (0..given.readings()).map(|reading| given.day_of(reading));
    days.map(|day| (given.pressure_at(day), day))
}

fn least_pressure(given: &Assumptions) -> Option<String> {
    let (least, day) = pressures(given).min_by(|a, b| a.0.total_cmp(&b.0))?;
    let falls = format!("the pressure falls to {least:.4} bar on day {day:.0}");
    (least < 0.0).then(|| format!("{falls}, but none below 0 can be sent"))
}

fn greatest_pressure(given: &Assumptions) -> Option<String> {
    let (unit, most) = (given.pressure_unit, f64::from(u16::MAX));
    let (greatest, day) = pressures(given).max_by(|a, b| a.0.total_cmp(&b.0))?;
    let (holds, least) = (unit * most, (greatest / most * 10000.0).ceil() / 10000.0);
    let comes = format!("the pressure comes to {greatest:.4} bar on day {day:.0}");
    let holds = format!("a 16-bit number of {unit} bar holds at most {holds:.4} bar");
    let told = || format!("{comes}, but {holds}: a unit of at least {least:.4} bar is wanted");
    ((greatest / unit).round() > most).then(told)
}
