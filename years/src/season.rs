//! The seasons, without the machine's own sine.

use crate::assumptions::DAYS_A_YEAR;

/// 1 in the depth of winter (day 0 of a year), −1 half a year later: a cosine
/// by its series, good to 10^−6.
pub fn cold(day: f64) -> f64 {
    let turn = (day / DAYS_A_YEAR).rem_euclid(1.0);
    let from_summer = (turn - 0.5).abs();
    sine((from_summer - 0.25) * std::f64::consts::TAU)
}

/// For an angle of at most a quarter turn either way.
fn sine(angle: f64) -> f64 {
    let square = angle * angle;
    let terms = [9, 7, 5, 3].iter().fold(1.0, |rest, &n: &i32| {
        1.0 - rest * square / f64::from(n * (n - 1))
    });
    angle * terms
}

/// The day within its year.
pub fn day_of_year(day: f64) -> f64 {
    day.rem_euclid(DAYS_A_YEAR)
}
