//! What the pages draw.

mod common;
#[path = "../../plots/tests/shared/mod.rs"]
mod shared;

use common::{given, history};
use plots::curve::Curve;
use plots::page::{Page, Panel};
use plots::power::{ErrorPower, FLOOR_TITLE, ZERO_NOTE};
use plots::script::script;
use plots::words::decibels;
use shared::{numbers, panel};
use tigbulode_laboratory::Power;
use years::assumptions::Assumptions;
use years::history::Reading;
use years::page::page;
use years::view::View;

/// Five years without losses of power or spells, where nothing else is given.
fn calm(more: &[&str]) -> (Assumptions, Vec<Reading>) {
    let calm = ["years=5", "loud_days=0", "faint_days=0", "joint_days=0", "power_loss_days=0"];
    let given = given(&[&calm[..], more].concat());
    let readings = history(&given);
    (given, readings)
}

fn lose(readings: &mut [Reading], days: std::ops::Range<f64>) {
    let lost = readings.iter_mut().filter(|x| days.contains(&x.day));
    lost.for_each(|x| x.outcome.received = None);
}

fn all_years(given: &Assumptions, readings: &[Reading]) -> Page {
    page(&View::all(given, readings), "all".to_string())
}

/// Whether a line of the curve goes over a day.
fn goes_over(curve: &Curve, day: f64) -> bool {
    let time = day / 365.25;
    let rows = numbers(curve);
    let mut runs = rows.split(|row| row.is_empty()).filter(|run| !run.is_empty());
    runs.any(|run| run[0][0] <= time && time <= run[run.len() - 1][0])
}

fn lines(panel: &Panel) -> Vec<&Curve> {
    let curves = panel.curves.iter();
    curves.filter(|curve| curve.style.starts_with("with lines lw")).collect()
}

const AVERAGED: [&str; 5] =
    ["error power", "largest feed forward", "largest feedback", "exponent and gain", "bits of samples"];

#[test]
fn a_line_breaks_over_weeks_without_a_reading_and_dots_are_named_once() {
    let (given, mut readings) = calm(&[]);
    let whole = all_years(&given, &readings);
    lose(&mut readings, 700.0..707.0);
    lose(&mut readings, 800.0..800.5);
    let broken = all_years(&given, &readings);
    for name in AVERAGED {
        let over = |page: &Page, day: f64| lines(panel(page, name)).iter().any(|c| goes_over(c, day));
        assert!(over(&whole, 704.0) && !over(&broken, 704.0) && over(&broken, 800.25), "{name}");
    }
    let received = |page: &Page, day: f64| goes_over(lines(panel(page, "pressure"))[1], day);
    assert!(received(&whole, 704.0) && !received(&broken, 704.0) && !received(&broken, 800.25));
    assert!(goes_over(lines(panel(&broken, "pressure"))[0], 704.0), "the true one");
    let dots = |page: &Page, name: &str| panel(page, name).keys.iter().any(|(_, title)| title.starts_with("dots: "));
    assert!(AVERAGED.iter().all(|name| !dots(&whole, name)));
    assert_eq!(AVERAGED.map(|name| dots(&broken, name)), [true, false, false, false, false]);
    let few = View::near(&given, &readings, |x| x.number == 1410).expect("a view");
    assert!(script(&page(&few, "few".to_string())).contains("dots: the reading was lost"));
}

fn mean_power(readings: &[Reading]) -> f64 {
    let powers = readings.iter().map(|x| x.outcome.error_power.expect("a power").value());
    decibels(powers.sum::<f64>() / readings.len() as f64)
}

#[test]
fn the_level_of_a_station_that_guesses_is_drawn_where_one_is() {
    let (given, readings) = calm(&["years=1", "noise_new=1", "noise_old=1"]);
    let page = all_years(&given, &readings);
    let mut curves = panel(&page, "error power").curves.iter();
    let guide = curves.find(|c| c.title.as_deref() == Some("about −5 dB: guessing")).expect("the guide");
    assert_eq!(numbers(guide), [[0.0, -4.771213], [1.0, -4.771213]]);
    assert!(readings.iter().all(|x| x.outcome.wrong > 30));
    assert!((mean_power(&readings) + 4.7).abs() < 0.05, "{} dB", mean_power(&readings));
}

#[test]
fn a_weight_whose_sign_changes_does_not_cancel() {
    let (given, mut readings) = calm(&["years=1"]);
    let means = |readings: &[Reading]| {
        let page = all_years(&given, readings);
        ["largest feed forward", "largest feedback"].map(|name| numbers(lines(panel(&page, name))[0]))
    };
    let before = means(&readings);
    for reading in readings.iter_mut().step_by(2) {
        reading.outcome.record.weights.iter_mut().for_each(|w| *w = -*w);
    }
    assert_eq!(means(&readings), before);
    assert!(before[1].last().expect("a row")[1] > 0.1);
}

#[test]
fn the_first_week_is_there_and_the_last_is_a_share_of_its_own() {
    let (given, mut readings) = calm(&["years=1"]);
    let weights = numbers(lines(panel(&all_years(&given, &readings), "largest feedback"))[0]);
    assert_eq!(weights[0][0], 0.0);
    lose(&mut readings, 0.0..7.0);
    lose(&mut readings, 364.0..366.0);
    let rows = numbers(&panel(&all_years(&given, &readings), "readings lost").curves[0]);
    let wanted = [[0.009582, 100.0], [0.997947, 100.0]];
    assert_eq!(rows, wanted, "days 3.5 and 364.5: the last week has a day");
}

#[test]
fn a_page_has_its_counts_and_no_absent_item() {
    let (given, mut readings) = calm(&["years=1", "readings_a_day=1"]);
    lose(&mut readings, 100.0..101.0);
    let text = script(&all_years(&given, &readings));
    for there in [
        "1 of 365 readings lost (0.27 %), 0 wrong pressures past the check",
        "1 year, 1 reading a day, seed 35",
        "6 feed forward taps (p), 4 feedback taps (q), blocks of 64 samples (N), symbols ±1 ±3",
        "least gain 0 (L), step 4194304 (M) / 2^30 = 0.0039",
        "'other than the default: years = 1, readings_a_day = 1, loud_days = 0, faint_days = 0, ",
    ] {
        assert!(text.contains(there), "{there}");
    }
    for absent in ["loud spell", "noisy joint", "power lost", "set up anew", "turned down", "wrong past", FLOOR_TITLE] {
        assert!(!text.contains(absent), "{absent}");
    }
    let default = Assumptions { changes: Vec::new(), ..given };
    assert!(!script(&all_years(&default, &readings)).contains("other than the default"));
}

#[test]
fn a_page_names_what_is_there() {
    let spells = ["years=1", "loud_first_day=100", "faint_first_day=20", "joint_first_day=200"];
    let losses = ["power_loss_days=5", "damaged_images=0.5"];
    let text = |more: &[&str]| {
        let given = given(&[&spells[..], &losses, more].concat());
        script(&all_years(&given, &history(&given)))
    };
    let with = ["loud spell", "faint spell", "noisy joint", "image loaded: ", "check sum wrong, set up anew: "];
    assert!(with.iter().all(|there| text(&[]).contains(there)));
    let without = ["no image taken, set up anew: ", "calls turned down so far"];
    assert!(without.iter().all(|there| text(&["check_sum=0"]).contains(there)) && !text(&[]).contains(without[1]));
}

#[test]
fn a_wrong_pressure_is_marked_and_on_no_line() {
    let (given, mut readings) = calm(&["years=1"]);
    let words = "wrong, off the scale";
    assert!(!script(&all_years(&given, &readings)).contains(words));
    readings[100].outcome.received = Some(readings[100].sent ^ 1);
    let page = all_years(&given, &readings);
    assert!(script(&page).contains(words) && page.lines[0].contains("1 wrong pressure past the check"));
    assert!(!goes_over(lines(panel(&page, "pressure"))[1], readings[100].day));
}

#[test]
fn floors_and_powers_of_0_are_marked_where_there_are_some() {
    let (given, mut readings) = calm(&["years=1"]);
    let marks = |page: &Page| {
        let mut curves = panel(page, "error power").curves.iter();
        numbers(curves.find(|curve| curve.title.as_deref() == Some(FLOOR_TITLE)).expect("the marks"))
    };
    assert_eq!(marks(&all_years(&given, &readings)).len(), 0);
    readings[100].outcome.error_power = Some(ErrorPower::of_block(Power::Mean(0.0)));
    readings[300].outcome.error_power = Some(ErrorPower::of_block(Power::Floor(600.0)));
    let page = all_years(&given, &readings);
    let heights: Vec<f64> = marks(&page).iter().map(|row| row[1]).collect();
    assert!(heights.len() == 2 && heights[1] == 27.781513, "the week and the reading: {heights:?}");
    assert!(panel(&page, "error power").notes.iter().any(|note| note == ZERO_NOTE));
}

#[test]
fn days_around_a_mark_stay_within_the_history() {
    let given = given(&["years=1", "loud_first_day=2", "loud_days=5"]);
    let readings = history(&given);
    let view = View::near(&given, &readings, |x| x.loud).expect("a view");
    assert_eq!((view.from, view.to, view.readings.len()), (0.0, 30.0, 60));
    assert!(View::near(&given, &readings, |x| x.joint).is_none());
}

#[test]
fn many_readings_make_no_large_page() {
    let (given, readings) = calm(&["readings_a_day=24"]);
    assert_eq!(readings.len(), 43824);
    let text = script(&all_years(&given, &readings));
    assert!(text.len() < 3_000_000, "{}", text.len());
    assert!(text.contains("mean of a reading, 1 in 9 drawn"));
    assert!(text.contains("each point the mean of 3 readings"));
}
