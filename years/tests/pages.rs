//! What the pages draw.

mod common;

use common::{alone as given, history};
use years::assumptions::Assumptions;
use years::curve::Curve;
use years::history::Reading;
use years::page::{page, Page, Panel};
use years::power::ErrorPower;
use years::script::script;
use years::view::View;
use years::words::decibels;

/// Five years without losses of power or spells, where nothing else is given.
fn calm(more: &[(&str, &str)]) -> (Assumptions, Vec<Reading>) {
    let mut changes = more.to_vec();
    changes.extend([
        ("years", "5"),
        ("loud_days", "0"),
        ("faint_days", "0"),
        ("joint_days", "0"),
        ("power_loss_days", "0"),
    ]);
    let given = given(&changes);
    let readings = history(&given);
    (given, readings)
}

fn lose(readings: &mut [Reading], days: std::ops::Range<f64>) {
    let lost = readings.iter_mut().filter(|x| days.contains(&x.day));
    lost.for_each(|x| x.pressure_received = None);
}

fn all_years(given: &Assumptions, readings: &[Reading]) -> Page {
    page(&View::all(given, readings), "all".to_string())
}

fn panel<'a>(page: &'a Page, name: &str) -> &'a Panel {
    let mut panels = page.panels.iter();
    let found = panels.find(|panel| panel.name.starts_with(name));
    found.unwrap_or_else(|| panic!("no panel {name}"))
}

fn numbers(row: &str) -> Vec<f64> {
    let words = row.split_whitespace();
    words.map(|word| word.parse().expect("a number")).collect()
}

/// Whether a line of the curve goes over a time.
fn goes_over(curve: &Curve, time: f64) -> bool {
    let runs = curve.rows.split("\n\n").filter(|run| !run.is_empty());
    runs.into_iter().any(|run| {
        let at: Vec<f64> = run.lines().map(|row| numbers(row)[0]).collect();
        at[0] <= time && time <= at[at.len() - 1]
    })
}

fn lines(panel: &Panel) -> Vec<&Curve> {
    let curves = panel.curves.iter();
    curves
        .filter(|curve| curve.style.starts_with("with lines lw"))
        .collect()
}

const AVERAGED: [&str; 5] = [
    "error power",
    "largest feed forward",
    "largest feedback",
    "exponent and gain",
    "bits of samples",
];

#[test]
fn a_line_breaks_over_weeks_without_a_reading_in_every_panel() {
    let (given, mut readings) = calm(&[]);
    let time = 704.0 / 365.25;
    let whole = all_years(&given, &readings);
    lose(&mut readings, 700.0..707.0);
    let broken = all_years(&given, &readings);
    for name in AVERAGED {
        let over = |page: &Page| lines(panel(page, name)).iter().any(|c| goes_over(c, time));
        assert!(over(&whole) && !over(&broken), "{name}");
    }
    let received = |page: &Page| goes_over(lines(panel(page, "pressure"))[1], time);
    assert!(received(&whole) && !received(&broken));
    assert!(
        goes_over(lines(panel(&broken, "pressure"))[0], time),
        "the true one"
    );
    assert!(whole.dots.is_none() && broken.dots.is_some());
}

/// The part of a script that draws a panel.
fn drawn<'a>(text: &'a str, name: &str) -> &'a str {
    let mut panels = text.split("set tmargin");
    let found = panels.find(|panel| panel.contains(&format!("'{name}")));
    found.unwrap_or_else(|| panic!("no panel {name}"))
}

#[test]
fn dots_are_named_once_where_they_are_first_drawn() {
    let (given, mut readings) = calm(&[("years", "2")]);
    let words = "dots: a week without a reading";
    assert!(!script(&all_years(&given, &readings)).contains(words));
    lose(&mut readings, 700.0..707.0);
    let text = script(&all_years(&given, &readings));
    assert_eq!(text.matches(words).count(), 1);
    assert!(drawn(&text, "error power").contains(words));
    let few = View::near(&given, &readings, |x| x.number == 1410).expect("a view");
    let text = script(&page(&few, "few".to_string()));
    assert!(drawn(&text, "error power").contains("dots: the reading was lost"));
}

/// The error powers of readings.
fn powers(readings: &[Reading]) -> Vec<f64> {
    let powers = readings.iter().map(|x| x.error_power.expect("a power"));
    powers.map(ErrorPower::value).collect()
}

/// Their mean in dB.
fn mean_power(readings: &[Reading]) -> f64 {
    let powers = powers(readings);
    decibels(powers.iter().sum::<f64>() / powers.len() as f64)
}

#[test]
fn the_level_of_a_station_that_guesses_is_drawn() {
    let (given, readings) = calm(&[("years", "1"), ("noise_new", "1"), ("noise_old", "1")]);
    let page = all_years(&given, &readings);
    let title = Some("about −5 dB: guessing".to_string());
    let mut curves = panel(&page, "error power").curves.iter();
    let guide = curves.find(|c| c.title == title).expect("the guide");
    assert_eq!(guide.rows, "0.000000 -4.771213\n1.000000 -4.771213\n");
    assert!(readings.iter().all(|x| x.wrong > 30));
    for power in powers(&readings) {
        assert!((power - 1.0 / 3.0).abs() < 0.15, "{power}");
    }
    let mean = mean_power(&readings);
    assert!((mean + 4.7).abs() < 0.05, "{mean} dB");
}

#[test]
fn a_station_whose_samples_are_clipped_is_a_calm_line_near_that_level() {
    let (given, readings) = calm(&[("years", "1"), ("L", "9")]);
    assert!(readings.iter().all(|x| x.pressure_received.is_none()));
    let clipped: u32 = readings.iter().map(|x| x.clipped).sum();
    let samples = given.samples_of_reading() * readings.len() as u64;
    assert!(
        u64::from(clipped) * 100 > samples * 95,
        "{clipped} of {samples}"
    );
    for power in powers(&readings) {
        assert!((0.45..0.5).contains(&power), "{power}");
    }
    let mean = mean_power(&readings);
    assert!((mean + 3.4).abs() < 0.05, "{mean} dB");
}

#[test]
fn a_weight_whose_sign_changes_does_not_cancel() {
    let (given, mut readings) = calm(&[("years", "1")]);
    let means = |readings: &[Reading]| {
        let page = all_years(&given, readings);
        let rows = |name| lines(panel(&page, name))[0].rows.clone();
        ["largest feed forward", "largest feedback"].map(rows)
    };
    let before = means(&readings);
    for reading in readings.iter_mut().step_by(2) {
        reading.record.weights.iter_mut().for_each(|w| *w = -*w);
    }
    assert_eq!(means(&readings), before);
    let weight = numbers(before[1].lines().last().expect("a row"))[1];
    assert!(weight > 0.1, "{weight}");
}

#[test]
fn a_page_says_what_is_other_than_the_default() {
    let few = given(&[("seed", "9"), ("years", "1"), ("joint_days", "0")]);
    let readings = history(&few);
    let text = script(&all_years(&few, &readings));
    let changes = "seed = 9, years = 1, joint_days = 0, old_rule = 0";
    assert!(text.contains(&format!("'other than the default: {changes}'")));
    let default = Assumptions {
        years: 1,
        ..common::given(&[])
    };
    let text = script(&all_years(&default, &readings));
    assert!(!text.contains("other than the default"));
}

#[test]
fn one_lost_reading_breaks_the_line_of_received_ones_alone() {
    let (given, mut readings) = calm(&[]);
    lose(&mut readings, 700.0..700.5);
    let page = all_years(&given, &readings);
    let time = 700.25 / 365.25;
    assert!(!goes_over(lines(panel(&page, "pressure"))[1], time));
    assert!(goes_over(lines(panel(&page, "largest feedback"))[0], time));
}

#[test]
fn a_lone_reading_is_still_drawn() {
    let (given, mut readings) = calm(&[]);
    lose(&mut readings, 690.0..700.0);
    lose(&mut readings, 700.5..710.0);
    let page = all_years(&given, &readings);
    assert!(goes_over(
        lines(panel(&page, "pressure"))[1],
        700.25 / 365.25
    ));
}

#[test]
fn the_first_week_is_there_and_the_last_is_a_share_of_its_own() {
    let (given, mut readings) = calm(&[("years", "1")]);
    lose(&mut readings, 0.0..7.0);
    lose(&mut readings, 364.0..366.0);
    let page = all_years(&given, &readings);
    let lost = &panel(&page, "readings lost").curves[0];
    let rows: Vec<Vec<f64>> = lost.rows.lines().map(numbers).collect();
    assert_eq!(rows.len(), 2);
    assert!((rows[0][0] - 3.5 / 365.25).abs() < 1e-5);
    assert!(
        (rows[1][0] - 364.5 / 365.25).abs() < 1e-5,
        "the last week has a day"
    );
    assert_eq!([rows[0][1], rows[1][1]], [100.0, 100.0]);
    let (given, readings) = calm(&[("years", "1")]);
    let page = all_years(&given, &readings);
    let weights = lines(panel(&page, "largest feedback"))[0];
    assert_eq!(numbers(weights.rows.lines().next().expect("a row"))[0], 0.0);
}

#[test]
fn a_page_has_its_counts_and_no_absent_item() {
    let (given, mut readings) = calm(&[("years", "1"), ("readings_a_day", "1")]);
    lose(&mut readings, 100.0..101.0);
    let text = script(&all_years(&given, &readings));
    assert!(text.contains("1 of 365 readings lost (0.27 %), 0 wrong pressures past the check"));
    assert!(text.contains("1 year, 1 reading a day, seed 35"));
    assert!(text.contains(
        "6 feed forward taps (p), 4 feedback taps (q), blocks of 64 samples (N), symbols ±1 ±3"
    ));
    assert!(text.contains("least gain 0 (L), step 4194304 (M) / 2^30 = 0.0039"));
    for absent in [
        "loud spell",
        "faint spell",
        "noisy joint",
        "power lost",
        "set up anew",
        "turned down",
        "wrong past",
    ] {
        assert!(!text.contains(absent), "{absent}");
    }
}

#[test]
fn a_page_names_what_is_there() {
    let changes = [
        ("years", "1"),
        ("loud_first_day", "100"),
        ("faint_first_day", "20"),
        ("joint_first_day", "200"),
        ("power_loss_days", "5"),
        ("damaged_images", "0.5"),
    ];
    let with = given(&changes);
    let readings = history(&with);
    let text = script(&all_years(&with, &readings));
    for there in [
        "loud spell",
        "faint spell",
        "noisy joint",
        "image loaded: ",
        "check sum wrong, set up anew: ",
    ] {
        assert!(text.contains(there), "{there}");
    }
    let without = given(&[&changes[..], &[("check_sum", "0")]].concat());
    let readings = history(&without);
    let text = script(&all_years(&without, &readings));
    for there in ["no image taken, set up anew: ", "calls turned down so far"] {
        assert!(text.contains(there), "{there}");
    }
}

#[test]
fn a_wrong_pressure_is_marked_and_on_no_line() {
    let (given, mut readings) = calm(&[("years", "1")]);
    let text = script(&all_years(&given, &readings));
    assert!(!text.contains("wrong, off the scale"));
    readings[100].pressure_received = Some(readings[100].pressure_sent ^ 1);
    let page = all_years(&given, &readings);
    let text = script(&page);
    assert!(
        text.contains("wrong, off the scale") && text.contains("1 wrong pressure past the check")
    );
    let time = readings[100].day / 365.25;
    assert!(!goes_over(lines(panel(&page, "pressure"))[1], time));
}

#[test]
fn days_around_a_mark_stay_within_the_history() {
    let given = given(&[("years", "1"), ("loud_first_day", "2"), ("loud_days", "5")]);
    let readings = history(&given);
    let view = View::near(&given, &readings, |x| x.loud).expect("a view");
    assert_eq!((view.from, view.to), (0.0, 30.0));
    assert_eq!(view.readings.len(), 60);
    assert!(View::near(&given, &readings, |x| x.joint).is_none());
}

#[test]
fn many_readings_make_no_large_page() {
    let (given, readings) = calm(&[("readings_a_day", "24")]);
    assert_eq!(readings.len(), 43824);
    let text = script(&all_years(&given, &readings));
    assert!(text.len() < 3_000_000, "{}", text.len());
    assert!(text.contains("mean of a reading, 1 in 3 drawn"));
    assert!(text.contains("each point the mean of 3 readings"));
}
