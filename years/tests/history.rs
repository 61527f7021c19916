//! Whole histories.

mod common;

use common::{alone as given, history, whole};
use years::assumptions::Assumptions;
use years::history::{History, Reading};
use years::station::Return;
use years::table;

fn csv(given: &Assumptions, readings: &[Reading]) -> String {
    let mut bytes = Vec::new();
    table::csv(given, readings, &mut bytes).expect("written");
    String::from_utf8(bytes).expect("text")
}

const STEADY: [(&str, &str); 13] = [
    ("years", "3"),
    ("cable_new", "0.025 0.280 0.055 -0.030 0.015"),
    ("cable_old", "0.025 0.280 0.055 -0.030 0.015"),
    ("season_loss", "0"),
    ("day_loss", "0"),
    ("season_dispersion", "0"),
    ("noise_new", "0"),
    ("noise_old", "0"),
    ("loud_days", "0"),
    ("faint_days", "0"),
    ("joint_days", "0"),
    ("power_loss_days", "0"),
    ("commissioning_blocks", "40"),
];

#[test]
fn a_seed_gives_the_same_table_again() {
    let given_one = given(&[
        ("years", "1"),
        ("loud_first_day", "100"),
        ("joint_first_day", "200"),
    ]);
    let table = csv(&given_one, &history(&given_one));
    assert_eq!(table, csv(&given_one, &history(&given_one)));
    let other = Assumptions {
        seed: given_one.seed + 1,
        ..given_one
    };
    assert_ne!(table, csv(&other, &history(&other)));
}

#[test]
fn a_steady_cable_without_noise_has_no_wrong_decision_after_training() {
    for r in ["0", "1"] {
        let mut changes = STEADY.to_vec();
        changes.push(("r", r));
        for reading in history(&given(&changes)) {
            assert_eq!(reading.wrong, 0, "reading {} with r {r}", reading.number);
            assert_eq!(reading.pressure_received, Some(reading.pressure_sent));
            assert_eq!(reading.refused, [0; 10]);
        }
    }
}

#[test]
fn without_training_the_first_readings_are_wrong() {
    let mut changes = STEADY.to_vec();
    changes.extend([("commissioning_blocks", "0"), ("preamble_blocks", "0")]);
    changes.retain(|(key, value)| (*key, *value) != ("commissioning_blocks", "40"));
    let first = history(&given(&changes)).swap_remove(0);
    assert!(first.wrong > 10);
}

#[test]
fn a_summary_has_no_line_for_what_was_not_there() {
    let starts = |changes: &[(&str, &str)], wanted: &str| {
        let given = given(changes);
        let text = table::summary(&given, &whole(&given));
        text.lines().any(|line| line.starts_with(wanted))
    };
    let within = [
        ("years", "1"),
        ("loud_first_day", "100"),
        ("joint_first_day", "200"),
        ("faint_first_day", "20"),
        ("swap_day", "300"),
    ];
    let spells = [
        "loud spell: ",
        "faint spell: ",
        "noisy joint: ",
        "joint swapped on day ",
    ];
    for name in [&["all: ", "quiet: "], &spells[..]].concat() {
        assert!(starts(&within, name), "{name}");
    }
    for name in spells {
        assert!(!starts(&within[..1], name), "{name}");
    }
    let always = [
        ("years", "1"),
        ("loud_first_day", "0"),
        ("loud_days", "400"),
    ];
    assert!(starts(&always, "loud spell: ") && !starts(&always, "quiet: "));
}

#[test]
fn a_summary_lists_the_first_wrong_pressures() {
    let given = given(&[("years", "1")]);
    let mut history = whole(&given);
    let summary = |history: &History| table::summary(&given, history);
    assert!(!summary(&history).contains("wrong pressure past"));
    for reading in &mut history.readings[..20] {
        reading.pressure_received = Some(200);
    }
    let text = summary(&history);
    let true_one = history.readings[1].pressure_true;
    let line = format!(
        "wrong pressure past the check: day 0.7500, true {true_one:.4} bar, received 1.0000 bar\n"
    );
    assert!(text.contains(&line), "{text}");
    assert_eq!(text.matches("wrong pressure past the check: ").count(), 20);
    assert!(!text.contains(" more"));
    for reading in &mut history.readings[20..23] {
        reading.pressure_received = Some(200);
    }
    let text = summary(&history);
    assert_eq!(text.matches("wrong pressure past the check: ").count(), 20);
    assert!(text.contains("\nand 3 wrong pressures more past the check\n"));
}

#[test]
fn every_row_has_the_columns_of_the_header() {
    let given = given(&[
        ("years", "1"),
        ("p", "3"),
        ("q", "2"),
        ("readings_a_day", "1"),
    ]);
    let table = csv(&given, &history(&given));
    let columns = |line: &str| line.split(',').count();
    let mut lines = table.lines();
    let header = lines.next().expect("a header");
    assert_eq!(columns(header), 24 + 9 + 5);
    assert!(table.lines().all(|line| columns(line) == columns(header)));
    assert_eq!(lines.count(), 365);
}

const DAMAGED: [(&str, &str); 6] = [
    ("years", "4"),
    ("power_loss_days", "3"),
    ("damaged_images", "1"),
    ("loud_days", "0"),
    ("faint_days", "0"),
    ("joint_days", "0"),
];

fn returns(readings: &[Reading], wanted: Return) -> usize {
    let came = |x: &&Reading| x.power_lost == Some(wanted);
    readings.iter().filter(came).count()
}

#[test]
fn a_damaged_image_never_stops_the_station() {
    let mut changes = DAMAGED.to_vec();
    changes.push(("check_sum", "0"));
    let readings = history(&given(&changes));
    let last = readings.last().expect("readings");
    assert!(last.refused[9] > 0);
    assert_eq!(last.refused[3..=7], [0; 5]);
    assert!(returns(&readings, Return::LoadedDamaged) > 0);
    assert_eq!(returns(&readings, Return::CheckSumWrong), 0);
    assert!(readings
        .iter()
        .all(|reading| reading.record.p == 6 && reading.record.n == 64));
}

#[test]
fn with_a_check_sum_no_damaged_image_is_loaded() {
    let readings = history(&given(&DAMAGED));
    assert!(returns(&readings, Return::CheckSumWrong) > 0);
    assert_eq!(returns(&readings, Return::LoadedDamaged), 0);
    assert_eq!(readings.last().expect("readings").refused, [0; 10]);
}
