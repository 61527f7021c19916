//! The station beside the same one by the old rule.

mod common;

use common::{given, history};
use reference::Settings;
use std::sync::OnceLock;
use tigbulode::sides::{Library, Operations};
use tigbulode::{Answer, Block, Equaliser, Outputs, Saved};
use years::assumptions::Assumptions;
use years::history::{run_beside, Reading};
use years::old_rule::RisesOnly;
use years::outcome::Outcome;
use years::page::{page, Page};
use years::power::ErrorPower;
use years::script::script;
use years::station::Return;
use years::view::View;
use years::words::decibels;
use years::{comparison, table};

/// A faint spell, then a loud one, on a cable that stays as it is.
const SPELLS: [(&str, &str); 12] = [
    ("years", "1"),
    ("readings_a_day", "4"),
    ("cable_new", "0.025 0.290 0.055 -0.030 0.015"),
    ("cable_old", "0.025 0.290 0.055 -0.030 0.015"),
    ("season_loss", "0"),
    ("faint_first_day", "40"),
    ("faint_days", "90"),
    ("faint_ramp_days", "10"),
    ("faint_level", "0.38"),
    ("loud_first_day", "200"),
    ("joint_days", "0"),
    ("power_loss_days", "0"),
];

/// The history of [`SPELLS`], run once.
fn spells() -> &'static [Reading] {
    static READINGS: OnceLock<Vec<Reading>> = OnceLock::new();
    READINGS.get_or_init(|| history(&given(&SPELLS)))
}

/// The same with another in the place of the old rule.
fn beside(other: &dyn Operations) -> Vec<Reading> {
    run_beside(&given(&SPELLS), other, |_| {})
        .expect("every block is read")
        .readings
}

fn old(reading: &Reading) -> Outcome {
    reading.old.expect("the old rule is run")
}

/// The mean error powers over some days in dB, the station's own and by the
/// old rule.
fn powers(readings: &[Reading], days: std::ops::Range<f64>) -> (f64, f64) {
    let there: Vec<_> = readings.iter().filter(|x| days.contains(&x.day)).collect();
    let mean = |of: &dyn Fn(&Reading) -> Option<ErrorPower>| {
        let sum: f64 = there
            .iter()
            .filter_map(|x| of(x))
            .map(ErrorPower::value)
            .sum();
        decibels(sum / there.len() as f64)
    };
    (mean(&|x| x.error_power), mean(&|x| old(x).error_power))
}

/// ψ after the last reading of a day, the station's own and by the old rule.
fn exponents(readings: &[Reading], day: f64) -> (u8, u8) {
    let last = readings.iter().rfind(|x| x.day < day + 1.0);
    let last = last.expect("a reading");
    (last.record.psi, old(last).record.psi)
}

/// What is found wrong in the history of [`SPELLS`].
type Wrong = Result<(), String>;

fn holds(right: bool, wrong: String) -> Wrong {
    right.then_some(()).ok_or(wrong)
}

/// The exponent comes down after the faint spell and in the loud one.
fn exponents_come_down(readings: &[Reading]) -> Wrong {
    let wanted = [
        (30.0, (3, 3)),
        (120.0, (5, 5)),
        (180.0, (4, 5)),
        (230.0, (3, 5)),
        (364.0, (3, 5)),
    ];
    wanted.into_iter().try_for_each(|(day, wanted)| {
        let found = exponents(readings, day);
        holds(found == wanted, format!("ψ {found:?} on day {day}"))
    })
}

/// A lower exponent makes the error smaller, by so many dB at least.
fn errors_are_smaller(readings: &[Reading]) -> Wrong {
    let (own, other) = powers(readings, 0.0..40.0);
    holds(own == other, format!("{own} and {other} dB at first"))?;
    let least = [(150.0..200.0, 2.0), (260.0..366.0, 4.0)];
    least.into_iter().try_for_each(|(days, least)| {
        let (own, other) = powers(readings, days);
        holds(own < other - least, format!("{own} and {other} dB"))
    })
}

fn alike(reading: &Reading) -> bool {
    let old = old(reading);
    reading.record.psi == old.record.psi
        && reading.error_power == old.error_power
        && reading.wrong == old.wrong
        && reading.pressure_received == old.received
}

/// Both are the same until the exponent first falls.
fn the_same_until_a_fall(readings: &[Reading]) -> Wrong {
    let mut pairs = readings.windows(2);
    let falls = pairs.position(|two| two[1].record.psi < two[0].record.psi);
    let first = falls.expect("the exponent falls") + 1;
    assert!(readings[first].day > 90.0);
    let (before, after) = readings.split_at(first);
    let unlike = before.iter().position(|x| !alike(x));
    holds(unlike.is_none(), format!("unlike in reading {unlike:?}"))?;
    let unlike = after.iter().filter(|x| x.error_power != old(x).error_power);
    let count = unlike.count();
    holds(count * 10 > after.len() * 9, format!("unlike in {count}"))
}

#[test]
fn the_exponent_comes_down_after_a_faint_spell_and_in_a_loud_one() {
    assert_eq!(exponents_come_down(spells()), Ok(()));
}

#[test]
fn a_lower_exponent_makes_the_error_smaller() {
    assert_eq!(errors_are_smaller(spells()), Ok(()));
}

#[test]
fn both_are_the_same_until_the_exponent_first_falls() {
    assert_eq!(the_same_until_a_fall(spells()), Ok(()));
}

#[test]
fn the_amended_rule_in_the_place_of_the_old_one_is_found() {
    let readings = beside(&Library);
    assert!(readings.iter().all(alike));
    for check in [
        exponents_come_down,
        errors_are_smaller,
        the_same_until_a_fall,
    ] {
        check(&readings).expect_err("found");
    }
}

/// The old rule with a step of its own.
struct OtherStep;

impl Operations for OtherStep {
    fn set_up(&self, settings: Settings) -> Answer {
        RisesOnly.set_up(settings.with_m(settings.m - 4096))
    }

    fn run(&self, s: &mut Equaliser, block: Block, out: Outputs) -> u8 {
        RisesOnly.run(s, block, out)
    }

    fn trial(&self, s: &mut Equaliser, block: Block, out: Outputs) -> Answer {
        RisesOnly.trial(s, block, out)
    }

    fn save(&self, s: &mut Equaliser, buffer: &mut [u8]) -> Saved {
        RisesOnly.save(s, buffer)
    }

    fn load(&self, bytes: &[u8]) -> Answer {
        RisesOnly.load(bytes)
    }
}

#[test]
fn an_old_rule_with_another_step_is_found() {
    let readings = beside(&OtherStep);
    for check in [errors_are_smaller, the_same_until_a_fall] {
        check(&readings).expect_err("found");
    }
}

fn csv(given: &Assumptions) -> String {
    let mut bytes = Vec::new();
    table::csv(given, &history(given), &mut bytes).expect("written");
    String::from_utf8(bytes).expect("text")
}

/// Whether every line has the columns of the station alone, then five more.
fn same_columns_first(with: &str, alone: &str) -> bool {
    let same = |(line, alone): (&str, &str)| {
        let more = line.strip_prefix(alone);
        more.is_some_and(|more| more.starts_with(',') && more.matches(',').count() == 5)
    };
    with.lines().count() == alone.lines().count() && with.lines().zip(alone.lines()).all(same)
}

/// The table with one of the station's own columns bent in its last row, each
/// in turn, then without that row.
fn bent_tables(table: &str) -> Vec<String> {
    let (start, last) = table.trim_end().rsplit_once('\n').expect("rows");
    let columns = last.split(',').count();
    let bent = (0..columns - 5).map(|place| {
        let mut fields: Vec<String> = last.split(',').map(String::from).collect();
        fields[place].push('1');
        format!("{start}\n{}\n", fields.join(","))
    });
    bent.chain([format!("{start}\n")]).collect()
}

#[test]
fn the_station_is_the_same_with_and_without_the_comparison() {
    let disturbed = [
        ("power_loss_days", "5"),
        ("damaged_images", "0.5"),
        ("check_sum", "0"),
        ("joint_days", "365"),
        ("joint_first_day", "0"),
    ];
    let mut changes = [&disturbed[..], &SPELLS].concat();
    let with = csv(&given(&changes));
    changes.push(("old_rule", "0"));
    let without = csv(&given(&changes));
    assert!(same_columns_first(&with, &without));
    assert!(!same_columns_first(&without, &without));
    for bent in bent_tables(&with) {
        assert!(!same_columns_first(&bent, &without));
    }
}

#[test]
fn what_the_old_rule_left_behind_goes_with_a_new_set_up() {
    let changes = [
        &[("power_loss_days", "60"), ("damaged_images", "0.5")],
        &SPELLS[..],
    ];
    let readings = history(&given(&changes.concat()));
    let anew = readings.iter().filter(|x| {
        let again = x.power_lost == Some(Return::CheckSumWrong);
        assert!(!again || x.error_power == old(x).error_power);
        again
    });
    assert!(anew.count() > 0);
}

#[test]
fn without_a_check_sum_a_bent_exponent_cost_years_by_the_old_rule() {
    let readings = history(&given(&[
        ("seed", "9"),
        ("check_sum", "0"),
        ("faint_days", "0"),
    ]));
    let lost = readings.iter().filter(|x| x.pressure_received.is_none());
    let lost_old = readings.iter().filter(|x| old(x).received.is_none());
    assert_eq!((lost.count(), lost_old.count()), (61, 2178));
}

#[test]
fn a_summary_tells_both_rules_around_each_spell() {
    let readings = spells();
    let text = comparison::lines(&given(&SPELLS), readings);
    let starts = [
        "40 days before the faint spell: ψ 3 at the end, error power −",
        "70 days after the faint spell: ψ 4 at the end, error power −",
        "70 days before the loud spell: ψ 4 at the end, error power −",
        "120 days after the loud spell: ψ 3 at the end, error power −",
        "ψ is greater by the old rule in ",
        "by the old rule: ",
    ];
    let lines: Vec<&str> = text.lines().collect();
    assert_eq!(lines.len(), starts.len(), "{text}");
    for (line, start) in lines.iter().zip(starts) {
        assert!(line.starts_with(start), "{line}");
    }
    assert!(lines[0].contains("; by the old rule ψ 3, −"));
    assert!(lines[1].contains("; by the old rule ψ 5, −"));
    let mut alone = readings.to_vec();
    alone.iter_mut().for_each(|x| x.old = None);
    assert_eq!(comparison::lines(&given(&SPELLS), &alone), "");
}

fn all_years(given: &Assumptions, readings: &[Reading]) -> Page {
    page(&View::all(given, readings), "all".to_string())
}

#[test]
fn a_page_draws_the_old_rule_only_where_it_is_run() {
    let titles = ["mean of a week, by the old rule", "ψ by the old rule"];
    let head = "Broken orange line, seen where it differs: the same station by the old rule";
    let text = script(&all_years(&given(&SPELLS), spells()));
    for words in titles.iter().chain([&head]) {
        assert_eq!(text.matches(words).count(), 1, "{words}");
    }
    let alone = given(&[&SPELLS[..], &[("old_rule", "0")]].concat());
    let text = script(&all_years(&alone, &history(&alone)));
    assert!(titles.iter().all(|words| !text.contains(words)) && !text.contains(head));
}

/// A call with lists of 8, of which the samples may be other, on a fresh
/// record of N = 8; the number, and whether anything was touched.
fn call(by: &dyn Operations, samples: usize) -> (u8, bool) {
    let fresh = tigbulode::set_up(2, 2, 8, 1, 0, 1 << 20).state;
    let mut record = fresh;
    let (mut y, mut z) = ([7; 8], [7; 8]);
    let (mut xi, mut theta, mut decision) = ([7; 8], [7; 8], [7; 8]);
    let block = Block {
        samples: &vec![20000; samples],
        gains: &[0; 8],
        entries: &[1; 8],
    };
    let out = Outputs {
        y: &mut y,
        xi: &mut xi,
        decision: &mut decision,
        z: &mut z,
        theta: &mut theta,
    };
    let number = by.run(&mut record, block, out);
    let lists = y == [7; 8] && z == [7; 8] && xi == [7; 8] && theta == [7; 8];
    (number, !(record == fresh && lists && decision == [7; 8]))
}

#[test]
fn the_old_rule_refuses_as_the_library_does_and_touches_nothing() {
    for samples in [7, 8, 9] {
        let wanted = if samples == 8 { (0, true) } else { (3, false) };
        assert_eq!(call(&Library, samples), wanted);
        assert_eq!(call(&RisesOnly, samples), wanted);
    }
}
