//! Whole histories, each block of them held to the second implementation.

mod common;
#[path = "../../plots/tests/shared/second.rs"]
mod second;

use common::{given, history, whole};
use plots::block::weights;
use plots::power::ErrorPower;
use tigbulode::Block;
use years::assumptions::Assumptions;
use years::history::{run, Reading};
use years::station::{Ran, Return};
use years::table;

/// Whether a block is what the second implementation makes of what it was lent.
fn by_second(block: &Ran) -> bool {
    let mut record = block.before;
    let gains = vec![block.gain; block.samples.len()];
    let lent = Block { samples: &block.samples, gains: &gains, entries: &block.entries };
    let heard = second::run(&mut record, lent);
    heard.is_some() && heard == block.heard && record == block.after
}

/// Whether each block of a reading is, one follows the other, and its error power is that of its payload's blocks.
fn is_sound(given: &Assumptions, reading: &Reading, blocks: &[Ran]) -> bool {
    let follow = blocks.windows(2).all(|two| two[0].after == two[1].before);
    let last = blocks.last().map(|block| block.after) == Some(reading.outcome.record);
    let payload = blocks[given.preamble_blocks..].iter().filter_map(|block| block.heard.as_ref());
    let joined = ErrorPower::joined(payload.map(|heard| heard.error_power));
    follow && last && reading.outcome.error_power == joined && blocks.iter().all(by_second)
}

/// A damaged image whose exponent is far too great, loaded since there is no check sum: after it errors are beyond 256.
const DAMAGED: [&str; 7] = [
    "seed=14",
    "years=1",
    "readings_a_day=4",
    "power_loss_days=2",
    "save_every_days=1",
    "damaged_images=1",
    "check_sum=0",
];

#[test]
fn every_block_is_as_the_second_implementation_runs_it() {
    let cases: [(&[&str], u32); 4] = [
        (&[], 9),
        (&DAMAGED, 1),
        (&["years=1", "payload_blocks=2", "loud_first_day=200", "faint_first_day=40"], 1),
        (&["years=1", "r=3", "M=100000", "p=16", "q=16", "joint_first_day=0"], 3),
    ];
    let mut falls = 0;
    for (changes, every) in cases {
        let given = given(changes);
        let mut before = None;
        let watch = |reading: &Reading, blocks: &[Ran]| {
            let follows = before.is_none_or(|record| record == blocks[0].before);
            assert!(follows || reading.power_lost.is_some(), "reading {} of {changes:?}", reading.number);
            before = Some(reading.outcome.record);
            if reading.number.is_multiple_of(every) {
                assert!(is_sound(&given, reading, blocks), "reading {} of {changes:?}", reading.number);
                falls += blocks.iter().filter(|block| block.after.psi < block.before.psi).count();
            }
        };
        run(&given, watch).expect("every block is read");
    }
    assert!(falls >= 3, "ψ falls in {falls} of these blocks");
}

#[test]
fn a_block_that_is_bent_is_found() {
    let given = given(&["years=1"]);
    let faults: [fn(&mut Ran); 7] = [
        |block| block.samples[9] ^= 1 << 9,
        |block| block.gain += 1,
        |block| block.entries[9] = -3,
        |block| block.before.weights[2] += 1,
        |block| block.after.psi += 1,
        |block| block.heard.iter_mut().for_each(|heard| heard.decisions[9] += 2),
        |block| block.heard.iter_mut().for_each(|heard| heard.readings[9].error += 1.0 / 4096.0),
    ];
    let watch = |reading: &Reading, blocks: &[Ran]| {
        for (place, fault) in faults.iter().enumerate().filter(|_| reading.number == 200) {
            let mut bent = blocks.to_vec();
            fault(&mut bent[1]);
            assert!(is_sound(&given, reading, blocks) && !is_sound(&given, reading, &bent), "fault {place}");
        }
    };
    run(&given, watch).expect("every block is read");
}

const STEADY: [&str; 12] = [
    "years=3",
    "cable_new=0.025 0.280 0.055 -0.030 0.015",
    "cable_old=0.025 0.280 0.055 -0.030 0.015",
    "season_loss=0",
    "day_loss=0",
    "season_dispersion=0",
    "noise_new=0",
    "noise_old=0",
    "loud_days=0",
    "faint_days=0",
    "joint_days=0",
    "power_loss_days=0",
];

#[test]
fn a_steady_cable_without_noise_has_no_wrong_decision_after_training() {
    for r in ["r=0", "r=1"] {
        for reading in history(&given(&[&STEADY[..], &[r]].concat())) {
            assert_eq!(reading.outcome.wrong, 0, "reading {} with {r}", reading.number);
            assert_eq!(reading.outcome.received, Some(reading.sent));
            assert_eq!(reading.refused, [0; 10]);
        }
    }
    let untrained = given(&[&STEADY[..], &["commissioning_blocks=0", "preamble_blocks=0"]].concat());
    let first = history(&untrained).swap_remove(0);
    assert!(first.outcome.wrong > 10 && first.is_lost());
}

/// The values of a column.
fn column<'a>(table: &'a str, name: &str) -> Vec<&'a str> {
    let place = table.lines().next().and_then(|header| header.split(',').position(|column| column == name));
    let place = place.unwrap_or_else(|| panic!("no column {name}"));
    table.lines().skip(1).filter_map(|line| line.split(',').nth(place)).collect()
}

#[test]
fn a_seed_gives_the_same_table_whose_numbers_read_back_as_the_same() {
    let given = given(&["years=1", "p=3", "q=2", "delay=3", "readings_a_day=1", "faint_first_day=9"]);
    let readings = history(&given);
    let text = table::csv(&given, &readings);
    let columns = |line: &str| line.split(',').count();
    assert!(text.lines().all(|line| columns(line) == 24 + 9 + 5) && text.lines().count() == 366);
    let read =
        |name: &str| column(&text, name).iter().map(|word| word.parse().expect("a number")).collect::<Vec<f64>>();
    let of = |of: &dyn Fn(&Reading) -> f64| readings.iter().map(of).collect::<Vec<f64>>();
    let power = |x: &Reading| x.outcome.error_power.expect("a power").value();
    assert_eq!(read("error power (squared symbol units)"), of(&power));
    assert_eq!(read("feed forward 1"), of(&|x| weights(&x.outcome.record)[1]));
    assert_eq!(read("feedback 2"), of(&|x| weights(&x.outcome.record)[4]));
    assert_eq!(read("largest feedback weight"), of(&table::largest_back));
    assert_eq!(text, table::csv(&given, &history(&given)));
    let other = Assumptions { seed: given.seed + 1, ..given };
    assert_ne!(text, table::csv(&other, &history(&other)));
}

#[test]
fn a_summary_has_no_line_for_what_was_not_there() {
    let starts = |changes: &[&str], wanted: &str| {
        let given = given(changes);
        table::summary(&given, &whole(&given)).lines().any(|line| line.starts_with(wanted))
    };
    let within = ["years=1", "loud_first_day=100", "joint_first_day=200", "faint_first_day=20", "swap_day=300"];
    let spells = ["loud spell: ", "faint spell: ", "noisy joint: ", "joint swapped on day "];
    let always = ["all: ", "quiet: ", "other than the default: years = 1, ", "calls turned down: none"];
    for name in [&always[..], &spells].concat() {
        assert!(starts(&within, name), "{name}");
    }
    assert!(spells.iter().all(|name| !starts(&within[..1], name)));
    let loud = ["years=1", "loud_first_day=0", "loud_days=400", "check_sum=0", "power_loss_days=5", "damaged_images=1"];
    assert!(starts(&loud, "loud spell: ") && !starts(&loud, "quiet: "));
    assert!(starts(&loud, "calls turned down: 9 with 1, a size is outside its limits; 4 with 2, "));
}

#[test]
fn a_summary_lists_wrong_pressures() {
    let given = given(&["years=1"]);
    let mut history = whole(&given);
    assert!(!table::summary(&given, &history).contains("wrong pressure past"));
    history.readings[1].outcome.received = Some(200);
    let told = format!("day 0.7500, true {:.4} bar, received 1.0000 bar\n", history.readings[1].pressure);
    assert!(table::summary(&given, &history).contains(&format!("wrong pressure past the check: {told}")));
}

fn returns(readings: &[Reading], wanted: Return) -> usize {
    readings.iter().filter(|x| x.power_lost == Some(wanted)).count()
}

#[test]
fn a_damaged_image_never_stops_the_station_and_a_check_sum_finds_it() {
    let damaged = ["years=4", "power_loss_days=3", "damaged_images=1"];
    let readings = history(&given(&[&damaged[..], &["check_sum=0"]].concat()));
    let last = readings.last().expect("readings");
    assert!(last.refused[9] > 0 && last.refused[3..=7] == [0; 5]);
    assert!(returns(&readings, Return::LoadedDamaged) > 0 && returns(&readings, Return::CheckSumWrong) == 0);
    let sizes = given(&damaged).settings;
    assert!(readings.iter().all(|reading| reading.outcome.record.settings() == sizes));
    let readings = history(&given(&damaged));
    assert!(returns(&readings, Return::CheckSumWrong) > 0 && returns(&readings, Return::LoadedDamaged) == 0);
    assert_eq!(readings.last().expect("readings").refused, [0; 10]);
}

#[test]
fn a_damaged_image_without_a_check_sum_brings_floors() {
    let given = given(&DAMAGED);
    let readings = history(&given);
    let floors = readings.iter().map(|x| x.outcome.error_power.is_some_and(ErrorPower::is_floor));
    let text = table::csv(&given, &readings);
    let told = column(&text, "mean or floor").into_iter().map(|word| word == "floor");
    assert_eq!(told.collect::<Vec<_>>(), floors.clone().collect::<Vec<_>>());
    assert_eq!(floors.filter(|floor| *floor).count(), 7);
}
