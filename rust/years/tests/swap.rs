//! A joint swapped in the middle of a history.

mod common;
#[path = "../../plots/tests/shared/mod.rs"]
mod shared;

use common::{given, whole};
use plots::page::Page;
use plots::script::script;
use reference::swapped::unpaired;
use shared::{numbers, panel};
use years::assumptions::Assumptions;
use years::outcome::Outcome;
use years::station::{Ran, Station};
use years::swap::{partner, same, Course, SwapReading};
use years::swap_page::page;
use years::swap_words::{after, block_of, csv, lines, lost as lost_by, near_from, received_from, same_in, since};
use years::table;

/// A year without spells or losses of power, with a swap in it.
const CALM: [&str; 7] =
    ["years=1", "loud_days=0", "faint_days=0", "joint_days=0", "power_loss_days=0", "swap_day=100", "swap_readings=60"];

fn with(more: &[&str]) -> (Assumptions, Vec<SwapReading>) {
    let given = given(&[&CALM[..], more].concat());
    let swapped = whole(&given).swapped;
    (given, swapped)
}

fn told(given: &Assumptions, readings: &[SwapReading]) -> String {
    lines(given, readings).join("\n")
}

/// But for the records, what two courses came to.
fn alike(one: &Outcome, two: &Outcome) -> bool {
    one.error_power == two.error_power && one.wrong == two.wrong && one.received == two.received
}

#[test]
fn weights_and_samples_negated_make_no_difference() {
    let sizes: [&[&str]; 4] =
        [&[], &["r=3", "M=200000"], &["p=1", "q=1", "delay=1", "r=0"], &["p=16", "q=16", "M=1000000", "N=128"]];
    for more in sizes {
        let (_, readings) = with(more);
        assert_eq!(readings.len(), 70);
        for reading in &readings {
            assert!(reading.same && !reading.lowest, "{more:?}");
            let [one, two] = [Course::Unswapped, Course::Negated].map(|c| reading.of(c));
            let wanted = if reading.place < 0 { one.record } else { partner(&one.record) };
            assert!(alike(one, two) && two.record == wanted, "{more:?}");
        }
        assert!(since(&readings).iter().any(|x| !alike(x.of(Course::Unswapped), x.of(Course::Kept))));
    }
}

/// Blocks of a station, some with known symbols.
fn blocks() -> Vec<Ran> {
    let given = given(&CALM);
    let mut station = Station::new(&given);
    let levels: Vec<f64> = (0..256).map(|n| f64::from(n % 7 - 3) / 8.0).collect();
    let entries: Vec<i8> = (0..256).map(|n| [3, -1, 1, 0][n % 4]).collect();
    station.burst(&levels, &entries).expect("every block is read")
}

fn partners(mut blocks: Vec<Ran>) -> Vec<Ran> {
    blocks.iter_mut().for_each(|block| block.after = partner(&block.after));
    blocks
}

#[test]
fn a_pair_is_that_of_the_second_implementation_and_whatever_differs_is_found() {
    let one = blocks();
    let state = harness::sides::state_of;
    for block in &one {
        assert_eq!(unpaired(&state(&block.after), &state(&partner(&block.after))), None);
        assert!(unpaired(&state(&block.after), &state(&block.after)).is_some());
    }
    let faults: [fn(&mut Ran); 7] = [
        |block| block.heard.as_mut().expect("heard").decisions[9] *= -1,
        |block| block.heard.as_mut().expect("heard").readings[9].y += 1.0 / 1024.0,
        |block| block.heard.as_mut().expect("heard").readings[9].error += 1.0 / 1024.0,
        |block| block.after.weights[3] += 1,
        |block| block.after.past[2] += 1,
        |block| block.after.psi += 1,
        |block| block.heard = None,
    ];
    assert!(same(&one, &partners(blocks())) && !same(&one, &one));
    assert!(!same(&one, &partners(blocks())[1..]) && !same(&[], &one));
    for (place, fault) in faults.iter().enumerate() {
        for at in [0, one.len() - 1] {
            let mut two = partners(blocks());
            fault(&mut two[at]);
            assert!(!same(&one, &two), "fault {place} in block {at}");
        }
    }
}

#[test]
fn a_record_that_is_kept_needs_training() {
    let (given, readings) = with(&[]);
    let all = since(&readings);
    assert_eq!((all.len(), all[0].place), (60, 0));
    let back = |course| received_from(&readings, course);
    assert_eq!(back(Course::Negated), back(Course::Unswapped));
    assert!(back(Course::SetUpAnew) > Some(0) && back(Course::Kept) > back(Course::SetUpAnew));
    assert!(near_from(&readings, Course::Kept) > Some(0));
    assert_eq!((back(Course::Untrained), near_from(&readings, Course::Untrained)), (None, Some(0)));
    assert!(all.iter().all(|x| x.of(Course::Untrained).wrong == given.payload_symbols()));
    let [kept, other] = [Course::Kept, Course::Unswapped].map(|course| &all[59].of(course).record);
    let main = (0..6).max_by_key(|tap| other.weights[*tap].abs()).expect("a tap");
    assert!(kept.weights[main] < 0 && other.weights[main] > 0);
}

#[test]
fn copies_and_station_do_not_reach_each_other() {
    let losses = ["power_loss_days=1", "save_every_days=1", "damaged_images=0.5"];
    let table = |more: &[&str]| {
        let given = given(&[&CALM[..], &losses, more].concat());
        table::csv(&given, &whole(&given).readings)
    };
    assert_eq!(table(&[]), table(&["swap_readings=0"]));
    assert_ne!(table(&[]), table(&["power_loss_days=0"]));
    let (_, readings) = with(&losses);
    assert!(readings.iter().all(|reading| reading.same));
}

#[test]
fn the_lowest_sample_is_told_and_so_is_a_difference_before_it() {
    let default = given(&["seed=15"]);
    let readings = whole(&default).swapped;
    let lowest = readings.iter().position(|x| x.lowest).expect("a sample of −32768");
    assert!(readings[lowest].place > 0 && readings.iter().position(|x| !x.same) >= Some(lowest));
    let words = " the same at every sample, but a sample was −32768, which has no negative";
    let head = |given: &Assumptions, readings: &[SwapReading]| page(given, readings).expect("a page").lines.join("\n");
    assert!(told(&default, &readings).contains(words) && head(&default, &readings).contains(words));
    let (given, mut readings) = with(&[]);
    assert!(head(&given, &readings).contains(": 60 of 60 readings (100 %) the same at every sample, as is proved."));
    (readings[40].lowest, readings[40].same) = (true, false);
    assert!(same_in(&readings).starts_with("59 of 60 ") && same_in(&readings).ends_with("has no negative"));
    readings[30].same = false;
    let words = ": 58 of 60 readings (96.7 %) the same at every sample, AGAINST THE PROOF";
    assert!(told(&given, &readings).contains(words) && head(&given, &readings).contains(words));
}

#[test]
fn received_again_is_from_the_first_reading_on_that_nothing_is_lost_after() {
    let (_, all) = with(&["swap_readings=9"]);
    // where the joint is not swapped all are received but two
    let received = |good: &str| {
        let mut readings = all[10..].to_vec();
        for (at, reading) in readings.iter_mut().enumerate() {
            let sent = |right: bool| right.then_some(reading.sent);
            let both = [sent(at != 2 && at != 5), sent(good.as_bytes()[at] == b'o')];
            reading.outcomes[Course::Unswapped as usize].received = both[0];
            reading.outcomes[Course::Kept as usize].received = both[1];
        }
        received_from(&readings, Course::Kept)
    };
    assert_eq!((received("ooooooooo"), received("xxxxxxxxx")), (Some(0), None));
    assert_eq!(received("xoxooxooo"), Some(1));
    assert_eq!(received("oxxooxooo"), Some(3));
    assert_eq!(received("oooxoxooo"), Some(4));
    assert_eq!(received("ooooxoooo"), None, "four at the end");
    assert_eq!(received("oooooooox"), None);
}

#[test]
fn blocks_are_counted_to_the_payload() {
    let (given, _) = with(&["preamble_blocks=5", "payload_blocks=3"]);
    assert_eq!([-1, 0, 1, 2].map(|place| block_of(&given, place)), [-3, 5, 13, 21]);
    let told = |course, place| after(&given, course, place);
    assert_eq!(told(Course::Kept, Some(2)), "after 21 blocks, 15 of them known");
    assert_eq!(told(Course::Untrained, Some(2)), "after 21 blocks");
    assert_eq!([Some(0), None].map(|place| told(Course::Kept, place)), ["at once", "not in these blocks"]);
}

#[test]
fn there_is_no_page_without_a_swap() {
    for none in ["swap_readings=0", "swap_day=366"] {
        let (given, readings) = with(&[none]);
        assert!(page(&given, &readings).is_none() && csv(&given, &readings).is_none());
        assert!(lines(&given, &readings).is_empty());
    }
    let (given, readings) = with(&["swap_day=364"]);
    assert_eq!((since(&readings).len(), readings.len()), (2, 12));
    assert!(page(&given, &readings).is_some());
    let (_, readings) = with(&["swap_day=0"]);
    assert_eq!((readings[0].place, readings.len()), (0, 60));
}

/// The values of each line of a panel, those of a course in the order of all.
fn drawn(page: &Page, name: &str) -> Vec<Vec<f64>> {
    let lines = panel(page, name).curves.iter().filter(|curve| curve.style.starts_with("with lines lw"));
    lines.map(|curve| numbers(curve).iter().map(|row| row[1]).collect()).collect()
}

#[test]
fn the_page_draws_a_pair_alike_but_for_the_sign_of_the_feed_forward_weights() {
    let (given, mut readings) = with(&[]);
    // a loss ahead of the swap is not among those that are drawn
    readings[3].outcomes.iter_mut().for_each(|outcome| outcome.received = None);
    let page = page(&given, &readings).expect("a page");
    let last = |values: &[f64]| values[values.len() - 60..].to_vec();
    for name in ["error power", "wrong decisions", "main feed forward", "main feedback"] {
        let all = drawn(&page, name);
        assert_eq!(all.len(), 5, "{name}");
        let sign = if name == "main feed forward" { -1.0 } else { 1.0 };
        let wanted: Vec<f64> = last(&all[0]).iter().map(|value| sign * value).collect();
        assert_eq!(last(&all[1]), wanted, "{name}");
        assert!(all[2..].iter().all(|other| last(other) != last(&all[0])), "{name}");
    }
    assert!(page.lines.iter().all(|line| line.chars().count() <= 125), "{:?}", page.lines);
    let (lost, text) = (panel(&page, "readings lost"), script(&page));
    for (course, curve) in Course::ALL.into_iter().zip(&lost.curves) {
        let lost = lost_by(&readings, course);
        assert_eq!(curve.rows.lines().count(), lost);
        let name = course.name().replace("swapped, ", "");
        assert!(text.contains(course.name()) && text.contains(&format!("{lost} of 60: {name}")), "{name}");
    }
    assert_eq!(lost.notes.len(), 2);
}

#[test]
fn the_table_has_a_row_for_each_reading_and_course() {
    let (given, readings) = with(&["p=3", "q=2", "delay=3"]);
    let table = csv(&given, &readings).expect("a table");
    let columns = |line: &str| line.replace(", ", " ").split(',').count();
    assert_eq!(table.lines().count(), 1 + 70 * 5);
    assert!(table.lines().all(|line| columns(line) == 16), "{table}");
    let first = "190,95.2500,-10,-28,\"not swapped\",";
    assert!(table.lines().nth(1).expect("a row").starts_with(first), "{table}");
}

/// The rows of the page for crews, of the default history.
#[test]
fn the_page_for_crews_has_the_numbers_of_the_default_history() {
    let given = given(&[]);
    let readings = whole(&given).swapped;
    let crews = include_str!("../../../docs/SWAPPED.md");
    let names = [
        ("weights and past samples negated too (black)", Course::Negated),
        ("weights kept (red)", Course::Kept),
        ("set up anew (orange)", Course::SetUpAnew),
        ("weights kept, never trained again (grey)", Course::Untrained),
    ];
    for (name, course) in names {
        let lost = lost_by(&readings, course);
        let places = [received_from(&readings, course), near_from(&readings, course)];
        let [received, near] = places.map(|place| after(&given, course, place));
        let row = format!("| swapped, {name} | {lost} of 60 | {received} | {near} |");
        assert!(crews.contains(&row), "{row}");
    }
    let told = told(&given, &readings);
    let grey = "swapped, kept, never trained: 60 of 60 readings lost (100 %); \
         3840 of 3840 payload symbols wrong (100 %), error power −20.3 dB;";
    assert!(told.contains(grey), "{told}");
    assert!(crews.contains("3840 of 3840 payload symbols") && crews.contains("−20.3 dB"));
}
