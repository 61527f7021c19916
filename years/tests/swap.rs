//! A joint swapped in the middle of a history.

mod common;

use common::{alone as given, whole};
use reference::swapped::partner;
use tigbulode::sides::{record_of, state_of, Library};
use years::assumptions::Assumptions;
use years::outcome::Outcome;
use years::page::{Page, Panel};
use years::script::script;
use years::station::{Decided, Station};
use years::swap::{same, Course, SwapReading};
use years::swap_page::page;
use years::swap_words::{
    after_known, block_of, csv, lines, lost as lost_by, near_from, pair, received_from, since, Pair,
};
use years::table;

/// A year without spells or losses of power, with a swap in it.
const CALM: [(&str, &str); 7] = [
    ("years", "1"),
    ("loud_days", "0"),
    ("faint_days", "0"),
    ("joint_days", "0"),
    ("power_loss_days", "0"),
    ("swap_day", "100"),
    ("swap_readings", "60"),
];

fn with(more: &[(&str, &str)]) -> (Assumptions, Vec<SwapReading>) {
    let given = given(&[more, &CALM].concat());
    let swapped = whole(&given).swapped;
    (given, swapped)
}

/// But for the records, what two courses came to.
fn alike(one: &Outcome, two: &Outcome) -> bool {
    one.error_power == two.error_power && one.wrong == two.wrong && one.received == two.received
}

#[test]
fn weights_and_samples_negated_make_no_difference() {
    let sizes: [&[(&str, &str)]; 4] = [
        &[],
        &[("r", "3"), ("M", "200000")],
        &[("p", "1"), ("q", "1"), ("delay", "1"), ("r", "0")],
        &[("p", "16"), ("q", "16"), ("M", "1000000"), ("N", "128")],
    ];
    for more in sizes {
        let (_, readings) = with(more);
        assert_eq!(readings.len(), 70);
        for reading in &readings {
            assert!(reading.same && !reading.lowest, "{more:?}");
            let [one, two] = [Course::Unswapped, Course::Negated].map(|c| reading.of(c));
            assert!(alike(one, two), "{more:?}");
            let negated = record_of(&partner(&state_of(&one.record)));
            let wanted = if reading.place < 0 {
                one.record
            } else {
                negated
            };
            assert_eq!(two.record, wanted, "{more:?}");
        }
        assert!(since(&readings)
            .iter()
            .any(|x| !alike(x.of(Course::Unswapped), x.of(Course::Kept))));
    }
}

/// Blocks of a station, some with known symbols.
fn blocks() -> Vec<Decided> {
    let given = given(&CALM);
    let mut station = Station::new(&given, &Library);
    let levels: Vec<f64> = (0..256).map(|n| f64::from(n % 7 - 3) / 8.0).collect();
    let entries: Vec<i8> = (0..256).map(|n| [3, -1, 1, 0][n % 4]).collect();
    station
        .burst(&levels, &entries)
        .expect("every block is read")
}

fn partners(mut blocks: Vec<Decided>) -> Vec<Decided> {
    for block in &mut blocks {
        block.record = record_of(&partner(&state_of(&block.record)));
    }
    blocks
}

#[test]
fn whatever_differs_is_found() {
    let faults: [fn(&mut Decided); 7] = [
        |block| block.decisions[9] = -block.decisions[9],
        |block| block.readings[9].y += 1.0 / 1024.0,
        |block| block.readings[9].error += 1.0 / 1024.0,
        |block| block.record.weights[3] += 1,
        |block| block.record.past[2] += 1,
        |block| block.record.psi += 1,
        |block| block.decisions.clear(),
    ];
    let one = blocks();
    assert!(same(&one, &partners(blocks())) && !same(&one, &one));
    assert!(!same(&one, &partners(blocks())[1..]) && !same(&[], &one));
    for (place, fault) in faults.iter().enumerate() {
        for at in [0, one.len() - 1] {
            let mut two = partners(blocks());
            fault(&mut two[at]);
            assert!(!same(&one, &two), "fault {place} in block {at}");
        }
    }
}

#[test]
fn a_record_that_is_kept_needs_training() {
    let (given, readings) = with(&[]);
    let all = since(&readings);
    assert_eq!((all.len(), all[0].place), (60, 0));
    let back = |course| received_from(&readings, course);
    assert_eq!(back(Course::Negated), back(Course::Unswapped));
    assert!(back(Course::SetUpAnew) > Some(0) && back(Course::Kept) > back(Course::SetUpAnew));
    assert!(near_from(&readings, Course::Kept) > Some(0));
    assert_eq!(back(Course::Untrained), None);
    assert_eq!(near_from(&readings, Course::Untrained), Some(0));
    let symbols = given.payload_symbols() as u32;
    let untrained = all.iter().map(|x| x.of(Course::Untrained).wrong);
    assert!(untrained.clone().all(|wrong| wrong == symbols));
    let kept = &all[59].of(Course::Kept).record;
    let other = &all[59].of(Course::Unswapped).record;
    let main = (0..6)
        .max_by_key(|tap| other.weights[*tap].abs())
        .expect("a tap");
    assert!(kept.weights[main] < 0 && other.weights[main] > 0);
}

#[test]
fn copies_and_station_do_not_reach_each_other() {
    let losses = [
        ("power_loss_days", "1"),
        ("save_every_days", "1"),
        ("damaged_images", "0.5"),
    ];
    let table = |more: &[(&str, &str)]| {
        let given = given(&[more, &losses, &CALM].concat());
        let mut bytes = Vec::new();
        table::csv(&given, &whole(&given).readings, &mut bytes).expect("written");
        bytes
    };
    assert_eq!(table(&[]), table(&[("swap_readings", "0")]));
    assert_ne!(table(&[]), table(&[("power_loss_days", "0")]));
    let (_, readings) = with(&losses);
    assert!(readings.iter().all(|reading| reading.same));
}

#[test]
fn the_lowest_sample_is_told() {
    let given = given(&[("seed", "15")]);
    let readings = whole(&given).swapped;
    let lowest = readings.iter().position(|x| x.lowest);
    let lowest = lowest.expect("a sample of −32768");
    let other = readings.iter().position(|x| !x.same);
    assert!(readings[lowest].place > 0 && other >= Some(lowest));
    assert_eq!(pair(&readings), Pair::UpToLowest);
    let told = lines(&given, &readings);
    let words = "; a sample was −32768, which has no negative; ";
    assert!(told.contains(words), "{told}");
    let page = page(&given, &readings).expect("a page");
    let words = " of 60, a sample was −32768, not covered by the proof.";
    let mut lines = page.lines.iter();
    assert!(lines.any(|line| line.ends_with(words)), "{:?}", page.lines);
}

#[test]
fn a_difference_before_the_lowest_sample_is_told() {
    let (given, mut readings) = with(&[]);
    let told = |readings: &[SwapReading]| page(&given, readings).expect("a page").lines.join("\n");
    assert!(told(&readings).contains(" in 60 readings of 60, which is proved."));
    readings[40].lowest = true;
    readings[40].same = false;
    assert_eq!(pair(&readings), Pair::UpToLowest);
    readings[30].same = false;
    assert_eq!(pair(&readings), Pair::AgainstTheProof);
    assert!(told(&readings).contains(" in 58 readings of 60, AGAINST THE PROOF."));
    let told = lines(&given, &readings);
    let words = ": 58 of 60 readings (96.7 %) the same at every sample";
    assert!(
        told.contains(words) && told.contains("; AGAINST THE PROOF; "),
        "{told}"
    );
}

/// Readings of which a course receives some, where the joint is not swapped all
/// but two.
fn received(good: &[bool]) -> Option<i32> {
    let (_, readings) = with(&[("swap_readings", "9")]);
    let mut readings = readings[10..].to_vec();
    for (at, reading) in readings.iter_mut().enumerate() {
        let sent = |right: bool| right.then_some(reading.sent);
        let [unswapped, kept] = [sent(at != 2 && at != 5), sent(good[at])];
        reading.outcomes[Course::Unswapped as usize].received = unswapped;
        reading.outcomes[Course::Kept as usize].received = kept;
    }
    received_from(&readings, Course::Kept)
}

#[test]
fn received_again_is_from_the_first_reading_on_that_nothing_is_lost_after() {
    let (o, x) = (true, false);
    assert_eq!(received(&[o; 9]), Some(0));
    assert_eq!(received(&[x; 9]), None);
    assert_eq!(received(&[x, o, x, o, o, x, o, o, o]), Some(1));
    assert_eq!(received(&[o, x, x, o, o, x, o, o, o]), Some(3));
    assert_eq!(received(&[o, o, o, x, o, x, o, o, o]), Some(4));
    assert_eq!(
        received(&[o, o, o, o, x, o, o, o, o]),
        None,
        "four at the end"
    );
    assert_eq!(received(&[o, o, o, o, o, o, o, o, x]), None);
}

#[test]
fn blocks_are_counted_to_the_payload() {
    let (given, _) = with(&[("preamble_blocks", "5"), ("payload_blocks", "3")]);
    let places = [-1, 0, 1, 2].map(|place| block_of(&given, place));
    assert_eq!(places, [-3, 5, 13, 21]);
    let told = |course, place| after_known(&given, course, place);
    assert_eq!(
        told(Course::Kept, Some(2)),
        "after 21 blocks, 15 of them known"
    );
    assert_eq!(told(Course::Untrained, Some(2)), "after 21 blocks");
    assert_eq!(told(Course::Kept, Some(0)), "at once");
    assert_eq!(told(Course::Kept, None), "not in these blocks");
}

#[test]
fn losses_ahead_of_the_swap_are_not_among_those_that_are_drawn() {
    let (given, mut readings) = with(&[]);
    readings[3]
        .outcomes
        .iter_mut()
        .for_each(|outcome| outcome.received = None);
    let page = page(&given, &readings).expect("a page");
    let lost = panel(&page, "readings lost");
    for (course, curve) in Course::ALL.into_iter().zip(&lost.curves) {
        assert_eq!(curve.rows.lines().count(), lost_by(&readings, course));
    }
    assert_eq!(lost.notes.len(), 2);
}

#[test]
fn there_is_no_page_without_a_swap() {
    for none in [("swap_readings", "0"), ("swap_day", "366")] {
        let (given, readings) = with(&[none]);
        assert!(page(&given, &readings).is_none() && csv(&given, &readings).is_none());
        assert_eq!(lines(&given, &readings), "");
    }
    let (given, readings) = with(&[("swap_day", "364")]);
    assert_eq!((since(&readings).len(), readings.len()), (2, 12));
    assert!(page(&given, &readings).is_some());
    let (_, readings) = with(&[("swap_day", "0")]);
    assert_eq!((readings[0].place, readings.len()), (0, 60));
}

fn panel<'a>(page: &'a Page, name: &str) -> &'a Panel {
    let mut panels = page.panels.iter();
    panels
        .find(|panel| panel.name.starts_with(name))
        .expect("a panel")
}

/// The values of each line of a panel, those of a course in the order of all.
fn drawn(page: &Page, name: &str) -> Vec<Vec<f64>> {
    let curves = panel(page, name).curves.iter();
    let lines = curves.filter(|curve| curve.style.starts_with("with lines lw"));
    let value = |row: &str| row.split(' ').nth(1).and_then(|word| word.parse().ok());
    lines
        .map(|curve| curve.rows.lines().filter_map(value).collect())
        .collect()
}

#[test]
fn the_page_draws_a_pair_alike_but_for_the_sign_of_the_feed_forward_weights() {
    let (given, readings) = with(&[]);
    let page = page(&given, &readings).expect("a page");
    let last = |values: &[f64]| values[values.len() - 60..].to_vec();
    for name in [
        "error power",
        "wrong decisions",
        "main feed forward",
        "main feedback",
    ] {
        let all = drawn(&page, name);
        assert_eq!(all.len(), 5, "{name}");
        let (unswapped, negated) = (last(&all[0]), last(&all[1]));
        let sign = if name == "main feed forward" {
            -1.0
        } else {
            1.0
        };
        let wanted: Vec<f64> = unswapped.iter().map(|value| sign * value).collect();
        assert_eq!(negated, wanted, "{name}");
        assert!(
            all[2..].iter().all(|other| last(other) != unswapped),
            "{name}"
        );
    }
    assert!(
        page.lines.iter().all(|line| line.chars().count() <= 122),
        "{:?}",
        page.lines
    );
    let text = script(&page);
    for course in Course::ALL {
        assert!(text.contains(course.name()), "{}", course.name());
    }
    let lost = |course: Course| {
        let name = course.name().replace("swapped, ", "");
        format!("{} of 60: {name}", lost_by(&readings, course))
    };
    assert!(Course::ALL
        .iter()
        .all(|course| text.contains(&lost(*course))));
}

#[test]
fn the_table_has_a_row_for_each_reading_and_course() {
    let (given, readings) = with(&[("p", "3"), ("q", "2"), ("delay", "3")]);
    let table = csv(&given, &readings).expect("a table");
    let columns = |line: &str| line.replace(", ", " ").split(',').count();
    assert_eq!(table.lines().count(), 1 + 70 * 5);
    assert!(table.lines().all(|line| columns(line) == 16), "{table}");
    let first = "190,95.2500,-10,-28,\"not swapped\",";
    assert!(
        table.lines().nth(1).expect("a row").starts_with(first),
        "{table}"
    );
}

/// The rows of the page for crews, of the default history.
#[test]
fn the_page_for_crews_has_the_numbers_of_the_default_history() {
    let given = given(&[]);
    let readings = whole(&given).swapped;
    let crews = include_str!("../../docs/SWAPPED.md");
    let names = [
        (
            "weights and past samples negated too (black)",
            Course::Negated,
        ),
        ("weights kept (red)", Course::Kept),
        ("set up anew (orange)", Course::SetUpAnew),
        (
            "weights kept, never trained again (grey)",
            Course::Untrained,
        ),
    ];
    for (name, course) in names {
        let lost = lost_by(&readings, course);
        let received = received_from(&readings, course);
        let near = near_from(&readings, course);
        let [received, near] = [received, near].map(|place| after_known(&given, course, place));
        let row = format!("| swapped, {name} | {lost} of 60 | {received} | {near} |");
        assert!(crews.contains(&row), "{row}");
    }
    let told = lines(&given, &readings);
    let grey = "swapped, kept, never trained: 60 of 60 readings lost (100 %); \
         3840 of 3840 payload symbols wrong (100 %), error power −20.3 dB;";
    assert!(told.contains(grey), "{told}");
    assert!(crews.contains("3840 of 3840 payload symbols") && crews.contains("−20.3 dB"));
}
