//! The page: what its script must have.

mod common;

use common::{falling, given, loud, runs, silent, with_line, EXAMPLE, WORKED};
use lab::page::{page, Page, Panel};
use lab::script::script;

fn page_of(text: &str) -> Page {
    let given = given(text);
    page(&given, &runs(&given), "cable.txt")
}

fn panel<'a>(page: &'a Page, name: &str) -> &'a Panel {
    let mut panels = page.panels.iter();
    panels
        .find(|panel| panel.name.starts_with(name))
        .expect(name)
}

/// The rows of the curve with a title that starts so.
fn rows(panel: &Panel, title: &str) -> Vec<(f64, f64)> {
    let of =
        |curve: &&years::curve::Curve| curve.title.as_deref().is_some_and(|t| t.starts_with(title));
    let curve = panel.curves.iter().find(of).expect(title);
    let numbers = |line: &str| {
        let numbers: Vec<f64> = line
            .split(' ')
            .map(|n| n.parse().expect("a number"))
            .collect();
        (numbers[0], numbers[1])
    };
    curve.rows.lines().map(numbers).collect()
}

#[test]
fn the_example_has_its_five_panels_and_words() {
    let page = page_of(EXAMPLE);
    let names: Vec<&str> = page.panels.iter().map(|panel| panel.name).collect();
    let wanted = [
        "error power",
        "wrong decisions after training, so far",
        "ψ, the weights' exponent",
        "feed forward weights at the end",
        "feedback weights at the end",
    ];
    assert_eq!(names, wanted);
    let text = script(&page);
    for words in [
        "'Step sizes on a cable: cable.txt'",
        "'wrong decisions after training: 58.8 % with share 1/16, 0 % with share 1/4, 1.5 % with share 1'",
        "'the greatest M admitted with these sizes is 2097152; shares are of it'",
        "'error power, dB'",
        "'0 dB: one symbol unit (r.m.s.), half the'",
        "'each point the mean of 2 blocks in a row'",
        "'dB below: the mean of the last 30 blocks'",
        "'training ends, sample 3200'",
        "'share 1/16: M = 131072, −5.0 dB'",
        "'share 1: 94 of 6400 (1.5 %)'",
        "'share 1/4: 3 at the end'",
        "'samples received, one for each symbol'",
        "'blocks of 32 samples'",
        "'250' 8e3, '300' 9.6e3)",
        "'after each block; 0 is at the foot, where'",
        "'W·2^(ψ−15); 1 is the newest symbol''s'",
    ] {
        assert!(text.contains(words), "{words}");
    }
    assert_eq!(text.matches("\nplot ").count(), 5);
    assert_eq!(text.matches("set arrow from first 3200,").count(), 3);
    assert!(text.is_ascii() || text.contains("set encoding utf8"));
}

#[test]
fn every_step_size_has_a_curve_of_its_own_look_in_each_panel() {
    let page = page_of(EXAMPLE);
    for panel in &page.panels {
        let mine = panel.curves.iter().filter(|curve| {
            curve
                .title
                .as_deref()
                .is_some_and(|t| t.starts_with("share"))
        });
        let mut looks: Vec<&str> = mine.map(|curve| curve.style.as_str()).collect();
        assert_eq!(looks.len(), 3, "{}", panel.name);
        looks.sort();
        looks.dedup();
        assert_eq!(looks.len(), 3, "{}", panel.name);
    }
}

#[test]
fn error_powers_are_means_of_blocks_in_a_row() {
    let given = given(EXAMPLE);
    let runs = runs(&given);
    let page = page(&given, &runs, "a");
    let rows = rows(panel(&page, "error power"), "share 1/4");
    assert_eq!(rows.len(), 150 + 2);
    let powers: Vec<f64> = runs[1]
        .blocks
        .iter()
        .map(|block| block.error_power.value())
        .collect();
    for (place, two) in powers.chunks(2).enumerate() {
        let (at, value) = rows[place + 1];
        assert_eq!(at, place as f64 * 64.0 + 32.0);
        assert!((value - 10.0 * ((two[0] + two[1]) / 2.0).log10()).abs() < 1e-5);
    }
    assert_eq!((rows[0].0, rows[151].0), (0.0, 9600.0));
}

const MARKED: &str = "only a floor: an error of 256 or more";
const ZERO: &str = "power 0, all below 1/256, is at −100 dB";

#[test]
fn a_floor_is_marked_where_there_is_one() {
    let page = page_of(&loud());
    let panel = panel(&page, "error power");
    let marks = rows(panel, MARKED);
    assert_eq!(marks.len(), 1);
    assert!(rows(panel, "share 1: M = 699050, at least 23.0 dB (a floor)").contains(&marks[0]));
    assert!(script(&page).contains(MARKED) && !script(&page).contains(ZERO));
    for text in [EXAMPLE, &falling()] {
        let text = script(&page_of(text));
        assert!(!text.contains(MARKED) && !text.contains(ZERO));
    }
}

#[test]
fn a_power_of_0_is_at_the_foot_and_the_page_says_so() {
    let page = page_of(&silent());
    let panel = panel(&page, "error power");
    assert!(panel.notes.iter().any(|note| note == ZERO));
    let rows = rows(panel, "share 1: M = 67108864, below −48.1 dB");
    assert_eq!(rows.last(), Some(&(640.0, -100.0)));
    assert!(!script(&page).contains(MARKED));
}

/// The height at which a panel has the word 0.
fn zero(panel: &Panel) -> f64 {
    let mut labels = panel.up.labels.iter();
    labels.find(|(_, word)| word == "0").expect("a 0").0
}

#[test]
fn the_curve_of_wrong_decisions_goes_from_0_to_their_count() {
    let page = page_of(EXAMPLE);
    let panel = panel(&page, "wrong decisions");
    let counts = [("share 1/16", 3763.0), ("share 1:", 94.0)];
    for (title, count) in counts {
        let rows = rows(panel, title);
        assert_eq!(rows.last(), Some(&(9600.0, count)));
        assert!(rows[0].0 == 3200.0 && rows[0].1 < 1.0);
        assert!(rows.iter().all(|(_, wrong)| panel.up.holds(*wrong)));
        assert!(rows.windows(2).all(|two| two[0].0 <= two[1].0));
        assert!(rows.windows(2).all(|two| two[0].1 <= two[1].1));
    }
    let none = zero(panel);
    for (at, height) in rows(panel, "share 1/4") {
        assert!(at == 3200.0 || at == 9600.0);
        assert!((height - none).abs() < 1e-6);
    }
    assert!(!script(&page).contains("keyentry with lines lw 3"));
}

/// Those of six step sizes without a wrong decision, from the first down.
#[test]
fn each_step_size_has_a_line_of_its_own_at_0() {
    let text = EXAMPLE.replace("1/16 1/4 1", "1/6 1/5 1/4 1/3 2/5 1/2");
    let page = page_of(&text.replace(" 0 0 0 0.04", ""));
    let panel = panel(&page, "wrong decisions");
    let heights: Vec<f64> = panel
        .curves
        .iter()
        .map(|curve| rows(panel, curve.title.as_deref().expect("a title")))
        .inspect(|rows| assert_eq!((rows[0].0, rows[1].0, rows.len()), (3200.0, 9600.0, 2)))
        .inspect(|rows| assert_eq!(rows[0].1, rows[1].1))
        .map(|rows| rows[0].1)
        .collect();
    assert_eq!(heights.len(), 6);
    assert!(heights.windows(2).all(|two| two[0] > 1.1 * two[1]));
    assert!(heights[2] > zero(panel) && zero(panel) > heights[3]);
    assert!(heights[0] < 0.9 && panel.up.holds(heights[5]));
}

#[test]
fn wrong_decisions_within_a_block_of_training_begin_with_it() {
    let text = EXAMPLE.replace("training = 3200", "training = 10");
    let page = page_of(&text.replace("random_symbols = 9600", "random_symbols = 32"));
    let rows = rows(panel(&page, "wrong decisions"), "share 1:");
    let ends: Vec<f64> = rows.iter().map(|(at, _)| *at).collect();
    assert_eq!(ends, [10.0, 32.0, 32.0, 32.0]);
    assert!(rows[0].1 < 1.0 && rows[1].1 < 1.0 && rows[2].1 == 17.0);
}

#[test]
fn a_run_without_a_decision_has_its_line_of_the_legend_alone() {
    let given = given(EXAMPLE);
    let mut runs = runs(&given);
    runs[1].blocks.truncate(100);
    runs[1].stopped = Some(6);
    let page = page(&given, &runs, "a");
    assert!(rows(panel(&page, "wrong decisions"), "share 1/4").is_empty());
    assert!(script(&page)
        .contains("keyentry with lines lw 3 lc rgb '#4a86c5' title 'share 1/4: 0 of 0 (0 %)'"));
}

#[test]
fn weights_and_exponents_are_those_of_the_last_block() {
    let given = given(EXAMPLE);
    let runs = runs(&given);
    let page = page(&given, &runs, "a");
    let forward = rows(panel(&page, "feed forward"), "share 1/4");
    let back = rows(panel(&page, "feedback"), "share 1/4");
    let drawn: Vec<f64> = forward
        .iter()
        .chain(&back)
        .map(|(_, weight)| *weight)
        .collect();
    let last = &runs[1].blocks[299];
    for (drawn, weight) in drawn.iter().zip(&last.weights) {
        assert!((drawn - weight).abs() < 1e-6);
    }
    assert_eq!(drawn.len(), 6);
    let taps: Vec<f64> = back.iter().map(|(at, _)| *at).collect();
    assert_eq!(taps, [1.0, 2.0, 3.0, 4.0]);
    let psi = rows(panel(&page, "ψ"), "share 1/4");
    assert_eq!(psi.last(), Some(&(9600.0, f64::from(last.psi))));
}

/// The first row of a panel that is not within its axes.
fn outside(panel: &Panel) -> Option<&str> {
    let rows = panel.curves.iter().flat_map(|curve| curve.rows.lines());
    let mut rows = rows.filter(|line| !line.is_empty());
    rows.find(|line| {
        let numbers: Vec<f64> = line
            .split(' ')
            .map(|n| n.parse().expect("a number"))
            .collect();
        !panel.across.holds(numbers[0]) || !panel.up.holds(numbers[1])
    })
}

#[test]
fn every_point_is_within_its_panel() {
    for text in [EXAMPLE, WORKED, &falling(), &loud(), &silent()] {
        for mut panel in page_of(text).panels {
            assert_eq!(outside(&panel), None, "{}", panel.name);
            let beyond = panel.up.high + 0.1;
            panel.curves[0].rows.push_str(&format!("0.5 {beyond:.3}\n"));
            assert!(outside(&panel).is_some(), "{}", panel.name);
        }
    }
}

#[test]
fn a_run_of_one_block_is_drawn() {
    let text = with_line(WORKED, 7, "symbols = 1");
    let page = page_of(&text);
    let drawn = rows(panel(&page, "error power"), "M = 67108864");
    assert_eq!(drawn, [(0.0, 0.0), (0.5, 0.0), (1.0, 0.0)]);
    assert!(!script(&page).contains("training ends"));
}

#[test]
fn without_a_decision_there_is_no_panel_for_wrong_ones() {
    let page = page_of(&with_line(WORKED, 8, "training = 2"));
    assert_eq!(page.lines[0], "no decision after training");
    assert!(page
        .panels
        .iter()
        .all(|panel| !panel.name.starts_with("wrong")));
}

#[test]
fn six_step_sizes_make_room_for_their_legend() {
    let page = page_of(&EXAMPLE.replace("1/16 1/4 1", "1/16 1/8 1/4 1/3 1/2 1"));
    let heights: Vec<f64> = page.panels.iter().map(Panel::height).collect();
    let fewer: Vec<f64> = page_of(EXAMPLE).panels.iter().map(Panel::height).collect();
    assert!(heights.iter().zip(&fewer).all(|(six, three)| six >= three));
    assert!(heights[2] > fewer[2]);
    assert!(
        page.lines[0].starts_with("wrong after training, as in the legend: "),
        "{}",
        page.lines[0]
    );
}
