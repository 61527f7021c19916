//! The page: what its script must have.

mod common;
#[path = "../../plots/tests/shared/mod.rs"]
mod shared;

use common::{given, loud, runs, silent, with_line, EXAMPLE, WORKED};
use plots::curve::Curve;
use plots::page::{Page, Panel};
use plots::power::{FLOOR_TITLE, ZERO_NOTE};
use plots::script::script;
use shared::{numbers, panel};
use step_sizes::page::page;

fn page_of(text: &str) -> Page {
    let given = given(text);
    page(&given, &runs(&given), "cable.txt")
}

/// The first two numbers of each row.
fn places(curve: &Curve) -> Vec<(f64, f64)> {
    numbers(curve).iter().map(|row| (row[0], row[1])).collect()
}

/// The rows of the curve with a title that starts so.
fn rows(panel: &Panel, title: &str) -> Vec<(f64, f64)> {
    let of = |curve: &&Curve| curve.title.as_deref().is_some_and(|t| t.starts_with(title));
    places(panel.curves.iter().find(of).expect(title))
}

#[test]
fn the_example_has_its_five_panels_and_words() {
    let page = page_of(EXAMPLE);
    let names: Vec<&str> = page.panels.iter().map(|panel| panel.name.as_str()).collect();
    let wanted = [
        "error power",
        "wrong decisions after training, so far",
        "ψ, the weights' exponent",
        "feed forward weights at the end",
        "feedback weights at the end",
    ];
    assert_eq!(names, wanted);
    let text = script(&page);
    for words in [
        "'Step sizes on a cable: cable.txt'",
        "'wrong decisions after training: 58.8 % with share 1/16, 0 % with share 1/4, 1.5 % with share 1'",
        "'the greatest M admitted with these sizes is 2097152; shares are of it'",
        "'error power, dB'",
        "'each point the mean of 2 blocks in a row'",
        "'dB below: the mean of the last 30 blocks'",
        "'training ends, sample 3200'",
        "'share 1/16: M = 131072, −5.0 dB'",
        "'share 1: 94 of 6400 (1.5 %)'",
        "'share 1/4: 3 at the end'",
        "'samples received, one for each symbol'",
        "'blocks of 32 samples'",
        "'250' 8e3, '300' 9.6e3)",
        "'−10' -1e1, '−5' -5e0",
        "'W·2^(ψ−15); 1 is the newest symbol''s'",
    ] {
        assert!(text.contains(words), "{words}");
    }
    assert_eq!(text.matches("\n3200.000000 ").count(), 3 * 3, "training ends, and wrong decisions begin");
    for panel in &page.panels {
        let mine = panel.curves.iter().filter(|curve| curve.title.as_deref().is_some_and(|t| t.starts_with("share")));
        let mut looks: Vec<&str> = mine.map(|curve| curve.style.as_str()).collect();
        looks.sort();
        looks.dedup();
        assert_eq!(looks.len(), 3, "{}", panel.name);
    }
}

#[test]
fn error_powers_are_means_of_blocks_in_a_row() {
    let given = given(EXAMPLE);
    let runs = runs(&given);
    let page = page(&given, &runs, "a");
    let rows = rows(panel(&page, "error power"), "share 1/4");
    let powers: Vec<f64> = runs[1].blocks.iter().map(|block| block.heard.error_power.value()).collect();
    for (place, two) in powers.chunks(2).enumerate() {
        let (at, value) = rows[place + 1];
        assert_eq!(at, place as f64 * 64.0 + 32.0);
        assert!((value - 10.0 * ((two[0] + two[1]) / 2.0).log10()).abs() < 1e-5);
    }
    assert_eq!((rows.len(), rows[0].0, rows[151].0), (150 + 2, 0.0, 9600.0));
}

#[test]
fn floors_and_powers_of_0_are_marked_where_there_are_some() {
    let page = page_of(&loud());
    let power = panel(&page, "error power");
    let marks = rows(power, FLOOR_TITLE);
    assert_eq!(marks.len(), 1);
    assert!(rows(power, "share 1: M = 699050, at least 23.0 dB (a floor)").contains(&marks[0]));
    let page = page_of(&silent());
    let power = panel(&page, "error power");
    assert!(power.notes.iter().any(|note| note == ZERO_NOTE));
    let drawn = rows(power, "share 1: M = 67108864, below −48.1 dB");
    assert_eq!(drawn.last(), Some(&(640.0, -100.0)));
    let text = script(&page_of(EXAMPLE));
    assert!(!text.contains(FLOOR_TITLE) && !text.contains(ZERO_NOTE));
}

/// The height at which a panel has the word 0.
fn zero(panel: &Panel) -> f64 {
    panel.up.labels.iter().find(|(_, word)| word == "0").expect("a 0").0
}

#[test]
fn the_curve_of_wrong_decisions_goes_from_0_to_their_count() {
    let page = page_of(EXAMPLE);
    let panel = panel(&page, "wrong decisions");
    for (title, count) in [("share 1/16", 3763.0), ("share 1:", 94.0)] {
        let rows = rows(panel, title);
        assert_eq!(rows.last(), Some(&(9600.0, count)));
        assert!(rows[0].0 == 3200.0 && rows[0].1 < 1.0);
        assert!(rows.windows(2).all(|two| two[0].0 <= two[1].0 && two[0].1 <= two[1].1));
    }
    let none = rows(panel, "share 1/4");
    assert!(none.iter().all(|(at, height)| [3200.0, 9600.0].contains(at) && (height - zero(panel)).abs() < 1e-6));
}

/// Those of six step sizes without a wrong decision, from the first down.
#[test]
fn each_step_size_has_a_line_of_its_own_at_0_and_a_legend_its_room() {
    let six = |shares: &str| page_of(&EXAMPLE.replace("1/16 1/4 1", shares).replace(" 0 0 0 0.04", ""));
    let page = six("1/6 1/5 1/4 1/3 2/5 1/2");
    let wrong = panel(&page, "wrong decisions");
    let curves = wrong.curves.iter().filter(|curve| curve.title.is_some()).map(places);
    let heights: Vec<f64> = curves.inspect(|rows| assert_eq!(rows[0].1, rows[1].1)).map(|rows| rows[0].1).collect();
    assert_eq!(heights.len(), 6);
    assert!(heights.windows(2).all(|two| two[0] > 1.1 * two[1]));
    assert!(heights[2] > zero(wrong) && zero(wrong) > heights[3]);
    assert!(heights[0] < 0.9 && wrong.up.holds(heights[5]));
    assert!(page.lines[0].ends_with(" and 4 more"), "{}", page.lines[0]);
    assert!(panel(&page, "ψ").height() > panel(&six("1/4"), "ψ").height());
}

#[test]
fn wrong_decisions_within_a_block_of_training_begin_with_it() {
    let text = EXAMPLE.replace("training = 3200", "training = 10");
    let page = page_of(&text.replace("random_symbols = 9600", "random_symbols = 32"));
    let rows = rows(panel(&page, "wrong decisions"), "share 1:");
    assert_eq!(rows.iter().map(|(at, _)| *at).collect::<Vec<_>>(), [10.0, 32.0, 32.0, 32.0]);
    assert!(rows[0].1 < 1.0 && rows[1].1 < 1.0 && rows[2].1 == 17.0);
}

#[test]
fn what_a_run_has_not_is_not_on_the_page() {
    let example = given(EXAMPLE);
    let mut stopped = runs(&example);
    stopped[1].blocks.truncate(100);
    stopped[1].stopped = Some(6);
    let text = script(&page(&example, &stopped, "a"));
    assert!(text.contains("title 'share 1/4: 3 at the end'") && !text.contains("title 'share 1/4: 0 of 0"));
    let trained = page_of(&with_line(WORKED, 8, "training = 2"));
    assert_eq!(trained.lines[0], "no decision after training");
    assert!(trained.panels.iter().all(|panel| !panel.name.starts_with("wrong")));
    let short = page_of(&with_line(WORKED, 7, "symbols = 1"));
    assert_eq!(rows(panel(&short, "error power"), "M = 67108864"), [(0.0, 0.0), (0.5, 0.0), (1.0, 0.0)]);
    assert!(!script(&short).contains("training ends"));
}

#[test]
fn weights_and_exponents_are_those_of_the_last_block() {
    let given = given(EXAMPLE);
    let runs = runs(&given);
    let page = page(&given, &runs, "a");
    let [forward, back] = ["feed forward", "feedback"].map(|name| rows(panel(&page, name), "share 1/4"));
    let last = &runs[1].blocks[299];
    let drawn = forward.iter().chain(&back).map(|(_, weight)| *weight);
    assert!(drawn.zip(&last.weights).all(|(drawn, weight)| (drawn - weight).abs() < 1e-6));
    assert_eq!((forward.len(), back.iter().map(|(at, _)| *at).collect::<Vec<_>>()), (2, vec![1.0, 2.0, 3.0, 4.0]));
    let psi = rows(panel(&page, "ψ"), "share 1/4");
    assert_eq!((psi[0], psi.last()), ((0.0, 0.0), Some(&(9600.0, f64::from(last.psi)))));
}

/// The first row of a panel that is not within its axes.
fn outside(panel: &Panel) -> Option<(f64, f64)> {
    let (across, up) = (&panel.across, &panel.up);
    let within = |(at, height): &(f64, f64)| across.holds(*at) && up.low - 1e-6 <= *height && *height <= up.high + 1e-6;
    panel.curves.iter().flat_map(places).find(|place| !within(place))
}

#[test]
fn every_point_is_within_its_panel() {
    for text in [EXAMPLE, WORKED, &loud(), &silent()] {
        for mut panel in page_of(text).panels {
            assert_eq!(outside(&panel), None, "{}", panel.name);
            let beyond = panel.up.high + 0.1;
            panel.curves[0].rows.push_str(&format!("0.5 {beyond:.3}\n"));
            assert!(outside(&panel).is_some(), "{}", panel.name);
        }
    }
}
