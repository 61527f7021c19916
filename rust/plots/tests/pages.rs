//! Axes, words, curves and the script of a page.

mod shared;

use plots::axis::Axis;
use plots::block::power_of_two;
use plots::curve::{line, steps, Curve, Look, Point, BLACK};
use plots::page::{Page, Panel, Shade};
use plots::random::{Purpose, Random};
use plots::script::script;
use plots::words;
use shared::numbers;

fn texts(axis: &Axis) -> Vec<&str> {
    axis.labels.iter().map(|(_, text)| text.as_str()).collect()
}

#[test]
fn an_axis_holds_what_it_is_made_for_and_has_labels_enough() {
    let mut random = Random::new(1, Purpose::Filler);
    for _ in 0..20_000 {
        let size = power_of_two(random.below(40) as i32 - 20);
        let least = random.either_way() * size;
        let greatest = least + random.share() * size * power_of_two(-(random.below(10) as i32));
        let axis = Axis::around((least, greatest), 5, 1e-7);
        let mut labels = texts(&axis);
        labels.dedup();
        assert!(axis.holds(least) && axis.holds(greatest), "{axis:?}");
        assert!((2..=6).contains(&labels.len()) && labels.len() == axis.labels.len(), "{axis:?}");
    }
}

#[test]
fn axes_of_ordinary_things_have_round_numbers_and_a_real_minus() {
    let is = |axis: Axis, wanted: &str| assert_eq!(texts(&axis).join(" "), wanted);
    is(Axis::around((0.0, 6.7), 5, 0.01), "0 2 4 6 8");
    is(Axis::around((16.0, 16.0), 4, 1.0), "15 16 17");
    is(Axis::around((-20.0, 0.0), 6, 5.0), "−25 −20 −15 −10 −5 0");
    is(Axis::counts(0.0, 4), "0 1");
    is(Axis::counts(15.0, 5), "0 5 10 15");
    is(Axis::between(-0.005, 0.005, 4, 0.0025), "−0.005 0.000 0.005");
    is(Axis::shares(896), "100 10 1 0.1");
    is(Axis::shares(1), "100");
    is(Axis::shares(2_000_000), "100 1 0.01 0.0001");
}

#[test]
fn numbers_in_words() {
    assert_eq!((words::count(1, "year"), words::count(20, "year")), ("1 year".into(), "20 years".into()));
    let shares = [(0, "0 %"), (1, "0.0068 %"), (68, "0.47 %"), (14609, "> 99.9 %"), (14610, "100 %")];
    for (part, wanted) in shares {
        assert_eq!(words::percent(part, 14610), wanted);
    }
    assert_eq!(words::share(68, 14610, "reading", "lost"), "68 of 14610 readings lost (0.47 %)");
    assert_eq!(
        (words::step(0), words::step(4194304)),
        ("step 0 (M) / 2^30 = 0".into(), "step 4194304 (M) / 2^30 = 0.0039".into())
    );
    assert_eq!((words::decibels(100.0), words::decibels(0.0), words::decibels(1e-30)), (20.0, -100.0, -100.0));
    assert_eq!(words::short(-3.25, 4), "−3.25");
    let wanted = ["-0.00000000186264514923095703125", "-8388607.5", "0", "10"];
    assert_eq!([-power_of_two(-29), -8388607.5, 0.0, 10.0].map(words::exact), wanted);
    let parts = ["one", "two", "three"].map(str::to_string);
    assert_eq!(words::fitting("a ", &parts, ", ", ".", 99), "a one, two, three.");
    assert_eq!(words::fitting("a ", &parts, ", ", ".", 17), "a one and 2 more.");
}

/// Points at 0, 1, .. with a value each; none where nothing was received, but for what was held then.
fn points(values: &[(f64, bool)]) -> Vec<Point> {
    let places = values.iter().enumerate();
    places
        .map(|(at, (value, received))| Point { at: at as f64, reach: 0.5, value: Some(*value), received: *received })
        .collect()
}

#[test]
fn a_line_breaks_where_nothing_was_received_and_dots_show_what_was_held() {
    let given = points(&[(3.0, true), (4.0, true), (5.0, false), (6.0, true), (7.0, false)]);
    let curves = line(&given, Look::solid(2.0, BLACK), Some("it"));
    assert_eq!(numbers(&curves[0]), [[2.0, 5.0], [4.0, 7.0]], "dots");
    let wanted: [&[f64]; 7] = [&[-0.5, 3.0], &[0.0, 3.0], &[1.0, 4.0], &[1.0, 4.0], &[], &[2.5, 6.0], &[3.0, 6.0]];
    assert_eq!(numbers(&curves[1])[..7], wanted);
    assert_eq!((curves[0].title.as_deref(), curves[1].title.as_deref()), (None, Some("it")));
    let silent = line(&points(&[(3.0, false)]), Look::solid(2.0, BLACK), Some("it"));
    assert!(silent[0].is_dots() && silent[0].title.is_some() && silent[1].rows.is_empty());
}

#[test]
fn steps_have_the_two_ends_of_each_value() {
    let given = points(&[(3.0, true), (3.0, true), (4.0, true), (4.0, true)]);
    let curves = steps(&given, Look::solid(2.0, BLACK), None);
    assert_eq!(numbers(&curves[1]), [[-0.5, 3.0], [1.5, 3.0], [1.5, 4.0], [3.5, 4.0]]);
}

fn page() -> Page {
    let curve = |title: &str| Curve::marks([(1.0, 2.0)].into_iter(), "pt 7", title);
    let none = Curve::marks(std::iter::empty(), "pt 7", "never drawn");
    let dots = line(&points(&[(3.0, true), (5.0, false)]), Look::solid(2.0, BLACK), None);
    let panel = |curves| Panel { up: Axis::counts(9.0, 5), label: "it's", curves, ..Panel::default() };
    let mut panels = vec![panel(vec![curve("drawn"), none.clone()]), panel(dots), panel(vec![none])];
    Page::share_axis(&mut panels, &Axis::between(-5.0, 5.0, 2, 5.0), "time");
    let shades = vec![Shade { name: "a spell", colour: "#999999", times: vec![(1.0, 1.0)] }];
    Page { title: "A page".to_string(), lines: vec!["first".to_string()], shades, panels }.with_keys("dots: lost")
}

#[test]
fn a_legend_has_what_is_on_the_page_and_nothing_else() {
    let text = script(&page());
    for there in ["title 'drawn'", "title 'a spell'", "title 'dots: lost'", "'it''s'", "'time'", "'−5' -5e0, '0' 0e0"]
    {
        assert!(text.contains(there), "{there}");
    }
    assert!(!text.contains("never drawn"));
    assert_eq!(text.matches("\nplot ").count(), 3);
    assert_eq!(text.matches("plot NaN notitle").count(), 1);
    assert_eq!(text.matches("title 'dots: lost'").count(), 1);
}

#[test]
fn a_panel_makes_room_for_its_legend() {
    let mut page = page();
    let before = page.panels[0].height();
    page.panels[0].notes = vec!["a note".to_string(); 9];
    assert!(page.panels[0].height() > before + 150.0 && page.panels[2].height() < before);
}
