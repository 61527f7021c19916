//! The gain rule, the converter, the payload, the seasons, axes and words.

mod common;

use common::{text_with, DEFAULT};
use years::axis::Axis;
use years::changes::changes;
use years::converter::{convert, full_scale, gain_for, power_of_two};
use years::random::{Purpose, Random};
use years::{payload, progress, season, words};

#[test]
fn a_gain_is_the_greatest_that_fits_and_within_its_limits() {
    let mut random = Random::new(1, Purpose::Noise);
    for _ in 0..10_000 {
        let level = random.share() * power_of_two(random.below(30) as i32 - 20);
        let (r, least) = (random.below(4) as u8, random.below(16) as u8);
        let gain = gain_for(level, 1.25, r, least);
        assert!((least..=15).contains(&gain));
        assert!(gain == least || 1.25 * level < full_scale(r, gain));
        assert!(gain == 15 || 1.25 * level >= full_scale(r, gain + 1));
    }
}

#[test]
fn silence_takes_the_greatest_gain_and_too_loud_a_level_the_least() {
    assert_eq!(gain_for(0.0, 1.0, 1, 3), 15);
    assert_eq!(gain_for(1e9, 1.0, 1, 3), 3);
    assert_eq!(gain_for(f64::INFINITY, 1.0, 1, 0), 0);
    assert_eq!(gain_for(1.0, 1.0, 1, 0), 0);
    assert_eq!(gain_for(0.999, 1.0, 1, 0), 1);
}

#[test]
fn the_converter_rounds_and_stops_at_its_ends() {
    assert_eq!(convert(0.5, 1, 0), (8192, false));
    assert_eq!(convert(-2.0, 1, 0), (-32768, false));
    assert_eq!(convert(2.0, 1, 0), (32767, true));
    assert_eq!(convert(-9.0, 1, 0), (-32768, true));
    assert_eq!(convert(1.6 / 32768.0, 0, 0), (2, false));
    assert_eq!(convert(1.0 / 32768.0, 0, 15), (32767, true));
    assert_eq!(convert(0.5 / 32768.0, 0, 15), (16384, false));
}

#[test]
fn a_number_comes_back_and_one_wrong_symbol_is_found() {
    let mut random = Random::new(1, Purpose::Filler);
    for r in 0..=3u8 {
        for _ in 0..200 {
            let (number, scrambler) = (random.draw() as u16, random.draw() as u32);
            let mut symbols = payload::send(number, scrambler, r);
            let most = (2 << r) - 1;
            assert!(symbols.iter().all(|v| v % 2 != 0 && v.abs() <= most));
            assert_eq!(payload::receive(&symbols, scrambler, r), Some(number));
            let place = random.below(symbols.len() as u32) as usize;
            symbols[place] += if symbols[place] == most { -2 } else { 2 };
            assert_eq!(payload::receive(&symbols, scrambler, r), None);
        }
    }
}

#[test]
fn the_seasons_follow_the_cosine() {
    for day in 0..800 {
        let day = f64::from(day);
        let angle = day / 365.25 * std::f64::consts::TAU;
        assert!((season::cold(day) - angle.cos()).abs() < 1e-5);
    }
}

#[test]
fn powers_of_two_are_exact() {
    for exponent in -45..=30 {
        assert_eq!(power_of_two(exponent), f64::powi(2.0, exponent));
    }
}

fn labels_differ(axis: &Axis) -> bool {
    let mut texts: Vec<&String> = axis.labels.iter().map(|(_, text)| text).collect();
    texts.dedup();
    texts.len() == axis.labels.len()
}

#[test]
fn an_axis_holds_what_it_is_made_for_and_has_labels_enough() {
    let mut random = Random::new(1, Purpose::Filler);
    for _ in 0..20_000 {
        let size = power_of_two(random.below(40) as i32 - 20);
        let least = random.either_way() * size;
        let greatest = least + random.share() * size * power_of_two(-(random.below(10) as i32));
        let axis = Axis::around(least, greatest, 5, 1e-7);
        assert!(axis.holds(least) && axis.holds(greatest), "{axis:?}");
        assert!((2..=6).contains(&axis.labels.len()), "{axis:?}");
        assert!(labels_differ(&axis), "{axis:?}");
    }
}

#[test]
fn axes_of_ordinary_things_have_round_numbers() {
    let texts = |axis: Axis| {
        axis.labels
            .into_iter()
            .map(|(_, t)| t)
            .collect::<Vec<_>>()
            .join(" ")
    };
    assert_eq!(texts(Axis::around(0.0, 6.7, 5, 0.01)), "0 2 4 6 8");
    assert_eq!(texts(Axis::around(16.0, 16.0, 4, 1.0)), "15 16 17");
    assert_eq!(texts(Axis::counts(0.0, 4)), "0 1");
    assert_eq!(texts(Axis::counts(15.0, 5)), "0 5 10 15");
    assert_eq!(
        texts(Axis::between(0.0, 1.0, 20, 0.1)).split(' ').count(),
        11
    );
    assert_eq!(
        texts(Axis::between(0.0, 100.0, 20, 0.1)).split(' ').count(),
        21
    );
    assert_eq!(texts(Axis::shares(896)), "100 10 1 0.1");
    assert_eq!(texts(Axis::shares(1)), "100");
    assert_eq!(texts(Axis::shares(2_000_000)), "100 1 0.01 0.0001");
}

fn other_than_default(text: &str) -> Option<String> {
    words::other_than_default(&changes(text))
}

#[test]
fn what_is_other_than_the_default_is_told_in_its_order() {
    assert_eq!(other_than_default(DEFAULT), None);
    let text = text_with(&[("check_sum", "0"), ("seed", "9")]);
    let line = "other than the default: seed = 9, check_sum = 0";
    assert_eq!(other_than_default(&text).as_deref(), Some(line));
    let reversed: Vec<&str> = text.lines().rev().collect();
    assert_eq!(
        other_than_default(&reversed.join("\n")).as_deref(),
        Some(line)
    );
    let seed = u64::MAX.to_string();
    let line = format!("other than the default: seed = {seed}");
    assert_eq!(
        other_than_default(&text_with(&[("seed", &seed)])),
        Some(line)
    );
}

#[test]
fn a_value_written_otherwise_is_no_other_value() {
    let text = text_with(&[
        ("cable_new", "0.025   .3 0.0550 -3e-2 0.015"),
        ("headroom", "1.10"),
        ("pressure_first", "120.0"),
        ("seed", "0035"),
    ]);
    assert_eq!(other_than_default(&text), None);
}

#[test]
fn many_changes_are_cut_to_a_line() {
    let cable = ["0.123456789"; 16].join(" ");
    let mut given = vec![("cable_new", cable.as_str()), ("cable_old", &cable)];
    let keys = ["p", "q", "N", "L", "delay", "hold", "headroom", "loud_days"];
    given.extend(keys.map(|key| (key, "1")));
    let line = other_than_default(&text_with(&given)).expect("a line");
    assert!(line.starts_with("other than the default: p = 1, q = 1, N = 1, L = 1, delay = 1"));
    assert!(line.ends_with(" and 5 more"), "{line}");
    given.truncate(2);
    let line = other_than_default(&text_with(&given)).expect("a line");
    assert!(line.contains("default: cable_new = 0.123456789 0.123456789 "));
    assert!(line.ends_with(" .. and 1 more"), "{line}");
    assert!(line.chars().count() <= 110);
}

#[test]
fn numbers_in_words() {
    assert_eq!(words::count(1, "year"), "1 year");
    assert_eq!(words::count(20, "year"), "20 years");
    let shares = [
        (0, "0 %"),
        (1, "0.0068 %"),
        (68, "0.47 %"),
        (14609, "> 99.9 %"),
        (14610, "100 %"),
    ];
    for (part, wanted) in shares {
        assert_eq!(words::percent(part, 14610), wanted);
    }
    assert_eq!(
        words::share(68, 14610, "reading", "lost"),
        "68 of 14610 readings lost (0.47 %)"
    );
    assert_eq!(progress::time_left(10.0, 100, 500), ", 40 s left");
    assert_eq!(progress::time_left(100.0, 100, 500), ", 7 min left");
    assert_eq!(progress::time_left(1.0, 1, 500), "");
}
