//! Texts of assumptions that are turned down, each with the line.

mod common;

use common::{text_with, DEFAULT};
use years::assumptions::{notes, parse};
use years::reader::line_of;

fn problems(text: &str) -> Vec<String> {
    parse(text).expect_err("the text is turned down")
}

#[test]
fn the_default_is_taken() {
    assert!(parse(DEFAULT).is_ok());
}

#[test]
fn an_unknown_key_is_named_with_its_line() {
    let text = format!("colour = blue\n{DEFAULT}");
    assert_eq!(problems(&text), ["line 1: unknown key colour"]);
}

#[test]
fn a_missing_key_names_itself() {
    let text = DEFAULT.replace("\nheadroom = ", "\n#headroom = ");
    let wanted = "no line gives headroom, a number from 0.01 to 100";
    assert_eq!(problems(&text), [wanted]);
}

#[test]
fn bad_values_are_named_with_their_lines() {
    let cases = [
        ("p", "six", "a whole number from 1 to 16"),
        ("p", "17", "a whole number from 1 to 16"),
        ("N", "129", "a whole number from 1 to 128"),
        ("check_sum", "2", "a whole number from 0 to 1"),
        ("M", "-1", "a whole number from 0 to 4294967295"),
        ("years", "0", "a whole number from 1 to 100"),
        ("hold", "1.5", "a number from 0 to 1"),
        ("noise_new", "NaN", "a number from 0 to 8"),
        ("seed", "", "a whole number from 0 to 18446744073709551615"),
        (
            "cable_new",
            "0.1 x",
            "1 to 16 numbers from -8 to 8 with spaces between",
        ),
    ];
    for (key, value, wanted) in cases {
        let line = line_of(DEFAULT, key);
        let sentence = format!("line {line}: {key} = {value}, but {wanted} is wanted");
        assert_eq!(problems(&text_with(&[(key, value)])), [sentence]);
    }
}

#[test]
fn every_problem_is_told_in_the_order_of_the_lines() {
    let text = format!(
        "{}colour = blue\n",
        text_with(&[("r", "two"), ("seed", "one")])
    );
    let found = problems(&text);
    assert_eq!(found.len(), 3);
    assert!(
        found[0].contains("seed") && found[1].contains("r = two") && found[2].contains("colour")
    );
}

#[test]
fn a_key_given_twice_and_a_line_without_a_value_are_turned_down() {
    let text = format!("{DEFAULT}p = 6\nhello\n");
    let (last, first) = (DEFAULT.lines().count(), line_of(DEFAULT, "p"));
    let twice = format!("line {}: p is given in line {first} already", last + 1);
    let form = format!("line {}: 'hello' is not of the form key = value", last + 2);
    assert_eq!(problems(&text), [twice, form]);
}

/// The sentence at a key's line, and nothing else.
fn refused(changes: &[(&str, &str)], key: &str, sentence: &str) {
    let wanted = format!("line {}: {sentence}", line_of(DEFAULT, key));
    assert_eq!(problems(&text_with(changes)), [wanted]);
}

fn taken(changes: &[(&str, &str)]) {
    let answer = parse(&text_with(changes));
    assert!(answer.is_ok(), "{changes:?}: {answer:?}");
}

#[test]
fn a_size_is_taken_exactly_where_set_up_takes_it() {
    let limits = [("p", 0), ("q", 1), ("N", 2), ("r", 3), ("L", 4)];
    for (key, place) in limits {
        for value in 0..=130u8 {
            let mut s = [1, 1, 64, 0, 0];
            s[place] = value;
            let number = tigbulode::set_up(s[0], s[1], s[2], s[3], s[4], 0).number;
            let values = s.map(|n| n.to_string());
            let mut changes = vec![("M", "0"), ("delay", "0"), ("payload_blocks", "32")];
            changes.extend(limits.map(|(key, place)| (key, values[place].as_str())));
            let answer = parse(&text_with(&changes));
            assert_eq!(answer.is_ok(), number == 0, "{key} = {value}: {answer:?}");
        }
    }
}

#[test]
fn too_short_a_block_and_too_large_a_step_name_their_limits() {
    let short = [
        ("N", "14"),
        ("p", "16"),
        ("M", "0"),
        ("payload_blocks", "4"),
    ];
    let sentence = "N = 14, but with p = 16 at least p - 1 = 15 is wanted";
    refused(&short, "N", sentence);
    let sentence = "M = 5592406, but with p = 6, q = 4, r = 1, L = 0 at most 5592405 is admitted";
    refused(&[("M", "5592406")], "M", sentence);
    taken(&[("M", "5592405")]);
}

#[test]
fn values_that_disagree_are_turned_down() {
    let sentence = "cable_old has 2 taps, but cable_new has 5";
    refused(&[("cable_old", "0.1 0.2")], "cable_old", sentence);
    let sentence = "the payload has 8 symbols, but a pressure takes 16";
    refused(&[("N", "8")], "payload_blocks", sentence);
    let sentence =
        "delay = 10, but with p = 6 and 5 taps of the cable no tap meets the symbol after 9";
    refused(&[("delay", "10")], "delay", sentence);
    taken(&[("delay", "9")]);
    let sentence = "season_loss = 0.9 and day_loss = 0.2 take more than the whole level";
    refused(
        &[("season_loss", "0.9"), ("day_loss", "0.2")],
        "day_loss",
        sentence,
    );
    let sentence =
        "a shut-in of 14 days from day 352 goes beyond its year: at most 13 days are wanted";
    refused(&[("shut_in_day", "352")], "shut_in_days", sentence);
    taken(&[("shut_in_day", "351")]);
    let sentence =
        "power_loss_days = 0.4 is less than the time between readings: 0 or at least 0.5 is wanted";
    refused(&[("power_loss_days", "0.4")], "power_loss_days", sentence);
    taken(&[("power_loss_days", "0.5")]);
}

#[test]
fn a_pressure_that_cannot_be_sent_is_turned_down() {
    let level = [
        ("years", "1"),
        ("pressure_fall", "0"),
        ("pressure_season", "0"),
        ("shut_in_rise", "0"),
    ];
    let with = |more: &[(&'static str, &'static str)]| [&level[..], more].concat();
    let sentence =
        "the pressure comes to 10000.0000 bar on day 365, but a 16-bit number of 0.0001 bar \
         holds at most 6.5535 bar: a unit of at least 0.1526 bar is wanted";
    let great = with(&[("pressure_first", "10000"), ("pressure_unit", "0.0001")]);
    refused(&great, "pressure_unit", sentence);
    taken(&with(&[
        ("pressure_first", "10000"),
        ("pressure_unit", "0.1526"),
    ]));
    taken(&with(
        &[("pressure_first", "65535"), ("pressure_unit", "1")][1..],
    ));
    taken(&with(&[("pressure_first", "0")]));
    let found = problems(&text_with(&[("pressure_first", "25")]));
    assert!(found[0].contains("the pressure falls to -"), "{found:?}");
    let found = problems(&text_with(&[("shut_in_rise", "-200")]));
    assert!(
        found[0].ends_with("but none below 0 can be sent"),
        "{found:?}"
    );
}

#[test]
fn a_spell_beyond_the_years_is_noted() {
    let noted = |changes: &[(&str, &str)]| {
        let text = text_with(changes);
        notes(&text, &parse(&text).expect("taken"))
    };
    let cases = [
        ("loud spell", "loud_first_day", "loud_days"),
        ("faint spell", "faint_first_day", "faint_days"),
        ("noisy joint", "joint_first_day", "joint_days"),
        ("swapped joint", "swap_day", "swap_readings"),
    ];
    for (name, key, length) in cases {
        let with = |first: &str| {
            let mut changes = vec![("years", "1"), (length, "20"), (key, first)];
            changes.extend(cases.map(|(_, _, length)| (length, "0")));
            noted(&changes)
        };
        assert_eq!(with("364.75"), Vec::<String>::new());
        let line = line_of(DEFAULT, key);
        let wanted = format!(
            "line {line}: the {name} from day 364.9 on is not in these years: the last reading is on day 364.75"
        );
        assert_eq!(with("364.9"), [wanted]);
        assert_eq!(with("365").len(), 1);
    }
}
