//! The text form: what is taken, and each bad line with its number.

mod common;

use common::{given, runs, with_line, EXAMPLE, WORKED};
use lab::share::Share;
use lab::text::{draw, read, Step};

/// Every problem as the program tells it.
fn problems(text: &str) -> Vec<String> {
    let problems = read(text).expect_err("the text is turned down");
    let told = problems.into_iter();
    told.map(|problem| format!("line {}: {}", problem.line, problem.text))
        .collect()
}

/// The worked text with a line replaced is turned down for that line alone.
fn refused(number: usize, line: &str, sentence: &str) {
    let text = with_line(WORKED, number, line);
    assert_eq!(problems(&text), [format!("line {number}: {sentence}")]);
}

#[test]
fn the_example_and_the_worked_text_are_taken() {
    let example = given(EXAMPLE);
    assert_eq!(example.symbols.values.len(), 9600);
    assert_eq!(example.response.plain()[..2], [13107, -2294]);
    assert_eq!(example.steps.len(), 3);
    let worked = given(WORKED);
    assert_eq!(worked.symbols.plain(), [1, 1]);
    assert_eq!(worked.steps[0].value, Step::M(67_108_864));
}

#[test]
fn a_list_goes_on_over_the_lines_below_it() {
    let text = with_line(
        WORKED,
        7,
        "symbols = 1 # the first\n\n-1 1\n# a remark\n  -1",
    );
    let given = given(&text);
    assert_eq!(given.symbols.plain(), [1, -1, 1, -1]);
    let lines: Vec<usize> = given.symbols.values.iter().map(|at| at.line).collect();
    assert_eq!(lines, [7, 9, 9, 11]);
    assert_eq!(given.training.line, 12);
}

#[test]
fn a_mark_of_order_and_other_line_ends_are_taken() {
    let text = format!("\u{FEFF}{}", WORKED.replace('\n', "\r\n"));
    assert_eq!(given(&text), given(WORKED));
}

#[test]
fn a_bad_value_is_told_with_its_line() {
    let whole = |low: u64, high: u64| format!("but a whole number from {low} to {high} is wanted");
    refused(1, "p = six", &format!("p = six, {}", whole(1, 16)));
    refused(2, "q = 256", &format!("q = 256, {}", whole(1, 16)));
    refused(3, "N = 1 2", &format!("N = 1 2, {}", whole(1, 128)));
    refused(4, "r = -1", &format!("r = -1, {}", whole(0, 3)));
    refused(5, "L =", &format!("L = , {}", whole(0, 15)));
    let units = "but a whole number from -32768 to 32767, in units of 1/32768, is wanted";
    refused(
        6,
        "response = 5 32768",
        &format!("response: 32768, {units}"),
    );
    refused(6, "response = 0.5", &format!("response: 0.5, {units}"));
    let symbol = "but an odd number of magnitude at most 2^(r+1) - 1 is wanted";
    refused(7, "symbols = 1 128", &format!("symbols: 128, {symbol}"));
    let training = format!("training = -1, {}", whole(0, 16_381));
    refused(8, "training = -1", &training);
    let step = format!("M: 4294967296, {}", whole(0, 4_294_967_295));
    refused(9, "M = 4294967296", &step);
    refused(9, "M =", "no step size, but at least one is wanted");
}

#[test]
fn fractions_go_to_the_nearest_unit() {
    let line = "response_fractions = 0.5 -1 0.99997 0.4 -0.00002 1e-3";
    let text = with_line(WORKED, 6, line);
    let units = [16384, -32768, 32767, 13107, -1, 33];
    assert_eq!(given(&text).response.plain(), units);
    let wanted = "but a decimal fraction from -1 to 32767/32768 is wanted";
    for word in ["1", "0.99999", "-1.1", "nan", "inf", "1/2", "half"] {
        let line = format!("response_fractions = 0.5 {word}");
        refused(6, &line, &format!("response_fractions: {word}, {wanted}"));
    }
}

/// The summary and the page write a minus sign, so a response can be copied
/// from them.
#[test]
fn a_minus_sign_counts_as_a_hyphen() {
    let text = with_line(WORKED, 7, "symbols = 1 −1");
    let text = with_line(&text, 6, "response_fractions = 0.4 −0.07");
    assert_eq!(given(&text).symbols.plain(), [1, -1]);
    assert_eq!(given(&text).response.plain(), [13107, -2294]);
    let text = with_line(&text, 6, "response = 5 −32768");
    assert_eq!(given(&text).response.plain(), [5, -32768]);
}

#[test]
fn a_comma_is_told() {
    let hint = "; spaces go between values, a point before decimals, and a comma nowhere";
    let units = "but a whole number from -32768 to 32767, in units of 1/32768, is wanted";
    let sentence = format!("response: 5,, {units}{hint}");
    refused(6, "response = 5, 6", &sentence);
    let wanted = "but a decimal fraction from -1 to 32767/32768 is wanted";
    let sentence = format!("response_fractions: 0,4, {wanted}{hint}");
    refused(6, "response_fractions = 0,4", &sentence);
}

#[test]
fn a_wrong_line_is_told_as_it_is() {
    let keys = "there are p, q, N, r, L, random_symbols, seed, training, response, \
                response_fractions, symbols, M, shares";
    let text = format!("{WORKED}colour = blue\n");
    assert_eq!(
        problems(&text),
        [format!("line 10: colour is no key; {keys}")]
    );
    let text = format!("{WORKED}p = 2\n");
    assert_eq!(problems(&text), ["line 10: p is given in line 1 already"]);
    let text = with_line(WORKED, 8, "training = 1\nhello");
    let neither = "line 9: 'hello' is neither key = value nor the rest of a list";
    assert_eq!(problems(&text), [neither]);
    let text = format!("{}\n{WORKED}", "x".repeat(50));
    let cut = format!(
        "line 1: '{}...' is neither key = value nor the rest of a list",
        "x".repeat(40)
    );
    assert_eq!(problems(&text), [cut]);
}

#[test]
fn every_problem_is_told_in_the_order_of_lines() {
    let text = with_line(WORKED, 2, "q = none");
    let text = with_line(&text, 7, "symbols = 1 x\ny 1");
    let text = format!("shares = x\n{text}");
    let symbol = "but an odd number of magnitude at most 2^(r+1) - 1 is wanted";
    let share =
        "but a share from 0 to 1 of the greatest admitted M, such as 1/8 or 0.125, is wanted";
    let wanted = [
        format!("line 1: shares: x, {share}"),
        "line 3: q = none, but a whole number from 1 to 16 is wanted".to_string(),
        format!("line 8: symbols: x, {symbol}"),
        format!("line 9: symbols: y, {symbol}"),
    ];
    assert_eq!(problems(&text), wanted);
}

#[test]
fn what_is_missing_is_told_at_the_end() {
    let all = "p, q, N, r, L, response or response_fractions, symbols or random_symbols, training, M or shares";
    let told = |missing: &str, line| {
        format!("line {line}: the text ends, but these are not given: {missing}")
    };
    assert_eq!(problems(""), [told(all, 1)]);
    assert_eq!(problems("# nothing\n\n"), [told(all, 2)]);
    let text = with_line(WORKED, 8, "");
    assert_eq!(problems(&text), [told("training", 9)]);
    let text = with_line(WORKED, 7, "random_symbols = 10");
    assert_eq!(problems(&text), [told("seed", 9)]);
}

#[test]
fn one_of_two_keys_is_wanted() {
    let text = format!("{WORKED}response_fractions = 0.5\n");
    let twice = "line 10: response_fractions, but line 6 gives the same already";
    assert_eq!(problems(&text), [twice]);
    let text = format!("random_symbols = 10\nseed = 1\n{WORKED}");
    let twice = "line 9: symbols, but line 1 gives the same already";
    assert_eq!(problems(&text), [twice]);
    let text = format!("{WORKED}seed = 1\n");
    assert_eq!(
        problems(&text),
        ["line 10: seed, but no line gives random_symbols"]
    );
}

#[test]
fn random_symbols_are_those_of_their_seed() {
    assert_eq!(draw(12, 1, 1), [1, -1, -3, 1, -3, 3, -1, -3, -1, -3, 3, 1]);
    assert_eq!(draw(9600, 7, 2)[..50], draw(50, 7, 2));
    assert_ne!(draw(50, 8, 2), draw(50, 7, 2));
    for r in 0..=3u8 {
        let most = (2i32 << r) - 1;
        let drawn = draw(20_000, 3, r);
        for symbol in (-most..=most).step_by(2) {
            let found = drawn.iter().filter(|v| i32::from(**v) == symbol).count();
            let share = found as f64 * f64::from(most + 1) / 20_000.0;
            assert!((share - 1.0).abs() < 0.15, "r = {r}: {symbol}: {found}");
        }
        assert!(drawn
            .iter()
            .all(|v| v % 2 != 0 && i32::from(*v).abs() <= most));
    }
}

#[test]
fn a_share_is_exact_and_rounds_down() {
    let of = |word: &str, number: u32| Share::of_word(word).expect(word).of(number);
    assert_eq!(of("1/8", 5_592_405), 699_050);
    assert_eq!(of("0.125", 5_592_405), 699_050);
    assert_eq!(of("1", 5_592_405), 5_592_405);
    assert_eq!(of("1.0", 5_592_405), 5_592_405);
    assert_eq!(of("0", 5_592_405), 0);
    assert_eq!(of(".5", 10), 5);
    assert_eq!(of("1/3", 10), 3);
    assert_eq!(of("2/3", 10), 6);
    assert_eq!(of("0.99999999999999999", 89_478_485), 89_478_484);
    for word in [
        "", "1/", "/8", "1/0", "9/8", "1.1", "-1/8", "1e-3", "5.", "1/8/2", "0.1.2", "+1", "12 %",
    ] {
        assert_eq!(Share::of_word(word), None, "{word}");
    }
}

#[test]
fn a_wrong_share_is_told_with_its_line() {
    let wanted =
        "but a share from 0 to 1 of the greatest admitted M, such as 1/8 or 0.125, is wanted";
    for word in ["2", "1/0", "eighth", "-1"] {
        refused(
            9,
            &format!("shares = 1/2 {word}"),
            &format!("shares: {word}, {wanted}"),
        );
    }
}

#[test]
fn step_sizes_come_in_the_order_of_the_text() {
    let text = with_line(WORKED, 9, "shares = 1/2 1/4\nM = 5 6");
    let steps: Vec<(String, u32)> = runs(&given(&text))
        .into_iter()
        .map(|run| (run.step.name, run.step.m))
        .collect();
    let named = |name: &str, m| (name.to_string(), m);
    let wanted = [
        named("share 1/2", 33_554_432),
        named("share 1/4", 16_777_216),
        named("M = 5", 5),
        named("M = 6", 6),
    ];
    assert_eq!(steps, wanted);
}

#[test]
fn more_step_sizes_than_a_page_holds_are_turned_down() {
    let text = with_line(WORKED, 9, "M = 1 2 3\nshares = 1 1/2 1/3");
    assert_eq!(given(&text).steps.len(), 6);
    let text = with_line(WORKED, 9, "M = 1 2 3\n4\nshares = 1 1/2 1/3");
    let told = "line 11: more than 6 step sizes, the most of a page";
    assert_eq!(problems(&text), [told]);
}
