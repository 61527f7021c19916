//! Cables that the library turns down, each with the line that is to blame.

mod common;

use common::{given, with_line, EXAMPLE, WORKED};
use lab::cable::traces;
use lab::refusal::{gain_of, level};
use tigbulode_laboratory::{cable, trace_length, Cable};

/// What is told of a text that is in order but turned down.
fn told(text: &str) -> String {
    let problem = traces(&given(text)).expect_err("it is turned down");
    format!("line {}: {}", problem.line, problem.text)
}

/// The worked text with a line replaced.
fn refused(number: usize, line: &str, sentence: &str) {
    let text = with_line(WORKED, number, line);
    assert_eq!(told(&text), format!("line {number}: {sentence}"));
}

#[test]
fn a_size_outside_its_limits_is_named() {
    let by = "is admitted; turned down with 1";
    refused(1, "p = 17", &format!("p = 17, but 1 to 16 {by}"));
    refused(1, "p = 0", &format!("p = 0, but 1 to 16 {by}"));
    refused(2, "q = 17", &format!("q = 17, but 1 to 16 {by}"));
    refused(3, "N = 129", &format!("N = 129, but 1 to 128 {by}"));
    refused(3, "N = 0", &format!("N = 0, but 1 to 128 {by}"));
    refused(4, "r = 4", &format!("r = 4, but 0 to 3 {by}"));
    refused(5, "L = 16", &format!("L = 16, but 0 to 15 {by}"));
    let text = with_line(WORKED, 1, "p = 4");
    let short = "line 3: N = 1, but with p = 4 at least p - 1 = 3";
    assert_eq!(told(&text), format!("{short} {by}"));
}

#[test]
fn shares_do_not_hide_a_wrong_size() {
    let text = with_line(WORKED, 9, "shares = 1 1/2");
    let text = with_line(&text, 4, "r = 255");
    let wanted = "line 4: r = 255, but 0 to 3 is admitted; turned down with 1";
    assert_eq!(told(&text), wanted);
}

#[test]
fn too_large_a_step_names_the_greatest() {
    let sentence =
        "M = 67108865, but at most 67108864 is admitted with these sizes; turned down with 2";
    refused(9, "M = 67108865", sentence);
    let text = with_line(WORKED, 9, "M = 1\n67108865");
    assert_eq!(told(&text), format!("line 10: {sentence}"));
    assert!(traces(&given(WORKED)).is_ok());
}

#[test]
fn a_response_is_1_to_32_values() {
    let sentence = "the response has 0 values, but 1 to 32 are wanted; turned down with 10";
    refused(6, "response =", sentence);
    let line = |count: usize| format!("response ={}", " 1".repeat(count));
    let sentence = "the response has 33 values, but 1 to 32 are wanted; turned down with 10";
    refused(6, &line(33), sentence);
    assert!(traces(&given(&with_line(WORKED, 6, &line(32)))).is_ok());
}

#[test]
fn symbols_are_whole_blocks_that_a_trace_holds() {
    let by = "turned down with 10";
    let blocks = |most: u32, n: u32| format!("1 to {most} whole blocks of N = {n} are wanted");
    let sentence = format!("0 symbols, but {}; {by}", blocks(16_381, 1));
    refused(7, "symbols =", &sentence);
    let text = with_line(WORKED, 3, "N = 3");
    let wanted = format!("line 8: 4 symbols, but {}; {by}", blocks(5460, 3));
    assert_eq!(told(&with_line(&text, 7, "symbols = 1 1\n1 1")), wanted);
    let random = |count: u32| with_line(WORKED, 7, &format!("seed = 1\nrandom_symbols = {count}"));
    let most = "but 65536 is the most: 16381 symbols, 16381 blocks of N = 1";
    let wanted = format!("line 8: 16382 symbols make a trace of 65540 bytes, {most}; {by}");
    assert_eq!(told(&random(16_382)), wanted);
    let most = "but 65536 is the most: 16256 symbols, 127 blocks of N = 128";
    let wanted = format!("line 8: 16384 symbols make a trace of 65548 bytes, {most}; {by}");
    let wide = with_line(&random(16_384), 3, "N = 128");
    assert_eq!(told(&wide), wanted);
    assert!(traces(&given(&random(16_381))).is_ok());
    let wanted = format!("line 8: 65536 symbols, but {}; {by}", blocks(16_381, 1));
    assert_eq!(told(&random(65_536)), wanted);
}

#[test]
fn training_is_on_symbols_that_there_are() {
    refused(
        8,
        "training = 3",
        "training = 3, but there are 2 symbols; turned down with 10",
    );
    assert!(traces(&given(&with_line(WORKED, 8, "training = 2"))).is_ok());
}

#[test]
fn an_entry_that_is_no_symbol_has_its_place_and_line() {
    let text = with_line(WORKED, 7, "symbols = 1 1\n1 3 1");
    let wanted =
        "line 8: symbol 3 (from 0) is 3, but an odd number from -1 to 1 is wanted; turned down with 10";
    assert_eq!(told(&text), wanted);
    refused(
        7,
        "symbols = 0",
        "symbol 0 (from 0) is 0, but an odd number from -1 to 1 is wanted; turned down with 10",
    );
}

#[test]
fn a_level_without_a_gain_has_its_place() {
    let text = with_line(WORKED, 6, "response = 20000 -20000");
    let text = with_line(&text, 7, "symbols = 1 1 -1");
    let wanted = "line 6: symbol 2 (from 0) has s = -40000, but only |s| below 2^(15+r) = 32768 has a gain \
                  (magnitudes of the response that sum to at most 32767 units of 1/32768, about 0.999, always fit); turned down with 10";
    assert_eq!(told(&text), wanted);
}

#[test]
fn a_gain_below_l_is_told_at_l() {
    let text = with_line(WORKED, 5, "L = 2");
    let wanted = "line 5: L = 2, but symbol 0 (from 0) has s = 16384, so a gain of 0 \
                  (magnitudes of the response that sum to at most 8191 units of 1/32768, about 0.249, always fit); turned down with 10";
    assert_eq!(told(&text), wanted);
    let text = with_line(&text, 6, "response = 8191");
    assert!(traces(&given(&text)).is_ok());
}

/// The worked text with a response that never fits.
fn too_loud(r: u8, l: u8, most: i8) -> String {
    let lines = [
        (4, format!("r = {r}")),
        (5, format!("L = {l}")),
        (6, "response = 32767 32767".to_string()),
        (7, format!("symbols = {most} {most}")),
        (9, "M = 0".to_string()),
    ];
    lines
        .iter()
        .fold(WORKED.to_string(), |text, (number, line)| {
            with_line(&text, *number, line)
        })
}

/// The advice in the message: such a response fits, and one more doesn't.
#[test]
fn the_sum_that_always_fits_is_the_greatest() {
    for (r, l, sum, fraction) in [
        (0u8, 0u8, 32767, "0.999"),
        (1, 0, 21845, "0.666"),
        (2, 0, 18724, "0.571"),
        (3, 0, 17476, "0.533"),
        (3, 5, 546, "0.016"),
        (3, 15, 0, "0.000"),
    ] {
        let most = (2i8 << r) - 1;
        let answer = |h: i16| {
            let mut trace = [0; trace_length(1)];
            let (response, symbols) = ([h], [most]);
            let described = Cable {
                p: 1,
                q: 1,
                n: 1,
                r,
                l,
                step: 0,
                response: &response,
                symbols: &symbols,
                training: 0,
            };
            cable(&described, &mut trace)
        };
        let advice = format!("at most {sum} units of 1/32768, about {fraction}, always fit");
        let told = told(&too_loud(r, l, most));
        assert!(told.contains(&advice), "{told}");
        assert_eq!(answer(sum), 0, "r = {r}, L = {l}");
        assert!(sum == 32767 || answer(sum + 1) == 10, "r = {r}, L = {l}");
    }
}

#[test]
fn two_step_sizes_of_one_m_are_told() {
    let text = with_line(WORKED, 9, "M = 67108864 1\nshares = 1");
    let wanted = "line 10: share 1 comes to M = 67108864, and so does M = 67108864 in line 9: each is wanted once";
    assert_eq!(told(&text), wanted);
    refused(
        9,
        "M = 7 7",
        "M = 7 comes to M = 7, and so does M = 7 in line 9: each is wanted once",
    );
}

/// The explanation's sums and gains are those of the library's trace.
#[test]
fn levels_and_gains_are_those_of_the_trace() {
    let given = given(EXAMPLE);
    let (response, symbols) = (given.response.plain(), given.symbols.plain());
    let (_, bytes) = traces(&given).expect("it is accepted").remove(0);
    let trace = traces::trace::Trace::of_bytes(&bytes).expect("a trace");
    for (place, sample) in trace.samples.iter().enumerate() {
        let s = level(&response, &symbols, place);
        assert_eq!(gain_of(s, 2), Some(sample.g));
        assert_eq!((s << sample.g) / 4, i32::from(sample.m));
    }
    assert_eq!(gain_of(0, 0), Some(15));
    assert_eq!(gain_of(32767, 0), Some(0));
    assert_eq!(gain_of(-32768, 0), None);
}
