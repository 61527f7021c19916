//! Texts of keys: what is taken, and each bad line with its number.

use plots::program::Failure;
use plots::text::{too_large, Keys, Place, Text};
use tigbulode::Settings;

const KEYS: Keys = Keys { singles: &["p", "q", "N", "r", "L", "hold", "seed"], lists: &["cable", "symbols"] };
const DEFAULT: &str = "# all\np = 6\nq = 4\nN = 64\nr = 1\nL = 0\nhold = 0.50 # a share\nseed = 35\ncable = 1 2\n";

/// What is told of a text with changes, where all of it is read.
fn told(text: &str, changes: &[&str]) -> Vec<String> {
    let mut text = Text::new(text, KEYS);
    changes.iter().for_each(|change| text.set(change));
    text.fill(DEFAULT);
    text.sizes();
    text.value("hold", 0.0..=1.0);
    text.value("seed", 0..=u64::MAX);
    text.numbers("cable", -8.0..=8.0);
    let problems = text.finish().err().unwrap_or_default();
    problems.iter().map(|problem| problem.told("a.txt")).collect()
}

#[test]
fn what_is_in_order_is_taken() {
    assert_eq!(told("", &[]), Vec::<String>::new());
    let text = "\u{FEFF}p = 3\r\n\r\n# a remark\r\ncable = 1 −2 # the first\r\n  3\r\n";
    assert_eq!(told(text, &["seed=18446744073709551615", "hold = 1"]), Vec::<String>::new());
    let mut read = Text::new(text, KEYS);
    assert_eq!(read.value("p", 1..=16u8), 3);
    let cable = read.list("cable", 1..=3, "a number", |word| word.parse::<i32>().ok());
    let line = Place::Line;
    assert_eq!(cable, Some(vec![(line(4), 1), (line(4), -2), (line(5), 3)]));
    assert_eq!(read.list("symbols", 1..=3, "a number", |word| word.parse::<i32>().ok()), None);
}

#[test]
fn every_problem_is_told_with_its_line_in_their_order() {
    let text = "q = 17\nhello\nseed = -1\ncable = 1 x 0,4\nN = 1 2\nhold = nan\np = 0\nseed = 2\nr =\n";
    let whole = "but a whole number from";
    let wanted = [
        &format!("a.txt: line 1: q = 17, {whole} 1 to 16 is wanted"),
        "a.txt: line 2: 'hello' is neither key = value nor the rest of a list",
        &format!("a.txt: line 3: seed = -1, {whole} 0 to 18446744073709551615 is wanted"),
        "a.txt: line 4: cable: x, but a number from -8 to 8 is wanted",
        "a.txt: line 4: cable: 0,4, but a number from -8 to 8 is wanted; \
         spaces go between values, a point before decimals, and a comma nowhere",
        &format!("a.txt: line 5: N = 1 2, {whole} 1 to 128 is wanted"),
        "a.txt: line 6: hold = nan, but a number from 0 to 1 is wanted",
        &format!("a.txt: line 7: p = 0, {whole} 1 to 16 is wanted"),
        "a.txt: line 8: seed is given in line 3 already",
        &format!("a.txt: line 9: r = , {whole} 0 to 3 is wanted"),
        "--set: 'colour' is not of the form KEY=VALUE",
        "--set: L is set twice",
        &format!("--set: L = 16, {whole} 0 to 15 is wanted"),
    ];
    assert_eq!(told(text, &["L=16", "colour", " L = 1"]), wanted);
    assert_eq!(told("seed = 1", &["seed=2", "seed=2"]), ["--set: seed is set twice"]);
    let numbers = "9 ".repeat(17);
    let count = "a.txt: line 1: cable has 17 values, but 1 to 16 are wanted";
    assert_eq!(told(&format!("cable = {}", numbers.replace('9', "8")), &[]), [count]);
}

#[test]
fn a_block_is_as_long_as_the_feed_forward_filter_less_one() {
    let short = "N = 14, but with p = 16 at least p - 1 = 15 is wanted";
    assert_eq!(told("p = 16\nN = 14", &[]), [format!("a.txt: line 2: {short}")]);
    assert_eq!(told("p = 16\nN = 15", &[]), Vec::<String>::new());
    assert_eq!(told("", &["N=4"]), ["--set: N = 4, but with p = 6 at least p - 1 = 5 is wanted"]);
    assert_eq!(told("p = 16", &["N=14"]), [format!("--set: {short}")]);
    let s = Settings { p: 6, q: 4, n: 64, r: 1, l: 0, m: 5592406 };
    let told = "M = 5592406, but with p = 6, q = 4, r = 1, L = 0 at most 5592405 is admitted";
    assert_eq!((too_large(&s).as_deref(), too_large(&s.with_m(5592405))), (Some(told), None));
}

#[test]
fn an_unknown_key_is_told_with_the_nearest() {
    let near = |key: &str| told(&format!("{key} = 1"), &[]).remove(0);
    assert_eq!(near("sead"), "a.txt: line 1: sead is no key; is seed meant?");
    assert_eq!(near("symbol"), "a.txt: line 1: symbol is no key; is symbols meant?");
    assert_eq!(near("Hold"), "a.txt: line 1: Hold is no key; is hold meant?");
    assert_eq!(near("colour"), "a.txt: line 1: colour is no key");
    assert_eq!(near(&"x".repeat(50)), format!("a.txt: line 1: {}... is no key", "x".repeat(40)));
    assert_eq!(told("", &["sed=1"]), ["--set: sed is no key; is seed meant?"]);
    assert_eq!(told("sed = 1\nits list", &[]), ["a.txt: line 1: sed is no key; is seed meant?"]);
}

#[test]
fn what_is_missing_is_told_at_the_end_where_there_is_no_default() {
    let mut text = Text::new("p = 1\n\n", KEYS);
    text.sizes();
    text.miss("M or shares");
    let problems = text.finish().expect_err("not all is given");
    assert_eq!(problems[0].told("a"), "a: line 2: the text ends, but these are not given: q, N, r, L, M or shares");
}

#[test]
fn a_change_counts_before_the_text_and_the_text_before_the_default() {
    let mut text = Text::new("seed = 7\nhold = 0.5\nq = 0004\np = 5\n", KEYS);
    ["seed=9", "cable=1.0 2 "].iter().for_each(|change| text.set(change));
    text.fill(DEFAULT);
    assert_eq!((text.value("seed", 0..=9u64), text.value("p", 1..=16u8), text.value("r", 0..=3u8)), (9, 5, 1));
    assert_eq!(text.changes(), ["p = 5", "seed = 9"]);
    let written = "hold = 0.5\nq = 0004\np = 5\nseed = 9\ncable = 1.0 2\nN = 64\nr = 1\nL = 0\n";
    assert_eq!(text.written(), written);
    assert_eq!((text.place_of("seed"), text.place_of("p")), (Some(Place::Set), Some(Place::Line(4))));
    assert_eq!(text.place_of("N"), Some(Place::Default));
}

#[test]
fn many_problems_are_cut_to_twenty() {
    let text = "x\n".repeat(30);
    let problems = Text::new(&text, KEYS).finish().expect_err("problems");
    let failure = Failure::of_text("a.txt", &problems);
    assert_eq!((failure.status, failure.text.lines().count()), (2, 21));
    assert!(failure.text.ends_with("\na.txt: and 10 more problems"));
}
