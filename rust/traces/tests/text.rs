//! Texts: what may stand in one, every kind of wrong line, and what the trace program turns down.

use traces::text::read;
use traces::trace::{Sample, MOST_BYTES};
use traces::Problem;

const SETTINGS: &str = "p = 1\nq = 2\nN = 1\nr = 0\nL = 3\nM = 5\n";

fn told(problems: &[Problem]) -> Vec<String> {
    problems.iter().map(|problem| format!("{}: {}", problem.line, problem.text)).collect()
}

/// The problems of a text that makes no trace.
fn problems(text: &str) -> Vec<String> {
    told(&read(text).expect_err(text))
}

/// Those of a text whose trace is turned down.
fn refused(text: &str) -> Vec<String> {
    told(&read(text).expect(text).1)
}

#[test]
fn what_may_stand_in_a_text() {
    let (plain, _) = read(&format!("{SETTINGS}1 2 3\n-4 5\n")).unwrap();
    let text = "\u{FEFF}# a remark = 1\r\n\r\n  M=5 # the step\r\nL =3\r\nN= 1\r\n\tq = 2\r\nr = +0\r\n\r\np = 1\r\nblocks = 2\r\n\
        # remark\r\n1\t2   3# end\r\n\r\n -4 5";
    let (trace, refused) = read(text).unwrap();
    assert_eq!(trace, plain);
    let lines: Vec<usize> = refused.iter().map(|problem| problem.line).collect();
    assert_eq!(lines, [12, 12]);
    assert_eq!(plain.samples[1], Sample { m: -4, g: 5, entry: 0 });
}

#[test]
fn wrong_settings() {
    let whole = "but a whole number from 0 to 255 is wanted";
    let step = "but a whole number from 0 to 4294967295 is wanted";
    let known = "there are p, q, N, r, L, M, blocks";
    let cases = [
        ("p = 1", "p = 256", format!("1: p = 256, {whole}")),
        ("p = 1", "p = -1", format!("1: p = -1, {whole}")),
        ("p = 1", "p =", format!("1: p = nothing, {whole}")),
        ("p = 1", "p = 0x1", format!("1: p = 0x1, {whole}")),
        ("p = 1", "p = 1.0", format!("1: p = 1.0, {whole}")),
        ("p = 1", "p = 1, q = 1", format!("1: p = 1, q = 1, {whole}")),
        ("q = 2", "q = two", format!("2: q = two, {whole}")),
        ("N = 1", "N = 256", format!("3: N = 256, {whole}")),
        ("r = 0", "r = 300", format!("4: r = 300, {whole}")),
        ("L = 3", "L = 1 2", format!("5: L = 1 2, {whole}")),
        ("M = 5", "M = 4294967296", format!("6: M = 4294967296, {step}")),
        ("M = 5", "M = 99999999999999999999", format!("6: M = 99999999999999999999, {step}")),
        ("M = 5", "M = 5\np = 1", "7: p is set again, first in line 1".to_string()),
        ("M = 5", "M = 5\nK = 1", format!("7: K is no setting; {known}")),
        ("M = 5", "M = 5\n= 1", format!("7: nothing is no setting; {known}")),
        ("M = 5", "M = 5\nblocks = 65536", whole.replace("but", "7: blocks = 65536, but").replace("255", "65535")),
        ("M = 5", "M = 5\nblocks = 2", "7: blocks = 2, but the samples make 1".to_string()),
    ];
    for (from, to, wanted) in cases {
        let text = format!("{}0 3\n", SETTINGS.replace(from, to));
        assert_eq!(problems(&text), [wanted], "{text}");
    }
}

#[test]
fn missing_and_late_settings() {
    assert_eq!(problems(""), ["1: the text ends, but not set: p, q, N, r, L, M"]);
    assert_eq!(problems("p = 1\n\n# x\n"), ["3: the text ends, but not set: q, N, r, L, M"]);
    let text = format!("{}1 3\n3 4\n", SETTINGS.replace("q = 2\n", ""));
    assert_eq!(problems(&text), ["6: a sample, but not set before: q"]);
    let late = problems(&format!("1 2\n{SETTINGS}"));
    assert_eq!(late.len(), 6);
    assert_eq!(late[0], "2: p is set after the first sample, that of line 1");
}

#[test]
fn wrong_samples() {
    let values = "but m and g are wanted, or m, g and a training entry, with spaces between";
    let cases = [
        ("40000 3", "m = 40000, but a whole number from -32768 to 32767 is wanted"),
        ("-32769 3", "m = -32769, but a whole number from -32768 to 32767 is wanted"),
        ("0 256", "g = 256, but a whole number from 0 to 255 is wanted"),
        ("0 -1", "g = -1, but a whole number from 0 to 255 is wanted"),
        ("0 3 128", "entry = 128, but a whole number from -128 to 127 is wanted"),
        ("0 3 -129", "entry = -129, but a whole number from -128 to 127 is wanted"),
        ("0 3 +", "entry = +, but a whole number from -128 to 127 is wanted"),
        ("7", &format!("values: 1 (7), {values}")),
        ("1 2 3 4", &format!("values: 4 (1 2 3 4), {values}")),
        ("1,2", &format!("values: 1 (1,2), {values}")),
    ];
    for (line, wanted) in cases {
        let text = format!("{SETTINGS}0 3\n{line}\n0 3\n");
        assert_eq!(problems(&text), [format!("8: {wanted}")]);
    }
    let ends = format!("{SETTINGS}-32768 0 -128\n32767 255 127\n");
    assert_eq!(read(&ends).unwrap().0.samples.len(), 2);
}

#[test]
fn a_long_word_is_cut_and_an_odd_one_escaped() {
    let problems = problems(&format!("{SETTINGS}{} 3\n\u{1b}[2J 3\n", "9".repeat(500)));
    assert!(problems.iter().all(|problem| problem.len() < 120), "{problems:?}");
    assert!(problems[0].contains("99..., but"), "{problems:?}");
    assert!(problems[1].contains("m = \\u{1b}[2J, but"), "{problems:?}");
}

#[test]
fn what_is_turned_down_is_told_with_its_line() {
    assert_eq!(
        refused("p = 4\nq = 17\nN = 2\nr = 1\nL = 2\nM = 9\n0 1 2\n0 16 -5\n"),
        [
            "2: q = 17, but 1 to 16 is admitted; trace turns it down with 1",
            "3: N = 2, but 3 to 128 is admitted, p - 1 being the least; trace turns it down with 1",
            "7: g = 1, but L = 2 to 15 is admitted; trace turns it down with 4",
            "7: entry = 2, but 0 or an odd number from -3 to 3 is wanted; trace turns it down with 5",
            "8: g = 16, but L = 2 to 15 is admitted; trace turns it down with 4",
            "8: entry = -5, but 0 or an odd number from -3 to 3 is wanted; trace turns it down with 5",
        ]
    );
    for (p, q, r, l, most) in [(1, 1, 0, 0, 67_108_864), (3, 3, 2, 1, 2_581_110)] {
        let text = |m: u32| format!("p = {p}\nq = {q}\nN = 4\nr = {r}\nL = {l}\nM = {m}\n");
        assert!(refused(&text(most)).is_empty());
        let m = most + 1;
        let wanted = format!("6: M = {m}, but at most {most} is admitted with these sizes; trace turns it down with 2");
        assert_eq!(refused(&text(m)), [wanted]);
    }
}

/// A value that is turned down is told beside lines that are wrong, all in the order of lines.
#[test]
fn all_problems_in_one_pass() {
    let text = "p = 1\nx = 1\nq = 17\nN = 2\nr = 0\nL = 1\nM = 5\n40000 0\n3\nr = 1\n5 16 2\n";
    let wanted = [
        "2: x is no setting; there are p, q, N, r, L, M, blocks",
        "3: q = 17, but 1 to 16 is admitted; trace turns it down with 1",
        "8: m = 40000, but a whole number from -32768 to 32767 is wanted",
        "8: g = 0, but L = 1 to 15 is admitted; trace turns it down with 4",
        "9: values: 1 (3), but m and g are wanted, or m, g and a training entry, with spaces between",
        "10: r is set again, first in line 5",
        "11: g = 16, but L = 1 to 15 is admitted; trace turns it down with 4",
        "11: entry = 2, but 0 or an odd number from -1 to 1 is wanted; trace turns it down with 5",
        "11: the samples end after 3, but a multiple of N = 2 is wanted",
    ];
    assert_eq!(problems(text), wanted);
    // of what depends on a size that is not known nothing is said
    let text = "p = 4\nq = 2\nN = 3\nr = x\nL = 0\nM = 4294967295\n1 0 2\n1 0\n1 0\n";
    assert_eq!(problems(text), ["4: r = x, but a whole number from 0 to 255 is wanted"]);
}

#[test]
fn samples_are_a_multiple_of_the_block_length() {
    let text = |n: usize, count: usize| {
        let settings = SETTINGS.replace("N = 1", &format!("N = {n}"));
        format!("{settings}{}", "0 3\n".repeat(count))
    };
    for (n, count, blocks) in [(1, 3, 3), (3, 6, 2), (255, 255, 1), (4, 0, 0), (0, 0, 0)] {
        assert_eq!(read(&text(n, count)).unwrap().0.blocks, blocks);
    }
    let wanted = "10: the samples end after 4, but a multiple of N = 3 is wanted";
    assert_eq!(problems(&text(3, 4)), [wanted]);
    assert_eq!(problems(&text(0, 4))[1], "7: a sample, but with N = 0 there can be none");
}

#[test]
fn the_longest_text() {
    let text = |count: usize| format!("{SETTINGS}{}", "0 3\n".repeat(count));
    assert_eq!(read(&text(16381)).unwrap().0.bytes().len(), MOST_BYTES);
    let wanted = "16388: more than 16381 samples, the most that the 65536 bytes of a trace hold";
    for count in [16382, 16383, 20000] {
        assert_eq!(problems(&text(count)), [wanted]);
    }
}
