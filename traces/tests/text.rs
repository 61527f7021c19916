//! Texts: what may stand in one, and every kind of wrong line.

use traces::text::read;
use traces::trace::{Sample, MOST_BYTES};

const SETTINGS: &str = "p = 1\nq = 2\nN = 1\nr = 0\nL = 3\nM = 5\n";

/// The problems as `line: text`.
fn problems(text: &str) -> Vec<String> {
    let problems = read(text).expect_err(text).into_iter();
    let problems = problems.map(|problem| format!("{}: {}", problem.line, problem.text));
    problems.collect()
}

#[test]
fn what_may_stand_in_a_text() {
    let plain = read(&format!("{SETTINGS}1 2 3\n-4 5\n")).unwrap().trace;
    let text = "\u{FEFF}# a remark = 1\r\n\r\n  M=5 # the step\r\nL =3\r\nN= 1\r\n\tq = 2\r\nr = +0\r\n\r\np = 1\r\nblocks = 2\r\n\
        # remark\r\n1\t2   3# end\r\n\r\n -4 5";
    let read = read(text).unwrap();
    assert_eq!(read.trace, plain);
    assert_eq!(read.setting_lines, [9, 6, 5, 7, 4, 3]);
    assert_eq!(read.sample_lines, [12, 14]);
    let last = Sample {
        m: -4,
        g: 5,
        entry: 0,
    };
    assert_eq!(plain.samples[1], last);
}

#[test]
fn wrong_settings() {
    let whole = "a whole number from 0 to 255 is wanted";
    let step = "a whole number from 0 to 4294967295 is wanted";
    let known = "there are p, q, N, r, L, M, blocks";
    let cases = [
        ("p = 1", "p = 256", format!("1: p = 256, but {whole}")),
        ("p = 1", "p = -1", format!("1: p = -1, but {whole}")),
        ("p = 1", "p =", format!("1: p = nothing, but {whole}")),
        ("p = 1", "p = 0x1", format!("1: p = 0x1, but {whole}")),
        ("p = 1", "p = 1.0", format!("1: p = 1.0, but {whole}")),
        (
            "p = 1",
            "p = 1, q = 1",
            format!("1: p = 1, q = 1, but {whole}"),
        ),
        ("q = 2", "q = two", format!("2: q = two, but {whole}")),
        ("N = 1", "N = 256", format!("3: N = 256, but {whole}")),
        ("r = 0", "r = 300", format!("4: r = 300, but {whole}")),
        ("L = 3", "L = 1 2", format!("5: L = 1 2, but {whole}")),
        (
            "M = 5",
            "M = 4294967296",
            format!("6: M = 4294967296, but {step}"),
        ),
        (
            "M = 5",
            "M = 99999999999999999999",
            format!("6: M = 99999999999999999999, but {step}"),
        ),
        (
            "M = 5",
            "M = 5\np = 1",
            "7: p is set again, first in line 1".to_string(),
        ),
        (
            "M = 5",
            "M = 5\nK = 1",
            format!("7: K is no setting; {known}"),
        ),
        (
            "M = 5",
            "M = 5\n= 1",
            format!("7: nothing is no setting; {known}"),
        ),
        (
            "M = 5",
            "M = 5\nblocks = 65536",
            "7: blocks = 65536, but a whole number from 0 to 65535 is wanted".to_string(),
        ),
        (
            "M = 5",
            "M = 5\nblocks = 2",
            "7: blocks = 2, but the samples make 1".to_string(),
        ),
    ];
    for (from, to, wanted) in cases {
        let text = format!("{}0 3\n", SETTINGS.replace(from, to));
        assert_eq!(problems(&text), [wanted], "{text}");
    }
}

#[test]
fn missing_and_late_settings() {
    assert_eq!(
        problems(""),
        ["1: the text ends, but not set: p, q, N, r, L, M"]
    );
    assert_eq!(
        problems("p = 1\n\n# x\n"),
        ["3: the text ends, but not set: q, N, r, L, M"]
    );
    let text = format!("{}1 2\n3 4\n", SETTINGS.replace("q = 2\n", ""));
    assert_eq!(problems(&text), ["6: a sample, but not set before: q"]);
    let text = format!("1 2\n{SETTINGS}");
    let late = problems(&text);
    assert_eq!(late.len(), 6);
    assert_eq!(
        late[0],
        "2: p is set after the first sample, that of line 1"
    );
}

#[test]
fn wrong_samples() {
    let cases = [
        (
            "40000 0",
            "m = 40000, but a whole number from -32768 to 32767 is wanted",
        ),
        (
            "-32769 0",
            "m = -32769, but a whole number from -32768 to 32767 is wanted",
        ),
        (
            "0 256",
            "g = 256, but a whole number from 0 to 255 is wanted",
        ),
        ("0 -1", "g = -1, but a whole number from 0 to 255 is wanted"),
        (
            "0 0 128",
            "entry = 128, but a whole number from -128 to 127 is wanted",
        ),
        (
            "0 0 -129",
            "entry = -129, but a whole number from -128 to 127 is wanted",
        ),
        (
            "0 0 +",
            "entry = +, but a whole number from -128 to 127 is wanted",
        ),
        (
            "7",
            "values: 1 (7), but m and g are wanted, or m, g and a training entry, with spaces between",
        ),
        (
            "1 2 3 4",
            "values: 4 (1 2 3 4), but m and g are wanted, or m, g and a training entry, with spaces between",
        ),
        (
            "1,2",
            "values: 1 (1,2), but m and g are wanted, or m, g and a training entry, with spaces between",
        ),
    ];
    for (line, wanted) in cases {
        let text = format!("{SETTINGS}0 3\n{line}\n0 3\n");
        assert_eq!(problems(&text), [format!("8: {wanted}")]);
    }
    let ends = format!("{SETTINGS}-32768 0 -128\n32767 255 127\n");
    assert_eq!(read(&ends).unwrap().trace.samples.len(), 2);
}

#[test]
fn a_long_word_is_cut_and_an_odd_one_escaped() {
    let text = format!("{SETTINGS}{} 0\n\u{1b}[2J 0\n", "9".repeat(500));
    let problems = problems(&text);
    assert!(
        problems.iter().all(|problem| problem.len() < 120),
        "{problems:?}"
    );
    assert!(problems[0].contains("99..., but"), "{problems:?}");
    assert!(problems[1].contains("m = \\u{1b}[2J, but"), "{problems:?}");
}

#[test]
fn problems_stand_in_the_order_of_lines() {
    let text = "p = 1\nx = 1\nN = 2\nr = 0\nL = 0\nM = 5\n1 2\n3\nr = 1\n5 6\n";
    let lines: Vec<usize> = read(text).unwrap_err().iter().map(|p| p.line).collect();
    assert_eq!(lines, [2, 7, 8, 9, 10]);
}

#[test]
fn samples_are_a_multiple_of_the_block_length() {
    let text = |n: usize, count: usize| {
        let settings = SETTINGS.replace("N = 1", &format!("N = {n}"));
        format!("{settings}{}", "0 3\n".repeat(count))
    };
    for (n, count, blocks) in [(1, 3, 3), (3, 6, 2), (255, 255, 1), (4, 0, 0), (0, 0, 0)] {
        assert_eq!(read(&text(n, count)).unwrap().trace.blocks, blocks);
    }
    let wanted = "10: the samples end after 4, but a multiple of N = 3 is wanted";
    assert_eq!(problems(&text(3, 4)), [wanted]);
    let wanted = "7: a sample, but with N = 0 there can be none";
    assert_eq!(problems(&text(0, 4)), [wanted]);
}

#[test]
fn the_longest_text() {
    let text = |count: usize| format!("{SETTINGS}{}", "0 3\n".repeat(count));
    assert_eq!(read(&text(16381)).unwrap().trace.bytes().len(), MOST_BYTES);
    let wanted = "16388: more than 16381 samples, the most that the 65536 bytes of a trace hold";
    for count in [16382, 16383, 20000] {
        assert_eq!(problems(&text(count)), [wanted]);
    }
}
