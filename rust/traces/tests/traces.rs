//! Traces by the thousand: a trace that is shown makes the same trace again, and the problems of its text foresee where
//! the second implementation stops. No trace here gets as far as an exponent's stop, 6.

mod common;

use common::{any_trace, WORKED};
use reference::random::Random;
use reference::vectors::trace_vectors;
use std::collections::BTreeMap;
use traces::text::read;
use traces::trace::{Trace, MOST_BYTES};
use traces::Problem;

/// The bytes that the text of these bytes makes.
fn again(bytes: &[u8]) -> Vec<u8> {
    read(&Trace::of_bytes(bytes).unwrap().text()).unwrap().0.bytes()
}

/// The block and the number of the first stop that is foreseen. In a block all gains are looked at before the entries.
fn foreseen(problems: &[Problem]) -> Option<(usize, u8)> {
    let stops = problems.iter().filter_map(|problem| problem.stop);
    let first = stops.map(|(number, block)| (number > 2, block, number)).min();
    first.map(|(_, block, number)| (block, number))
}

/// The stop of the second implementation.
fn stopped(bytes: &[u8]) -> Option<(usize, u8)> {
    let text = reference::trace(bytes);
    let words: Vec<&str> = text.lines().last()?.split(' ').collect();
    match words[..] {
        ["stop", number, block] => Some((block.parse().unwrap(), number.parse().unwrap())),
        _ => None,
    }
}

/// How many traces stopped with each number, 0 for none.
type Seen = BTreeMap<u8, u32>;

/// Sees that the trace of a text stops where it is foreseen.
fn agree(text: &str, seen: &mut Seen) {
    let (trace, problems) = read(text).unwrap();
    let stopped = stopped(&trace.bytes());
    assert_eq!(foreseen(&problems), stopped, "{text}");
    *seen.entry(stopped.map_or(0, |(_, number)| number)).or_default() += 1;
}

#[test]
fn any_traces() {
    let (mut seen, mut random) = (Seen::new(), Random::new(2));
    for round in 0..5000 {
        let trace = any_trace(&mut random, 1 + round % 400);
        let bytes = trace.bytes();
        assert_eq!(again(&bytes), bytes);
        agree(&trace.text(), &mut seen);
        assert_eq!(Trace::of_bytes(&bytes), Ok(trace));
    }
    let often = [0, 1, 2, 4, 5].map(|number| seen.get(&number).is_some_and(|&count| count > 50));
    assert_eq!(often, [true; 5], "{seen:?}");
}

#[test]
fn the_second_implementations_traces() {
    let (mut seen, mut wrong) = (Seen::new(), 0);
    for vector in trace_vectors() {
        let trace = Trace::of_bytes(&vector.input);
        assert_eq!(trace.is_err(), vector.text == "stop 8 0\n", "{}", vector.about);
        match trace {
            Ok(trace) => {
                assert_eq!(again(&vector.input), vector.input);
                agree(&trace.text(), &mut seen);
            }
            Err(_) => wrong += 1,
        }
    }
    assert!(seen.keys().eq(&[0, 1, 2, 4, 5]), "{seen:?}");
    let good: u32 = seen.values().sum();
    assert!(good > 300 && wrong > 20, "{good} and {wrong}");
}

/// Each setting alone at every byte, each gain and each entry.
#[test]
fn every_byte_of_a_text() {
    let mut seen = Seen::new();
    let settings = "p = 4\nq = 2\nN = 3\nr = 1\nL = 2\nM = 9\n";
    for byte in 0..=255u8 {
        for line in settings.lines().take(5) {
            agree(&settings.replace(line, &format!("{} = {byte}", &line[..1])), &mut seen);
        }
        for sample in [format!("7 {byte} 1"), format!("7 2 {}", byte as i8)] {
            agree(&format!("{settings}7 2 1\n{sample}\n7 2\n"), &mut seen);
        }
    }
    assert_eq!(seen.values().sum::<u32>(), 7 * 256);
}

/// So many bytes, all 0 but for N and the block count.
fn with_counts(length: usize, n: u8, blocks: u16) -> Vec<u8> {
    let mut bytes = vec![0; length];
    bytes[2] = n;
    bytes[6..8].copy_from_slice(&blocks.to_le_bytes());
    bytes
}

#[test]
fn no_samples_and_the_most() {
    for (length, n, blocks) in
        [(12, 0, 0), (12, 0, 1), (12, 0, 65535), (12, 7, 0), (12, 255, 0), (MOST_BYTES, 1, 16381)]
    {
        let bytes = with_counts(length, n, blocks);
        assert_eq!(again(&bytes), bytes);
    }
}

#[test]
fn what_is_no_trace_is_told() {
    let mut byte_5 = WORKED;
    byte_5[5] = 7;
    let more = with_counts(MOST_BYTES + 1, 1, 16381);
    let cases: [(&[u8], &[&str]); 6] = [
        (&[], &["0 bytes, but a trace begins with 12: p, q, N, r, L, 0, the block count, M"]),
        (&WORKED[..11], &["11 bytes, but a trace begins with 12: p, q, N, r, L, 0, the block count, M"]),
        (&WORKED[..19], &["19 bytes, but N = 1 and a block count of 2 ask for 12 + 4·1·2 = 20"]),
        (&byte_5, &["byte 5 is 7, but 0 is wanted"]),
        (
            &byte_5[..19],
            &["byte 5 is 7, but 0 is wanted", "19 bytes, but N = 1 and a block count of 2 ask for 12 + 4·1·2 = 20"],
        ),
        (&more, &["more than 65536 bytes, the most of a trace; N = 1 and a block count of 16381 ask for 65536"]),
    ];
    for (bytes, wanted) in cases {
        assert_eq!(Trace::of_bytes(bytes).unwrap_err(), wanted);
    }
}
