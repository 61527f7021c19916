//! The warnings agree with the second implementation: what they foresee is
//! where it stops. No trace here gets as far as an exponent's stop, 6.

mod common;

use common::{any_trace, stored};
use reference::random::Random;
use std::collections::BTreeMap;
use traces::refusals::{refusals, Refusal};
use traces::show;
use traces::text::{read, Read};
use traces::trace::Trace;

fn as_text(trace: &Trace) -> (String, Read) {
    let text = show::text(trace);
    let read = read(&text).unwrap();
    (text, read)
}

/// The number and the block of the first stop that the warnings foresee. In a
/// block all gains are looked at before the entries.
fn foreseen(refusals: &[Refusal]) -> Option<(usize, u8)> {
    let at_set_up = |number: u8| number <= 2;
    let place = |refusal: &Refusal| (!at_set_up(refusal.number), refusal.block, refusal.number);
    let first = refusals.iter().map(place).min();
    first.map(|(_, block, number)| (block, number))
}

/// The stop of the second implementation.
fn stopped(bytes: &[u8]) -> Option<(usize, u8)> {
    let text = reference::trace(bytes);
    let words: Vec<&str> = text.lines().last()?.split(' ').collect();
    match words[..] {
        ["stop", number, block] => Some((block.parse().unwrap(), number.parse().unwrap())),
        _ => None,
    }
}

/// Sees that both agree; counts by the number of the stop, 0 for none.
fn agree(trace: &Trace, seen: &mut BTreeMap<u8, u32>) {
    let (text, read) = as_text(trace);
    let foreseen = foreseen(&refusals(&read));
    let stopped = stopped(&trace.bytes());
    assert_eq!(foreseen, stopped, "{text}");
    *seen
        .entry(stopped.map_or(0, |(_, number)| number))
        .or_default() += 1;
}

#[test]
fn on_the_stored_traces() {
    let mut seen = BTreeMap::new();
    for (bytes, _) in stored() {
        if let Ok(trace) = Trace::of_bytes(&bytes) {
            agree(&trace, &mut seen);
        }
    }
    let all: Vec<u8> = seen.keys().copied().collect();
    assert_eq!(all, [0, 1, 2, 4, 5], "{seen:?}");
}

#[test]
fn on_any_traces() {
    let mut seen = BTreeMap::new();
    let mut random = Random::new(2);
    for round in 0..4000 {
        agree(&any_trace(&mut random, 2 + round % 400), &mut seen);
    }
    let often = [0, 1, 2, 4, 5].map(|number| seen.get(&number).is_some_and(|&count| count > 50));
    assert_eq!(often, [true; 5], "{seen:?}");
}

/// Each setting alone at every byte, each gain and each entry.
#[test]
fn on_every_byte() {
    let mut seen = BTreeMap::new();
    for byte in 0..=255u8 {
        let settings = "p = 4\nq = 2\nN = 3\nr = 1\nL = 2\nM = 9\n";
        for name in ["p", "q", "N", "r", "L"] {
            let line = settings
                .lines()
                .find(|line| line.starts_with(name))
                .unwrap();
            let text = settings.replace(line, &format!("{name} = {byte}"));
            agree(&read(&text).unwrap().trace, &mut seen);
        }
        let samples = [format!("7 {byte} 1"), format!("7 2 {}", byte as i8)];
        for sample in samples {
            let text = format!("{settings}7 2 1\n{sample}\n7 2\n");
            agree(&read(&text).unwrap().trace, &mut seen);
        }
    }
    assert_eq!(seen.values().sum::<u32>(), 7 * 256);
}

#[test]
fn beside_the_greatest_step() {
    for (p, q, r, l, most) in [(1, 1, 0, 0, 67_108_864), (3, 3, 2, 1, 2_581_110)] {
        let text = |m: u32| format!("p = {p}\nq = {q}\nN = 4\nr = {r}\nL = {l}\nM = {m}\n");
        assert_eq!(refusals(&read(&text(most)).unwrap()), []);
        let refused = refusals(&read(&text(most + 1)).unwrap());
        let wanted = format!("at most {most} is admitted");
        assert_eq!(refused.len(), 1);
        assert!(refused[0].problem.text.contains(&wanted), "{refused:?}");
    }
}

#[test]
fn each_is_told_with_its_line() {
    let text = "p = 4\nq = 17\nN = 2\nr = 1\nL = 2\nM = 9\n0 1 2\n0 16 -5\n";
    let refused = refusals(&read(text).unwrap());
    let told: Vec<String> = refused
        .iter()
        .map(|refusal| format!("{}: {}", refusal.problem.line, refusal.problem.text))
        .collect();
    assert_eq!(
        told,
        [
            "2: q = 17, but 1 to 16 is admitted; trace turns it down with 1",
            "3: N = 2, but 3 to 128 is admitted, p - 1 being the least; trace turns it down with 1",
            "7: g = 1, but L = 2 to 15 is admitted; trace turns it down with 4",
            "7: entry = 2, but 0 or an odd number from -3 to 3 is wanted; trace turns it down with 5",
            "8: g = 16, but L = 2 to 15 is admitted; trace turns it down with 4",
            "8: entry = -5, but 0 or an odd number from -3 to 3 is wanted; trace turns it down with 5",
        ]
    );
}
