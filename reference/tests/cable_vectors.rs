//! The vectors of cables and descriptions: replayed from their bytes, each
//! kind present, and each fault of a wrong cable found.

mod reader;
mod wrong_cable;

use reader::Reader;
use reference::cable::{cable, Cable};
use reference::description::{description, Description};
use reference::vectors::{cable_vectors, description_vectors, CableVector, DescriptionVector};
use reference::{trace, Settings};
use std::collections::{BTreeMap, BTreeSet};
use wrong_cable::{causes, gain, sums, wrong_cable, CAUSES, FAULTS};

const README: &str = include_str!("../README.md");

fn bytes_of<V>(list: &[V], bytes: fn(&V) -> Vec<u8>) -> Vec<u8> {
    list.iter().flat_map(bytes).collect()
}

/// The cable at the front of a file of vectors.
fn read_cable(reader: &mut Reader<'_>) -> Description {
    let h = reader.take(6);
    let values = usize::from(reader.short());
    let (m, symbols, training) = (reader.long(), reader.long() as usize, reader.long());
    assert_eq!(h[5], 0);
    Description {
        settings: Settings {
            p: h[0],
            q: h[1],
            n: h[2],
            r: h[3],
            l: h[4],
            m,
        },
        response: (0..values).map(|_| reader.short() as i16).collect(),
        symbols: reader.take(symbols).iter().map(|&v| v as i8).collect(),
        training,
    }
}

/// Replays cables from their bytes: their count, or the place of one that is
/// not as expected.
fn replay(bytes: &[u8], operation: impl Fn(&Cable<'_>, &mut [u8]) -> u8) -> Result<usize, usize> {
    let mut reader = Reader(bytes);
    let mut count = 0;
    while !reader.0.is_empty() {
        let described = read_cable(&mut reader);
        let output = reader.long() as usize;
        let expected = reader.byte();
        let before: Vec<u8> = (0..output).map(|at| at as u8 ^ 0x5A).collect();
        let mut lent = before.clone();
        if operation(&described.cable(), &mut lent) != expected {
            return Err(count);
        }
        let expected = match expected {
            0 if reader.0.len() < output => return Err(count),
            0 => reader.take(output),
            _ => &before[..],
        };
        if lent != expected {
            return Err(count);
        }
        count += 1;
    }
    Ok(count)
}

#[test]
fn cables_replay() {
    let vectors = cable_vectors();
    let bytes = bytes_of(&vectors, CableVector::bytes);
    assert!(bytes.len() < 600_000);
    assert_eq!(replay(&bytes, cable), Ok(vectors.len()));
    assert!(vectors.len() >= 400);
}

#[test]
fn a_damaged_expectation_of_a_cable_is_found() {
    for vector in cable_vectors().iter().filter(|v| v.trace.len() < 300) {
        let bytes = vector.bytes();
        let number = bytes.len() - vector.trace.len() - 1;
        for place in number..bytes.len() {
            let mut other = bytes.clone();
            other[place] ^= 1 << (place % 8);
            assert!(replay(&other, cable).is_err(), "{vector:?}: byte {place}");
        }
        let mut longer = bytes.clone();
        longer[number - 4] ^= 1;
        let accepted = vector.number == 0;
        assert!(!accepted || replay(&longer, cable).is_err(), "{vector:?}");
    }
}

#[test]
fn every_fault_of_a_cable_is_found() {
    let bytes = bytes_of(&cable_vectors(), CableVector::bytes);
    let with = |fault: &'static str| replay(&bytes, |c, output| wrong_cable(c, output, fault));
    assert_eq!(with(""), replay(&bytes, cable));
    for fault in FAULTS {
        assert!(with(fault).is_err(), "{fault}");
    }
    // More than 65,535 blocks have too long a trace as well.
    for cause in CAUSES {
        assert_eq!(
            with(cause).is_ok(),
            cause == "there are more than 65,535 blocks",
            "{cause}"
        );
    }
}

/// The causes of 10 of a vector, those behind a refused set-up among them.
fn causes_of(vector: &CableVector) -> Vec<&'static str> {
    let mut described = vector.description.clone();
    let settings = &mut described.settings;
    match vector.number {
        1 => {
            *settings = Settings {
                p: 1,
                q: 1,
                m: 0,
                ..*settings
            }
        }
        2 => settings.m = 0,
        _ => {}
    }
    match settings.examine() {
        0 => causes(&described.cable(), vector.output, ""),
        _ => Vec::new(),
    }
}

/// How often each cause stands alone among the vectors with a number.
fn alone(number: u8) -> BTreeMap<&'static str, usize> {
    let mut counts = BTreeMap::new();
    for vector in cable_vectors().iter().filter(|v| v.number == number) {
        if let [cause] = causes_of(vector)[..] {
            *counts.entry(cause).or_insert(0) += 1;
        }
    }
    counts
}

#[test]
fn cables_have_every_cause_alone() {
    assert!(alone(0).is_empty());
    let [ten, one, two] = [10, 1, 2].map(alone);
    for cause in CAUSES {
        let count = |counts: &BTreeMap<&str, usize>| counts.get(cause).copied().unwrap_or(0);
        let counts = [count(&ten), count(&one), count(&two)];
        if cause == "there are more than 65,535 blocks" {
            assert_eq!(counts, [0, 0, 0]);
            continue;
        }
        assert!(
            counts[0] >= 3 && counts[1] >= 1 && counts[2] >= 1,
            "{cause}"
        );
        let row = format!(
            "| {cause} | {} | {} | {} |",
            counts[0], counts[1], counts[2]
        );
        assert!(README.contains(&row), "no row in README.md: {row}");
    }
    let blocks = |v: &&CableVector| causes_of(v).contains(&CAUSES[4]);
    assert_eq!(cable_vectors().iter().filter(blocks).count(), 1);
}

#[test]
fn cables_have_every_number() {
    let mut numbers = BTreeMap::new();
    for vector in cable_vectors() {
        *numbers.entry(vector.number).or_insert(0) += 1;
    }
    let [none, one, two, ten] = [0, 1, 2, 10].map(|number| numbers[&number]);
    assert_eq!(numbers.len(), 4, "{numbers:?}");
    assert!(none >= 400 && ten >= 200 && one >= 30 && two >= 30);
    let words = format!("{none} are accepted; {one} answer 1, {two} answer 2 and {ten} answer 10");
    assert!(README.contains(&words), "not in README.md: {words}");
}

/// How many lines the trace program writes before it stops, if it stops.
fn lines_run(bytes: &[u8]) -> usize {
    let text = trace(bytes);
    text.lines()
        .take_while(|line| !line.starts_with("stop"))
        .count()
}

#[test]
fn the_trace_program_runs_every_cable_to_its_end() {
    for vector in accepted() {
        let count = vector.description.symbols.len();
        assert_eq!(lines_run(&vector.trace), count, "{}", vector.about);
        let mut other = vector.trace.clone();
        other[12 + 3 * count - 1] = 16;
        assert!(count > 1000 || lines_run(&other) < count);
    }
}

/// The vectors that are accepted.
fn accepted() -> Vec<CableVector> {
    let mut vectors = cable_vectors();
    vectors.retain(|vector| vector.number == 0);
    vectors
}

/// The sums beside a gain, as r and s, that were not seen.
fn missing(seen: &BTreeSet<(u8, i64)>) -> Vec<(u8, i64)> {
    let powers = (0..=3).flat_map(|r| (0..=15).map(move |g| (r, 1 << (15 + r - g))));
    let sums = powers.flat_map(|(r, power)| {
        let beside = [power, power - 1, -power, 1 - power];
        beside.map(|s| (r, s))
    });
    sums.filter(|sum| !seen.contains(sum)).collect()
}

#[test]
fn cables_have_sums_beside_every_gain() {
    let mut seen = BTreeSet::new();
    for vector in cable_vectors() {
        if [0, 10].contains(&vector.number) {
            let sums = sums(&vector.description.cable(), "");
            seen.extend(sums.iter().map(|&s| (vector.description.settings.r, s)));
        }
    }
    assert_eq!(missing(&seen), []);
    seen.remove(&(2, -512));
    assert_eq!(missing(&seen), [(2, -512)]);
}

#[test]
fn cables_have_every_gain_and_least_gain() {
    let mut gains = BTreeSet::new();
    let mut exactly = BTreeSet::new();
    let mut below = BTreeSet::new();
    for vector in cable_vectors() {
        let cable = vector.description.cable();
        let (r, l) = (cable.settings.r, cable.settings.l);
        if vector.number != 0 && causes_of(&vector) != ["some gain is below L"] {
            continue;
        }
        let all: Vec<i64> = sums(&cable, "")
            .iter()
            .map(|&s| gain(s, &cable, ""))
            .collect();
        let least = all.iter().copied().min().unwrap();
        match vector.number {
            0 if least == i64::from(l) => drop(exactly.insert((r, l))),
            10 if least == i64::from(l) - 1 => drop(below.insert((r, l))),
            _ => {}
        }
        gains.extend(all.iter().map(|&g| (r, g)));
    }
    assert_eq!((gains.len(), exactly.len(), below.len()), (64, 64, 60));
}

#[test]
fn cables_have_every_length() {
    let accepted = accepted();
    let seen = |what: fn(&CableVector) -> usize| accepted.iter().map(what).collect();
    let blocks: BTreeSet<usize> = seen(|v| usize::from(v.description.settings.n));
    assert!(blocks.into_iter().eq(1..=128));
    let values: BTreeSet<usize> = seen(|v| v.description.response.len());
    assert!(values.into_iter().eq(1..=32));
    let lengths: BTreeSet<usize> = seen(|v| v.trace.len());
    assert_eq!(lengths.last(), Some(&65_536));
    assert!(lengths.contains(&16) && lengths.contains(&65_532));
    let lists = |v: &CableVector| (v.description.response.len(), v.description.symbols.len());
    assert!(accepted.iter().any(|v| lists(v) == (32, 16_381)));
    let longer = accepted.iter().filter(|v| lists(v).0 > lists(v).1);
    assert!(longer.count() >= 30);
}

#[test]
fn cables_have_every_kind_of_value_and_training() {
    let accepted = accepted();
    let with = |r: u8| {
        accepted
            .iter()
            .filter(move |v| v.description.settings.r == r)
    };
    for r in 0..=3 {
        for h in [-32768, 32767, 0] {
            assert!(r == 0 && h == -32768 || with(r).any(|v| v.description.response == [h]));
        }
        let training = |v: &CableVector| v.description.training as usize;
        let count = |v: &CableVector| v.description.symbols.len();
        assert!(with(r).any(|v| training(v) == 0));
        assert!(with(r).any(|v| training(v) == count(v)));
        assert!(with(r).any(|v| 0 < training(v) && training(v) < count(v)));
        let mut steps = with(r).map(|v| v.description.settings);
        assert!(steps.any(|s| s.m == s.largest_m()));
        let silent = |v: &&CableVector| sums(&v.description.cable(), "").iter().all(|&s| s == 0);
        assert!(with(r)
            .filter(silent)
            .any(|v| v.description.settings.l == 15));
    }
    let ends = |v: &CableVector| v.description.response[..2] == [-32768, 32767];
    let long = |v: &&CableVector| v.description.response.len() == 32;
    assert!(accepted.iter().filter(long).any(ends));
}

/// A length and so many bytes after it, where there are so many.
fn part<'a>(reader: &mut Reader<'a>) -> Option<&'a [u8]> {
    let has_length = reader.0.len() >= 4;
    let length = has_length.then(|| reader.long() as usize)?;
    (length <= reader.0.len()).then(|| reader.take(length))
}

/// Replays descriptions from their bytes, as [`replay`] does.
fn replay_descriptions(bytes: &[u8]) -> Result<usize, usize> {
    let mut reader = Reader(bytes);
    let mut count = 0;
    while !reader.0.is_empty() {
        let written = part(&mut reader).map(description).ok_or(count)?;
        let text = trace(&written);
        if part(&mut reader) != Some(&written) || part(&mut reader) != Some(text.as_bytes()) {
            return Err(count);
        }
        count += 1;
    }
    Ok(count)
}

#[test]
fn descriptions_replay() {
    let vectors = description_vectors();
    let bytes = bytes_of(&vectors, DescriptionVector::bytes);
    assert!(bytes.len() < 800_000);
    assert_eq!(replay_descriptions(&bytes), Ok(vectors.len()));
    assert!(vectors.len() >= 60);
}

#[test]
fn a_damaged_expectation_of_a_description_is_found() {
    for vector in description_vectors()
        .iter()
        .filter(|v| v.input.len() < 1000)
    {
        let bytes = vector.bytes();
        for place in vector.input.len() + 4..bytes.len() {
            let mut other = bytes.clone();
            other[place] ^= 1 << (place % 8);
            assert!(
                replay_descriptions(&other).is_err(),
                "{vector:?}: byte {place}"
            );
        }
    }
}

/// The lines of the program, in the order in which they are told.
const LINES: [&str; 9] = [
    "8, the description has a wrong length or its byte 5 is not 0",
    "1, a size is outside its limits",
    "2, M is not admitted with these sizes",
    "10, the response is empty or longer than 32",
    "10, the symbols are not 1 to 65535 whole blocks of N",
    "10, there are more training entries than symbols",
    "10, the trace would be longer than 65536 bytes",
    "10, an entry is not a symbol",
    "10, some gain would be below L or does not exist",
];

/// The lines that a description deserves, read from its bytes.
fn lines_of(input: &[u8]) -> BTreeSet<usize> {
    let field = |at: usize, bytes: usize| -> u64 {
        let taken = input[at..at + bytes].iter().rev();
        taken.fold(0, |a, &byte| 256 * a + u64::from(byte))
    };
    if input.len() < 20 || input.len() as u64 != 20 + 2 * field(6, 2) + field(12, 4) {
        return BTreeSet::from([0]);
    }
    let mut lines = BTreeSet::new();
    if input[5] != 0 || input.len() > 65_536 {
        lines.insert(0);
    }
    let mut described = read_cable(&mut Reader(&[&input[..5], &[0], &input[6..]].concat()));
    if described.settings.examine() == 1 {
        lines.insert(1);
        (described.settings.p, described.settings.q) = (1, 1);
    }
    if described.settings.examine() == 2 {
        lines.insert(2);
        described.settings.m = 0;
    }
    if described.settings.examine() != 0 {
        return lines;
    }
    let cable = described.cable();
    for cause in causes(&cable, cable.trace_length(), "") {
        let at = CAUSES.iter().position(|&one| one == cause).unwrap();
        lines.insert([3, 3, 4, 4, 4, 5, 6, 7, 7, 7, 0, 0, 0, 8, 8][at]);
    }
    lines
}

#[test]
fn descriptions_tell_the_first_line() {
    let mut seen = BTreeMap::new();
    let mut pairs = BTreeSet::new();
    for vector in description_vectors() {
        let lines: Vec<usize> = lines_of(&vector.input).into_iter().collect();
        let Some(&first) = lines.first() else {
            let described = read_cable(&mut Reader(&vector.input));
            let mut trace = vec![0; 12 + 4 * described.symbols.len()];
            assert_eq!(wrong_cable(&described.cable(), &mut trace, ""), 0);
            assert!(vector.written == trace, "{vector:?}");
            assert_eq!(vector.text.lines().count(), described.symbols.len());
            *seen.entry(9).or_insert(0) += 1;
            continue;
        };
        let line = format!("cable: {}\n", LINES[first]);
        assert_eq!(vector.written, line.as_bytes(), "{vector:?}");
        assert_eq!(vector.text, "stop 8 0\n");
        *seen.entry(first).or_insert(0) += 1;
        pairs.extend(lines.iter().skip(1).map(|&other| (first, other)));
    }
    assert!((0..=9).all(|line| seen[&line] >= 2), "{seen:?}");
    let ten: usize = (3..9).map(|line| seen[&line]).sum();
    let words = format!(
        "{} are traces, {} answer 8, {} answer 1, {} answer 2 and {ten} answer 10",
        seen[&9], seen[&0], seen[&1], seen[&2]
    );
    assert!(README.contains(&words), "not in README.md: {words}");
    for first in 0..9 {
        for other in first + 1..9 {
            assert!(pairs.contains(&(first, other)), "{first} and {other}");
        }
    }
}

#[test]
fn descriptions_have_every_length() {
    let vectors = description_vectors();
    for length in [0, 1, 19, 20, 65_536, 65_537] {
        assert!(vectors.iter().any(|v| v.input.len() == length), "{length}");
    }
    assert!(vectors.iter().any(|v| v.written.len() == 65_536));
    assert!(!vectors.iter().any(|v| v.written.is_empty()));
}

fn stored(name: &str) -> Vec<u8> {
    let path = format!("{}/../laboratory/{name}", env!("CARGO_MANIFEST_DIR"));
    std::fs::read(&path).unwrap_or_else(|error| panic!("{name}: {error}"))
}

#[test]
fn the_stored_cables_are_these() {
    let cables = || bytes_of(&cable_vectors(), CableVector::bytes);
    let descriptions = || bytes_of(&description_vectors(), DescriptionVector::bytes);
    assert!(cables() == cables() && descriptions() == descriptions());
    assert!(stored("cables.bin") == cables(), "run reference/regenerate");
    assert!(
        stored("descriptions.bin") == descriptions(),
        "run reference/regenerate"
    );
}
