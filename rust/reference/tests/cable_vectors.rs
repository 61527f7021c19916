//! The vectors of cables and descriptions: replayed from their bytes, what they have and how often, and each fault of
//! a wrong cable found.

mod reader;
mod wrong_cable;

use reader::{among, distinct, hold_counts, holds, part, replay, settings, Reader};
use reference::cable::{cable, Cable};
use reference::description::{description, Description};
use reference::settings::Rules;
use reference::vectors::{cable_vectors, description_vectors, CableVector, DescriptionVector};
use reference::{trace, Settings};
use std::collections::BTreeSet;
use wrong_cable::{causes, gain, sums, wrong_cable, CAUSES, FAULTS};

/// The cable at the front of a file of vectors.
fn read_cable(reader: &mut Reader<'_>) -> Description {
    let h = reader.take(12);
    let (symbols, training) = (reader.long() as usize, reader.long());
    assert_eq!(h[5], 0);
    Description {
        settings: settings(h),
        response: (0..u16::from_le_bytes([h[6], h[7]])).map(|_| reader.short() as i16).collect(),
        symbols: reader.take(symbols).iter().map(|&v| v as i8).collect(),
        training,
    }
}

/// The bytes of an operation's answer to the cable at the front of a file; 255 where it is a refusal that writes.
fn cable_answer(reader: &mut Reader<'_>, operation: impl Fn(&Cable<'_>, &mut [u8]) -> u8) -> Vec<u8> {
    let described = read_cable(reader);
    let before: Vec<u8> = (0..reader.long()).map(|at| at as u8 ^ 0x5A).collect();
    let mut lent = before.clone();
    match operation(&described.cable(), &mut lent) {
        0 => [&[0], &lent[..]].concat(),
        number if lent == before => vec![number],
        _ => vec![255],
    }
}

#[test]
fn cables_replay_and_find_every_fault() {
    let vectors: Vec<Vec<u8>> = cable_vectors().iter().map(CableVector::bytes).collect();
    holds(&vectors, |reader| cable_answer(reader, cable));
    let bytes = vectors.concat();
    let with = |fault: &str| replay(&bytes, |reader| cable_answer(reader, |c, output| wrong_cable(c, output, fault)));
    assert_eq!(with(""), Ok(vectors.len()));
    for fault in FAULTS {
        assert!(with(fault).is_err(), "{fault}");
    }
    // More than 65,535 blocks have too long a trace as well.
    for cause in CAUSES {
        assert_eq!(with(cause).is_ok(), cause == "there are more than 65,535 blocks", "{cause}");
    }
}

/// The causes of 10 of a vector, those behind a refused set-up among them.
fn causes_of(vector: &CableVector) -> Vec<&'static str> {
    let mut described = vector.description.clone();
    let settings = &mut described.settings;
    match vector.number {
        1 => *settings = Settings { p: 1, q: 1, m: 0, ..*settings },
        2 => settings.m = 0,
        _ => {}
    }
    match settings.examine() {
        0 => causes(&described.cable(), vector.output, ""),
        _ => Vec::new(),
    }
}

/// How often each cause stands alone, and how often it is the only one behind 1 and behind 2.
#[test]
fn cables_have_every_cause_alone() {
    let causes: Vec<(u8, Vec<&str>)> = cable_vectors().iter().map(|v| (v.number, causes_of(v))).collect();
    let count = |number: u8, wanted: &[&str]| causes.iter().filter(|one| one.0 == number && one.1 == wanted).count();
    let counts = [10, 1, 2].map(|number| CAUSES.map(|cause| count(number, &[cause])));
    let alone = [5, 12, 5, 12, 0, 9, 4, 13, 50, 49, 5, 21, 17, 69, 46];
    let behind_1 = [1, 2, 1, 2, 0, 3, 1, 2, 3, 2, 1, 3, 4, 1, 2];
    let behind_2 = [1, 2, 1, 1, 0, 2, 1, 1, 2, 1, 1, 2, 2, 1, 1];
    assert_eq!(counts, [alone, behind_1, behind_2]);
    hold_counts(&[
        ("accepted, without a cause", 819, count(0, &[])),
        ("turned down with 10, without a cause", 0, count(10, &[])),
        ("too many blocks", 1, causes.iter().filter(|(_, causes)| causes.contains(&CAUSES[4])).count()),
    ]);
}

/// How many lines the trace program writes before it stops, if it stops.
fn lines_run(bytes: &[u8]) -> usize {
    let text = trace(bytes);
    text.lines().take_while(|line| !line.starts_with("stop")).count()
}

/// The vectors that are accepted.
fn accepted() -> Vec<CableVector> {
    let mut vectors = cable_vectors();
    vectors.retain(|vector| vector.number == 0);
    vectors
}

#[test]
fn the_trace_program_runs_every_cable_to_its_end() {
    for vector in accepted() {
        let count = vector.description.symbols.len();
        assert_eq!(lines_run(&vector.trace), count, "{}", vector.about);
        let mut other = vector.trace.clone();
        other[12 + 3 * count - 1] = 16;
        assert!(count > 1000 || lines_run(&other) < count);
    }
}

#[test]
fn cables_have_every_gain_and_sums_beside_it() {
    let [mut gains, mut exactly, mut below, mut seen] = [(); 4].map(|_| BTreeSet::new());
    for vector in cable_vectors().iter().filter(|v| [0, 10].contains(&v.number)) {
        let cable = vector.description.cable();
        let (r, l) = (cable.settings.r, i64::from(cable.settings.l));
        let sums = sums(&cable, "");
        seen.extend(sums.iter().map(|&s| (r, s)));
        if vector.number == 0 || causes_of(vector) == ["some gain is below L"] {
            let own: Vec<i64> = sums.iter().map(|&s| gain(s, &cable, "")).collect();
            let least = *own.iter().min().unwrap();
            let lists = [(least == l, &mut exactly), (least == l - 1, &mut below)];
            lists.into_iter().filter(|(is, _)| *is).for_each(|(_, list)| list.extend([(r, l)]));
            gains.extend(own.iter().map(|&g| (r, g)));
        }
    }
    let powers = (0..=3).flat_map(|r| (0..=15).map(move |g| (r, 1 << (15 + r - g))));
    let beside = powers.flat_map(|(r, power)| [power, power - 1, -power, 1 - power].map(|s| (r, s)));
    hold_counts(&[
        ("r and gains", 64, gains.len()),
        ("r and L with a gain of exactly L", 64, exactly.len()),
        ("r and L with a gain of L - 1", 60, below.len()),
        ("r and sums beside a gain", 4 * 64, beside.filter(|sum| seen.contains(sum)).count()),
    ]);
}

#[test]
fn cables_have_every_length_value_and_training() {
    let accepted: Vec<Description> = accepted().into_iter().map(|vector| vector.description).collect();
    let symbols = || accepted.iter().map(|d| d.symbols.len());
    let count = |is: fn(&&Description) -> bool| accepted.iter().filter(is).count();
    let rs = |is: fn(&&Description) -> bool| distinct(accepted.iter().filter(is).map(|d| d.settings.r));
    hold_counts(&[
        ("N", 128, distinct(accepted.iter().map(|d| d.settings.n))),
        ("lengths of the response", 32, distinct(accepted.iter().map(|d| d.response.len()))),
        ("the most symbols", 16_381, symbols().max().unwrap()),
        ("one symbol, and the most in long blocks", 2, among([1, 126 * 130], symbols())),
        ("a response longer than the symbols", 82, count(|d| d.response.len() > d.symbols.len())),
        ("the longest lists", 1, count(|d| (d.response.len(), d.symbols.len()) == (32, 16_381))),
        ("r with h = -32768 alone", 3, rs(|d| d.response == [-32768])),
        ("r with h = 32767 alone", 4, rs(|d| d.response == [32767])),
        ("r with h = 0 alone", 4, rs(|d| d.response == [0])),
        ("r with 32 values at their ends", 3, rs(|d| d.response.len() == 32 && d.response[..2] == [-32768, 32767])),
        ("r without training", 4, rs(|d| d.training == 0)),
        ("r with some training", 4, rs(|d| (1..d.symbols.len()).contains(&(d.training as usize)))),
        ("r with training alone", 4, rs(|d| d.training as usize == d.symbols.len())),
        ("r with the greatest M", 4, rs(|d| d.settings.m == d.settings.greatest_m())),
        ("r with silence and L = 15", 4, rs(|d| d.settings.l == 15 && sums(&d.cable(), "").iter().all(|&s| s == 0))),
    ]);
}

#[test]
fn descriptions_replay() {
    let vectors: Vec<Vec<u8>> = description_vectors().iter().map(DescriptionVector::bytes).collect();
    holds(&vectors, |reader| {
        let written = description(reader.part());
        [part(&written), part(trace(&written).as_bytes())].concat()
    });
}

/// The lines of the program, in the order in which they are told.
const LINES: [&str; 9] = [
    "8, the description has a wrong length or its byte 5 is not 0",
    "1, a size is outside its limits",
    "2, M is not admitted with these sizes",
    "10, the response is empty or longer than 32",
    "10, the symbols are not 1 to 65535 whole blocks of N",
    "10, there are more training entries than symbols",
    "10, the trace would be longer than 65536 bytes",
    "10, an entry is not a symbol",
    "10, some gain would be below L or does not exist",
];

/// The lines that a description deserves, read from its bytes.
fn lines_of(input: &[u8]) -> BTreeSet<usize> {
    let field = |at: usize, bytes: usize| -> u64 {
        let taken = input[at..at + bytes].iter().rev();
        taken.fold(0, |a, &byte| 256 * a + u64::from(byte))
    };
    if input.len() < 20 || input.len() as u64 != 20 + 2 * field(6, 2) + field(12, 4) {
        return BTreeSet::from([0]);
    }
    let mut lines = BTreeSet::new();
    if input[5] != 0 || input.len() > 65_536 {
        lines.insert(0);
    }
    let mut described = read_cable(&mut Reader(&[&input[..5], &[0], &input[6..]].concat()));
    if described.settings.examine() == 1 {
        lines.insert(1);
        (described.settings.p, described.settings.q) = (1, 1);
    }
    if described.settings.examine() == 2 {
        lines.insert(2);
        described.settings.m = 0;
    }
    if described.settings.examine() != 0 {
        return lines;
    }
    let cable = described.cable();
    for cause in causes(&cable, cable.trace_length(), "") {
        let at = CAUSES.iter().position(|&one| one == cause).unwrap();
        lines.insert([3, 3, 4, 4, 4, 5, 6, 7, 7, 7, 0, 0, 0, 8, 8][at]);
    }
    lines
}

#[test]
fn descriptions_tell_the_first_line() {
    let mut seen = [0; 10];
    let mut pairs = BTreeSet::new();
    let vectors = description_vectors();
    for vector in &vectors {
        let lines: Vec<usize> = lines_of(&vector.input).into_iter().collect();
        let Some((&first, others)) = lines.split_first() else {
            let described = read_cable(&mut Reader(&vector.input));
            let mut trace = vec![0; 12 + 4 * described.symbols.len()];
            assert_eq!(wrong_cable(&described.cable(), &mut trace, ""), 0);
            assert!(vector.written == trace, "{vector:?}");
            assert_eq!(vector.text.lines().count(), described.symbols.len());
            seen[9] += 1;
            continue;
        };
        assert_eq!(vector.written, format!("cable: {}\n", LINES[first]).as_bytes(), "{vector:?}");
        assert_eq!(vector.text, "stop 8 0\n");
        seen[first] += 1;
        pairs.extend(others.iter().map(|&other| (first, other)));
    }
    // 51 answer 8, 23 answer 1, 8 answer 2, the others 10 by its six lines; 9 are traces. Any two lines have a
    // description with both causes.
    assert_eq!((seen, pairs.len()), ([51, 23, 8, 9, 7, 5, 4, 5, 2, 9], 36));
    assert_eq!(among([0, 1, 19, 20, 65_536, 65_537], vectors.iter().map(|vector| vector.input.len())), 6);
    assert_eq!(vectors.iter().map(|vector| vector.written.len()).max(), Some(65_536));
}
