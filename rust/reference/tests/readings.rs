//! Readings for plots: the vectors replayed from their bytes, by the second
//! implementation and in the machine's f64, each fault of wrong readings found,
//! and what blocks hand out.

mod reader;
mod wrong_readings;

use reader::Reader;
use reference::exact::Exact;
use reference::random::Random;
use reference::readings::{readings, Reading};
use reference::vectors::{handed_out, readings_vectors, Lists, ReadingsVector};
use std::collections::{BTreeMap, BTreeSet};
use wrong_readings::{causes, wrong_readings, Answer, Bits, Way, CAUSES, FAULTS};

/// Readings with other bits at each place, as they are lent.
fn lent(count: usize) -> Vec<Bits> {
    let bits = |place: u64| 0x4B1D_5EED_0000_0000 + 3 * place;
    (0..count as u64).map(|place| [bits(place), !bits(place)]).collect()
}

/// The second implementation over bits.
fn by_bits(lists: &Lists, lent: &mut [Bits]) -> Answer {
    let from_bits = |&[y, error]: &Bits| Reading { y: f64::from_bits(y), error: f64::from_bits(error) };
    let mut own: Vec<Reading> = lent.iter().map(from_bits).collect();
    let answer = readings(&lists.inputs(), &mut own);
    lent.iter_mut().zip(&own).for_each(|(bits, reading)| *bits = reading.bits());
    match answer {
        Ok(power) => (0, power.is_floor(), power.value().to_bits()),
        Err(number) => (number, false, 0),
    }
}

/// What the front of a list of vectors expects: the lists, the answer and the
/// readings after it; nothing where it is no vector.
fn expected(reader: &mut Reader<'_>) -> Option<(Lists, Answer, Vec<Bits>)> {
    let lengths = [0; 5].map(|_| usize::from(reader.short()));
    let lists = Lists {
        y: (0..lengths[0]).map(|_| reader.long() as i32).collect(),
        xi: reader.take(lengths[1]).to_vec(),
        z: (0..lengths[2]).map(|_| reader.long() as i32).collect(),
        theta: reader.take(lengths[3]).to_vec(),
        readings: lengths[4],
    };
    let mut left = lent(lists.readings);
    let number = reader.byte();
    if number != 0 {
        return Some((lists, (number, false, 0), left));
    }
    if reader.0.len() < 9 + 16 * left.len() {
        return None;
    }
    let (is_floor, power) = (reader.byte(), reader.double());
    left.fill_with(|| [reader.double(), reader.double()]);
    (is_floor < 2).then_some((lists, (0, is_floor == 1, power), left))
}

/// Replays vectors from their bytes: their count, or the place of one that is
/// not as expected.
fn replay(bytes: &[u8], operation: impl Fn(&Lists, &mut [Bits]) -> Answer) -> Result<usize, usize> {
    let mut reader = Reader(bytes);
    let mut count = 0;
    while !reader.0.is_empty() {
        let (lists, answer, left) = expected(&mut reader).ok_or(count)?;
        let mut readings = lent(lists.readings);
        if operation(&lists, &mut readings) != answer || readings != left {
            return Err(count);
        }
        count += 1;
    }
    Ok(count)
}

fn bytes_of(list: &[ReadingsVector]) -> Vec<u8> {
    list.iter().flat_map(ReadingsVector::bytes).collect()
}

/// The vectors that are accepted.
fn accepted() -> Vec<ReadingsVector> {
    let mut vectors = readings_vectors();
    vectors.retain(|vector| vector.number == 0);
    vectors
}

#[test]
fn every_fault_of_readings_is_found() {
    let vectors = readings_vectors();
    let bytes = bytes_of(&vectors);
    let with = |fault: &'static str| {
        let way = Way::with(fault);
        replay(&bytes, |lists, lent| wrong_readings(lists, lent, &way))
    };
    assert_eq!([replay(&bytes, by_bits), with("")], [Ok(vectors.len()); 2]);
    for fault in FAULTS.map(|(fault, _)| fault).into_iter().chain(CAUSES) {
        assert!(with(fault).is_err(), "{fault}");
    }
}

#[test]
fn a_damaged_expectation_of_readings_is_found() {
    for vector in readings_vectors().iter().filter(|v| v.readings.len() < 20) {
        let bytes = vector.bytes();
        let answer = match vector.number {
            0 => 1 + 1 + 8 + 16 * vector.readings.len(),
            _ => 1,
        };
        for place in bytes.len() - answer..bytes.len() {
            let mut other = bytes.clone();
            other[place] ^= 1 << (place % 8);
            assert!(replay(&other, by_bits).is_err(), "{vector:?}: {place}");
        }
    }
}

#[test]
fn readings_have_every_answer_and_every_cause_alone() {
    let (mut answers, mut alone) = (BTreeMap::new(), BTreeMap::new());
    for vector in readings_vectors() {
        *answers.entry((vector.number, vector.is_floor)).or_insert(0) += 1;
        if let [cause] = causes(&vector.lists, &Way::right())[..] {
            *alone.entry(cause).or_insert(0) += 1;
        }
    }
    assert_eq!(answers, BTreeMap::from([((0, false), 519), ((0, true), 150), ((11, false), 211)]));
    let counts = CAUSES.map(|cause| alone[cause]);
    assert_eq!(counts, [1, 8, 13, 13, 13, 13, 13, 18, 5, 14, 5, 14, 18]);
}

#[test]
fn readings_have_every_length_exponent_and_end() {
    let accepted = accepted();
    let lengths: BTreeSet<usize> = accepted.iter().map(|v| v.lists.readings).collect();
    assert!(lengths.into_iter().eq(1..=128));
    let (mut outputs, mut errors) = (BTreeSet::new(), BTreeSet::new());
    for lists in accepted.iter().map(|vector| &vector.lists) {
        outputs.extend(lists.y.iter().copied().zip(lists.xi.iter().copied()));
        errors.extend(lists.z.iter().copied().zip(lists.theta.iter().copied()));
    }
    for exponent in 1..=24 {
        for (seen, most) in [(&outputs, (1 << 29) - 1), (&errors, (1 << 30) - 1)] {
            let ends = [most, -most, 0, 1, -1];
            assert!(ends.iter().all(|&end| seen.contains(&(end, exponent))), "{most}, {exponent}");
        }
    }
}

#[test]
fn readings_have_a_beside_65535_wherever_it_can_be() {
    let mut seen = BTreeSet::new();
    for vector in accepted() {
        let magnitudes = vector.lists.inputs().magnitudes();
        seen.extend(magnitudes.into_iter().zip(vector.lists.theta));
    }
    let both = (8..=22).flat_map(|theta| [(65_534, theta), (65_535, theta)]);
    let cut = (9..=24).map(|theta| (65_536, theta));
    for beside in both.chain(cut).chain([(65_534, 23), (65_532, 24)]) {
        assert!(seen.contains(&beside), "{beside:?}");
    }
}

/// Whether the exact sum of (256·error)² is at least that of a² and less than
/// that of (a + 1)².
fn lies_between(lists: &Lists, magnitudes: &[i128]) -> bool {
    let sum = |numbers: &[Exact]| numbers.iter().fold(Exact::default(), |sum, a| sum.plus(&a.times(a)));
    let errors = lists.z.iter().zip(&lists.theta);
    let errors: Vec<Exact> = errors.map(|(&z, &theta)| Exact::new(z.into(), i32::from(theta) - 30 + 8)).collect();
    let [low, high] = [0, 1].map(|more| magnitudes.iter().map(|a| Exact::new(a + more, 0)).collect::<Vec<_>>());
    sum(&low).at_most(&sum(&errors)) && sum(&errors).less(&sum(&high))
}

/// Whatever a block hands out is accepted, over lists of blocks from arbitrary
/// sound states, and the machine gives the same.
#[test]
fn what_a_block_hands_out_is_accepted() {
    let mut random = Random::new(11);
    let mut seen = BTreeMap::new();
    let (mut xi, mut theta) = (BTreeSet::new(), BTreeSet::new());
    for _ in 0..6000 {
        let settings = random.settings();
        let mut state = random.state(settings);
        for _ in 0..random.between(1, 4) {
            let Some(lists) = handed_out(&mut random, &mut state) else { continue };
            let (mut own, mut other) = (lent(lists.readings), lent(lists.readings));
            let answer = by_bits(&lists, &mut own);
            assert_eq!((answer, &own), (wrong_readings(&lists, &mut other, &Way::right()), &other), "{lists:?}");
            let magnitudes = lists.inputs().magnitudes();
            let greater: Vec<i128> = magnitudes.iter().map(|a| a + 1).collect();
            assert!(lies_between(&lists, &magnitudes) && !lies_between(&lists, &greater), "{lists:?}");
            *seen.entry((answer.0, answer.1)).or_insert(0) += 1;
            xi.extend(lists.xi);
            theta.extend(lists.theta);
        }
    }
    assert!(seen.len() == 2 && seen[&(0, false)] > 3000 && seen[&(0, true)] > 1000, "{seen:?}");
    assert!(xi.into_iter().eq(1..=24) && theta.into_iter().eq(2..=24));
}
