//! Readings for plots: cases by hand, what they are held to, the vectors
//! replayed from their bytes, and each fault of wrong readings found.

mod reader;
mod wrong_readings;

use reader::Reader;
use reference::binary64::number;
use reference::exact::Exact;
use reference::numbers::Dyadic;
use reference::random::Random;
use reference::readings::{readings, Cause, Power, Reading, ReadingInputs};
use reference::vectors::spoiled_lists::resize;
use reference::vectors::{handed_out, readings_vectors, worked_lists};
use reference::vectors::{Lists, ReadingsVector, Sample};
use reference::{image_length, load, save, State};
use std::collections::{BTreeMap, BTreeSet};
use wrong_readings::{causes, wrong_readings, Answer, CAUSES, FAULTS};

const README: &str = include_str!("../README.md");

/// The bits that the lent readings hold before a call.
fn before(place: usize) -> [u64; 2] {
    let bits = 0x4B1D_5EED_0000_0000 + 3 * place as u64;
    [bits, !bits]
}

/// The second implementation over bits.
fn by_bits(lists: &Lists, lent: &mut [[u64; 2]]) -> Answer {
    let from_bits = |&[y, error]: &[u64; 2]| Reading {
        y: f64::from_bits(y),
        error: f64::from_bits(error),
    };
    let mut own: Vec<Reading> = lent.iter().map(from_bits).collect();
    let answer = readings(&lists.inputs(), &mut own);
    for (bits, reading) in lent.iter_mut().zip(&own) {
        *bits = reading.bits();
    }
    match answer {
        Ok(power) => (0, power.is_floor(), power.value().to_bits()),
        Err(number) => (number, false, 0),
    }
}

/// What is answered for lists, with what the readings then hold.
fn answered(lists: &Lists) -> (Answer, Vec<[u64; 2]>) {
    let mut lent: Vec<[u64; 2]> = (0..lists.readings).map(before).collect();
    let answer = by_bits(lists, &mut lent);
    (answer, lent)
}

/// The power, with its bits, of samples that are accepted.
fn power_of(samples: &[Sample]) -> (bool, u64) {
    let ((number, is_floor, power), _) = answered(&Lists::of(samples));
    assert_eq!(number, 0, "{samples:?}");
    (is_floor, power)
}

/// The only reading of one sample.
fn reading_of(sample: Sample) -> [u64; 2] {
    let ((number, _, _), lent) = answered(&Lists::of(&[sample]));
    assert_eq!(number, 0, "{sample:?}");
    lent[0]
}

fn is_refused(lists: &Lists) -> bool {
    let (answer, lent) = answered(lists);
    let untouched = lent
        .iter()
        .enumerate()
        .all(|(at, &bits)| bits == before(at));
    assert!(answer.0 == 0 || untouched, "{lists:?}");
    answer == (11, false, 0)
}

#[test]
fn readings_by_hand() {
    // The specification's first example: 0 and 1, then 1/64 and 63/64.
    assert_eq!(reading_of((0, 1, 1 << 28, 2)), [0, 0x3FF0_0000_0000_0000]);
    assert_eq!(
        reading_of((4_194_304, 2, 264_241_152, 2)),
        [0x3F90_0000_0000_0000, 0x3FEF_8000_0000_0000]
    );
    // −12311192·2^−25 and 112974488·2^−25, of its halving.
    assert_eq!(
        reading_of((-12_311_192, 5, 112_974_488, 5)),
        [0xBFD7_7B53_0000_0000, 0x400A_EF6A_6000_0000]
    );
    // The least and the greatest magnitudes: 2^−29, and 2^23 − 2^−6 and 2^24 − 2^−6.
    assert_eq!(
        reading_of((-1, 1, 1, 1)),
        [0xBE20_0000_0000_0000, 0x3E20_0000_0000_0000]
    );
    assert_eq!(
        reading_of(((1 << 29) - 1, 24, 1 - (1 << 30), 24)),
        [0x415F_FFFF_FF00_0000, 0xC16F_FFFF_FF80_0000]
    );
}

#[test]
fn powers_by_hand() {
    // a = 256 and a = 252: 1 and 63504/65536.
    assert_eq!(power_of(&[(0, 1, 1 << 28, 2)]), (false, 1.0f64.to_bits()));
    let power = power_of(&[(4_194_304, 2, 264_241_152, 2)]);
    assert_eq!(power, (false, 0.968994140625f64.to_bits()));
    // 703181/(65536·3) = 3.57656…: a is 768, 254 and 221.
    let power = power_of(&worked_lists());
    assert_eq!(power, (false, 0x400C_9CCD_5555_5555));
    // A third of 1/65536.
    let least = [(0, 1, 1 << 21, 1), (0, 1, 0, 1), (0, 1, 0, 1)];
    assert_eq!(power_of(&least), (false, 0x3ED5_5555_5555_5555));
    // A fifth of it, where the last digit is rounded up.
    let mut fifth = [(0, 1, 0, 1); 5];
    assert_eq!(power_of(&fifth), (false, 0));
    fifth[4].2 = -(1 << 21);
    assert_eq!(power_of(&fifth), (false, 0x3EC9_9999_9999_999A));
}

#[test]
fn the_floor_is_of_the_magnitude() {
    // 256·|error| is 1 and 2^−21, or 1, or 1 less 2^−21.
    for (z, a) in [(2_097_153, 1), (2_097_152, 1), (2_097_151, 0)] {
        for z in [z, -z] {
            let power = f64::from(a) / 65_536.0;
            assert_eq!(power_of(&[(0, 1, z, 1)]), (false, power.to_bits()), "{z}");
        }
    }
}

#[test]
fn a_cut_is_above_65535_only() {
    // 65535²/65536 = 65534 + 1/65536, as a mean and as a floor.
    let greatest = 0x40EF_FFC0_0020_0000;
    for (z, theta, is_floor) in [
        (65_535, 22, false),
        (-65_535, 22, false),
        (131_071, 21, false),
        (-131_072, 21, true),
        (65_536, 22, true),
        (32_768, 23, true),
        (16_384, 24, true),
        (65_536 * 16_384 - 1, 8, false),
        (1 - 65_536 * 16_384, 9, true),
        ((1 << 30) - 1, 24, true),
    ] {
        let power = power_of(&[(1, 1, z, theta)]);
        assert_eq!(power, (is_floor, greatest), "{z}, {theta}");
    }
    // 65534²/65536 = 65532 + 1/16384.
    assert_eq!(
        power_of(&[(1, 1, 32_767, 23)]),
        (false, 0x40EF_FF80_0080_0000)
    );
    // One of two: (65535² + 256²)/(65536·2).
    let half = (65_535.0f64 * 65_535.0 + 65_536.0) / 131_072.0;
    for place in [0, 1] {
        let mut samples = [(1, 1, -256, 22); 2];
        samples[place].2 = 1 << 20;
        assert_eq!(power_of(&samples), (true, half.to_bits()));
    }
}

#[test]
fn a_zero_has_no_sign() {
    for exponent in 1..=24 {
        assert_eq!(reading_of((0, exponent, 0, 25 - exponent)), [0, 0]);
        assert_eq!(power_of(&[(0, exponent, 0, 25 - exponent)]), (false, 0));
    }
}

#[test]
fn the_edges_of_every_refusal() {
    let good: Sample = (-5, 12, 7, 12);
    for count in [1, 2, 127, 128] {
        assert!(!is_refused(&Lists::of(&vec![good; count])));
        for place in 0..5 {
            for length in [count - 1, count + 1, 0, 128 + count] {
                let mut lists = Lists::of(&vec![good; count]);
                resize(&mut lists, place, length);
                assert!(is_refused(&lists), "{count}, {place}, {length}");
            }
        }
        for place in [0, count / 2, count - 1] {
            for (end, is_y) in [(1 << 29, true), (1 << 30, false)] {
                for (a, refused) in [
                    (end - 1, false),
                    (1 - end, false),
                    (end, true),
                    (-end, true),
                    (i32::MAX, true),
                    (i32::MIN, true),
                ] {
                    let mut samples = vec![good; count];
                    let sample = &mut samples[place];
                    *(if is_y { &mut sample.0 } else { &mut sample.2 }) = a;
                    assert_eq!(is_refused(&Lists::of(&samples)), refused, "{a}");
                }
            }
        }
    }
    for count in [0, 129, 130, 256, 257] {
        assert!(is_refused(&Lists::of(&vec![good; count])), "{count}");
    }
}

#[test]
fn every_exponent_from_1_to_24_and_no_other() {
    for exponent in 0..=255 {
        for place in [0, 1, 4] {
            let mut samples = [(1, 1, 1, 1); 5];
            samples[place].1 = exponent;
            let outside = !(1..=24).contains(&exponent);
            assert_eq!(is_refused(&Lists::of(&samples)), outside);
            samples[place] = (1, 1, 1, exponent);
            assert_eq!(is_refused(&Lists::of(&samples)), outside);
        }
    }
}

/// The machine's own f64 give the same: they are exact but for the one
/// division.
#[test]
fn the_machine_gives_the_same() {
    let vectors = readings_vectors();
    let replayed = replay(&bytes_of(&vectors), |lists, lent| {
        wrong_readings(lists, lent, "")
    });
    assert_eq!(replayed, Ok(vectors.len()));
}

/// Both numbers of each reading are the mantissa and exponent that they stand
/// for, and a zero is +0.
fn readings_are_exact(lists: &Lists, readings: &[[u64; 2]]) -> bool {
    let is = |bits: u64, mantissa: i32, exponent: u8| {
        let own = Dyadic::new(mantissa.into(), i32::from(exponent) - 30);
        number(bits).order(own).is_eq() && (mantissa != 0 || bits == 0)
    };
    let all = |n: usize| {
        let [y, error] = readings[n];
        is(y, lists.y[n], lists.xi[n]) && is(error, lists.z[n], lists.theta[n])
    };
    (0..lists.readings).all(all)
}

#[test]
fn each_reading_is_its_mantissa_and_exponent() {
    for vector in accepted() {
        let mut readings = vector.readings.clone();
        assert!(readings_are_exact(&vector.lists, &readings));
        readings[0][1] ^= 1 << 63;
        assert!(!readings_are_exact(&vector.lists, &readings));
    }
}

/// The exact sums of a², of (256·error)² and of (a + 1)².
fn sums(handed: &ReadingInputs<'_>) -> [Exact; 3] {
    let mut sums = [0; 3].map(|zero| Exact::new(zero, 0));
    let errors = handed.z.iter().zip(handed.theta);
    for (a, (&z, &theta)) in handed.magnitudes().into_iter().zip(errors) {
        let numbers = [
            Exact::new(a, 0),
            Exact::new(i128::from(z), i32::from(theta) - 30 + 8),
            Exact::new(a + 1, 0),
        ];
        for (sum, number) in sums.iter_mut().zip(numbers) {
            *sum = sum.plus(&number.times(&number));
        }
    }
    sums
}

/// Whether the exact sum of (256·error)² is at least that of a² and less than
/// that of (a + 1)².
fn lies_between(lists: &Lists) -> bool {
    let [low, sum, high] = sums(&lists.inputs());
    low.at_most(&sum) && sum.less(&high)
}

#[test]
fn the_exact_sum_lies_between() {
    let mut exactly = 0;
    for vector in accepted().iter().filter(|vector| !vector.is_floor) {
        assert!(lies_between(&vector.lists), "{}", vector.about);
        let [low, sum, _] = sums(&vector.lists.inputs());
        exactly += u32::from(sum.at_most(&low));
    }
    assert!(exactly >= 50);
}

/// The rounded power is the closest number of 53 digits to sum / (65536·N):
/// it is off by no more than its neighbours are.
#[test]
fn the_power_is_the_nearest() {
    for vector in accepted() {
        let handed = vector.lists.inputs();
        let squares = handed
            .magnitudes()
            .into_iter()
            .map(|a| a.min(65_535).pow(2));
        let sum = Exact::new(squares.sum(), 0);
        let divisor = Exact::new(65_536 * vector.lists.y.len() as i128, 0);
        let off = |bits: u64| {
            let power = number(bits);
            let whole = Exact::new(power.scaled(80).exactly(), -80);
            whole.times(&divisor).minus(&sum).magnitude()
        };
        if vector.power != 0 {
            let own = off(vector.power);
            assert!(own.less(&off(vector.power + 1)), "{}", vector.about);
            assert!(own.less(&off(vector.power - 1)), "{}", vector.about);
        }
    }
}

/// Replays vectors from their bytes: their count, or the place of one that is
/// not as expected.
fn replay(
    bytes: &[u8],
    operation: impl Fn(&Lists, &mut [[u64; 2]]) -> Answer,
) -> Result<usize, usize> {
    let mut reader = Reader(bytes);
    let mut count = 0;
    while !reader.0.is_empty() {
        let lists = read_lists(&mut reader);
        let number = reader.byte();
        if number == 0 && reader.0.len() < 9 + 16 * lists.readings {
            return Err(count);
        }
        let mut expected: Vec<[u64; 2]> = (0..lists.readings).map(before).collect();
        let mut lent = expected.clone();
        let mut answer = (number, false, 0);
        if number == 0 {
            let is_floor = reader.byte();
            if is_floor > 1 {
                return Err(count);
            }
            answer = (0, is_floor == 1, reader.double());
            expected.fill_with(|| [reader.double(), reader.double()]);
        }
        if operation(&lists, &mut lent) != answer || lent != expected {
            return Err(count);
        }
        count += 1;
    }
    Ok(count)
}

/// The lists at the front of a file of vectors.
fn read_lists(reader: &mut Reader<'_>) -> Lists {
    let lengths = [0; 5].map(|_| usize::from(reader.short()));
    Lists {
        y: (0..lengths[0]).map(|_| reader.long() as i32).collect(),
        xi: reader.take(lengths[1]).to_vec(),
        z: (0..lengths[2]).map(|_| reader.long() as i32).collect(),
        theta: reader.take(lengths[3]).to_vec(),
        readings: lengths[4],
    }
}

fn bytes_of(list: &[ReadingsVector]) -> Vec<u8> {
    list.iter().flat_map(ReadingsVector::bytes).collect()
}

/// The vectors that are accepted.
fn accepted() -> Vec<ReadingsVector> {
    let mut vectors = readings_vectors();
    vectors.retain(|vector| vector.number == 0);
    vectors
}

#[test]
fn readings_replay() {
    let vectors = readings_vectors();
    let bytes = bytes_of(&vectors);
    assert!(bytes.len() < 600_000);
    assert_eq!(replay(&bytes, by_bits), Ok(vectors.len()));
    assert!(vectors.len() >= 400);
}

#[test]
fn the_stored_readings_are_these() {
    let path = format!("{}/../laboratory/readings.bin", env!("CARGO_MANIFEST_DIR"));
    let stored = std::fs::read(&path).expect("laboratory/readings.bin");
    let bytes = bytes_of(&readings_vectors());
    assert!(bytes == bytes_of(&readings_vectors()));
    assert!(stored == bytes, "run reference/regenerate");
}

#[test]
fn a_damaged_expectation_of_readings_is_found() {
    for vector in readings_vectors().iter().filter(|v| v.readings.len() < 20) {
        let bytes = vector.bytes();
        let answer = match vector.number {
            0 => 1 + 1 + 8 + 16 * vector.readings.len(),
            _ => 1,
        };
        for place in bytes.len() - answer..bytes.len() {
            let mut other = bytes.clone();
            other[place] ^= 1 << (place % 8);
            assert!(replay(&other, by_bits).is_err(), "{vector:?}: {place}");
        }
    }
}

#[test]
fn every_fault_of_readings_is_found() {
    let bytes = bytes_of(&readings_vectors());
    let with =
        |fault: &'static str| replay(&bytes, |lists, lent| wrong_readings(lists, lent, fault));
    for fault in FAULTS.iter().chain(&CAUSES) {
        assert!(with(fault).is_err(), "{fault}");
    }
    let (faults, causes) = (FAULTS.len(), CAUSES.len());
    let said = format!("{faults} faults and {causes} causes to leave out; the vectors find each |");
    assert!(README.contains(&said), "not in README.md: {said}");
}

#[test]
fn readings_have_every_cause_alone() {
    let mut alone = BTreeMap::new();
    for vector in readings_vectors() {
        let causes = causes(&vector.lists, "");
        assert_eq!(causes.is_empty(), vector.number == 0, "{}", vector.about);
        if let [cause] = causes[..] {
            *alone.entry(cause).or_insert(0) += 1;
        }
    }
    assert!(CAUSES.iter().all(|cause| alone.contains_key(cause)));
    let rows = alone
        .iter()
        .map(|(cause, count)| format!("| {cause} | {count} |\n"));
    let missing: String = rows.filter(|row| !README.contains(row)).collect();
    assert!(missing.is_empty(), "no rows in README.md:\n{missing}");
}

#[test]
fn readings_have_every_answer() {
    let mut answers = BTreeMap::new();
    for vector in readings_vectors() {
        let answer = (vector.number, vector.is_floor);
        *answers.entry(answer).or_insert(0) += 1;
    }
    let count = |answer| answers.get(&answer).copied().unwrap_or(0);
    let [mean, floor, eleven] = [(0, false), (0, true), (11, false)].map(count);
    assert_eq!(answers.len(), 3, "{answers:?}");
    assert!(mean >= 100 && floor >= 50 && eleven >= 100);
    let words = format!("{mean} are means, {floor} are floors and {eleven} answer 11");
    assert!(README.contains(&words), "not in README.md: {words}");
}

#[test]
fn readings_have_every_length_exponent_and_end() {
    let accepted = accepted();
    let lengths: BTreeSet<usize> = accepted.iter().map(|v| v.lists.readings).collect();
    assert!(lengths.into_iter().eq(1..=128));
    let (mut outputs, mut errors) = (BTreeSet::new(), BTreeSet::new());
    for lists in accepted.iter().map(|vector| &vector.lists) {
        outputs.extend(lists.y.iter().copied().zip(lists.xi.iter().copied()));
        errors.extend(lists.z.iter().copied().zip(lists.theta.iter().copied()));
    }
    for exponent in 1..=24 {
        let (y, z) = ((1 << 29) - 1, (1 << 30) - 1);
        for end in [y, -y, 0, 1, -1] {
            assert!(outputs.contains(&(end, exponent)), "{end}, {exponent}");
        }
        for end in [z, -z, 0, 1, -1] {
            assert!(errors.contains(&(end, exponent)), "{end}, {exponent}");
        }
    }
}

#[test]
fn readings_have_a_beside_65535_wherever_it_can_be() {
    let mut seen = BTreeSet::new();
    for vector in accepted() {
        let magnitudes = vector.lists.inputs().magnitudes();
        seen.extend(magnitudes.into_iter().zip(vector.lists.theta.clone()));
    }
    for theta in 8..=22 {
        assert!(seen.contains(&(65_534, theta)) && seen.contains(&(65_535, theta)));
        assert!(theta == 8 || seen.contains(&(65_536, theta)), "{theta}");
    }
    for (a, theta) in [(65_534, 23), (65_536, 23), (65_532, 24), (65_536, 24)] {
        assert!(seen.contains(&(a, theta)), "{a}, {theta}");
    }
}

/// Whatever a block hands out is accepted, over lists of calls from arbitrary
/// sound states.
#[test]
fn what_a_block_hands_out_is_accepted() {
    let mut random = Random::new(11);
    let mut seen = BTreeMap::new();
    let (mut xi, mut theta) = (BTreeSet::new(), BTreeSet::new());
    for _ in 0..6000 {
        let settings = random.settings();
        let mut state = match random.chance(1, 4) {
            true => random.falling_state(settings),
            false => random.sound_state(settings),
        };
        for _ in 0..random.between(1, 4) {
            let lists = handed_out(&mut random, &mut state);
            let Some(lists) = lists else { continue };
            let ((number, is_floor, _), readings) = answered(&lists);
            assert_eq!(number, 0, "{lists:?}");
            assert!(readings_are_exact(&lists, &readings));
            assert!(is_floor || lies_between(&lists), "{lists:?}");
            *seen.entry(is_floor).or_insert(0) += 1;
            xi.extend(lists.xi);
            theta.extend(lists.theta);
            state = saved_and_loaded(&mut random, state);
        }
    }
    assert!(seen[&false] > 3000 && seen[&true] > 1000, "{seen:?}");
    assert!(xi.into_iter().eq(1..=24));
    assert!(theta.into_iter().eq(2..=24));
}

/// The state, one time in three through its image.
fn saved_and_loaded(random: &mut Random, state: State) -> State {
    if !random.chance(1, 3) {
        return state;
    }
    let mut image = vec![0; image_length(&state.settings)];
    assert_eq!(save(&state, &mut image).0, 0);
    load(&image).1
}

/// Each cause by its own, of lists that nothing else is wrong with.
#[test]
fn each_cause_holds_alone() {
    let good: Sample = (1, 1, 1, 1);
    for (place, sample) in [
        (1, (1, 1, 1 << 30, 1)),
        (2, (1, 25, 1, 1)),
        (2, (1, 1, 1, 0)),
        (3, (1 << 29, 1, 1, 1)),
    ] {
        let lists = Lists::of(&[good, sample]);
        let held = Cause::ALL.map(|cause| lists.inputs().holds(cause, lists.readings));
        let mut alone = [false; 4];
        alone[place] = true;
        assert_eq!(held, alone, "{sample:?}");
    }
    let lists = Lists::of(&[good; 3]);
    let held = Cause::ALL.map(|cause| lists.inputs().holds(cause, 2));
    assert_eq!(held, [true, false, false, false]);
}

/// A power says of itself what it is.
#[test]
fn a_power_is_a_mean_or_a_floor() {
    assert!(!Power::Mean(0.5).is_floor() && Power::Floor(0.5).is_floor());
    assert_eq!(Power::Mean(0.5).value(), Power::Floor(0.5).value());
}
