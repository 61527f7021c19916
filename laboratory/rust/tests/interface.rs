//! The library in Rust, against the second implementation's vectors and the
//! header.

use reference::vectors::{cable_vectors, readings_vectors, CableVector, ReadingsVector};
use tigbulode_laboratory::{cable, number, readings, trace_length, Cable, Power, Reading};
use tigbulode_laboratory::{HEADER_BYTES, MOST_RESPONSE, MOST_SYMBOLS, MOST_TRACE, VERSION};
use tigbulode_laboratory::{LEAST_READING_EXPONENT, MOST_READING_EXPONENT};
use tigbulode_laboratory::{MOST_READINGS, MOST_Y, MOST_Z};

const HEADER: &str = include_str!("../../tigbulode_laboratory.h");
const SENTINEL: u8 = 0x55;
const AROUND: usize = 64;

fn described(vector: &CableVector) -> Cable<'_> {
    let d = &vector.description;
    Cable {
        p: d.settings.p,
        q: d.settings.q,
        n: d.settings.n,
        r: d.settings.r,
        l: d.settings.l,
        step: d.settings.m,
        response: &d.response,
        symbols: &d.symbols,
        training: d.training as usize,
    }
}

/// The bytes that a call leaves, with those around what was lent, and its
/// number.
fn left(cable_: &Cable, length: usize) -> (u8, Vec<u8>) {
    let mut room = vec![SENTINEL; length + 2 * AROUND];
    let number = cable(cable_, &mut room[AROUND..AROUND + length]);
    (number, room)
}

/// The bytes that a vector asks for.
fn expected(vector: &CableVector) -> Vec<u8> {
    let mut room = vec![SENTINEL; vector.output + 2 * AROUND];
    if vector.number == number::ACCEPTED {
        room[AROUND..AROUND + vector.output].copy_from_slice(&vector.trace);
    }
    room
}

#[test]
fn every_vector_is_as_the_second_implementation_has_it() {
    for vector in cable_vectors() {
        let (number, room) = left(&described(&vector), vector.output);
        let mut wanted = expected(&vector);
        assert!(number == vector.number && room == wanted, "{vector:?}");
        let place = room.len() / 2;
        wanted[place] ^= 1;
        assert_ne!(room, wanted);
    }
}

#[test]
fn another_cable_gives_another_trace() {
    let accepted = |vector: &CableVector| vector.number == 0 && vector.trace.len() < 1000;
    let vectors = cable_vectors();
    let mut found = 0;
    for vector in vectors.iter().filter(|vector| accepted(vector)) {
        let mut other = described(vector);
        let step = other.step ^ 1;
        other.step = step;
        let (_, room) = left(&other, vector.output);
        found += usize::from(room != expected(vector));
    }
    assert_eq!(
        found,
        vectors.iter().filter(|vector| accepted(vector)).count()
    );
}

#[test]
fn the_longest_trace() {
    assert_eq!(trace_length(0), HEADER_BYTES);
    assert_eq!(trace_length(MOST_SYMBOLS), MOST_TRACE);
    let symbols = [1; MOST_SYMBOLS + 1];
    let with = |symbols: &[i8]| {
        let cable_ = Cable {
            p: 1,
            q: 1,
            n: 1,
            r: 0,
            l: 0,
            step: 0,
            response: &[1; MOST_RESPONSE],
            symbols,
            training: 0,
        };
        left(&cable_, trace_length(symbols.len())).0
    };
    assert_eq!(with(&symbols[1..]), number::ACCEPTED);
    assert_eq!(with(&symbols), number::CABLE);
    assert_eq!(with(&[]), number::CABLE);
}

/// What the readings hold before a call.
const UNREAD: Reading = Reading {
    y: 0.7,
    error: -0.7,
};

fn bits(reading: &Reading) -> [u64; 2] {
    [reading.y.to_bits(), reading.error.to_bits()]
}

/// The number, whether the power is a floor and its bits, and the bits of the
/// readings with those around what was lent.
type Read = (u8, bool, u64, Vec<[u64; 2]>);

fn read(vector: &ReadingsVector) -> Read {
    let lists = &vector.lists;
    let mut room = vec![UNREAD; lists.readings + 2 * AROUND];
    let lent = &mut room[AROUND..AROUND + lists.readings];
    let answer = readings(&lists.y, &lists.xi, &lists.z, &lists.theta, lent);
    let power = answer.map_or(0, |power| power.value().to_bits());
    (
        answer.err().unwrap_or(number::ACCEPTED),
        answer.is_ok_and(Power::is_floor),
        power,
        room.iter().map(bits).collect(),
    )
}

/// What a vector asks for.
fn expected_readings(vector: &ReadingsVector) -> Read {
    let mut room = vec![bits(&UNREAD); vector.lists.readings + 2 * AROUND];
    room[AROUND..][..vector.readings.len()].copy_from_slice(&vector.readings);
    (vector.number, vector.is_floor, vector.power, room)
}

#[test]
fn every_reading_is_as_the_second_implementation_has_it() {
    for vector in readings_vectors() {
        let read = read(&vector);
        let mut wanted = expected_readings(&vector);
        assert_eq!(read, wanted, "{}", vector.about);
        let place = wanted.3.len() / 2;
        wanted.3[place][1] ^= 1;
        assert_ne!(read, wanted);
    }
}

#[test]
fn a_mean_and_a_floor() {
    let power = |z: i32| readings(&[0], &[1], &[z], &[22], &mut [UNREAD]);
    let value = 65535.0 * 65535.0 / 65536.0;
    let (mean, floor) = (power(-65_535).unwrap(), power(-65_536).unwrap());
    assert_eq!((mean, floor), (Power::Mean(value), Power::Floor(value)));
    assert_eq!((mean.value(), floor.value()), (value, value));
    assert_eq!((mean.is_floor(), floor.is_floor()), (false, true));
}

#[test]
fn lists_outside_their_limits() {
    let with = |y, xi, z, theta| readings(&[y], &[xi], &[z], &[theta], &mut [UNREAD]).err();
    let (least, most) = (LEAST_READING_EXPONENT, MOST_READING_EXPONENT);
    assert_eq!(with(MOST_Y, least, -MOST_Z, most), None);
    assert_eq!(with(-MOST_Y, most, MOST_Z, least), None);
    for (y, z) in [
        (MOST_Y + 1, 0),
        (-MOST_Y - 1, 0),
        (0, MOST_Z + 1),
        (0, -MOST_Z - 1),
    ] {
        assert_eq!(with(y, least, z, least), Some(number::READINGS));
    }
    for (xi, theta) in [
        (least - 1, least),
        (most + 1, least),
        (least, least - 1),
        (least, most + 1),
    ] {
        assert_eq!(with(0, xi, 0, theta), Some(number::READINGS));
    }
    let long = |n: usize| {
        readings(
            &vec![0; n],
            &vec![1; n],
            &vec![0; n],
            &vec![1; n],
            &mut vec![UNREAD; n],
        )
    };
    assert_eq!(long(MOST_READINGS), Ok(Power::Mean(0.0)));
    assert_eq!(long(MOST_READINGS + 1), Err(number::READINGS));
}

#[test]
fn the_header_has_the_same_version_and_limits() {
    let has = |text: &str| assert!(HEADER.contains(text), "the header lacks {text}");
    has(&format!(
        "#define TIGBULODE_LABORATORY_VERSION \"{VERSION}\"\n"
    ));
    let (major, minor) = VERSION.split_once('.').unwrap();
    has(&format!("_VERSION_MAJOR {major}\n"));
    has(&format!("_VERSION_MINOR {minor}\n"));
    assert_eq!(env!("CARGO_PKG_VERSION"), format!("{VERSION}.0"));
    has(&format!("TIGBULODE_MOST_RESPONSE = {MOST_RESPONSE},"));
    has(&format!("TIGBULODE_MOST_TRACE = {MOST_TRACE} "));
    has(&format!("TIGBULODE_MOST_SYMBOLS = {MOST_SYMBOLS} "));
    has(&format!("TIGBULODE_TRACE_HEADER_BYTES = {HEADER_BYTES},"));
    has(&format!("TIGBULODE_CABLE = {}, ", number::CABLE));
    has(&format!("TIGBULODE_READINGS = {} ", number::READINGS));
    has(&format!("TIGBULODE_MOST_READINGS = {MOST_READINGS}, "));
    let (least, most) = (LEAST_READING_EXPONENT, MOST_READING_EXPONENT);
    has(&format!("TIGBULODE_LEAST_READING_EXPONENT = {least}, "));
    has(&format!("TIGBULODE_MOST_READING_EXPONENT = {most},\n"));
    has(&format!("TIGBULODE_MOST_Y = {MOST_Y}, "));
    has(&format!("TIGBULODE_MOST_Z = {MOST_Z} "));
}
