//! The laboratory's calls in Rust give what the second implementation's vectors say, and touch nothing else.

use reference::vectors::{cable_vectors, readings_vectors, CableVector, ReadingsVector};
use tigbulode_laboratory::{cable, readings, Cable, Power, Reading, MOST_READINGS};

/// Bytes, or readings, on either side of what is lent.
const AROUND: usize = 64;
const SENTINEL: u8 = 0x55;
const UNREAD: Reading = Reading { y: 0.7, error: -0.7 };

/// The number of a cable, and the bytes that the call leaves.
fn simulated(vector: &CableVector) -> (u8, Vec<u8>) {
    let d = &vector.description;
    let described =
        Cable { settings: d.settings, response: &d.response, symbols: &d.symbols, training: d.training as usize };
    let mut room = vec![SENTINEL; vector.output + 2 * AROUND];
    let number = cable(&described, &mut room[AROUND..AROUND + vector.output]);
    (number, room)
}

#[test]
fn every_cable() {
    for vector in cable_vectors() {
        let mut room = vec![SENTINEL; vector.output + 2 * AROUND];
        room[AROUND..][..vector.trace.len()].copy_from_slice(&vector.trace);
        let simulated = simulated(&vector);
        assert!(simulated == (vector.number, room.clone()), "{vector:?}");
        let middle = room.len() / 2;
        room[middle] ^= 1;
        assert!(simulated != (vector.number, room), "a changed byte");
    }
}

/// The number, whether the power is a floor and its bits, and the bits of the readings with those around what was lent.
type Read = (u8, bool, u64, Vec<[u64; 2]>);

fn bits(reading: &Reading) -> [u64; 2] {
    [reading.y.to_bits(), reading.error.to_bits()]
}

fn read(vector: &ReadingsVector) -> Read {
    let lists = &vector.lists;
    let mut room = vec![UNREAD; lists.readings + 2 * AROUND];
    let lent = &mut room[AROUND..AROUND + lists.readings];
    let answer = readings(&lists.y, &lists.xi, &lists.z, &lists.theta, lent);
    let power = answer.map_or(0, |power| power.value().to_bits());
    (answer.err().unwrap_or(0), answer.is_ok_and(Power::is_floor), power, room.iter().map(bits).collect())
}

#[test]
fn every_list_of_readings() {
    let mut longest = 0;
    for vector in readings_vectors() {
        longest = longest.max(vector.readings.len());
        let mut room = vec![bits(&UNREAD); vector.lists.readings + 2 * AROUND];
        room[AROUND..][..vector.readings.len()].copy_from_slice(&vector.readings);
        let mut expected = (vector.number, vector.is_floor, vector.power, room);
        assert_eq!(read(&vector), expected, "{}", vector.about);
        let middle = expected.3.len() / 2;
        expected.3[middle][1] ^= 1;
        assert_ne!(read(&vector), expected);
    }
    assert_eq!(longest, MOST_READINGS);
}
