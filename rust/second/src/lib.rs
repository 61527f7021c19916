//! The second implementation behind the C functions of `tigbulode.h` and `tigbulode_laboratory.h`: a static library for C
//! programs in place of the proved ones. With `TIGBULODE_FAULT` in the environment it has a fault, which a comparison of
//! what they print has to find: training entries have the other sign.
//!
//! A caller owes what the headers say; so much is relied on in every function here.
#![allow(clippy::missing_safety_doc, clippy::too_many_arguments)]

use reference::cable::{cable, Cable};
use reference::readings::{readings, Power, Reading, ReadingInputs};
use reference::{Inputs, Outputs, Settings, State};
use std::slice::{from_raw_parts, from_raw_parts_mut};

/// The bytes of a record.
#[repr(C, align(4))]
pub struct Record([u8; 140]);

#[repr(C)]
pub struct Answer {
    number: u8,
    state: Record,
}

#[repr(C)]
pub struct Saved {
    number: u8,
    length: usize,
}

#[repr(C)]
pub struct ErrorPower {
    number: u8,
    is_floor: u8,
    power: f64,
}

impl Record {
    fn of(state: &State) -> Record {
        let (s, lent) = (&state.settings, state.lent());
        let mut bytes = vec![s.p, s.q, s.n, s.r, s.l, state.psi, state.b, state.bmax];
        bytes.extend(s.m.to_le_bytes());
        bytes.extend(lent.weights.iter().chain(&lent.data).flat_map(|word| word.to_le_bytes()));
        Record(bytes.try_into().expect("a record has 140 bytes"))
    }

    fn state(&self) -> State {
        let [p, q, n, r, l, psi, b, bmax, m @ ..] = self.0.first_chunk::<12>().expect("a record has 140 bytes");
        let m = u32::from_le_bytes(*m);
        let words = self.0[12..].chunks(2).map(|word| i16::from_le_bytes([word[0], word[1]]));
        let mut weights: Vec<i16> = words.collect();
        let data = weights.split_off(32);
        let settings = Settings { p: *p, q: *q, n: *n, r: *r, l: *l, m };
        State { settings, psi: *psi, b: *b, bmax: *bmax, weights, data }
    }
}

fn answer((number, state): (u8, State)) -> Answer {
    Answer { number, state: Record::of(&state) }
}

#[no_mangle]
pub extern "C" fn tigbulode_set_up(p: u8, q: u8, n: u8, r: u8, l: u8, m: u32) -> Answer {
    answer(reference::set_up(Settings { p, q, n, r, l, m }))
}

/// A run or a trial: what `$call` does with the state of a record and the lists of a block.
#[rustfmt::skip]
macro_rules! with_lists {
    ($name:ident, $record:ty, $answer:ty, $call:expr) => {
        #[no_mangle]
        pub unsafe extern "C" fn $name(
            record: $record,
            samples: *const i16, samples_length: usize,
            gains: *const u8, gains_length: usize,
            entries: *const i8, entries_length: usize,
            y: *mut i32, y_length: usize,
            xi: *mut u8, xi_length: usize,
            decision: *mut i8, decision_length: usize,
            z: *mut i32, z_length: usize,
            theta: *mut u8, theta_length: usize,
        ) -> $answer {
            let training = training(from_raw_parts(entries, entries_length));
            let (samples, gains) = (from_raw_parts(samples, samples_length), from_raw_parts(gains, gains_length));
            let (y, xi) = (from_raw_parts_mut(y, y_length), from_raw_parts_mut(xi, xi_length));
            let decision = from_raw_parts_mut(decision, decision_length);
            let (z, theta) = (from_raw_parts_mut(z, z_length), from_raw_parts_mut(theta, theta_length));
            let mut lists = Outputs {
                y: y.to_vec(), xi: xi.to_vec(), decision: decision.to_vec(), z: z.to_vec(), theta: theta.to_vec(),
            };
            let answer = $call(record, Inputs { samples, gains, training: &training }, &mut lists);
            y.copy_from_slice(&lists.y);
            xi.copy_from_slice(&lists.xi);
            decision.copy_from_slice(&lists.decision);
            z.copy_from_slice(&lists.z);
            theta.copy_from_slice(&lists.theta);
            answer
        }
    };
}

fn training(entries: &[i8]) -> Vec<i8> {
    match std::env::var_os("TIGBULODE_FAULT") {
        Some(_) => entries.iter().map(|entry| entry.wrapping_neg()).collect(),
        None => entries.to_vec(),
    }
}

fn run(record: &mut Record, block: Inputs, lists: &mut Outputs) -> u8 {
    let mut state = record.state();
    let number = reference::run(&mut state, block, lists);
    *record = Record::of(&state);
    number
}

fn trial(record: &Record, block: Inputs, lists: &mut Outputs) -> Answer {
    answer(reference::trial(&record.state(), block, lists))
}

with_lists!(tigbulode_run, &mut Record, u8, run);
with_lists!(tigbulode_trial, &Record, Answer, trial);

#[no_mangle]
pub unsafe extern "C" fn tigbulode_save(record: &Record, buffer: *mut u8, length: usize) -> Saved {
    let (number, length) = reference::save(&record.state(), from_raw_parts_mut(buffer, length));
    Saved { number, length }
}

#[no_mangle]
pub unsafe extern "C" fn tigbulode_load(bytes: *const u8, length: usize) -> Answer {
    answer(reference::load(from_raw_parts(bytes, length)))
}

#[no_mangle]
#[rustfmt::skip]
pub unsafe extern "C" fn tigbulode_cable(
    p: u8, q: u8, n: u8, r: u8, l: u8, m: u32,
    response: *const i16, response_length: usize,
    symbols: *const i8, symbols_length: usize,
    training: usize,
    trace: *mut u8, trace_length: usize,
) -> u8 {
    let (response, symbols) = (from_raw_parts(response, response_length), from_raw_parts(symbols, symbols_length));
    let described = Cable { settings: Settings { p, q, n, r, l, m }, response, symbols, training };
    cable(&described, from_raw_parts_mut(trace, trace_length))
}

#[no_mangle]
#[rustfmt::skip]
pub unsafe extern "C" fn tigbulode_readings(
    y: *const i32, y_length: usize,
    xi: *const u8, xi_length: usize,
    z: *const i32, z_length: usize,
    theta: *const u8, theta_length: usize,
    lent: *mut [f64; 2], lent_length: usize,
) -> ErrorPower {
    let (y, xi) = (from_raw_parts(y, y_length), from_raw_parts(xi, xi_length));
    let (z, theta) = (from_raw_parts(z, z_length), from_raw_parts(theta, theta_length));
    let lent = from_raw_parts_mut(lent, lent_length);
    let mut read = vec![Reading::default(); lent.len()];
    let power = match readings(&ReadingInputs { y, xi, z, theta }, &mut read) {
        Ok(power) => power,
        Err(number) => return ErrorPower { number, is_floor: 0, power: 0.0 },
    };
    for (lent, reading) in lent.iter_mut().zip(read) {
        *lent = [reading.y, reading.error];
    }
    ErrorPower { number: 0, is_floor: u8::from(matches!(power, Power::Floor(_))), power: power.value() }
}
