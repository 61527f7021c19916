//! The five operations with one thing wrong, or nothing where the fault is none of the list.
//!
//! A fault of a block is one of its trials too. One whose name begins with `trial-` is in trials alone; those that go
//! on with `given-` write to the state that a trial only reads.

use crate::steps::{block, refusal};
use crate::Implementation;
use reference::settings::Rules;
use reference::{Inputs, Outputs, Settings, State};
use std::cell::Cell;

pub struct Faulty {
    fault: &'static str,
    /// Whether a trial was accepted after the last set-up, save and load.
    tried: Cell<bool>,
}

/// What a block leaves.
struct Left {
    number: u8,
    /// The state before the sample that 6 is answered at, else the one after the block.
    reached: State,
    /// The state that comes back.
    back: State,
}

/// Whether the fault is one of this family, at this number.
fn is_of(fault: &str, family: &str, number: u8) -> bool {
    let of = fault.strip_prefix(family).and_then(|rest| rest.parse().ok());
    of == Some(number)
}

/// Flips the lowest bit of a number.
fn flip<T: Copy + std::ops::BitXor<Output = T> + From<u8>>(number: Option<&mut T>) {
    number.into_iter().for_each(|number| *number = *number ^ T::from(1));
}

/// The same state with every spare slot 0.
fn cleared(state: &State) -> State {
    let mut cleared = state.compact();
    cleared.weights.resize(state.weights.len(), 0);
    cleared.data.resize(state.data.len(), 0);
    cleared
}

/// Writes what was handed out, as far as the lists go.
fn write(handed: &[[i64; 5]], out: &mut Outputs) {
    fn put<T: TryFrom<i64>>(list: &mut [T], handed: &[[i64; 5]], at: usize) {
        for (place, sample) in list.iter_mut().zip(handed) {
            *place = T::try_from(sample[at]).ok().expect("a number that fits");
        }
    }
    put(&mut out.y, handed, 0);
    put(&mut out.xi, handed, 1);
    put(&mut out.decision, handed, 2);
    put(&mut out.z, handed, 3);
    put(&mut out.theta, handed, 4);
}

fn resize(out: &mut Outputs, n: usize) {
    out.y.resize(n, 0);
    out.xi.resize(n, 0);
    out.decision.resize(n, 0);
    out.z.resize(n, 0);
    out.theta.resize(n, 0);
}

fn worked(fault: &str, given: &State, inputs: Inputs<'_>, out: &mut Outputs) -> Left {
    let mut left = Left { number: refusal(given, inputs, out, fault), reached: given.clone(), back: given.clone() };
    let mut handed = Vec::new();
    if left.number == 0 {
        (left.number, left.reached, handed) = block(given, inputs, fault);
    }
    match left.number {
        0 => accepted(fault, given, inputs, &handed, &mut left, out),
        _ => refused(fault, given, &handed, &mut left, out),
    }
    let negative = inputs.samples.first().is_some_and(|&m| m < 0);
    left.number = match (fault, left.number) {
        ("swapped-number", 5) if negative => 4,
        ("0-for-6", 6) => 0,
        (_, number) => number,
    };
    left
}

/// Hands out and back what an accepted block leaves.
fn accepted(fault: &str, given: &State, inputs: Inputs<'_>, handed: &[[i64; 5]], left: &mut Left, out: &mut Outputs) {
    left.back = left.reached.clone();
    let (back, last) = (&mut left.back, handed.len() - 1);
    let held_even = out.z.first().is_some_and(|z| z % 2 == 0);
    match fault {
        "outputs-stay" => (),
        "last-outputs-stay" => write(&handed[..last], out),
        _ => write(handed, out),
    }
    let loud = inputs.samples.iter().any(|m| m.unsigned_abs() >= 16384);
    let trained = inputs.training.iter().any(|&entry| entry != 0);
    let (raised, lowered) = (back.psi > given.psi, back.psi < given.psi);
    let taps = given.settings.taps();
    match fault {
        "output" if loud => out.y[last] ^= 2,
        "exponent" if back.psi > 0 => out.xi[last] ^= 1,
        "decision" if inputs.training[last] == 0 => out.decision[last] *= -1,
        "error" if trained => out.z[0] ^= 1,
        "swapped-lent" if held_even => out.z[0] ^= 1,
        "state" => *back = given.clone(),
        "weight" if trained => back.weights[0] ^= 2,
        "weights" => back.weights.clone_from(&given.weights),
        "sample" if loud && given.settings.p > 1 => back.data[0] ^= 1,
        "data" => back.data.clone_from(&given.data),
        "b" => back.b = given.b,
        "b-lost" => back.b = back.bmax,
        "bmax" => back.bmax = given.bmax,
        "spare" => back.weights[taps..].iter_mut().rev().take(1).for_each(|place| *place = 1),
        "halving" if raised => back.psi = given.psi,
        "doubling" if lowered => back.psi = given.psi,
        "last-doubling" if lowered => {
            back.weights.iter_mut().for_each(|w| *w /= 2);
            back.psi += 1;
        }
        _ => (),
    }
}

/// What a block leaves that is turned down.
fn refused(fault: &str, given: &State, handed: &[[i64; 5]], left: &mut Left, out: &mut Outputs) {
    match (fault, left.number) {
        ("refused-zeros", _) => write(&[[0; 5]; 128], out),
        ("refused-fresh", _) => left.back = State::fresh(),
        ("refused-cleared", _) => left.back = cleared(given),
        ("3-resizes", 3) => resize(out, given.settings.n.into()),
        ("6-state", 6) => left.back = left.reached.clone(),
        ("6-outputs", 6) => write(handed, out),
        (_, number) if is_of(fault, "refused-output-", number) => flip(out.z.first_mut()),
        (_, number) if is_of(fault, "refused-record-", number) => left.back.weights[0] ^= 1,
        _ => (),
    }
}

/// What becomes of the state that a trial is given.
fn leave(fault: &str, left: &Left, given: &mut State) {
    match (fault, left.number) {
        ("given-runs", 0) | ("given-reached", 6) => *given = left.reached.clone(),
        ("given-bit", 0) => given.weights[0] ^= 1,
        ("given-b", _) => given.b = given.bmax,
        ("given-fresh", 1..) => *given = State::fresh(),
        ("given-cleared", 1..) => *given = cleared(given),
        (_, number) if is_of(fault, "given-", number) => given.psi ^= 1,
        _ => (),
    }
}

impl Faulty {
    pub fn new(fault: &'static str) -> Faulty {
        Faulty { fault, tried: Cell::new(false) }
    }
}

impl Implementation for Faulty {
    fn set_up(&self, s: Settings) -> (u8, State) {
        let kept = u32::from(self.tried.take() && s.m > 0);
        let refused = self.fault == "step" && s.examine() == 0 && s.m == s.greatest_m();
        reference::set_up(s.with_m(s.m - kept + u32::from(refused)))
    }

    fn run(&self, state: &mut State, inputs: Inputs<'_>, outputs: &mut Outputs) -> u8 {
        let fault = if self.fault.starts_with("trial-") { "" } else { self.fault };
        let left = worked(fault, state, inputs, outputs);
        *state = left.back;
        left.number
    }

    fn trial(&self, state: &mut State, inputs: Inputs<'_>, outputs: &mut Outputs) -> (u8, State) {
        let fault = self.fault.strip_prefix("trial-").unwrap_or(self.fault);
        let left = worked(fault, state, inputs, outputs);
        leave(fault, &left, state);
        self.tried.set(fault == "kept" && (left.number == 0 || self.tried.get()));
        (left.number, left.back)
    }

    fn save(&self, state: &mut State, buffer: &mut [u8]) -> (u8, usize) {
        self.tried.set(false);
        let (number, length) = reference::save(state, buffer);
        match (self.fault, number) {
            ("save-record", 0) | ("save-refused-record", 1..) => state.weights[0] ^= 1,
            ("save-refused-buffer", 7) => flip(buffer.first_mut()),
            ("save-refused-length", 7) => return (number, buffer.len()),
            ("image", 0) if state.weights.iter().any(|&w| w != 0) => flip(buffer.get_mut(12)),
            ("after-image", 0) => flip(buffer.get_mut(length)),
            _ => (),
        }
        (number, length)
    }

    fn load(&self, bytes: &[u8]) -> (u8, State) {
        self.tried.set(false);
        let (number, mut state) = reference::load(bytes);
        match (self.fault, number) {
            ("loaded", 0) => state.b ^= 1,
            ("loaded-fresh", 9) => state.settings.n = 2,
            ("loaded-number", 9) => return (8, state),
            _ => (),
        }
        (number, state)
    }
}
