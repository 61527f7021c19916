//! The equaliser record, soundness and set-up.

use crate::exact::Exact;
use crate::numbers::{is_symbol, scale_count};
use crate::settings::Settings;
use crate::{ACCEPTED, UNSOUND};

/// The places for weights, and as many for data, in a lent record.
pub const SLOTS: usize = 32;

/// A state of the equaliser.
///
/// The first p + q weights and data are those of the saved image, in its
/// order. Any place beyond them is spare and is 0 in a sound state. A state
/// from set-up or load has no spare slots; a record that the firmware lends
/// has [`SLOTS`] slots for weights and as many for data.
#[derive(Clone, Debug, PartialEq, Eq)]
pub struct State {
    /// Sizes and M.
    pub settings: Settings,
    /// ψ, the exponent that all weights share.
    pub psi: u8,
    /// The last block's b.
    pub b: u8,
    /// The last block's B.
    pub bmax: u8,
    /// Feed forward weights, then feedback weights.
    pub weights: Vec<i16>,
    /// The last p − 1 stored samples newest first, a 0, then q symbols newest
    /// first.
    pub data: Vec<i16>,
}

impl State {
    /// All zeros, without spare slots.
    pub fn zeros(settings: Settings) -> State {
        State {
            settings,
            psi: 0,
            b: 0,
            bmax: 0,
            weights: vec![0; settings.taps()],
            data: vec![0; settings.taps()],
        }
    }

    /// The fresh state of a refused set-up or load: p = q = N = 1, the rest 0.
    pub fn fresh() -> State {
        State::zeros(Settings {
            p: 1,
            q: 1,
            n: 1,
            r: 0,
            l: 0,
            m: 0,
        })
    }

    /// The same state as a lent record, with its spare slots 0.
    pub fn lent(&self) -> State {
        let mut record = self.clone();
        record.weights.resize(SLOTS, 0);
        record.data.resize(SLOTS, 0);
        record
    }

    /// The same state without its spare slots.
    pub fn compact(&self) -> State {
        let mut state = self.clone();
        state.weights.truncate(self.settings.taps());
        state.data.truncate(self.settings.taps());
        state
    }

    /// The past samples, newest first. The sizes must be within their limits.
    pub fn past_samples(&self) -> &[i16] {
        &self.data[..usize::from(self.settings.p) - 1]
    }

    /// The filler between past samples and symbols.
    pub fn filler(&self) -> i16 {
        self.data[usize::from(self.settings.p) - 1]
    }

    /// The past symbols, newest first.
    pub fn past_symbols(&self) -> &[i16] {
        &self.data[usize::from(self.settings.p)..self.settings.taps()]
    }

    /// Soundness. The sizes must be within their limits.
    pub fn sound(&self) -> bool {
        let taps = self.settings.taps();
        if self.weights.len() < taps || self.data.len() < taps {
            return false;
        }
        let s = scale_count(self.settings.p);
        let (b, bmax) = (i32::from(self.b), i32::from(self.bmax));
        let l = i32::from(self.settings.l);
        let exponent = self.psi <= Settings::MOST_EXPONENT;
        let lengths = b <= bmax && bmax <= 31 - l;
        let weights = self.weights[..taps]
            .iter()
            .all(|&w| i128::from(w).abs() <= 16383);
        // b and B may be any bytes here, so both sides may be very long.
        let samples = self.past_samples().iter().all(|&a| {
            let a = i128::from(a).abs();
            Exact::new(a, bmax + s).less(&Exact::new(1, 15 + b))
        });
        let filler = self.filler() == 0;
        let symbols = self
            .past_symbols()
            .iter()
            .all(|&v| v == 0 || is_symbol(i128::from(v), self.settings.r));
        let spare = self.weights[taps..]
            .iter()
            .chain(&self.data[taps..])
            .all(|&place| place == 0);
        exponent && lengths && weights && samples && filler && symbols && spare
    }

    /// 1, 2 and 9 in order, else 0.
    pub fn examine(&self) -> u8 {
        let number = self.settings.examine();
        if number != ACCEPTED {
            number
        } else if !self.sound() {
            UNSOUND
        } else {
            ACCEPTED
        }
    }
}

/// Set-up: 1, then 2, with the fresh state; else 0 with the state of all
/// zeros.
pub fn set_up(settings: Settings) -> (u8, State) {
    match settings.examine() {
        ACCEPTED => (ACCEPTED, State::zeros(settings)),
        number => (number, State::fresh()),
    }
}
