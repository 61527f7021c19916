//! "Sizes" of the specification: the limits and the step admission.

use crate::numbers::Dyadic;
use crate::{ACCEPTED, SIZES, STEP};

/// The sizes and M of an equaliser.
#[derive(Clone, Copy, Debug, PartialEq, Eq)]
pub struct Settings {
    /// Feed forward taps.
    pub p: u8,
    /// Feedback taps.
    pub q: u8,
    /// Block length N.
    pub n: u8,
    /// r: symbols have magnitude at most 2^(r+1) − 1.
    pub r: u8,
    /// The least gain L.
    pub l: u8,
    /// The step size is M / 2^30.
    pub m: u32,
}

impl Settings {
    /// The most taps of one filter.
    pub const MOST_TAPS: u8 = 16;
    /// The longest block.
    pub const MOST_BLOCK: u8 = 128;
    /// The greatest r.
    pub const MOST_R: u8 = 3;
    /// The greatest gain, and so the greatest L.
    pub const MOST_GAIN: u8 = 15;
    /// The greatest exponent of the weights.
    pub const MOST_EXPONENT: u8 = 15;

    /// Whether every size is within its limits.
    pub fn within_limits(&self) -> bool {
        let taps = 1..=Settings::MOST_TAPS;
        taps.contains(&self.p)
            && taps.contains(&self.q)
            && self.n >= 1
            && i32::from(self.n) >= i32::from(self.p) - 1
            && self.n <= Settings::MOST_BLOCK
            && self.r <= Settings::MOST_R
            && self.l <= Settings::MOST_GAIN
    }

    /// D = 2^(2r+3) + p·2^(E+r+1) + q·2^(2r+2) with E = r + 1 − L.
    pub fn d(&self) -> Dyadic {
        let r = i32::from(self.r);
        let e = r + 1 - i32::from(self.l);
        let first = Dyadic::power(2 * r + 3);
        let second = Dyadic::new(i128::from(self.p), e + r + 1);
        let third = Dyadic::new(i128::from(self.q), 2 * r + 2);
        first.plus(second).plus(third)
    }

    /// Step admission: M·D is at most 2^30.
    pub fn admitted(&self) -> bool {
        let m = Dyadic::whole(i128::from(self.m));
        m.times(self.d()).at_most(Dyadic::power(30))
    }

    /// 1 if a size is outside its limits, then 2 if M is not admitted, else 0.
    pub fn examine(&self) -> u8 {
        if !self.within_limits() {
            SIZES
        } else if !self.admitted() {
            STEP
        } else {
            ACCEPTED
        }
    }

    /// The largest M that is admitted with these sizes.
    pub fn largest_m(&self) -> u32 {
        let with = |m: u32| Settings { m, ..*self };
        // M = 0 is always admitted, and D is above 1, so that 2^30 never is.
        let (mut good, mut bad) = (0u32, 1u32 << 30);
        while bad - good > 1 {
            let middle = good + (bad - good) / 2;
            if with(middle).admitted() {
                good = middle;
            } else {
                bad = middle;
            }
        }
        good
    }

    /// These sizes with another M.
    pub fn with_m(&self, m: u32) -> Settings {
        Settings { m, ..*self }
    }

    /// The count of weights, p + q.
    pub fn taps(&self) -> usize {
        usize::from(self.p) + usize::from(self.q)
    }

    /// The greatest symbol, 2^(r+1) − 1.
    pub fn end_symbol(&self) -> i128 {
        (1i128 << (self.r + 1)) - 1
    }
}
