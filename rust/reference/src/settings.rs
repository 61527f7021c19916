//! "Sizes" of the specification: the limits and the step admission.

use crate::numbers::Dyadic;
use crate::{ACCEPTED, SIZES, STEP};

pub use tigbulode_common::Settings;

/// The most taps of one filter.
pub const MOST_TAPS: u8 = 16;
/// The longest block.
pub const MOST_BLOCK: u8 = 128;
/// The greatest r.
pub const MOST_R: u8 = 3;
/// The greatest gain, and so the greatest L.
pub const MOST_GAIN: u8 = 15;
/// The greatest exponent of the weights.
pub const MOST_EXPONENT: u8 = 15;

/// The first 12 bytes of an image, of a trace and of a description: p, q, N, r, L, three bytes of its own, M.
pub fn header(s: &Settings, own: [u8; 3]) -> Vec<u8> {
    [&[s.p, s.q, s.n, s.r, s.l], &own[..], &s.m.to_le_bytes()].concat()
}

/// The settings that such bytes say.
pub fn settings_of(header: &[u8]) -> Settings {
    let m = u32::from_le_bytes([header[8], header[9], header[10], header[11]]);
    Settings { p: header[0], q: header[1], n: header[2], r: header[3], l: header[4], m }
}

/// The rules about settings.
pub trait Rules {
    /// Whether every size is within its limits.
    fn within_limits(&self) -> bool;

    /// D = 2^(2r+3) + p·2^(E+r+1) + q·2^(2r+2) with E = r + 1 − L.
    fn d(&self) -> Dyadic;

    /// Step admission: M·D is at most 2^30.
    fn admitted(&self) -> bool;

    /// 1 if a size is outside its limits, then 2 if M is not admitted, else 0.
    fn examine(&self) -> u8;

    /// The greatest symbol, 2^(r+1) − 1.
    fn end_symbol(&self) -> i128;
}

impl Rules for Settings {
    fn within_limits(&self) -> bool {
        let taps = 1..=MOST_TAPS;
        taps.contains(&self.p)
            && taps.contains(&self.q)
            && self.n >= 1
            && i32::from(self.n) >= i32::from(self.p) - 1
            && self.n <= MOST_BLOCK
            && self.r <= MOST_R
            && self.l <= MOST_GAIN
    }

    fn d(&self) -> Dyadic {
        let r = i32::from(self.r);
        let e = r + 1 - i32::from(self.l);
        let first = Dyadic::power(2 * r + 3);
        let second = Dyadic::new(i128::from(self.p), e + r + 1);
        let third = Dyadic::new(i128::from(self.q), 2 * r + 2);
        first.plus(second).plus(third)
    }

    fn admitted(&self) -> bool {
        let m = Dyadic::whole(i128::from(self.m));
        m.times(self.d()).at_most(Dyadic::power(30))
    }

    fn examine(&self) -> u8 {
        if !self.within_limits() {
            SIZES
        } else if !self.admitted() {
            STEP
        } else {
            ACCEPTED
        }
    }

    fn end_symbol(&self) -> i128 {
        (1i128 << (self.r + 1)) - 1
    }
}
