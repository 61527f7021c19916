//! What the station's and the laboratory's calls share: the settings of an equaliser with their limits, the greatest M,
//! and the numbers that calls answer with.

#![no_std]

pub mod number;

pub use number::number_text;

/// The most taps of one filter.
pub const MOST_TAPS: u8 = 16;
/// The most samples of a block.
pub const MOST_BLOCK: u8 = 128;
/// The greatest r: a symbol is odd, of magnitude at most 2^(r+1) - 1.
pub const MOST_R: u8 = 3;
/// The greatest gain of a sample, and so of L.
pub const MOST_GAIN: u8 = 15;

/// The sizes and M of an equaliser; any numbers, also such as set-up turns down.
#[derive(Clone, Copy, Debug, PartialEq, Eq)]
pub struct Settings {
    /// Feed forward taps.
    pub p: u8,
    /// Feedback taps.
    pub q: u8,
    /// The block length N.
    pub n: u8,
    pub r: u8,
    /// The least gain L.
    pub l: u8,
    /// M: the step size is M / 2^30.
    pub m: u32,
}

/// A size with its limits.
#[derive(Clone, Copy, Debug, PartialEq, Eq)]
pub struct Size {
    pub name: &'static str,
    pub value: u8,
    pub least: u8,
    pub most: u8,
}

impl Size {
    pub fn is_outside(&self) -> bool {
        !(self.least..=self.most).contains(&self.value)
    }
}

impl Settings {
    /// The five sizes, each with its limits. The least N is p - 1 where p is one of two to the most taps.
    pub fn sizes(&self) -> [Size; 5] {
        let least_n = if (2..=MOST_TAPS).contains(&self.p) { self.p - 1 } else { 1 };
        [
            Size { name: "p", value: self.p, least: 1, most: MOST_TAPS },
            Size { name: "q", value: self.q, least: 1, most: MOST_TAPS },
            Size { name: "N", value: self.n, least: least_n, most: MOST_BLOCK },
            Size { name: "r", value: self.r, least: 0, most: MOST_R },
            Size { name: "L", value: self.l, least: 0, most: MOST_GAIN },
        ]
    }

    /// The greatest M that set-up admits with these sizes; 0 where p, q, r or L is outside its limits.
    pub fn greatest_m(&self) -> u32 {
        let [p, q, _, r, l] = self.sizes();
        if [p, q, r, l].iter().any(Size::is_outside) {
            return 0;
        }
        // M * D <= 2^30 with D = 2^(2r+2-L) * (2^L * (q + 2) + p)
        let divisor = ((u64::from(self.q) + 2) << self.l) + u64::from(self.p);
        ((1u64 << (28 + self.l - 2 * self.r)) / divisor) as u32
    }

    /// The same sizes with another M.
    pub fn with_m(&self, m: u32) -> Settings {
        Settings { m, ..*self }
    }

    /// The count of weights, p + q.
    pub fn taps(&self) -> usize {
        usize::from(self.p) + usize::from(self.q)
    }
}
