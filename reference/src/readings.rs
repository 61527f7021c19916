//! "Readings for plots" of the specification: what a block handed out as f64,
//! and the power of its errors.

use crate::binary64::{exact, nearest};
use crate::numbers::Dyadic;
use crate::settings::Settings;
use crate::READINGS;

/// The longest lists.
pub const MOST_LENGTH: usize = Settings::MOST_BLOCK as usize;
/// The greatest ξ and θ; the least is 1.
pub const MOST_EXPONENT: u8 = 24;
/// The greatest a.
pub const MOST_A: i128 = 65_535;

/// What a block handed out, but for the decisions.
#[derive(Clone, Copy, Debug)]
pub struct ReadingInputs<'a> {
    pub y: &'a [i32],
    pub xi: &'a [u8],
    pub z: &'a [i32],
    pub theta: &'a [u8],
}

/// y and the error of a sample.
#[derive(Clone, Copy, Debug, Default)]
pub struct Reading {
    pub y: f64,
    pub error: f64,
}

impl Reading {
    /// The bits of y and of the error.
    pub fn bits(&self) -> [u64; 2] {
        [self.y.to_bits(), self.error.to_bits()]
    }
}

/// The error power of a block.
#[derive(Clone, Copy, Debug)]
pub enum Power {
    /// No a was cut.
    Mean(f64),
    /// Some a was cut to 65535: only a floor.
    Floor(f64),
}

impl Power {
    pub fn value(self) -> f64 {
        match self {
            Power::Mean(value) | Power::Floor(value) => value,
        }
    }

    pub fn is_floor(self) -> bool {
        matches!(self, Power::Floor(_))
    }
}

/// Why lists are turned down.
#[derive(Clone, Copy, Debug, PartialEq, Eq, PartialOrd, Ord)]
pub enum Cause {
    /// The lists are not all of one length from 1 to 128.
    Lengths,
    /// Some |Z| is 2^30 or more.
    Error,
    /// Some ξ or θ is outside 1 to 24.
    Exponent,
    /// Some |Y| is 2^29 or more.
    Output,
}

impl Cause {
    /// All causes. Each answers the same number.
    pub const ALL: [Cause; 4] = [Cause::Lengths, Cause::Error, Cause::Exponent, Cause::Output];
}

/// floor(256·|error|) with the error Z·2^(θ−30), before it is brought to 65535.
pub fn magnitude(z: i32, theta: u8) -> i128 {
    Dyadic::new(i128::from(z).abs(), i32::from(theta) - 30)
        .scaled(8)
        .floor()
}

/// The reading of a sample.
fn reading(y: i32, xi: u8, z: i32, theta: u8) -> Reading {
    let number = |mantissa: i32, exponent: u8| {
        let bits = exact(i128::from(mantissa), i32::from(exponent) - 30);
        f64::from_bits(bits)
    };
    Reading {
        y: number(y, xi),
        error: number(z, theta),
    }
}

fn reaches(list: &[i32], end: i128) -> bool {
    list.iter().any(|&a| i128::from(a).abs() >= end)
}

impl ReadingInputs<'_> {
    /// floor(256·|error|) of each sample.
    pub fn magnitudes(&self) -> Vec<i128> {
        let errors = self.z.iter().zip(self.theta);
        errors.map(|(&z, &theta)| magnitude(z, theta)).collect()
    }

    fn one_length(&self, readings: usize) -> bool {
        let n = self.y.len();
        let others = [self.xi.len(), self.z.len(), self.theta.len(), readings];
        (1..=MOST_LENGTH).contains(&n) && others.iter().all(|&length| length == n)
    }

    /// Whether a cause holds, with so many readings lent.
    pub fn holds(&self, cause: Cause, readings: usize) -> bool {
        let outside = |exponent: &u8| !(1..=MOST_EXPONENT).contains(exponent);
        match cause {
            Cause::Lengths => !self.one_length(readings),
            Cause::Error => reaches(self.z, 1 << 30),
            Cause::Exponent => self.xi.iter().chain(self.theta).any(outside),
            Cause::Output => reaches(self.y, 1 << 29),
        }
    }

    /// The readings of lists that are not turned down.
    fn readings(&self) -> Vec<Reading> {
        let sample = |n: usize| reading(self.y[n], self.xi[n], self.z[n], self.theta[n]);
        (0..self.y.len()).map(sample).collect()
    }

    /// The error power of lists that are not turned down: the sum of a²,
    /// divided once by 65536·N.
    fn power(&self) -> Power {
        let magnitudes = self.magnitudes();
        let sum: i128 = magnitudes
            .iter()
            .map(|&a| a.min(MOST_A) * a.min(MOST_A))
            .sum();
        let n = magnitudes.len() as i128;
        let quotient = f64::from_bits(nearest(sum, 65_536 * n));
        match magnitudes.iter().any(|&a| a > MOST_A) {
            true => Power::Floor(quotient),
            false => Power::Mean(quotient),
        }
    }
}

/// Fills the readings and gives the error power. Turned down with 11, the
/// readings stay as they are.
pub fn readings(handed: &ReadingInputs<'_>, readings: &mut [Reading]) -> Result<Power, u8> {
    let lent = readings.len();
    if Cause::ALL.iter().any(|&cause| handed.holds(cause, lent)) {
        return Err(READINGS);
    }
    readings.copy_from_slice(&handed.readings());
    Ok(handed.power())
}
