//! The surface laboratory's operations in Rust: a thin safe layer over the C
//! functions of the static library, as `tigbulode_laboratory.h` declares them.
//!
//! Every value is taken; what can't be used is turned down with a number, and
//! all lent memory is then as it was.

#![no_std]

pub mod number;

pub use number::number_text;

/// The version of the interface, that of `tigbulode_laboratory.h`.
pub const VERSION: &str = "0.2";
/// The most values of a response.
pub const MOST_RESPONSE: usize = 32;
/// The most bytes of a trace.
pub const MOST_TRACE: usize = 65_536;
/// The most symbols of a cable: those of the longest trace.
pub const MOST_SYMBOLS: usize = 16_381;
/// The length of a trace before its samples.
pub const HEADER_BYTES: usize = 12;
/// The most readings of a call: the most samples of a block.
pub const MOST_READINGS: usize = 128;
/// The least exponent of an output or an error.
pub const LEAST_READING_EXPONENT: u8 = 1;
/// The greatest exponent of an output or an error.
pub const MOST_READING_EXPONENT: u8 = 24;
/// The greatest magnitude of Y.
pub const MOST_Y: i32 = (1 << 29) - 1;
/// The greatest magnitude of Z.
pub const MOST_Z: i32 = (1 << 30) - 1;

/// A cable, the settings of the equaliser behind it, and what is sent.
#[derive(Clone, Copy, Debug, PartialEq, Eq)]
pub struct Cable<'a> {
    pub p: u8,
    pub q: u8,
    pub n: u8,
    pub r: u8,
    pub l: u8,
    /// M: the step size is M / 2^30.
    pub step: u32,
    /// In units of 1/32768; the first value meets the present symbol.
    pub response: &'a [i16],
    pub symbols: &'a [i8],
    /// How many symbols, from the first, are training entries.
    pub training: usize,
}

/// The output and the error of a sample, both exactly equal to the mantissa and
/// the exponent that a block hands out. A zero is +0.
#[repr(C)]
#[derive(Clone, Copy, Debug, Default, PartialEq)]
pub struct Reading {
    pub y: f64,
    pub error: f64,
}

/// The error power of a block: with a = floor(256·|error|), or 65535 if that is
/// smaller, the sum of a² divided once by 65536·N.
#[derive(Clone, Copy, Debug, PartialEq)]
pub enum Power {
    /// No a was cut: the exact sum of (256·error)² is at least the sum of a²
    /// and less than the sum of (a + 1)².
    Mean(f64),
    /// Some a was cut to 65535, its error being 256 or more in magnitude: the
    /// mean square error is at least this.
    Floor(f64),
}

impl Power {
    /// The power, whether a mean or a floor.
    pub fn value(self) -> f64 {
        match self {
            Power::Mean(value) | Power::Floor(value) => value,
        }
    }

    pub fn is_floor(self) -> bool {
        matches!(self, Power::Floor(_))
    }
}

/// What the C function answers with.
#[repr(C)]
struct Answer {
    number: u8,
    is_floor: u8,
    power: f64,
}

#[rustfmt::skip]
extern "C" {
    fn tigbulode_cable(
        p: u8, q: u8, n: u8, r: u8, l: u8, step: u32,
        response: *const i16, response_length: usize,
        symbols: *const i8, symbols_length: usize,
        training: usize,
        trace: *mut u8, trace_length: usize,
    ) -> u8;
    fn tigbulode_readings(
        y: *const i32, y_length: usize,
        xi: *const u8, xi_length: usize,
        z: *const i32, z_length: usize,
        theta: *const u8, theta_length: usize,
        readings: *mut Reading, readings_length: usize,
    ) -> Answer;
}

/// Writes the trace of a cable, which is [`trace_length`] long; turned down
/// with 1, 2 or 10.
#[must_use]
#[rustfmt::skip]
pub fn cable(cable: &Cable, trace: &mut [u8]) -> u8 {
    // SAFETY: each pointer is a slice's own, so it is not null, is aligned and
    // valid for its length, and what is written overlaps nothing else.
    unsafe {
        tigbulode_cable(
            cable.p, cable.q, cable.n, cable.r, cable.l, cable.step,
            cable.response.as_ptr(), cable.response.len(),
            cable.symbols.as_ptr(), cable.symbols.len(),
            cable.training,
            trace.as_mut_ptr(), trace.len(),
        )
    }
}

/// The length of a trace of so many symbols.
pub const fn trace_length(symbols: usize) -> usize {
    HEADER_BYTES + 4 * symbols
}

/// Gives a reading for each sample of a block, from the lists that it handed
/// out, and the block's error power; turned down with 11.
#[rustfmt::skip]
pub fn readings(
    y: &[i32], xi: &[u8], z: &[i32], theta: &[u8], readings: &mut [Reading],
) -> Result<Power, u8> {
    // SAFETY: as for `cable`.
    let answer = unsafe {
        tigbulode_readings(
            y.as_ptr(), y.len(), xi.as_ptr(), xi.len(),
            z.as_ptr(), z.len(), theta.as_ptr(), theta.len(),
            readings.as_mut_ptr(), readings.len(),
        )
    };
    match (answer.number, answer.is_floor) {
        (number::ACCEPTED, 0) => Ok(Power::Mean(answer.power)),
        (number::ACCEPTED, _) => Ok(Power::Floor(answer.power)),
        (number, _) => Err(number),
    }
}
