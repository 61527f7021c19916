//! The station equaliser for firmware in Rust: a thin safe layer over the C
//! functions of the static library, as `tigbulode.h` declares them.
//!
//! Every value is taken; what can't be used is turned down with a number, and
//! the record and all lent memory are then as they were.
//!
//! A [`trial`] shows what a block would do before the station takes it; an
//! operator looks at its number, at psi and at [`Equaliser::largest_weight`].
//! `tigbulode.h` says when that is useful.
//!
//! An image has no check sum: see `tigbulode.h`. Firmware keeps [`check_sum`] of
//! each image beside it, and after a load compares [`Equaliser::settings`] with
//! its own.

#![cfg_attr(not(feature = "compare"), no_std)]

#[cfg(feature = "compare")]
pub mod calls;
#[cfg(feature = "compare")]
pub mod compare;
pub mod number;
#[cfg(feature = "compare")]
pub mod perform;
#[cfg(feature = "compare")]
pub mod sides;
#[cfg(feature = "compare")]
pub mod station;

pub use number::number_text;

/// The version of the interface, that of `tigbulode.h`.
pub const VERSION: &str = "2.0";
/// The most taps of one filter.
pub const MOST_TAPS: u8 = 16;
/// The most samples of a block.
pub const MOST_BLOCK: u8 = 128;
/// The greatest r: a symbol is odd, of magnitude at most 2^(r+1) - 1.
pub const MOST_R: u8 = 3;
/// The greatest gain of a sample, and so of L.
pub const MOST_GAIN: u8 = 15;
/// The greatest exponent of the weights.
pub const MOST_EXPONENT: u8 = 15;
/// The greatest magnitude of a stored weight.
pub const MOST_WEIGHT: i16 = 16383;
/// The slots for weights, and as many for data: the taps of both filters.
pub const SLOTS: usize = 32;
/// The length of an image's sizes and M.
pub const HEADER_BYTES: usize = 12;
/// The length of the longest image.
pub const IMAGE_BYTES: usize = 140;

/// The equaliser record, in the saved image's order. Slots at p + q and
/// beyond are spare and 0.
#[repr(C)]
#[derive(Clone, Copy, Debug, PartialEq, Eq)]
pub struct Equaliser {
    pub p: u8,
    pub q: u8,
    pub n: u8,
    pub r: u8,
    pub l: u8,
    pub psi: u8,
    pub b: u8,
    /// The last block's B: the larger of its b and the previous block's b.
    pub bmax: u8,
    /// M: the step size is M / 2^30.
    pub step: u32,
    pub weights: [i16; SLOTS],
    pub past: [i16; SLOTS],
}

/// A number beside a state.
#[repr(C)]
#[must_use]
#[derive(Clone, Copy, Debug, PartialEq, Eq)]
pub struct Answer {
    pub number: u8,
    pub state: Equaliser,
}

/// A number beside the length of an image.
#[repr(C)]
#[must_use]
#[derive(Clone, Copy, Debug, PartialEq, Eq)]
pub struct Saved {
    pub number: u8,
    pub length: usize,
}

/// The three lists that a block reads.
#[derive(Clone, Copy)]
pub struct Block<'a> {
    pub samples: &'a [i16],
    pub gains: &'a [u8],
    pub entries: &'a [i8],
}

/// The five lists that a block hands out.
pub struct Outputs<'a> {
    pub y: &'a mut [i32],
    pub xi: &'a mut [u8],
    pub decision: &'a mut [i8],
    pub z: &'a mut [i32],
    pub theta: &'a mut [u8],
}

impl Equaliser {
    /// p, q, N, r, L and M.
    pub fn settings(&self) -> (u8, u8, u8, u8, u8, u32) {
        (self.p, self.q, self.n, self.r, self.l, self.step)
    }

    /// The largest magnitude of a weight, in units of 2^(psi - 15): at most
    /// 16383 in a sound state. A block may raise psi or lower it, so beside
    /// another record's compare this number times 2^psi.
    pub fn largest_weight(&self) -> u16 {
        let magnitudes = self.weights.iter().map(|weight| weight.unsigned_abs());
        magnitudes.max().unwrap_or(0)
    }
}

#[rustfmt::skip]
extern "C" {
    fn tigbulode_set_up(p: u8, q: u8, n: u8, r: u8, l: u8, step: u32) -> Answer;
    fn tigbulode_run(
        s: *mut Equaliser,
        samples: *const i16, samples_length: usize,
        gains: *const u8, gains_length: usize,
        entries: *const i8, entries_length: usize,
        y: *mut i32, y_length: usize,
        xi: *mut u8, xi_length: usize,
        decision: *mut i8, decision_length: usize,
        z: *mut i32, z_length: usize,
        theta: *mut u8, theta_length: usize,
    ) -> u8;
    fn tigbulode_trial(
        s: *const Equaliser,
        samples: *const i16, samples_length: usize,
        gains: *const u8, gains_length: usize,
        entries: *const i8, entries_length: usize,
        y: *mut i32, y_length: usize,
        xi: *mut u8, xi_length: usize,
        decision: *mut i8, decision_length: usize,
        z: *mut i32, z_length: usize,
        theta: *mut u8, theta_length: usize,
    ) -> Answer;
    fn tigbulode_save(s: *const Equaliser, buffer: *mut u8, length: usize) -> Saved;
    fn tigbulode_load(bytes: *const u8, length: usize) -> Answer;
}

/// A fresh state, or 1 or 2 beside the one with p = q = N = 1.
pub fn set_up(p: u8, q: u8, n: u8, r: u8, l: u8, step: u32) -> Answer {
    // SAFETY: only numbers are passed.
    unsafe { tigbulode_set_up(p, q, n, r, l, step) }
}

/// A call with a record and the lists of a block, each with its length.
#[rustfmt::skip]
macro_rules! with_lists {
    ($call:ident, $s:expr, $block:expr, $out:expr) => {
        $call(
            $s,
            $block.samples.as_ptr(), $block.samples.len(),
            $block.gains.as_ptr(), $block.gains.len(),
            $block.entries.as_ptr(), $block.entries.len(),
            $out.y.as_mut_ptr(), $out.y.len(),
            $out.xi.as_mut_ptr(), $out.xi.len(),
            $out.decision.as_mut_ptr(), $out.decision.len(),
            $out.z.as_mut_ptr(), $out.z.len(),
            $out.theta.as_mut_ptr(), $out.theta.len(),
        )
    };
}

/// Runs a block; the record is advanced in place.
#[must_use]
pub fn run(s: &mut Equaliser, block: Block, out: Outputs) -> u8 {
    // SAFETY: each pointer is a reference's or a slice's own, so it is not
    // null, is aligned and valid for its length, and what is written overlaps
    // nothing else.
    unsafe { with_lists!(tigbulode_run, s, block, out) }
}

/// A trial: what [`run`] would answer and hand out, beside the state that would
/// follow, or turned down the record's own. The record is only read; to take
/// the block run it, or store that state in the record.
pub fn trial(s: &Equaliser, block: Block, out: Outputs) -> Answer {
    // SAFETY: as for `run`, and the record is only read.
    unsafe { with_lists!(tigbulode_trial, s, block, out) }
}

/// Writes the image to the front of the buffer and gives its length.
pub fn save(s: &Equaliser, buffer: &mut [u8]) -> Saved {
    // SAFETY: both pointers are a reference's or a slice's own, the slice's
    // with its length; the record is only read.
    unsafe { tigbulode_save(s, buffer.as_mut_ptr(), buffer.len()) }
}

/// The state that an image holds.
pub fn load(bytes: &[u8]) -> Answer {
    // SAFETY: the pointer is a slice's own, with its length.
    unsafe { tigbulode_load(bytes.as_ptr(), bytes.len()) }
}

/// The length of an image with these tap counts.
pub const fn image_length(p: u8, q: u8) -> usize {
    HEADER_BYTES + 4 * (p as usize + q as usize)
}

/// The greatest M that set-up admits with these sizes; none where one of them
/// is outside its limits.
pub fn greatest_step(p: u8, q: u8, r: u8, l: u8) -> Option<u32> {
    let taps = 1..=MOST_TAPS;
    if !taps.contains(&p) || !taps.contains(&q) || r > MOST_R || l > MOST_GAIN {
        return None;
    }
    // M * D <= 2^30 with D = 2^(2r+2-L) * (2^L * (q + 2) + p)
    let greatest = (1u64 << (28 + l - 2 * r)) / (((u64::from(q) + 2) << l) + u64::from(p));
    u32::try_from(greatest).ok()
}

/// The check sum to keep beside an image: CRC-32. It finds every change of one
/// byte, and of any bytes within four in a row.
pub fn check_sum(bytes: &[u8]) -> u32 {
    let mut sum = u32::MAX;
    for byte in bytes {
        sum ^= u32::from(*byte);
        for _ in 0..8 {
            sum = (sum >> 1) ^ if sum & 1 == 1 { 0xEDB8_8320 } else { 0 };
        }
    }
    !sum
}
