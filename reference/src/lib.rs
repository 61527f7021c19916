//! A second implementation of the station equaliser, written from its
//! specification alone. It is meant to be read beside `docs/EQUALISER.md`, which
//! says the same, and to be compared with a faster implementation; it is not
//! meant to be fast.
//!
//! Every number is exact. The equaliser itself works on whole numbers and on
//! dyadic numbers (a whole number times a power of two) in 128 bits, with
//! every operation checked. The checker of demand 3 uses whole numbers of any
//! length.
//!
//! Answers are numbers: 0 for accepted, otherwise the refusal's number.
//!
//! * [`numbers`]: the cut T, the bit length, the scale count S.
//! * [`settings`]: the limits and the step admission.
//! * [`state`]: the equaliser record, soundness, set-up.
//! * [`block`]: running a block, and a trial of one.
//! * [`lists`]: the eight lists that are lent to a block, and arbitrary ones.
//! * [`swapped`]: two stations of which one has its conductors swapped.
//! * [`image`]: saving and loading.
//! * [`trace`]: the bytes of a trace to its text.
//! * [`cable`]: symbols over a described cable to the bytes of a trace.
//! * [`description`]: the bytes of a description to what the program `cable` writes.
//! * [`readings`]: what a block handed out as f64, and the power of its errors.
//! * [`binary64`]: the 64 bits of an f64, from whole numbers.
//! * [`exact`]: whole numbers and dyadic numbers of any length.
//! * [`demand3`]: the figures of demand 3, checked at every sample.
//! * [`random`]: a small generator and arbitrary sound states.
//! * [`vectors`]: the test vectors.

pub mod binary64;
pub mod block;
pub mod cable;
pub mod demand3;
pub mod description;
pub mod exact;
pub mod image;
pub mod lists;
pub mod numbers;
pub mod random;
pub mod readings;
pub mod settings;
pub mod state;
pub mod swapped;
pub mod trace;
pub mod vectors;

pub use block::{run, run_by, trial, Inputs, Outputs, Rule};
pub use image::{image_length, load, save};
pub use settings::Settings;
pub use state::{set_up, State};
pub use trace::trace;

/// The call was accepted.
pub const ACCEPTED: u8 = 0;
/// A size is outside its limits.
pub const SIZES: u8 = 1;
/// M is not admitted.
pub const STEP: u8 = 2;
/// A lent list is not N long.
pub const LISTS: u8 = 3;
/// A gain is below L or above 15.
pub const GAIN: u8 = 4;
/// A training entry is neither 0 nor a symbol.
pub const TRAINING: u8 = 5;
/// The weights' exponent would rise to 16.
pub const EXPONENT: u8 = 6;
/// The buffer is shorter than the image.
pub const BUFFER: u8 = 7;
/// The bytes have a wrong length (or, in a trace, a nonzero byte 5).
pub const LENGTH: u8 = 8;
/// The state is not sound.
pub const UNSOUND: u8 = 9;
/// A cable is turned down.
pub const CABLE: u8 = 10;
/// Lists are turned down that were to be readings.
pub const READINGS: u8 = 11;
