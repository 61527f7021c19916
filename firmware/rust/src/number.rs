//! The number that each function answers with.

pub const ACCEPTED: u8 = 0;
/// A size is outside its limits.
pub const SIZES: u8 = 1;
/// M is not admitted with these sizes.
pub const STEP: u8 = 2;
/// A lent list is not N long.
pub const LENGTHS: u8 = 3;
/// A gain is below L or above 15.
pub const GAIN: u8 = 4;
/// A training entry is neither 0 nor a symbol.
pub const ENTRY: u8 = 5;
/// The weights' exponent would rise to 16.
pub const EXPONENT: u8 = 6;
/// The buffer is shorter than the image.
pub const BUFFER: u8 = 7;
/// The image has a wrong length.
pub const IMAGE: u8 = 8;
/// The state is not sound.
pub const UNSOUND: u8 = 9;

/// What a number says, in words.
pub fn number_text(number: u8) -> &'static str {
    match number {
        ACCEPTED => "accepted",
        SIZES => "a size is outside its limits",
        STEP => "M is not admitted with these sizes",
        LENGTHS => "a lent list is not N long",
        GAIN => "a gain is below L or above 15",
        ENTRY => "a training entry is neither 0 nor a symbol",
        EXPONENT => "the weights' exponent would rise to 16",
        BUFFER => "the buffer is shorter than the image",
        IMAGE => "the image has a wrong length",
        UNSOUND => "the state is not sound",
        _ => "no number of the equaliser",
    }
}
