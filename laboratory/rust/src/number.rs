//! The number that each function answers with.

pub const ACCEPTED: u8 = 0;
/// A size is outside its limits.
pub const SIZES: u8 = 1;
/// M is not admitted with these sizes.
pub const STEP: u8 = 2;
/// The cable can't be simulated.
pub const CABLE: u8 = 10;
/// The lists can't be read as a block's outputs.
pub const READINGS: u8 = 11;

/// What a number says, in words.
pub fn number_text(number: u8) -> &'static str {
    match number {
        ACCEPTED => "accepted",
        SIZES => "a size is outside its limits",
        STEP => "M is not admitted with these sizes",
        CABLE => "the cable can't be simulated",
        READINGS => "the lists can't be read as a block's outputs",
        _ => "no number of the laboratory",
    }
}
