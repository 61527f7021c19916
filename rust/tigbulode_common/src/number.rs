//! The number that each call answers with: 0 to 9 the station's, 0, 1, 2, 10 and 11 the laboratory's.

macro_rules! numbers {
    ($($name:ident = $number:literal, $text:literal;)*) => {
        $(#[doc = $text] pub const $name: u8 = $number;)*

        /// What a number says, in words.
        pub fn number_text(number: u8) -> &'static str {
            match number {
                $($name => $text,)*
                _ => "no number of these calls",
            }
        }
    };
}

numbers! {
    ACCEPTED = 0, "accepted";
    SIZES = 1, "a size is outside its limits";
    STEP = 2, "M is not admitted with these sizes";
    LENGTHS = 3, "a lent list is not N long";
    GAIN = 4, "a gain is below L or above 15";
    ENTRY = 5, "a training entry is neither 0 nor a symbol";
    EXPONENT = 6, "the weights' exponent would rise to 16";
    BUFFER = 7, "the buffer is shorter than the image";
    IMAGE = 8, "the image has a wrong length";
    UNSOUND = 9, "the state is not sound";
    CABLE = 10, "the cable can't be simulated";
    READINGS = 11, "the lists can't be read as a block's outputs";
}
