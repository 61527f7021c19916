//! Two good descriptions, and ways to spoil one, each for one cause.

use crate::cable::Cause;
use crate::description::Description;
use crate::settings::Settings;

/// What is wrong, its cause, and what spoils a description for that cause alone.
pub type Spoiler = (&'static str, Cause, fn(&mut Description));

/// The specification's example.
pub fn worked_example() -> Description {
    let settings = Settings { p: 1, q: 1, n: 2, r: 1, l: 0, m: 16_777_216 };
    let response = vec![16_390, -32_768, 16_384, -5];
    Description { settings, response, symbols: vec![1, 1, 1, -1, -3, -1], training: 3 }
}

/// A description that nothing is wrong with.
pub fn good() -> Description {
    let settings = super::states::greatest(3, 2, 4, 1, 2);
    let symbols = vec![1, 3, -1, -3, 3, 3, -1, 1, -3, 1, -1, 3];
    Description { settings, response: vec![2000, -1200, 500], symbols, training: 7 }
}

/// The good description spoiled by some of [`ALL`], in the order in which they stand there.
pub fn with(spoilers: &[Spoiler]) -> Description {
    let mut description = good();
    for (about, _, spoil) in ALL {
        if spoilers.iter().any(|spoiler| spoiler.0 == about) {
            spoil(&mut description);
        }
    }
    description
}

/// The ways, in an order in which none undoes another: the list with a symbol too many comes first and the training
/// count after all that changes the list. A short output is no part of a description.
pub const ALL: [Spoiler; 12] = [
    ("a trace too long", Cause::Trace, |d| d.symbols.resize(16_384, 1)),
    ("no whole blocks", Cause::Blocks, |d| d.symbols.truncate(d.symbols.len() - 1)),
    ("an even entry", Cause::Entry, |d| d.symbols[9] = 2),
    ("an entry of 0", Cause::Entry, |d| d.symbols[0] = 0),
    ("an entry too large", Cause::Entry, |d| d.symbols[5] = -5),
    ("a training entry too many", Cause::Training, |d| d.training = d.symbols.len() as u32 + 1),
    ("a gain below L", Cause::Gain, |d| d.settings.l = 3),
    ("no gain", Cause::Gain, |d| (d.settings.l, d.settings.m, d.response[1]) = (0, 0, -32768)),
    ("33 values", Cause::Response, |d| d.response.resize(33, 0)),
    ("a short output", Cause::Output, |_| {}),
    ("a size", Cause::Sizes, |d| d.settings.q = 17),
    ("a step", Cause::Step, |d| d.settings.m = u32::MAX),
];

/// Further ways, each for use alone.
pub const OTHERS: [Spoiler; 6] = [
    ("an empty response", Cause::Response, |d| d.response.clear()),
    ("257 values", Cause::Response, |d| d.response.resize(257, 0)),
    ("no symbols", Cause::Blocks, |d| (d.symbols, d.training) = (Vec::new(), 0)),
    ("more training entries by far", Cause::Training, |d| d.training = u32::MAX),
    ("an entry of -128", Cause::Entry, |d| (d.symbols[11], d.response) = (-128, vec![1])),
    ("M one too large", Cause::Step, |d| d.settings.m += 1),
];

/// Each size below and above its limits.
pub const SIZES: [&str; 14] =
    ["p0", "p6", "p17 n128", "p255", "q0", "q17", "n0", "n1", "n129", "n255", "r4", "r255", "l16", "l255"];
