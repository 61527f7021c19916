//! Two good descriptions, and ways to spoil one, each for one cause.

use crate::cable::Cause;
use crate::description::Description;
use crate::settings::Settings;

/// Spoils a description for one cause alone.
pub struct Spoiler {
    pub about: &'static str,
    pub cause: Cause,
    pub spoil: fn(&mut Description),
}

/// The specification's example.
pub fn worked_example() -> Description {
    let settings = Settings {
        p: 1,
        q: 1,
        n: 2,
        r: 1,
        l: 0,
        m: 16_777_216,
    };
    Description {
        settings,
        response: vec![16_390, -32_768, 16_384, -5],
        symbols: vec![1, 1, 1, -1, -3, -1],
        training: 3,
    }
}

/// A description that nothing is wrong with.
pub fn good() -> Description {
    let settings = Settings {
        p: 3,
        q: 2,
        n: 4,
        r: 1,
        l: 2,
        m: 0,
    };
    Description {
        settings: settings.with_m(settings.largest_m()),
        response: vec![2000, -1200, 500],
        symbols: vec![1, 3, -1, -3, 3, 3, -1, 1, -3, 1, -1, 3],
        training: 7,
    }
}

/// The good description spoiled by some of [`ALL`], which stand in an order
/// in which none undoes another.
pub fn with(spoilers: &[&Spoiler]) -> Description {
    let mut description = good();
    for spoiler in &ALL {
        let chosen = |other: &&Spoiler| other.about == spoiler.about;
        if spoilers.iter().any(chosen) {
            (spoiler.spoil)(&mut description);
        }
    }
    description
}

/// The ways. The list with a symbol too many comes first and the training
/// count after all that changes the list. A short output is no part of a
/// description.
pub const ALL: [Spoiler; 12] = [
    Spoiler {
        about: "a trace too long",
        cause: Cause::Trace,
        spoil: |d| d.symbols.resize(16_384, 1),
    },
    Spoiler {
        about: "no whole blocks",
        cause: Cause::Blocks,
        spoil: |d| d.symbols.truncate(d.symbols.len() - 1),
    },
    Spoiler {
        about: "an even entry",
        cause: Cause::Entry,
        spoil: |d| d.symbols[9] = 2,
    },
    Spoiler {
        about: "an entry of 0",
        cause: Cause::Entry,
        spoil: |d| d.symbols[0] = 0,
    },
    Spoiler {
        about: "an entry too large",
        cause: Cause::Entry,
        spoil: |d| d.symbols[5] = -5,
    },
    Spoiler {
        about: "a training entry too many",
        cause: Cause::Training,
        spoil: |d| d.training = d.symbols.len() as u32 + 1,
    },
    Spoiler {
        about: "a gain below L",
        cause: Cause::Gain,
        spoil: |d| d.settings.l = 3,
    },
    Spoiler {
        about: "no gain",
        cause: Cause::Gain,
        spoil: |d| {
            (d.settings.l, d.settings.m) = (0, 0);
            d.response[1] = -32768;
        },
    },
    Spoiler {
        about: "33 values",
        cause: Cause::Response,
        spoil: |d| d.response.resize(33, 0),
    },
    Spoiler {
        about: "a short output",
        cause: Cause::Output,
        spoil: |_| {},
    },
    Spoiler {
        about: "a size",
        cause: Cause::Sizes,
        spoil: |d| d.settings.q = 17,
    },
    Spoiler {
        about: "a step",
        cause: Cause::Step,
        spoil: |d| d.settings.m = u32::MAX,
    },
];

/// Further ways, each for use alone.
pub const OTHERS: [Spoiler; 6] = [
    Spoiler {
        about: "an empty response",
        cause: Cause::Response,
        spoil: |d| d.response.clear(),
    },
    Spoiler {
        about: "257 values",
        cause: Cause::Response,
        spoil: |d| d.response.resize(257, 0),
    },
    Spoiler {
        about: "no symbols",
        cause: Cause::Blocks,
        spoil: |d| (d.symbols, d.training) = (Vec::new(), 0),
    },
    Spoiler {
        about: "more training entries by far",
        cause: Cause::Training,
        spoil: |d| d.training = u32::MAX,
    },
    Spoiler {
        about: "an entry of -128",
        cause: Cause::Entry,
        spoil: |d| (d.symbols[11], d.response) = (-128, vec![1]),
    },
    Spoiler {
        about: "M one too large",
        cause: Cause::Step,
        spoil: |d| d.settings.m += 1,
    },
];

/// Each size below and above its limits.
pub const SIZES: [fn(&mut Description); 14] = [
    |d| d.settings.p = 0,
    |d| d.settings.p = 6,
    |d| (d.settings.p, d.settings.n) = (17, 128),
    |d| d.settings.p = 255,
    |d| d.settings.q = 0,
    |d| d.settings.q = 17,
    |d| d.settings.n = 0,
    |d| d.settings.n = 1,
    |d| d.settings.n = 129,
    |d| d.settings.n = 255,
    |d| d.settings.r = 4,
    |d| d.settings.r = 255,
    |d| d.settings.l = 16,
    |d| d.settings.l = 255,
];
