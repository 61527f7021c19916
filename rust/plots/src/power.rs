//! The error power of one block, or of several.

use crate::words::{decibels, minus};
use tigbulode_laboratory::Power;

/// What a page says of errors, and of a power of 0 where it draws one.
pub const CUT_NOTE: &str = "each error is cut to a multiple of 1/256";
pub const ZERO_NOTE: &str = "power 0, all below 1/256, is at −100 dB";
/// The title of marks at powers that are only floors.
pub const FLOOR_TITLE: &str = "only a floor: an error of 256 or more";

#[derive(Clone, Copy, Debug, PartialEq)]
pub struct ErrorPower {
    pub power: Power,
    pub blocks: u32,
}

impl ErrorPower {
    pub fn of_block(power: Power) -> ErrorPower {
        ErrorPower { power, blocks: 1 }
    }

    /// The mean over all blocks, which have as many samples each; only a floor where one of them is. None where there
    /// are none.
    pub fn joined(parts: impl IntoIterator<Item = ErrorPower>) -> Option<ErrorPower> {
        let (mut sum, mut blocks, mut is_floor) = (0.0, 0, false);
        for part in parts {
            sum += part.value() * f64::from(part.blocks);
            blocks += part.blocks;
            is_floor |= part.is_floor();
        }
        let mean = sum / f64::from(blocks);
        let power = if is_floor { Power::Floor(mean) } else { Power::Mean(mean) };
        (blocks > 0).then_some(ErrorPower { power, blocks })
    }

    pub fn value(self) -> f64 {
        self.power.value()
    }

    pub fn is_floor(self) -> bool {
        self.power.is_floor()
    }

    /// Every error is below 1/256.
    pub fn is_zero(self) -> bool {
        self.value() == 0.0
    }

    /// As it is drawn: from −100 dB on, where 0 is too.
    pub fn decibels(self) -> f64 {
        decibels(self.value())
    }

    /// For a table: the power with as many digits as give the same number back, and which of the two it is.
    pub fn fields(power: Option<ErrorPower>) -> [String; 2] {
        power.map_or([String::new(), String::new()], |power| {
            let kind = if power.is_floor() { "floor" } else { "mean" };
            [format!("{:e}", power.value()), kind.to_string()]
        })
    }

    /// "−18.4 dB"; "at least 48.1 dB (a floor)", rounded down; of 0 what is known: below 1/65536.
    pub fn in_words(self) -> String {
        let level = 100.0 * self.value().log10();
        let tenths = |level: f64| minus(&format!("{:.1}", level / 10.0 + 0.0));
        match self.power {
            _ if self.is_zero() => "below −48.1 dB".to_string(),
            Power::Mean(_) => format!("{} dB", tenths(level.round())),
            Power::Floor(_) => format!("at least {} dB (a floor)", tenths(level.floor())),
        }
    }
}
