//! The error power of blocks, as the laboratory's library gives it, and of
//! several blocks together.

use crate::words::decibels;
use tigbulode_laboratory::{number_text, readings, Power, Reading};

/// What a page says of errors, and of a power of 0 where it draws one.
pub const CUT_NOTE: &str = "each error is cut to a multiple of 1/256";
pub const ZERO_NOTE: &str = "power 0, all below 1/256, is at −100 dB";

/// What an accepted block handed out, but for its decisions.
#[derive(Clone, Copy, Debug)]
pub struct ReadingInputs<'a> {
    pub y: &'a [i32],
    pub xi: &'a [u8],
    pub z: &'a [i32],
    pub theta: &'a [u8],
}

impl ReadingInputs<'_> {
    /// y and the error of each sample, and the error power. No accepted block
    /// hands out what is turned down; were it so, a message says it.
    pub fn read(&self) -> Result<(Vec<Reading>, Power), String> {
        let mut lent = vec![Reading::default(); self.y.len()];
        let power = readings(self.y, self.xi, self.z, self.theta, &mut lent);
        Ok((lent, power.map_err(internal_error)?))
    }
}

fn internal_error(number: u8) -> String {
    format!(
        "internal error: the laboratory's library turned down with {number} what an accepted block handed out: {}",
        number_text(number)
    )
}

/// The error power of one block, or of several.
#[derive(Clone, Copy, Debug, PartialEq)]
pub struct ErrorPower {
    pub power: Power,
    pub blocks: u32,
}

impl ErrorPower {
    pub fn of_block(power: Power) -> ErrorPower {
        ErrorPower { power, blocks: 1 }
    }

    /// The mean over all blocks, which have as many samples each; only a floor
    /// where one of them is. None where there are none.
    pub fn joined(parts: impl IntoIterator<Item = ErrorPower>) -> Option<ErrorPower> {
        let (mut sum, mut blocks, mut is_floor) = (0.0, 0, false);
        for part in parts {
            sum += part.value() * f64::from(part.blocks);
            blocks += part.blocks;
            is_floor |= part.is_floor();
        }
        let mean = sum / f64::from(blocks);
        let power = match is_floor {
            true => Power::Floor(mean),
            false => Power::Mean(mean),
        };
        (blocks > 0).then_some(ErrorPower { power, blocks })
    }

    pub fn value(self) -> f64 {
        self.power.value()
    }

    pub fn is_floor(self) -> bool {
        self.power.is_floor()
    }

    /// Every error is below 1/256.
    pub fn is_zero(self) -> bool {
        self.value() == 0.0
    }

    /// As it is drawn: from −100 dB on, where 0 is too.
    pub fn decibels(self) -> f64 {
        decibels(self.value())
    }

    /// For a table.
    pub fn kind(self) -> &'static str {
        match self.power {
            Power::Mean(_) => "mean",
            Power::Floor(_) => "floor",
        }
    }

    /// "−18.4 dB"; "at least 48.1 dB (a floor)", rounded down; of 0
    /// what is known: below 1/65536.
    pub fn in_words(self) -> String {
        if self.is_zero() {
            return "below −48.1 dB".to_string();
        }
        let level = 10.0 * self.value().log10();
        match self.power {
            Power::Mean(_) => format!("{} dB", with_minus((10.0 * level).round() / 10.0)),
            Power::Floor(_) => {
                let least = with_minus((10.0 * level).floor() / 10.0);
                format!("at least {least} dB (a floor)")
            }
        }
    }
}

/// To one decimal; a hyphen is no minus sign, and 0 has none.
fn with_minus(level: f64) -> String {
    let sign = if level < 0.0 { "−" } else { "" };
    format!("{sign}{:.1}", level.abs())
}
