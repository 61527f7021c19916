//! A pressure as symbols: a 16-bit number of units and 16 check bits, scrambled
//! so that a steady pressure does not send the same symbols each time.

use crate::assumptions::{Pressure, DAYS_A_YEAR};
use crate::season;

const WORD_BITS: u32 = 32;

pub fn symbols_of_word(r: u8) -> usize {
    WORD_BITS.div_ceil(u32::from(r) + 1) as usize
}

/// The check bits: the remainder by x^16 + x^12 + x^5 + 1.
fn check(number: u16) -> u32 {
    let mut rest = u64::from(number) << 16;
    for place in (16..WORD_BITS).rev() {
        if rest >> place & 1 == 1 {
            rest ^= 0x1_1021 << (place - 16);
        }
    }
    rest as u32
}

/// The symbols that carry a number, r + 1 bits each, highest first.
pub fn send(number: u16, scrambler: u32, r: u8) -> Vec<i8> {
    let bits = u32::from(r) + 1;
    let word = (u32::from(number) << 16 | check(number)) ^ scrambler;
    let places = (0..symbols_of_word(r) as u32).rev();
    let level = |place: u32| (word >> (place * bits) & ((1 << bits) - 1)) as i8;
    places
        .map(|place| 2 * level(place) + 1 - (1 << bits))
        .collect()
}

/// The number that decided symbols carry, where the check holds.
pub fn receive(symbols: &[i8], scrambler: u32, r: u8) -> Option<u16> {
    let bits = u32::from(r) + 1;
    let level = |symbol: i8| ((symbol - 1 + (1 << bits)) / 2) as u64;
    let word_symbols = symbols[..symbols_of_word(r)].iter();
    let joined = word_symbols.fold(0, |word, &symbol| word << bits | level(symbol));
    let word = u32::try_from(joined).ok()? ^ scrambler;
    let number = (word >> 16) as u16;
    (check(number) == word & 0xFFFF).then_some(number)
}

impl Pressure {
    /// In bar: a fall that slows down, a draw in winter, a rise while the
    /// field is shut in each year.
    pub fn at(&self, day: f64) -> f64 {
        let years = day / DAYS_A_YEAR;
        let fallen = self.fall * years / (years + self.half_years);
        let since = season::day_of_year(day) - self.shut_in_day;
        let rise = if (0.0..self.shut_in_days).contains(&since) {
            self.shut_in_rise * since / (since + self.shut_in_days / 4.0)
        } else {
            0.0
        };
        self.first - fallen - self.season * season::cold(day) + rise
    }

    /// In the sensor's units, brought to its ends beyond them.
    pub fn number_at(&self, day: f64) -> u16 {
        (self.at(day) / self.unit).round() as u16
    }

    pub fn bar(&self, number: u16) -> f64 {
        f64::from(number) * self.unit
    }
}
