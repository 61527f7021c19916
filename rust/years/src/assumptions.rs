//! The assumptions of a history, a field for each key of the text.

use crate::agreement;
use plots::text::{Keys, Place, Problem, Text};
use tigbulode::Settings;

pub const DAYS_A_YEAR: f64 = 365.25;

/// The text whose values count where nothing else is given.
pub const DEFAULT: &str = include_str!("../../../examples/years.txt");

/// The most days of a history.
const MOST_DAYS: f64 = 36525.0;

/// Each key but those of the equaliser's settings, with its limits.
macro_rules! keys {
    ($($key:ident: $type:ty = $read:ident($limits:expr),)*) => {
        const KEYS: &[&str] = &["p", "q", "N", "r", "L", "M", $(stringify!($key),)*];

        #[derive(Clone, Debug, PartialEq)]
        pub struct Assumptions {
            pub settings: Settings,
            $(pub $key: $type,)*
            /// What is other than the default.
            pub changes: Vec<String>,
            /// A text with all these values.
            pub text: String,
        }

        impl Assumptions {
            fn take(text: &mut Text) -> Assumptions {
                Assumptions {
                    settings: text.sizes().with_m(text.value("M", 0..=u32::MAX)),
                    $($key: text.$read(stringify!($key), $limits),)*
                    changes: text.changes().to_vec(),
                    text: text.written(),
                }
            }
        }
    };
}

keys! {
    seed: u64 = value(0..=u64::MAX),
    years: u32 = value(1..=100),
    readings_a_day: u32 = value(1..=24),
    commissioning_blocks: usize = value(0..=10_000),
    preamble_blocks: usize = value(0..=100),
    payload_blocks: usize = value(1..=100),
    delay: usize = value(0..=30),
    cable_new: Vec<f64> = numbers(-8.0..=8.0),
    cable_old: Vec<f64> = numbers(-8.0..=8.0),
    season_loss: f64 = value(0.0..=1.0),
    day_loss: f64 = value(0.0..=1.0),
    season_dispersion: f64 = value(0.0..=1.0),
    noise_new: f64 = value(0.0..=8.0),
    noise_old: f64 = value(0.0..=8.0),
    headroom: f64 = value(0.01..=100.0),
    hold: f64 = value(0.0..=1.0),
    loud_first_day: f64 = value(0.0..=MOST_DAYS),
    loud_days: f64 = value(0.0..=MOST_DAYS),
    loud_ramp_days: f64 = value(0.0..=MOST_DAYS),
    loud_level: f64 = value(0.0..=100.0),
    loud_noise: f64 = value(0.0..=100.0),
    faint_first_day: f64 = value(0.0..=MOST_DAYS),
    faint_days: f64 = value(0.0..=MOST_DAYS),
    faint_ramp_days: f64 = value(0.0..=MOST_DAYS),
    faint_level: f64 = value(0.0..=100.0),
    faint_noise: f64 = value(0.0..=100.0),
    joint_first_day: f64 = value(0.0..=MOST_DAYS),
    joint_days: f64 = value(0.0..=MOST_DAYS),
    joint_active: f64 = value(0.0..=1.0),
    joint_impulses: f64 = value(0.0..=1.0),
    joint_peak: f64 = value(0.0..=8.0),
    swap_day: f64 = value(0.0..=MOST_DAYS),
    swap_readings: usize = value(0..=200),
    save_every_days: u32 = value(1..=36_525),
    power_loss_days: f64 = value(0.0..=MOST_DAYS),
    damaged_images: f64 = value(0.0..=1.0),
    check_sum: u8 = value(0..=1),
    pressure_first: f64 = value(0.0..=10_000.0),
    pressure_fall: f64 = value(-10_000.0..=10_000.0),
    pressure_half_years: f64 = value(0.01..=1000.0),
    pressure_season: f64 = value(0.0..=1000.0),
    shut_in_day: f64 = value(0.0..=365.0),
    shut_in_days: f64 = value(0.0..=365.0),
    shut_in_rise: f64 = value(-1000.0..=1000.0),
    pressure_unit: f64 = value(0.0001..=100.0),
}

/// A time in which the level and the noise are other than before and after.
#[derive(Clone, Copy, Debug, PartialEq)]
pub struct Spell {
    pub first_day: f64,
    pub days: f64,
    pub ramp_days: f64,
    pub level: f64,
    pub noise: f64,
}

/// The assumptions of a text and of changes to it, and what is to be noted of them; or every problem.
pub fn read(text: &str, changes: &[String]) -> Result<(Assumptions, Vec<Problem>), Vec<Problem>> {
    let mut text = Text::new(text, Keys { singles: KEYS, lists: &[] });
    changes.iter().for_each(|change| text.set(change));
    text.fill(DEFAULT);
    let given = Assumptions::take(&mut text);
    let impossible = agreement::problems(&given, |keys| text.is_sound(keys));
    impossible.into_iter().for_each(|(key, sentence)| text.wrong_value(key, sentence));
    let place = |key: &str| text.place_of(key).unwrap_or(Place::Default);
    let noted = agreement::notes(&given).into_iter().map(|(key, text)| Problem { place: place(key), text }).collect();
    text.finish().map(|()| (given, noted))
}

impl Assumptions {
    pub fn payload_symbols(&self) -> usize {
        self.payload_blocks * usize::from(self.settings.n)
    }

    /// The blocks of a reading.
    pub fn blocks(&self) -> usize {
        self.preamble_blocks + self.payload_blocks
    }

    pub fn samples_of_reading(&self) -> usize {
        self.blocks() * usize::from(self.settings.n)
    }

    pub fn days(&self) -> u32 {
        (f64::from(self.years) * DAYS_A_YEAR) as u32
    }

    pub fn readings(&self) -> u32 {
        self.days() * self.readings_a_day
    }

    /// The day of a reading, which stands in the middle of its part of the day.
    pub fn day_of(&self, reading: u32) -> f64 {
        (f64::from(reading) + 0.5) / f64::from(self.readings_a_day)
    }

    pub fn loud(&self) -> Spell {
        let (level, noise) = (self.loud_level, self.loud_noise);
        Spell { first_day: self.loud_first_day, days: self.loud_days, ramp_days: self.loud_ramp_days, level, noise }
    }

    pub fn faint(&self) -> Spell {
        let (level, noise) = (self.faint_level, self.faint_noise);
        Spell { first_day: self.faint_first_day, days: self.faint_days, ramp_days: self.faint_ramp_days, level, noise }
    }
}
