//! The assumptions of a history, a field for each key of the text.

use crate::agreement;
use crate::changes::changes;
use crate::reader::{line_of, Reader};
use reference::Settings;

pub const DAYS_A_YEAR: f64 = 365.25;

#[derive(Clone, Debug, PartialEq)]
pub struct Assumptions {
    pub seed: u64,
    pub years: u32,
    pub readings_a_day: u32,
    pub sizes: Sizes,
    pub burst: Burst,
    pub cable: Cable,
    pub gain: Gain,
    pub loud: Spell,
    pub faint: Spell,
    pub joint: Joint,
    pub swap: Swap,
    pub power: Power,
    pub pressure: Pressure,
    /// Whether the same station by the old rule runs beside it.
    pub old_rule: bool,
    /// What is other than the default.
    pub changes: Vec<String>,
}

/// The equaliser's sizes and its step M.
#[derive(Clone, Copy, Debug, PartialEq)]
pub struct Sizes {
    pub p: u8,
    pub q: u8,
    pub n: u8,
    pub r: u8,
    pub l: u8,
    pub m: u32,
}

/// What is sent, in blocks, and how many symbols later it is decided.
#[derive(Clone, Copy, Debug, PartialEq)]
pub struct Burst {
    pub commissioning_blocks: u32,
    pub preamble_blocks: u32,
    pub payload_blocks: u32,
    pub delay: usize,
}

#[derive(Clone, Debug, PartialEq)]
pub struct Cable {
    pub new: Vec<f64>,
    pub old: Vec<f64>,
    pub season_loss: f64,
    pub day_loss: f64,
    pub season_dispersion: f64,
    pub noise_new: f64,
    pub noise_old: f64,
}

/// The gain control's rule.
#[derive(Clone, Copy, Debug, PartialEq)]
pub struct Gain {
    pub headroom: f64,
    pub hold: f64,
}

/// A time in which the level and the noise are other than before and after.
#[derive(Clone, Copy, Debug, PartialEq)]
pub struct Spell {
    pub first_day: f64,
    pub days: f64,
    pub ramp_days: f64,
    pub level: f64,
    pub noise: f64,
}

#[derive(Clone, Copy, Debug, PartialEq)]
pub struct Joint {
    pub first_day: f64,
    pub days: f64,
    pub active: f64,
    pub impulses: f64,
    pub peak: f64,
}

/// A joint that is swapped, for copies of the station alone.
#[derive(Clone, Copy, Debug, PartialEq)]
pub struct Swap {
    pub day: f64,
    /// For so many readings; 0 for no swap.
    pub readings: u32,
}

#[derive(Clone, Copy, Debug, PartialEq)]
pub struct Power {
    pub save_every_days: u32,
    pub loss_days: f64,
    pub damaged_images: f64,
    /// Whether the station keeps a check sum beside its image.
    pub check_sum: bool,
}

#[derive(Clone, Copy, Debug, PartialEq)]
pub struct Pressure {
    pub first: f64,
    pub fall: f64,
    pub half_years: f64,
    pub season: f64,
    pub shut_in_day: f64,
    pub shut_in_days: f64,
    pub shut_in_rise: f64,
    pub unit: f64,
}

/// The assumptions, or every problem of the text, a line each.
pub fn parse(text: &str) -> Result<Assumptions, Vec<String>> {
    let mut reader = Reader::new(text);
    let assumptions = Assumptions {
        changes: changes(text),
        ..Assumptions::take(&mut reader)
    };
    reader.finish()?;
    let problems = with_lines(text, agreement::problems(&assumptions));
    if problems.is_empty() {
        Ok(assumptions)
    } else {
        Err(problems)
    }
}

/// What is possible, but likely not meant, a line each.
pub fn notes(text: &str, given: &Assumptions) -> Vec<String> {
    with_lines(text, agreement::notes(given))
}

/// Each sentence after the line of its key, in the order of the lines.
fn with_lines(text: &str, found: Vec<agreement::Sentence>) -> Vec<String> {
    let mut lines: Vec<(usize, String)> = found
        .into_iter()
        .map(|(key, sentence)| (line_of(text, key), sentence))
        .collect();
    lines.sort_by_key(|(line, _)| *line);
    let told = lines.iter().map(|(line, s)| format!("line {line}: {s}"));
    told.collect()
}

impl Assumptions {
    fn take(t: &mut Reader) -> Assumptions {
        Assumptions {
            seed: t.whole("seed", 0..=u64::MAX),
            years: t.whole("years", 1..=100) as u32,
            readings_a_day: t.whole("readings_a_day", 1..=24) as u32,
            sizes: Sizes::take(t),
            burst: Burst::take(t),
            cable: Cable::take(t),
            gain: Gain::take(t),
            loud: Spell::take(t, "loud"),
            faint: Spell::take(t, "faint"),
            joint: Joint::take(t),
            swap: Swap::take(t),
            power: Power::take(t),
            pressure: Pressure::take(t),
            old_rule: t.whole("old_rule", 0..=1) == 1,
            changes: Vec::new(),
        }
    }

    pub fn payload_symbols(&self) -> usize {
        self.burst.payload_blocks as usize * usize::from(self.sizes.n)
    }

    pub fn samples_of_reading(&self) -> u64 {
        let blocks = self.burst.preamble_blocks + self.burst.payload_blocks;
        u64::from(blocks) * u64::from(self.sizes.n)
    }

    pub fn days(&self) -> u32 {
        (f64::from(self.years) * DAYS_A_YEAR) as u32
    }

    pub fn readings(&self) -> u32 {
        self.days() * self.readings_a_day
    }

    /// The day of a reading, which stands in the middle of its part of the day.
    pub fn day_of(&self, reading: u32) -> f64 {
        (f64::from(reading) + 0.5) / f64::from(self.readings_a_day)
    }
}

impl Sizes {
    fn take(t: &mut Reader) -> Sizes {
        Sizes {
            p: t.whole("p", 1..=16) as u8,
            q: t.whole("q", 1..=16) as u8,
            n: t.whole("N", 1..=128) as u8,
            r: t.whole("r", 0..=3) as u8,
            l: t.whole("L", 0..=15) as u8,
            m: t.whole("M", 0..=u32::MAX.into()) as u32,
        }
    }

    pub fn set_up(&self) -> tigbulode::Answer {
        tigbulode::set_up(self.p, self.q, self.n, self.r, self.l, self.m)
    }

    pub fn settings(&self) -> Settings {
        let Sizes { p, q, n, r, l, m } = *self;
        Settings { p, q, n, r, l, m }
    }
}

impl Burst {
    fn take(t: &mut Reader) -> Burst {
        Burst {
            commissioning_blocks: t.whole("commissioning_blocks", 0..=10_000) as u32,
            preamble_blocks: t.whole("preamble_blocks", 0..=100) as u32,
            payload_blocks: t.whole("payload_blocks", 1..=100) as u32,
            delay: t.whole("delay", 0..=30) as usize,
        }
    }
}

impl Cable {
    fn take(t: &mut Reader) -> Cable {
        Cable {
            new: t.numbers("cable_new", -8.0..=8.0),
            old: t.numbers("cable_old", -8.0..=8.0),
            season_loss: t.number("season_loss", 0.0..=1.0),
            day_loss: t.number("day_loss", 0.0..=1.0),
            season_dispersion: t.number("season_dispersion", 0.0..=1.0),
            noise_new: t.number("noise_new", 0.0..=8.0),
            noise_old: t.number("noise_old", 0.0..=8.0),
        }
    }
}

impl Gain {
    fn take(t: &mut Reader) -> Gain {
        Gain {
            headroom: t.number("headroom", 0.01..=100.0),
            hold: t.number("hold", 0.0..=1.0),
        }
    }
}

impl Spell {
    /// By the keys that begin with its name.
    fn take(t: &mut Reader, name: &str) -> Spell {
        let mut days = |key: &str| t.number(&format!("{name}_{key}"), 0.0..=36525.0);
        let (first_day, length, ramp_days) = (days("first_day"), days("days"), days("ramp_days"));
        let mut times = |key: &str| t.number(&format!("{name}_{key}"), 0.0..=100.0);
        Spell {
            first_day,
            days: length,
            ramp_days,
            level: times("level"),
            noise: times("noise"),
        }
    }
}

impl Joint {
    fn take(t: &mut Reader) -> Joint {
        Joint {
            first_day: t.number("joint_first_day", 0.0..=36525.0),
            days: t.number("joint_days", 0.0..=36525.0),
            active: t.number("joint_active", 0.0..=1.0),
            impulses: t.number("joint_impulses", 0.0..=1.0),
            peak: t.number("joint_peak", 0.0..=8.0),
        }
    }
}

impl Swap {
    fn take(t: &mut Reader) -> Swap {
        Swap {
            day: t.number("swap_day", 0.0..=36525.0),
            readings: t.whole("swap_readings", 0..=200) as u32,
        }
    }
}

impl Power {
    fn take(t: &mut Reader) -> Power {
        Power {
            save_every_days: t.whole("save_every_days", 1..=36525) as u32,
            loss_days: t.number("power_loss_days", 0.0..=36525.0),
            damaged_images: t.number("damaged_images", 0.0..=1.0),
            check_sum: t.whole("check_sum", 0..=1) == 1,
        }
    }
}

impl Pressure {
    fn take(t: &mut Reader) -> Pressure {
        Pressure {
            first: t.number("pressure_first", 0.0..=10000.0),
            fall: t.number("pressure_fall", -10000.0..=10000.0),
            half_years: t.number("pressure_half_years", 0.01..=1000.0),
            season: t.number("pressure_season", 0.0..=1000.0),
            shut_in_day: t.number("shut_in_day", 0.0..=365.0),
            shut_in_days: t.number("shut_in_days", 0.0..=365.0),
            shut_in_rise: t.number("shut_in_rise", -1000.0..=1000.0),
            unit: t.number("pressure_unit", 0.0001..=100.0),
        }
    }
}
