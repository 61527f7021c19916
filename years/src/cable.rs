//! The far end of the cable: symbols in, levels at the station's input out.

use crate::assumptions::{Assumptions, Spell};
use crate::random::{Purpose, Random};
use crate::season;

/// The cable on one day. Levels are in the units of x, symbols' own.
pub struct Weather {
    pub taps: Vec<f64>,
    pub noise: f64,
    /// The share of samples with an impulse; 0 while the joint is quiet.
    pub impulses: f64,
    pub loud: bool,
    pub faint: bool,
    pub joint: bool,
}

pub struct CableModel<'a> {
    given: &'a Assumptions,
    noise: Random,
    joint: Random,
}

/// From 0 outside a spell to 1 in its midst.
fn depth(spell: &Spell, day: f64) -> f64 {
    let (since, left) = (day - spell.first_day, spell.first_day + spell.days - day);
    if since < 0.0 || left < 0.0 {
        return 0.0;
    }
    if spell.ramp_days == 0.0 {
        return 1.0;
    }
    (since.min(left) / spell.ramp_days).min(1.0)
}

fn between(new: f64, old: f64, age: f64) -> f64 {
    new + (old - new) * age
}

impl<'a> CableModel<'a> {
    pub fn new(given: &'a Assumptions) -> CableModel<'a> {
        CableModel {
            given,
            noise: Random::new(given.seed, Purpose::Noise),
            joint: Random::new(given.seed, Purpose::Joint),
        }
    }

    /// The response by age and temperature: warmth takes from every tap, and
    /// moves a share of each tap to the next.
    fn taps(&self, day: f64) -> Vec<f64> {
        let cable = &self.given.cable;
        let age = day / f64::from(self.given.days());
        let warmth = -season::cold(day);
        let evening = 1.0 - 4.0 * ((day + 0.75).fract() - 0.5).abs();
        let level = 1.0 - cable.season_loss * warmth - cable.day_loss * evening;
        let moved = cable.season_dispersion * (1.0 + warmth) / 2.0;
        let aged = |i: usize| between(cable.new[i], cable.old[i], age);
        (0..cable.new.len())
            .map(|i| {
                let before = if i == 0 { 0.0 } else { aged(i - 1) };
                level * ((1.0 - moved) * aged(i) + moved * before)
            })
            .collect()
    }

    pub fn weather(&mut self, day: f64) -> Weather {
        let (cable, joint) = (&self.given.cable, &self.given.joint);
        let (loud, faint) = (&self.given.loud, &self.given.faint);
        let (loudness, faintness) = (depth(loud, day), depth(faint, day));
        let times =
            |loud: f64, faint: f64| between(1.0, loud, loudness) * between(1.0, faint, faintness);
        let level = times(loud.level, faint.level);
        let age = day / f64::from(self.given.days());
        let noise = between(cable.noise_new, cable.noise_old, age);
        let loose = (joint.first_day..joint.first_day + joint.days).contains(&day);
        let active = self.joint.happens(joint.active) && loose;
        Weather {
            taps: self.taps(day).iter().map(|tap| tap * level).collect(),
            noise: noise * times(loud.noise, faint.noise),
            impulses: if active { joint.impulses } else { 0.0 },
            loud: loudness > 0.0,
            faint: faintness > 0.0,
            joint: loose,
        }
    }

    /// The level for each symbol from the response's length on; those before
    /// it only lead in.
    pub fn receive(&mut self, weather: &Weather, sent: &[i8]) -> Vec<f64> {
        sent.windows(weather.taps.len())
            .map(|last| {
                let newest_first = last.iter().rev();
                let products = newest_first
                    .zip(&weather.taps)
                    .map(|(v, tap)| f64::from(*v) * tap);
                products.sum::<f64>() + weather.noise * self.noise.normal() + self.impulse(weather)
            })
            .collect()
    }

    fn impulse(&mut self, weather: &Weather) -> f64 {
        if self.joint.happens(weather.impulses) {
            self.given.joint.peak * self.joint.either_way()
        } else {
            0.0
        }
    }
}
