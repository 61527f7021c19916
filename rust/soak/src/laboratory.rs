//! The laboratory's operations by the library and by the second implementation, and with one thing wrong.

use crate::cables::CableInputs;
use harness::sides::{Library, Second};
use reference::readings::magnitude;
use reference::vectors::Lists;
use tigbulode_laboratory::{trace_length, Power, Reading, HEADER_BYTES};

pub trait Laboratory {
    fn cable(&self, lent: &CableInputs, trace: &mut [u8]) -> u8;
    fn readings(&self, lists: &Lists, readings: &mut [Reading]) -> Result<Power, u8>;
}

impl Laboratory for Library {
    fn cable(&self, lent: &CableInputs, trace: &mut [u8]) -> u8 {
        tigbulode_laboratory::cable(&lent.library(), trace)
    }

    fn readings(&self, lists: &Lists, readings: &mut [Reading]) -> Result<Power, u8> {
        let Lists { y, xi, z, theta, .. } = lists;
        tigbulode_laboratory::readings(y, xi, z, theta, readings)
    }
}

/// The power of a sort and size.
fn power_of(is_floor: bool, value: f64) -> Power {
    match is_floor {
        true => Power::Floor(value),
        false => Power::Mean(value),
    }
}

impl Laboratory for Second {
    fn cable(&self, lent: &CableInputs, trace: &mut [u8]) -> u8 {
        reference::cable::cable(&lent.second(), trace)
    }

    fn readings(&self, lists: &Lists, readings: &mut [Reading]) -> Result<Power, u8> {
        let own = |r: &Reading| reference::readings::Reading { y: r.y, error: r.error };
        let mut lent: Vec<_> = readings.iter().map(own).collect();
        let power = reference::readings::readings(&lists.inputs(), &mut lent)?;
        for (reading, own) in readings.iter_mut().zip(lent) {
            (reading.y, reading.error) = (own.y, own.error);
        }
        Ok(power_of(power.is_floor(), power.value()))
    }
}

/// A side with one of the laboratory's faults, or with none where the fault is another.
pub struct Faulty<'a> {
    pub side: &'a dyn Laboratory,
    pub fault: &'static str,
}

impl Faulty<'_> {
    fn accepted_cable(&self, lent: &CableInputs, trace: &mut [u8]) {
        let samples = 3 * lent.symbols.len();
        let (body, entries) = trace[HEADER_BYTES..].split_at_mut(samples);
        match self.fault {
            "cable-sample" if body[samples - 1] < 15 => body[samples - 3] ^= 1,
            "cable-gain" => {
                let mut gains = body.iter_mut().skip(2).step_by(3);
                let least = gains.find(|g| **g == lent.settings.l);
                least.into_iter().for_each(|g| *g += 1);
            }
            "cable-entry" => {
                let first = entries.iter_mut().zip(&lent.symbols).nth(lent.training);
                first.into_iter().for_each(|(entry, &v)| *entry = v as u8);
            }
            _ => (),
        }
    }

    /// A gain of L - 1 is taken.
    fn below_least(&self, lent: &CableInputs, trace: &mut [u8]) -> u8 {
        let mut other = lent.clone();
        other.settings.l = lent.settings.l.saturating_sub(1);
        let number = self.side.cable(&other, trace);
        if number != 0 {
            return 10;
        }
        trace[4] = lent.settings.l;
        number
    }

    fn accepted_readings(&self, lists: &Lists, readings: &mut [Reading], given: Power) -> Power {
        let (mut is_floor, mut value) = (given.is_floor(), given.value());
        let mut errors = lists.z.iter().zip(&lists.theta);
        match self.fault {
            "readings-output" => {
                let negative = readings.iter_mut().find(|reading| reading.y < 0.0);
                negative.into_iter().for_each(|r| r.y = r.y.next_up());
            }
            "readings-zero" => {
                let zeros = readings.iter_mut().filter(|reading| reading.error == 0.0);
                zeros.for_each(|r| r.error = -r.error);
            }
            "readings-mean" => is_floor = false,
            "readings-cut" => is_floor |= errors.any(|(&z, &theta)| magnitude(z, theta) == 65_535),
            "readings-power" if !lists.readings.is_power_of_two() && value > 0.0 => value = value.next_down(),
            _ => (),
        }
        power_of(is_floor, value)
    }

    /// Readings of lists that were turned down.
    fn refused_readings(&self, lists: &Lists, readings: &mut [Reading]) -> Result<Power, u8> {
        let mut other = lists.clone();
        match self.fault {
            "readings-refused" => readings.last_mut().into_iter().for_each(|r| r.error = 0.0),
            "readings-limit" => {
                let taken = other.y.iter_mut().filter(|y| y.abs_diff(0) == 1 << 29);
                taken.for_each(|y| *y -= y.signum());
                return self.side.readings(&other, readings);
            }
            "readings-length" => {
                let first = readings.get_mut(..lists.y.len()).unwrap_or_default();
                return self.side.readings(lists, first);
            }
            _ => (),
        }
        Err(11)
    }
}

impl Laboratory for Faulty<'_> {
    fn cable(&self, lent: &CableInputs, trace: &mut [u8]) -> u8 {
        let number = self.side.cable(lent, trace);
        let right_room = trace.len() == trace_length(lent.symbols.len());
        match (self.fault, number) {
            (_, 0) => self.accepted_cable(lent, trace),
            ("cable-refused", 10) if right_room => trace[0] ^= 1,
            ("cable-number", 2) => return 10,
            ("cable-least", 10) => return self.below_least(lent, trace),
            _ => (),
        }
        number
    }

    fn readings(&self, lists: &Lists, readings: &mut [Reading]) -> Result<Power, u8> {
        if self.fault == "readings-exponent" && lists.xi.contains(&24) {
            return Err(11);
        }
        match self.side.readings(lists, readings) {
            Ok(given) => Ok(self.accepted_readings(lists, readings, given)),
            Err(_) => self.refused_readings(lists, readings),
        }
    }
}
