//! Built-in faults of readings.

use super::{power_of, Plots};
use crate::faults::{Fault, Faulty};
use reference::readings::magnitude;
use reference::vectors::Lists;
use tigbulode_laboratory::{Power, Reading};

/// Flips the sign of a zero.
fn minus(number: &mut f64) {
    if *number == 0.0 {
        *number = -*number;
    }
}

impl Faulty<'_> {
    fn accepted_readings(&self, lists: &Lists, readings: &mut [Reading], given: Power) -> Power {
        let (is_floor, value) = (given.is_floor(), given.value());
        let rounded = !lists.readings.is_power_of_two();
        let mut errors = lists.z.iter().zip(&lists.theta);
        match self.fault {
            Fault::ReadingsOutput => {
                let negative = readings.iter_mut().find(|reading| reading.y < 0.0);
                negative.into_iter().for_each(|r| r.y = r.y.next_up());
                given
            }
            Fault::ReadingsZero => {
                readings.iter_mut().for_each(|r| minus(&mut r.error));
                given
            }
            Fault::ReadingsMean => power_of(false, value),
            Fault::ReadingsCut => {
                let cut = errors.any(|(&z, &theta)| magnitude(z, theta) == 65_535);
                power_of(is_floor || cut, value)
            }
            Fault::ReadingsPower | Fault::ReadingsPowerInBoth if rounded && value > 0.0 => {
                power_of(is_floor, value.next_down())
            }
            _ => given,
        }
    }

    /// Readings of lists that were turned down.
    fn refused_readings(&self, lists: &Lists, readings: &mut [Reading]) -> Result<Power, u8> {
        let mut other = lists.clone();
        match self.fault {
            Fault::ReadingsRefused => {
                let last = readings.last_mut();
                last.into_iter().for_each(|r| r.error = 0.0);
            }
            Fault::ReadingsLimit => {
                let taken = other.y.iter_mut().filter(|y| y.abs_diff(0) == 1 << 29);
                taken.for_each(|y| *y -= y.signum());
                return self.side.readings(&other, readings);
            }
            Fault::ReadingsLength => {
                let first = readings.get_mut(..lists.y.len()).unwrap_or_default();
                return self.side.readings(lists, first);
            }
            _ => (),
        }
        Err(11)
    }
}

impl Plots for Faulty<'_> {
    fn readings(&self, lists: &Lists, readings: &mut [Reading]) -> Result<Power, u8> {
        if self.fault == Fault::ReadingsExponentInBoth && lists.xi.contains(&24) {
            return Err(11);
        }
        match self.side.readings(lists, readings) {
            Ok(given) => Ok(self.accepted_readings(lists, readings, given)),
            Err(_) => self.refused_readings(lists, readings),
        }
    }
}
