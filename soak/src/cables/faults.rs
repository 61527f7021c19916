//! Built-in faults of a cable.

use super::bench::Simulation;
use super::CableInputs;
use crate::faults::{Fault, Faulty};
use tigbulode_laboratory::{trace_length, HEADER_BYTES};

impl Faulty<'_> {
    fn accepted_cable(&self, lent: &CableInputs, trace: &mut [u8]) {
        let samples = 3 * lent.symbols.len();
        let (body, entries) = trace[HEADER_BYTES..].split_at_mut(samples);
        match self.fault {
            Fault::CableSample if body[samples - 1] < 15 => body[samples - 3] ^= 1,
            Fault::CableGain => {
                let mut gains = body.iter_mut().skip(2).step_by(3);
                let least = gains.find(|g| **g == lent.settings.l);
                least.into_iter().for_each(|g| *g += 1);
            }
            Fault::CableEntry => {
                let first = entries.iter_mut().zip(&lent.symbols).nth(lent.training);
                first.into_iter().for_each(|(entry, &v)| *entry = v as u8);
            }
            _ => (),
        }
    }

    /// A gain of L - 1 is taken.
    fn below_least(&self, lent: &CableInputs, trace: &mut [u8]) -> u8 {
        let mut other = lent.clone();
        other.settings.l = lent.settings.l.saturating_sub(1);
        let number = self.side.cable(&other, trace);
        if number != 0 {
            return 10;
        }
        trace[4] = lent.settings.l;
        number
    }
}

impl Simulation for Faulty<'_> {
    fn cable(&self, lent: &CableInputs, trace: &mut [u8]) -> u8 {
        let number = self.side.cable(lent, trace);
        let right_room = trace.len() == trace_length(lent.symbols.len());
        match (self.fault, number) {
            (_, 0) => self.accepted_cable(lent, trace),
            (Fault::CableRefused, 10) if right_room => trace[0] ^= 1,
            (Fault::CableNumber, 2) => return 10,
            (Fault::CableLeastInBoth, 10) => return self.below_least(lent, trace),
            _ => (),
        }
        number
    }
}
