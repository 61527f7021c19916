//! The eight lists that are lent to a block, and arbitrary ones.

use crate::block::{lengths, Inputs, Outputs};
use crate::random::Random;
use crate::settings::Settings;

/// The eight lists; the outputs have whatever is in them.
#[derive(Clone, Debug, PartialEq, Eq)]
pub struct Lists {
    pub samples: Vec<i16>,
    pub gains: Vec<u8>,
    pub training: Vec<i8>,
    pub outputs: Outputs,
}

impl Lists {
    /// The three lists that the block reads.
    pub fn inputs(&self) -> Inputs<'_> {
        Inputs {
            samples: &self.samples,
            gains: &self.gains,
            training: &self.training,
        }
    }

    /// The lengths of the eight.
    pub fn lengths(&self) -> [usize; 8] {
        lengths(self.inputs(), &self.outputs)
    }

    /// Another length for one of the eight, by its place among them; new places
    /// hold what nothing is wrong with.
    pub fn resize(&mut self, list: usize, length: usize) {
        let out = &mut self.outputs;
        match list {
            0 => self.samples.resize(length, 1),
            1 => self.gains.resize(length, Settings::MOST_GAIN),
            2 => self.training.resize(length, 1),
            3 => out.y.resize(length, 1),
            4 => out.xi.resize(length, 1),
            5 => out.decision.resize(length, 1),
            6 => out.z.resize(length, 1),
            _ => out.theta.resize(length, 1),
        }
    }
}

impl Random {
    /// A list of any numbers, each made of 64 bits.
    pub fn list<T>(&mut self, length: usize, number: fn(u64) -> T) -> Vec<T> {
        (0..length).map(|_| number(self.next())).collect()
    }

    /// Output lists of these lengths with anything in them.
    pub fn outputs(&mut self, [y, xi, decision, z, theta]: [usize; 5]) -> Outputs {
        Outputs {
            y: self.list(y, |bits| bits as i32),
            xi: self.list(xi, |bits| bits as u8),
            decision: self.list(decision, |bits| bits as i8),
            z: self.list(z, |bits| bits as i32),
            theta: self.list(theta, |bits| bits as u8),
        }
    }

    /// Lists that pass 3, 4 and 5 with these settings.
    pub fn lists(&mut self, settings: &Settings) -> Lists {
        let (loudness, aim) = (self.loudness(), self.aim());
        let (samples, gains) = self.samples(settings, loudness);
        Lists {
            samples,
            gains,
            training: self.training(settings, aim),
            outputs: self.outputs([settings.n.into(); 5]),
        }
    }

    /// Lists of any lengths with anything in them.
    pub fn any_lists(&mut self) -> Lists {
        let lengths: Vec<usize> = self.list(8, |bits| bits as usize % 131);
        Lists {
            samples: self.list(lengths[0], |bits| bits as i16),
            gains: self.list(lengths[1], |bits| bits as u8),
            training: self.list(lengths[2], |bits| bits as i8),
            outputs: self.outputs([3, 4, 5, 6, 7].map(|at| lengths[at])),
        }
    }

    /// Puts the cause of 3, 4 or 5 into lists of N gains and N entries.
    pub fn spoil(&mut self, lists: &mut Lists, settings: &Settings, number: u8) {
        let n = usize::from(settings.n);
        let place = self.below(settings.n.into()) as usize;
        let beyond = (2 << settings.r) + 1;
        match number {
            3 => {
                let length = self.pick(&[0, n - 1, n + 1, 129]);
                lists.resize(self.below(8) as usize, length);
            }
            4 if settings.l > 0 && self.chance(1, 2) => lists.gains[place] = settings.l - 1,
            4 => lists.gains[place] = self.byte(16, 255),
            _ => lists.training[place] = self.pick(&[2, -2, beyond, -beyond, 127, -128]),
        }
    }
}
