//! Built-in faults: a library with one thing wrong, to see that it is found.

use crate::cables::bench::Side;
use reference::Settings;
use std::cell::Cell;
use tigbulode::sides::Operations;
use tigbulode::{Answer, Block, Equaliser, Outputs, Saved};

/// What is wrong.
#[derive(Clone, Copy, Debug, PartialEq, Eq)]
pub enum Fault {
    /// A bit of the last Y, where a sample is loud.
    Output,
    /// A bit of the last xi, where psi is at least 1.
    Exponent,
    /// The sign of the last decision, where that entry is 0.
    Decision,
    /// A bit of the first Z, where there is a training entry.
    Error,
    /// A bit of the first weight after a block with a training entry.
    Weight,
    /// A bit of the newest stored sample after a loud block.
    Sample,
    /// A block that raises psi leaves the old one.
    Halving,
    /// A block that lowers psi leaves the old one.
    Doubling,
    /// A bit of Z in a block that is turned down.
    RefusedOutput,
    /// A bit of the record in a block that is turned down with 6.
    RefusedRecord,
    /// The first byte of a buffer that is too short.
    RefusedBuffer,
    /// A bit of a saved image with a weight.
    Image,
    /// The byte after a saved image.
    AfterImage,
    /// A bit of b in a loaded record.
    Loaded,
    /// 8 for 9.
    Answer,
    /// The largest M is not admitted.
    Step,
    /// The given state beside an accepted trial.
    TrialState,
    /// A bit of Z in a trial that is turned down.
    TrialRefusedOutput,
    /// A bit of the record in an accepted trial.
    TrialRecord,
    /// A bit of the record in a trial that is turned down.
    TrialRefusedRecord,
    /// 0 for 6 in a trial.
    TrialNumber,
    /// A bit of the record in a save.
    SaveRecord,
    /// The first weight is two units off after a trained block, on both sides.
    WeightInBoth,
    /// The last Y is two units off in a loud block, on both sides.
    OutputInBoth,
    /// A block that lowers psi leaves the last weight as if it were not
    /// doubled, on both sides.
    DoublingInBoth,
    /// The last spare slot is not 0 after a block, on both sides.
    SpareInBoth,
    /// The first weight beside an accepted trial is two units off, on both sides.
    TrialStateInBoth,
    /// M is one less in a set-up after an accepted trial, on both sides.
    TrialKeptInBoth,
    /// A bit of a cable's last m, where its gain is below 15.
    CableSample,
    /// The first gain of a cable that is L is one more.
    CableGain,
    /// The first entry of a cable after the training ones is its symbol.
    CableEntry,
    /// A byte of a trace that is turned down.
    CableRefused,
    /// 10 for 2 in a cable.
    CableNumber,
    /// A gain of L - 1 in a cable is taken, on both sides.
    CableLeastInBoth,
    /// The last bit of the first y that is negative.
    ReadingsOutput,
    /// The sign of an error of 0.
    ReadingsZero,
    /// A floor is told as a mean.
    ReadingsMean,
    /// An a of 65535 counts as cut.
    ReadingsCut,
    /// The last bit of a power, where N is no power of two.
    ReadingsPower,
    /// The last reading of lists that are turned down.
    ReadingsRefused,
    /// A |Y| of 2^29 is taken.
    ReadingsLimit,
    /// One reading too many is left alone.
    ReadingsLength,
    /// The last bit of a power, where N is no power of two, on both sides.
    ReadingsPowerInBoth,
    /// 11 for a xi of 24, on both sides.
    ReadingsExponentInBoth,
    /// 4 for 5 in a block or trial whose first sample is negative, on both sides.
    SwappedNumberInBoth,
    /// A bit of the first Z of a block, where that place held an even number, on
    /// both sides.
    SwappedLentInBoth,
}

impl Fault {
    /// Every fault with its name.
    pub const ALL: [(&'static str, Fault); 46] = [
        ("output", Fault::Output),
        ("exponent", Fault::Exponent),
        ("decision", Fault::Decision),
        ("error", Fault::Error),
        ("weight", Fault::Weight),
        ("sample", Fault::Sample),
        ("halving", Fault::Halving),
        ("doubling", Fault::Doubling),
        ("refused-output", Fault::RefusedOutput),
        ("refused-record", Fault::RefusedRecord),
        ("refused-buffer", Fault::RefusedBuffer),
        ("image", Fault::Image),
        ("after-image", Fault::AfterImage),
        ("loaded", Fault::Loaded),
        ("answer", Fault::Answer),
        ("step", Fault::Step),
        ("trial-state", Fault::TrialState),
        ("trial-refused-output", Fault::TrialRefusedOutput),
        ("trial-record", Fault::TrialRecord),
        ("trial-refused-record", Fault::TrialRefusedRecord),
        ("trial-number", Fault::TrialNumber),
        ("save-record", Fault::SaveRecord),
        ("weight-in-both", Fault::WeightInBoth),
        ("output-in-both", Fault::OutputInBoth),
        ("doubling-in-both", Fault::DoublingInBoth),
        ("spare-in-both", Fault::SpareInBoth),
        ("trial-state-in-both", Fault::TrialStateInBoth),
        ("trial-kept-in-both", Fault::TrialKeptInBoth),
        ("cable-sample", Fault::CableSample),
        ("cable-gain", Fault::CableGain),
        ("cable-entry", Fault::CableEntry),
        ("cable-refused", Fault::CableRefused),
        ("cable-number", Fault::CableNumber),
        ("cable-least-in-both", Fault::CableLeastInBoth),
        ("readings-output", Fault::ReadingsOutput),
        ("readings-zero", Fault::ReadingsZero),
        ("readings-mean", Fault::ReadingsMean),
        ("readings-cut", Fault::ReadingsCut),
        ("readings-power", Fault::ReadingsPower),
        ("readings-refused", Fault::ReadingsRefused),
        ("readings-limit", Fault::ReadingsLimit),
        ("readings-length", Fault::ReadingsLength),
        ("readings-power-in-both", Fault::ReadingsPowerInBoth),
        ("readings-exponent-in-both", Fault::ReadingsExponentInBoth),
        ("swapped-number-in-both", Fault::SwappedNumberInBoth),
        ("swapped-lent-in-both", Fault::SwappedLentInBoth),
    ];

    pub fn named(name: &str) -> Option<Fault> {
        let found = Fault::ALL.iter().find(|(own, _)| *own == name);
        found.map(|(_, fault)| *fault)
    }

    pub fn name(self) -> &'static str {
        let found = Fault::ALL.iter().find(|(_, fault)| *fault == self);
        found.map_or("", |(name, _)| name)
    }

    /// Whether the second implementation has the same fault, so that only a
    /// check without it can show it.
    pub fn in_both(self) -> bool {
        self.name().ends_with("-in-both")
    }

    /// Whether it is one of a cable, which no list of calls shows.
    pub fn of_cable(self) -> bool {
        self.name().starts_with("cable-")
    }
}

/// A side with a fault.
pub struct Faulty<'a> {
    pub side: &'a dyn Side,
    pub fault: Fault,
    /// Whether a trial was accepted after the last set-up, save and load.
    tried: Cell<bool>,
}

/// Flips the lowest bit of a number.
fn flip<T: Copy + std::ops::BitXor<Output = T> + From<u8>>(number: Option<&mut T>) {
    if let Some(number) = number {
        *number = *number ^ T::from(1);
    }
}

/// The same lists, lent to a call inside.
fn lent<'a>(out: &'a mut Outputs) -> Outputs<'a> {
    Outputs {
        y: out.y,
        xi: out.xi,
        decision: out.decision,
        z: out.z,
        theta: out.theta,
    }
}

impl<'a> Faulty<'a> {
    pub fn new(side: &'a dyn Side, fault: Fault) -> Faulty<'a> {
        let tried = Cell::new(false);
        Faulty { side, fault, tried }
    }

    /// The faults of a block, which a trial of it has too.
    fn after_block(
        &self,
        number: u8,
        before: &Equaliser,
        s: &mut Equaliser,
        block: Block,
        out: Outputs,
    ) {
        match (self.fault, number) {
            (_, 0) => self.accepted(before, s, block, out),
            (Fault::RefusedOutput, _) => flip(out.z.first_mut()),
            (Fault::RefusedRecord, 6) => s.weights[0] ^= 1,
            _ => (),
        }
    }

    /// The number that a block or a trial of it answers.
    fn number(&self, number: u8, block: Block) -> u8 {
        let negative = block.samples.first().is_some_and(|&m| m < 0);
        match (self.fault, number) {
            (Fault::SwappedNumberInBoth, 5) if negative => 4,
            _ => number,
        }
    }

    fn accepted(&self, before: &Equaliser, s: &mut Equaliser, block: Block, out: Outputs) {
        let loud = block.samples.iter().any(|m| m.unsigned_abs() >= 16384);
        let trained = block.entries.iter().any(|&entry| entry != 0);
        match self.fault {
            Fault::Output if loud => flip(out.y.last_mut()),
            Fault::OutputInBoth if loud => out.y.last_mut().into_iter().for_each(|y| *y ^= 2),
            Fault::Exponent if s.psi > 0 => flip(out.xi.last_mut()),
            Fault::Decision if block.entries.last() == Some(&0) => {
                out.decision.last_mut().into_iter().for_each(|d| *d = -*d);
            }
            Fault::Error if trained => flip(out.z.first_mut()),
            Fault::Weight if trained => s.weights[0] ^= 1,
            Fault::WeightInBoth if trained => s.weights[0] ^= 2,
            Fault::SpareInBoth if s.p + s.q < 32 => s.weights[31] = 1,
            Fault::Sample if loud && s.p > 1 => s.past[0] ^= 1,
            Fault::Halving if s.psi > before.psi => s.psi = before.psi,
            Fault::Doubling if s.psi < before.psi => s.psi = before.psi,
            Fault::DoublingInBoth if s.psi < before.psi => {
                s.weights[usize::from(s.p + s.q) - 1] /= 2;
            }
            _ => (),
        }
    }
}

impl Operations for Faulty<'_> {
    fn set_up(&self, s: Settings) -> Answer {
        let step = self.fault == Fault::Step && s.examine() == 0;
        let more = u32::from(step && s.m == s.largest_m());
        let less = u32::from(self.tried.take() && s.m > 0);
        self.side.set_up(s.with_m(s.m + more - less))
    }

    fn run(&self, s: &mut Equaliser, block: Block, mut out: Outputs) -> u8 {
        let before = *s;
        let held_even = out.z.first().is_some_and(|z| z % 2 == 0);
        let number = self.side.run(s, block, lent(&mut out));
        if self.fault == Fault::SwappedLentInBoth && number == 0 && held_even {
            flip(out.z.first_mut());
        }
        self.after_block(number, &before, s, block, out);
        self.number(number, block)
    }

    fn trial(&self, s: &mut Equaliser, block: Block, mut out: Outputs) -> Answer {
        let mut answer = self.side.trial(s, block, lent(&mut out));
        self.after_block(answer.number, s, &mut answer.state, block, lent(&mut out));
        match (self.fault, answer.number) {
            (Fault::TrialState, 0) => answer.state = *s,
            (Fault::TrialStateInBoth, 0) => answer.state.weights[0] ^= 2,
            (Fault::TrialKeptInBoth, 0) => self.tried.set(true),
            (Fault::TrialRecord, 0) | (Fault::TrialRefusedRecord, 1..) => s.weights[0] ^= 1,
            (Fault::TrialRefusedOutput, 1..) => flip(out.z.first_mut()),
            (Fault::TrialNumber, 6) => answer.number = 0,
            _ => (),
        }
        answer.number = self.number(answer.number, block);
        answer
    }

    fn save(&self, s: &mut Equaliser, buffer: &mut [u8]) -> Saved {
        self.tried.set(false);
        let saved = self.side.save(s, buffer);
        match (self.fault, saved.number) {
            (Fault::SaveRecord, _) => s.weights[0] ^= 1,
            (Fault::RefusedBuffer, 7) => flip(buffer.first_mut()),
            (Fault::Image, 0) if s.weights.iter().any(|&w| w != 0) => flip(buffer.get_mut(12)),
            (Fault::AfterImage, 0) => flip(buffer.get_mut(saved.length)),
            _ => (),
        }
        saved
    }

    fn load(&self, bytes: &[u8]) -> Answer {
        self.tried.set(false);
        let mut answer = self.side.load(bytes);
        match (self.fault, answer.number) {
            (Fault::Loaded, 0) => answer.state.b ^= 1,
            (Fault::Answer, 9) => answer.number = 8,
            _ => (),
        }
        answer
    }
}
