//! What a list of calls has covered.

use crate::calls::{Call, Lists};
use crate::perform::Outcome;
use crate::Equaliser;
use std::fmt;

/// Blocks, or trials. The accepted ones on the list's own record are counted by
/// how the state after them differs from the one before.
#[derive(Clone, Debug, Default)]
pub struct Blocks {
    pub samples: u64,
    pub rises: u64,
    pub rises_to_15: u64,
    pub left_at_15: u64,
    pub falls: u64,
    pub falls_from_15: u64,
    pub falls_to_0: u64,
    /// Those by more than one.
    pub falls_by_more: u64,
    pub larger: u64,
    pub smaller: u64,
    pub other_b: u64,
    /// Those with one list alone of a wrong length, by list.
    pub wrong_lengths: [u64; 8],
}

impl Blocks {
    fn accepted(&mut self, lists: &Lists, before: &Equaliser, after: &Equaliser) {
        self.samples += lists.m.len() as u64;
        self.rises += u64::from(after.psi > before.psi);
        self.rises_to_15 += u64::from(after.psi == 15 && before.psi < 15);
        self.left_at_15 += u64::from(after.psi == 15);
        self.falls += u64::from(after.psi < before.psi);
        self.falls_from_15 += u64::from(after.psi < 15 && before.psi == 15);
        self.falls_to_0 += u64::from(after.psi == 0 && before.psi > 0);
        self.falls_by_more += u64::from(after.psi + 1 < before.psi);
        self.larger += u64::from(after.bmax > before.bmax);
        self.smaller += u64::from(after.bmax < before.bmax);
        self.other_b += u64::from(after.b != before.b);
    }

    fn wrong_length(&mut self, lists: &Lists, n: u8) {
        let wrong = lists.lengths().map(|length| length != usize::from(n));
        if wrong.iter().filter(|&&wrong| wrong).count() == 1 {
            let list = wrong.iter().position(|&wrong| wrong);
            self.wrong_lengths[list.unwrap_or(0)] += 1;
        }
    }

    fn write(&self, f: &mut fmt::Formatter, name: &str) -> fmt::Result {
        writeln!(f, "samples in accepted {name}: {}", self.samples)?;
        write!(f, "{name} with a raised psi: {}; ", self.rises)?;
        write!(f, "raised to 15: {}; ", self.rises_to_15)?;
        writeln!(f, "left at 15: {}", self.left_at_15)?;
        write!(f, "{name} with a lowered psi: {}; ", self.falls)?;
        write!(f, "lowered from 15: {}; ", self.falls_from_15)?;
        write!(f, "lowered to 0: {}; ", self.falls_to_0)?;
        writeln!(f, "by more than one: {}", self.falls_by_more)?;
        write!(f, "{name} with a larger B: {}; ", self.larger)?;
        write!(f, "a smaller B: {}; ", self.smaller)?;
        writeln!(f, "another b: {}", self.other_b)?;
        let lists = ["m", "gains", "entries", "Y", "xi", "decision", "Z", "theta"];
        let counts = lists.iter().zip(self.wrong_lengths);
        let texts: Vec<String> = counts
            .map(|(list, count)| format!("{list} {count}"))
            .collect();
        let texts = texts.join(", ");
        writeln!(f, "{name} with one list alone of a wrong length: {texts}")
    }
}

/// What a list of calls has covered.
#[derive(Clone, Debug, Default)]
pub struct Tally {
    /// By kind, then by answer.
    pub answers: [[u64; 10]; Call::KINDS.len()],
    pub blocks: Blocks,
    pub trials: Blocks,
    /// Trials that were compared with a run on a copy.
    pub on_copies: u64,
    /// Calls that were made again in the list without its trials.
    pub again: u64,
    pub saved_earlier: u64,
}

impl Tally {
    /// Counts a call from the list's record before it and after it.
    pub fn count(&mut self, call: &Call, outcome: &Outcome, before: &Equaliser, after: &Equaliser) {
        self.answers[call.kind()][usize::from(outcome.number)] += 1;
        let Some(lists) = call.lists() else { return };
        let blocks = match call.is_trial() {
            true => &mut self.trials,
            false => &mut self.blocks,
        };
        match (outcome.number, call.other()) {
            (0, None) => blocks.accepted(lists, before, outcome.state.as_ref().unwrap_or(after)),
            (3, other) => blocks.wrong_length(lists, other.unwrap_or(before).n),
            _ => (),
        }
    }
}

impl fmt::Display for Tally {
    fn fmt(&self, f: &mut fmt::Formatter) -> fmt::Result {
        for (kind, answers) in Call::KINDS.iter().zip(&self.answers) {
            write!(f, "{kind}: {} calls; answer", answers.iter().sum::<u64>())?;
            let given = answers.iter().enumerate().filter(|(_, &count)| count > 0);
            let texts: Vec<String> = given.map(|(n, count)| format!(" {n}: {count}")).collect();
            writeln!(f, "{}", texts.join(","))?;
        }
        self.blocks.write(f, "blocks")?;
        self.trials.write(f, "trials")?;
        writeln!(f, "trials beside a run on a copy: {}", self.on_copies)?;
        writeln!(f, "calls made again without the trials: {}", self.again)?;
        writeln!(f, "loads of bytes saved earlier: {}", self.saved_earlier)
    }
}
