//! Blocks that a station tries before it takes them.

use super::{block_of, lists_of, run, OutputArrays, Received, Station};
use super::{FAINT, LOUD, N, SIZES, USUAL};
use crate::{number, Answer, Equaliser, MOST_EXPONENT, MOST_WEIGHT};

/// What a trial showed.
pub struct Trial {
    pub before: Equaliser,
    pub answer: Answer,
    pub out: OutputArrays,
    /// "kept", or "CHANGED".
    pub record: &'static str,
    taken: bool,
    /// Running it gave the same.
    same: bool,
}

/// The largest weight in units of 2^-15, whatever psi is.
fn largest_value(s: &Equaliser) -> u64 {
    u64::from(s.largest_weight()) << s.psi
}

/// The rule of a trained station. It takes a block whose trial is accepted,
/// does not raise psi, and changes the value of the largest weight by less
/// than a sixteenth.
fn is_taken(t: &Trial) -> bool {
    let (before, after) = (&t.before, &t.answer.state);
    if t.answer.number != number::ACCEPTED || after.psi > before.psi {
        return false;
    }
    let value = largest_value(before);
    16 * largest_value(after).abs_diff(value) < value
}

impl Station<'_> {
    pub fn try_block(&mut self, s: &mut Equaliser, read: &Received, length: usize) -> Trial {
        let before = *s;
        let mut out = OutputArrays::filled();
        let lists = lists_of(&mut out, length);
        let answer = self.side.trial(s, block_of(read, length), lists);
        let record = self.unchanged(*s == before);
        Trial {
            before,
            answer,
            out,
            record,
            taken: false,
            same: false,
        }
    }

    /// Runs a block that was tried: whether the number, the state and the
    /// lists are those of its trial.
    fn runs_as_tried(&mut self, s: &mut Equaliser, read: &Received, t: &Trial) -> bool {
        let mut out = OutputArrays::filled();
        let number = run(self.side, s, read, N, &mut out);
        let same = number == t.answer.number && *s == t.answer.state && out == t.out;
        self.marks += u32::from(!same);
        same
    }

    /// Tries a block and takes it, or runs it on a copy only.
    fn offer(&mut self, s: &mut Equaliser, read: &Received) -> Trial {
        let mut copy = *s;
        let mut t = self.try_block(s, read, N);
        t.taken = is_taken(&t);
        t.same = self.runs_as_tried(if t.taken { s } else { &mut copy }, read, &t);
        t
    }

    fn offer_to_record(&mut self, read: &Received) -> Trial {
        let mut record = self.record;
        let t = self.offer(&mut record, read);
        self.record = record;
        t
    }

    fn print_trial(&mut self, about: &str, t: &Trial) {
        let (before, after) = (&t.before, &t.answer.state);
        let psi = format!("psi {} to {}", before.psi, after.psi);
        let weights = (before.largest_weight(), after.largest_weight());
        let weight = format!("largest weight {} to {}", weights.0, weights.1);
        let (number, record) = (t.answer.number, t.record);
        let shown = format!("answer {number}, {psi}, {weight}, record {record}");
        let run = if t.taken {
            "taken, and the run"
        } else {
            "not taken, and a run on a copy"
        };
        let given = if t.same { "the same" } else { "SOMETHING ELSE" };
        self.line(format!("tried {about}: {shown}; {run} gives {given}"));
    }

    /// The next block at a level, its symbols known.
    fn known_block(&mut self, level: i32) -> Received {
        self.cable.level = level;
        let (read, entries) = self.cable.receive_block();
        self.cable.level = USUAL;
        Received { entries, ..read }
    }

    /// Blocks at a level. The station takes those that its rule admits, and
    /// prints the first trial in which psi moves; the other record takes them
    /// all.
    fn offer_blocks(&mut self, kind: &str, level: i32, count: u32, other: &mut Equaliser) {
        let (mut taken, mut moved) = (0, false);
        for _ in 0..count {
            let read = self.known_block(level);
            let t = self.offer_to_record(&read);
            if t.answer.state.psi != t.before.psi && !moved {
                self.print_trial(&format!("a {kind} block"), &t);
                moved = true;
            }
            taken += u32::from(t.taken);
            let number = run(self.side, other, &read, N, &mut OutputArrays::filled());
            self.marks += u32::from(number != number::ACCEPTED);
        }
        let shown = |s: &Equaliser| format!("psi {}, largest weight {}", s.psi, s.largest_weight());
        let (own, all) = (shown(&self.record), shown(other));
        self.line(format!(
            "{kind} blocks taken: {taken} of {count}, {own}; by a station that takes them all: {all}"
        ));
    }

    /// A spell in which the cable is faint, then as before, then loud.
    fn levels(&mut self) {
        let mut other = self.record;
        self.offer_blocks("faint", FAINT, 61, &mut other);
        self.offer_blocks("usual", USUAL, 61, &mut other);
        self.offer_blocks("loud", LOUD, 2, &mut other);
    }

    /// The record as a release could have left it in which psi only rose.
    fn older_record(&self) -> Equaliser {
        let mut s = self.record;
        s.psi += 4;
        s.weights.iter_mut().for_each(|weight| *weight /= 16);
        s
    }

    /// The record with the greatest exponent, and every weight at its limit.
    fn full_record(&self) -> Equaliser {
        let mut s = self.record;
        s.psi = MOST_EXPONENT;
        for (i, weight) in s.weights[..SIZES.taps()].iter_mut().enumerate() {
            *weight = if i % 2 == 0 {
                MOST_WEIGHT
            } else {
                -MOST_WEIGHT
            };
        }
        s
    }

    /// The next usual block is tried on a record other than the station's.
    fn offer_to_other(&mut self, about: &str, mut s: Equaliser) {
        let read = self.known_block(USUAL);
        let t = self.offer(&mut s, &read);
        self.print_trial(about, &t);
    }

    /// Blocks of several levels, the symbols known.
    pub fn spell(&mut self) {
        for (about, level) in [("a usual block", USUAL), ("a loud block", LOUD)] {
            let read = self.known_block(level);
            let t = self.offer_to_record(&read);
            self.print_trial(about, &t);
        }
        self.levels();
        let (older, full) = (self.older_record(), self.full_record());
        self.offer_to_other("a usual block on an older release's record", older);
        self.offer_to_other("a usual block on a record with psi 15", full);
    }
}
