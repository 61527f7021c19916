//! Faulty libraries, which the list of calls must tell apart, and what a list
//! covers.

use reference::Settings;
use std::cell::Cell;
use tigbulode::compare::{text, List, COUNT, SEED};
use tigbulode::sides::{Operations, Second};
use tigbulode::{Answer, Block, Equaliser, Outputs, Saved};

#[derive(Clone, Copy, Debug, PartialEq)]
enum Fault {
    /// Admits one M too few.
    Step,
    /// Freezes its weights.
    Frozen,
    /// Loses the last block's b.
    LostB,
    /// Marks an output list of a block that it turns down.
    Marked(u8),
    /// Answers 6 where psi would rise to 15.
    Early,
    /// Leaves out one doubling.
    Fall,
    /// Doubles the weights and leaves psi.
    FallUnsaid,
    /// Doubles the feed forward weights alone.
    FallOfOne,
    /// Does not look at spare slots.
    Spare,
    /// Hands back the given state beside an accepted trial.
    TrialStands,
    /// Hands back a fresh state beside a trial that it turns down.
    TrialFresh,
    /// Marks an output list of a trial that it turns down.
    TrialMarked(u8),
    /// Runs the block of a trial on the record itself.
    TrialRuns,
    /// Changes the record in a trial that it turns down.
    TrialTouches(u8),
    /// Does not see that psi would rise to 16 in a trial.
    TrialUnseen,
    /// Leaves out one doubling in a trial.
    TrialFall,
    /// Looks at the gains of a trial before the lists' lengths.
    TrialOrder,
    /// Gives a smaller M in a set-up after an accepted trial.
    TrialKept,
    /// Changes the record in an accepted save.
    SaveTouches,
    /// Changes the record in a save that it turns down.
    SaveRefusedTouches,
    /// Clears the byte after a saved image.
    Cleared,
    /// Invents a saved length.
    Length,
    /// Loads with another fresh state.
    Fresh,
}

/// The second implementation with one thing wrong.
struct Faulty {
    fault: Fault,
    /// Whether an accepted trial came after the last set-up.
    tried: Cell<bool>,
}

impl Faulty {
    fn new(fault: Fault) -> Faulty {
        let tried = Cell::new(false);
        Faulty { fault, tried }
    }
}

fn cleared(list: &mut [u8]) {
    list.iter_mut().for_each(|place| *place = 0);
}

/// Halves the weights from a place on.
fn halved(s: &mut Equaliser, first: u8) {
    let weights = s.weights.iter_mut().skip(first.into());
    weights.for_each(|w| *w /= 2);
}

impl Operations for Faulty {
    fn set_up(&self, mut s: Settings) -> Answer {
        if self.fault == Fault::Step && s.examine() == 0 && s.m == s.largest_m() {
            s.m += 1;
        }
        if self.tried.take() && self.fault == Fault::TrialKept {
            s.m /= 2;
        }
        Second.set_up(s)
    }

    fn run(&self, s: &mut Equaliser, block: Block, out: Outputs) -> u8 {
        let before = *s;
        if self.fault == Fault::Spare {
            let taps = usize::from(s.p).saturating_add(usize::from(s.q));
            s.weights.iter_mut().skip(taps).for_each(|w| *w = 0);
        }
        let Outputs { y, xi, .. } = out;
        let number = Second.run(s, block, Outputs { y, xi, ..out });
        match (self.fault, number) {
            (Fault::Frozen, 0) => (s.weights, s.psi) = (before.weights, before.psi),
            (Fault::LostB, 0) => s.b = s.bmax,
            (Fault::Marked(wanted), _) if wanted == number => cleared(xi),
            (Fault::Early, 0) if s.psi == 15 && before.psi < 15 => {
                *s = before;
                return 6;
            }
            (Fault::Fall, 0) if s.psi < before.psi => {
                halved(s, 0);
                s.psi += 1;
            }
            (Fault::FallUnsaid, 0) if s.psi < before.psi => s.psi = before.psi,
            (Fault::FallOfOne, 0) if s.psi < before.psi => halved(s, s.p),
            _ => (),
        }
        number
    }

    fn trial(&self, s: &mut Equaliser, block: Block, out: Outputs) -> Answer {
        let Outputs { y, xi, .. } = out;
        let mut answer = Second.trial(s, block, Outputs { y, xi, ..out });
        match (self.fault, answer.number) {
            (Fault::TrialStands, 0) => answer.state = *s,
            (Fault::TrialRuns, 0) => *s = answer.state,
            (Fault::TrialKept, 0) => self.tried.set(true),
            (Fault::TrialUnseen, 6) => answer.number = 0,
            (Fault::TrialFall, 0) if answer.state.psi < s.psi => {
                halved(&mut answer.state, 0);
                answer.state.psi += 1;
            }
            (Fault::TrialOrder, 3) if block.gains.iter().any(|&g| g > 15) => answer.number = 4,
            (Fault::TrialFresh, 1..) => answer.state = Second.load(&[]).state,
            (Fault::TrialMarked(wanted), number) if wanted == number => cleared(xi),
            (Fault::TrialTouches(wanted), number) if wanted == number => s.psi ^= 1,
            _ => (),
        }
        answer
    }

    fn save(&self, s: &mut Equaliser, buffer: &mut [u8]) -> Saved {
        let mut saved = Second.save(s, buffer);
        match (self.fault, saved.number) {
            (Fault::Cleared, 0) if saved.length < buffer.len() => buffer[saved.length] = 0,
            (Fault::Length, 7) => saved.length = buffer.len(),
            (Fault::SaveTouches, 0) => s.b ^= 1,
            (Fault::SaveRefusedTouches, 1..) => s.b ^= 1,
            _ => (),
        }
        saved
    }

    fn load(&self, bytes: &[u8]) -> Answer {
        let mut answer = Second.load(bytes);
        if self.fault == Fault::Fresh && answer.number == 9 {
            answer.state.n = 2;
        }
        answer
    }
}

/// Every number that a block or a trial is turned down with.
const REFUSALS: [u8; 7] = [1, 2, 3, 4, 5, 6, 9];

#[test]
fn every_fault_is_told_apart_by_its_own_part() {
    let faults = [
        (Fault::Step, "set-up: answer"),
        (Fault::Frozen, "block: record"),
        (Fault::LostB, "block: record, b"),
        (Fault::Early, "block: answer"),
        (Fault::Fall, ", psi: "),
        (Fault::FallUnsaid, ", psi: "),
        (Fault::FallOfOne, ", weight "),
        (Fault::Spare, ", weight "),
        (Fault::TrialStands, "trial: state"),
        (Fault::TrialFresh, "trial: state"),
        (Fault::TrialRuns, "trial: record"),
        (Fault::TrialUnseen, "trial: answer"),
        (Fault::TrialFall, "trial: state, psi"),
        (Fault::TrialOrder, "trial: answer"),
        (Fault::TrialKept, "set-up: record, M"),
        (Fault::SaveTouches, "save: record, b"),
        (Fault::SaveRefusedTouches, "save: record, b"),
        (Fault::Cleared, "save: buffer"),
        (Fault::Length, "save: length"),
        (Fault::Fresh, "load: record, N"),
    ];
    let marked = REFUSALS.map(|number| (Fault::Marked(number), ": xi, place "));
    let tried = REFUSALS.map(|number| (Fault::TrialMarked(number), "trial: xi"));
    let touched = REFUSALS.map(|number| (Fault::TrialTouches(number), "trial: record, psi"));
    for (fault, part) in [&faults[..], &marked, &tried, &touched].concat() {
        let (text, same) = text(&Faulty::new(fault), &Second, SEED, COUNT);
        assert!(!same && text.contains(part), "{fault:?}: {text}");
    }
}

#[test]
fn trials_are_told_apart_where_both_sides_have_the_fault() {
    let faults = [
        (Fault::TrialStands, "trial: library: state, "),
        (Fault::TrialFresh, "trial: library: state, "),
        (Fault::TrialMarked(4), "trial: library: xi, "),
        (Fault::TrialRuns, "trial: library: record, "),
        (Fault::TrialTouches(5), "trial: library: record, psi: "),
        (Fault::TrialUnseen, "trial: library: answer, "),
        (Fault::TrialFall, "trial: library: state, psi: "),
        (
            Fault::TrialKept,
            "set-up: library: record, M: with the trials ",
        ),
    ];
    for (fault, part) in faults {
        let sides = [(); 2].map(|()| Faulty::new(fault));
        let (text, same) = text(&sides[0], &sides[1], SEED, COUNT);
        assert!(!same && text.contains(part), "{fault:?}: {text}");
    }
}

#[test]
fn the_list_covers_every_answer() {
    let mut list = List::new(&Second, &Second, SEED);
    list.run(COUNT).unwrap();
    let block = [&[0], &REFUSALS[..]].concat();
    let given = [
        vec![0, 1, 2],
        block.clone(),
        block,
        vec![0, 1, 2, 7, 9],
        vec![0, 1, 2, 8, 9],
    ];
    for (answers, given) in list.tally.answers.iter().zip(given) {
        for (number, &count) in (0..).zip(answers) {
            assert_eq!(count >= 10, given.contains(&number), "{}", list.tally);
        }
    }
    let (blocks, trials) = (&list.tally.blocks, &list.tally.trials);
    assert!(blocks.rises >= 100 && blocks.rises_to_15 >= 10);
    assert!(blocks.falls >= 100 && blocks.falls_from_15 >= 10);
    assert!(blocks.falls_to_0 >= 10 && blocks.falls_by_more >= 10);
    assert!(blocks.larger >= 100 && blocks.smaller >= 100);
    assert!(trials.rises >= 20 && trials.larger >= 100 && trials.smaller >= 100);
    assert!(trials.falls >= 20 && trials.falls_by_more >= 5);
    assert!(list.tally.saved_earlier >= 100);
    assert!(blocks.wrong_lengths.iter().all(|&count| count >= 20));
    assert!(trials.wrong_lengths.iter().all(|&count| count >= 5));
}

#[test]
fn every_call_is_made_again_or_is_a_trial() {
    for count in [1, 499, 500, 501, 1_234] {
        let mut list = List::new(&Second, &Second, SEED);
        list.run(count).unwrap();
        let trials: u64 = list.tally.answers[2].iter().sum();
        assert_eq!(list.tally.on_copies, trials);
        assert_eq!(list.tally.again, count - trials);
    }
}

#[test]
fn a_seed_gives_one_list() {
    let list = |seed| text(&Second, &Second, seed, 1_000).0;
    assert_eq!(list(5), list(5));
    let tally = |seed| list(seed).lines().skip(1).collect::<String>();
    assert_ne!(tally(5), tally(6));
}
