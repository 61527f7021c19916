//! A trial against a run on a copy, by the library and by the second
//! implementation; and faulty trials and saves, which the station must find.

use reference::Settings;
use tigbulode::sides::{Library, Operations, Second};
use tigbulode::station::text;
use tigbulode::{greatest_step, set_up, Answer, Block, Equaliser, Outputs, Saved};

/// What a block reads, each list with its length.
#[derive(Default)]
struct Lists {
    samples: Vec<i16>,
    gains: Vec<u8>,
    entries: Vec<i8>,
}

/// What a block hands out.
#[derive(Clone, Debug, PartialEq)]
struct OutputLists {
    y: Vec<i32>,
    xi: Vec<u8>,
    decision: Vec<i8>,
    z: Vec<i32>,
    theta: Vec<u8>,
}

impl Lists {
    /// Lists of 16, as `interface.c` has them.
    fn any(random: &mut u32) -> Lists {
        let mut lists = Lists::default();
        for _ in 0..16 {
            *random = random.wrapping_mul(1_664_525).wrapping_add(1_013_904_223);
            lists.samples.push(((*random >> 16) as i32 - 32768) as i16);
            lists.gains.push((*random >> 8 & 3) as u8);
            lists.entries.push(2 * (*random >> 4 & 1) as i8 - 1);
        }
        lists
    }

    /// The first of the lists, as many as the first three lengths say.
    fn block(&self, lengths: [usize; 8]) -> Block<'_> {
        Block {
            samples: &self.samples[..lengths[0]],
            gains: &self.gains[..lengths[1]],
            entries: &self.entries[..lengths[2]],
        }
    }
}

impl OutputLists {
    fn filled() -> OutputLists {
        OutputLists {
            y: vec![0x5555; 16],
            xi: vec![0x55; 16],
            decision: vec![0x55; 16],
            z: vec![0x5555; 16],
            theta: vec![0x55; 16],
        }
    }

    fn lists(&mut self, lengths: [usize; 8]) -> Outputs<'_> {
        Outputs {
            y: &mut self.y[..lengths[3]],
            xi: &mut self.xi[..lengths[4]],
            decision: &mut self.decision[..lengths[5]],
            z: &mut self.z[..lengths[6]],
            theta: &mut self.theta[..lengths[7]],
        }
    }
}

/// A block tried by both sides, and run on a copy; gives its number and the
/// state after it.
fn tried(s: &Equaliser, lists: &Lists, lengths: [usize; 8]) -> (u8, Equaliser) {
    let mut copy = *s;
    let mut run_out = OutputLists::filled();
    let number = tigbulode::run(&mut copy, lists.block(lengths), run_out.lists(lengths));
    for side in [&Library as &dyn Operations, &Second] {
        let (mut lent, mut out) = (*s, OutputLists::filled());
        let answer = side.trial(&mut lent, lists.block(lengths), out.lists(lengths));
        assert_eq!((answer.number, answer.state), (number, copy), "{lengths:?}");
        assert_eq!(out, run_out, "{lengths:?}");
        assert_eq!(lent, *s, "{lengths:?}");
    }
    assert_eq!(run_out == OutputLists::filled(), number != 0);
    assert_eq!(copy == *s, number != 0);
    (number, copy)
}

#[test]
fn a_trial_is_a_run_on_a_copy() {
    let step = greatest_step(4, 3, 0, 0).unwrap();
    let mut s = set_up(4, 3, 16, 0, 0, step).state;
    let mut random = 2026;
    for _ in 0..32 {
        let lists = Lists::any(&mut random);
        for length in 0..16 {
            assert_eq!(tried(&s, &lists, [length; 8]), (3, s));
            for list in 0..8 {
                let mut lengths = [16; 8];
                lengths[list] = length;
                assert_eq!(tried(&s, &lists, lengths), (3, s));
            }
        }
        let (number, after) = tried(&s, &lists, [16; 8]);
        assert_eq!(number, 0);
        s = after;
    }
}

/// The second implementation with one thing wrong in a trial or a save.
#[derive(Clone, Copy, Debug, PartialEq)]
enum Faulty {
    /// A trial that is accepted changes the record.
    Record,
    /// A trial that is turned down changes the record.
    RefusedRecord,
    /// A trial that is turned down marks a list.
    RefusedList,
    /// A trial that is turned down gives another state.
    RefusedState,
    /// A trial gives another number where a block is turned down with it.
    Number(u8),
    /// A trial that is accepted gives the record's own state.
    State,
    /// A trial that is accepted hands out nothing.
    List,
    /// A trial sees no rise of psi.
    Rise,
    /// A trial sees no fall of psi.
    Fall,
    /// A save changes the record.
    Save,
    /// A save that is turned down changes the record.
    RefusedSave,
}

impl Operations for Faulty {
    fn set_up(&self, settings: Settings) -> Answer {
        Second.set_up(settings)
    }

    fn run(&self, s: &mut Equaliser, block: Block, out: Outputs) -> u8 {
        Second.run(s, block, out)
    }

    fn trial(&self, s: &mut Equaliser, block: Block, out: Outputs) -> Answer {
        let Outputs { theta, xi, .. } = out;
        let before = theta.to_vec();
        let mut answer = Second.trial(s, block, Outputs { theta, xi, ..out });
        match (self, answer.number) {
            (Faulty::Record, 0) => s.b ^= 1,
            (Faulty::State, 0) => answer.state = *s,
            (Faulty::List, 0) => theta.copy_from_slice(&before),
            (Faulty::Rise, 0) => answer.state.psi = answer.state.psi.min(s.psi),
            (Faulty::Fall, 0) => answer.state.psi = answer.state.psi.max(s.psi),
            (Faulty::Record | Faulty::State | Faulty::List, _) | (_, 0) => (),
            (Faulty::Rise | Faulty::Fall, _) => (),
            (Faulty::RefusedRecord, _) => s.past[31] ^= 1,
            (Faulty::RefusedList, _) => xi[0] ^= 1,
            (Faulty::RefusedState, _) => answer.state.weights[31] ^= 1,
            (Faulty::Number(wrong), number) if *wrong == number => answer.number += 1,
            _ => (),
        }
        answer
    }

    fn save(&self, s: &mut Equaliser, buffer: &mut [u8]) -> Saved {
        let saved = Second.save(s, buffer);
        match (self, saved.number) {
            (Faulty::Save, 0) | (Faulty::RefusedSave, 7) => s.weights[0] ^= 1,
            _ => (),
        }
        saved
    }

    fn load(&self, bytes: &[u8]) -> Answer {
        Second.load(bytes)
    }
}

#[test]
fn the_station_finds_every_fault() {
    assert!(text(&Second).1);
    let numbers = [1, 2, 3, 4, 5, 6, 9].map(Faulty::Number);
    let faults = [
        Faulty::Record,
        Faulty::RefusedRecord,
        Faulty::RefusedList,
        Faulty::RefusedState,
        Faulty::State,
        Faulty::List,
        Faulty::Rise,
        Faulty::Fall,
        Faulty::Save,
        Faulty::RefusedSave,
    ];
    for fault in faults.into_iter().chain(numbers) {
        assert!(!text(&fault).1, "{fault:?}");
    }
}
