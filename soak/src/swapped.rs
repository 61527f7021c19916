//! Swapped pairs along a list of calls: each block of it is also lent to a
//! station and to its partner, whose samples are negated, by both sides.
//!
//! A pair starts from the record that the list has at the first block after a
//! set-up or a load, and takes all blocks up to the next one. A block on another
//! sound record has a pair of its own.

use crate::bench::Failing;
use crate::report::by_number;
use reference::lists::Lists;
use reference::random::Random;
use reference::swapped::{lent_to_both, without_lowest, Pair, Unlike};
use reference::{Inputs, Outputs, State};
use std::fmt;
use tigbulode::calls::Call;
use tigbulode::compare::SIDES;
use tigbulode::sides::{record_of, state_of, Operations};
use tigbulode::{Block, Equaliser};

/// What the pairs have covered.
#[derive(Clone, Copy, Debug, Default)]
pub struct SwappedTally {
    pub pairs: u64,
    /// Blocks by their answer.
    pub answers: [u64; 10],
    /// Samples of accepted blocks.
    pub samples: u64,
    /// Accepted blocks after which psi is larger, and smaller.
    pub raised: u64,
    pub lowered: u64,
    /// Blocks with a sample of -32768, which is -32767 here.
    pub lowest: u64,
}

impl SwappedTally {
    fn count(&mut self, lists: &Lists, number: u8, psi: [u8; 2]) {
        self.answers[usize::from(number)] += 1;
        if number == 0 {
            self.samples += lists.samples.len() as u64;
            self.raised += u64::from(psi[1] > psi[0]);
            self.lowered += u64::from(psi[1] < psi[0]);
        }
    }
}

impl fmt::Display for SwappedTally {
    fn fmt(&self, f: &mut fmt::Formatter) -> fmt::Result {
        let blocks: u64 = self.answers.iter().sum();
        let answers = by_number(&self.answers);
        writeln!(
            f,
            "swapped pairs: {}; blocks {blocks}; answer{answers}",
            self.pairs
        )?;
        writeln!(
            f,
            "samples in their accepted blocks: {}; with a raised psi: {}; a lowered psi: {}; \
             blocks with -32767 in place of -32768: {}",
            self.samples, self.raised, self.lowered, self.lowest,
        )
    }
}

/// The two sides, and what was seen on them.
pub struct SwappedBench<'a> {
    sides: [&'a dyn Operations; 2],
    /// The pair of each side.
    pairs: Option<[Pair; 2]>,
    /// For what stands in the output lists.
    random: Random,
    pub tally: SwappedTally,
}

/// A block by a side, on a state with its spare slots.
fn run(side: &dyn Operations, state: &mut State, inputs: Inputs<'_>, out: &mut Outputs) -> u8 {
    let mut record = record_of(state);
    let block = Block {
        samples: inputs.samples,
        gains: inputs.gains,
        entries: inputs.training,
    };
    let out = tigbulode::Outputs {
        y: &mut out.y,
        xi: &mut out.xi,
        decision: &mut out.decision,
        z: &mut out.z,
        theta: &mut out.theta,
    };
    let number = side.run(&mut record, block, out);
    *state = state_of(&record);
    number
}

impl<'a> SwappedBench<'a> {
    pub fn new(library: &'a dyn Operations, second: &'a dyn Operations) -> SwappedBench<'a> {
        SwappedBench {
            sides: [library, second],
            pairs: None,
            random: Random::new(0),
            tally: SwappedTally::default(),
        }
    }

    /// A new list.
    pub fn start_list(&mut self) {
        self.pairs = None;
        self.random = Random::new(0);
    }

    /// A call of the list, from the record that it had.
    pub fn call(&mut self, call: &Call, before: &Equaliser) -> Result<(), Failing> {
        match call {
            Call::SetUp(_) | Call::Load(_) => self.pairs = None,
            Call::Block(lists, None) => {
                let pairs = self.pairs.take().unwrap_or_else(|| self.started(before));
                self.pairs = Some(self.block(pairs, lists)?);
            }
            Call::Block(lists, Some(other)) if state_of(other).examine() == 0 => {
                let pairs = self.started(other);
                self.block(pairs, lists)?;
            }
            Call::Block(..) | Call::Trial(..) | Call::Save(..) => (),
        }
        Ok(())
    }

    fn started(&mut self, record: &Equaliser) -> [Pair; 2] {
        self.tally.pairs += 1;
        [(); 2].map(|()| Pair::of(&state_of(record)))
    }

    /// The lists of both stations, with other numbers in their outputs.
    fn lent(&mut self, lists: &tigbulode::calls::Lists) -> [Lists; 2] {
        let samples = without_lowest(&lists.m);
        self.tally.lowest += u64::from(samples != lists.m);
        let [one, two] = [(); 2].map(|()| self.random.outputs(lists.rooms));
        let lists = Lists {
            samples,
            gains: lists.gains.clone(),
            training: lists.entries.clone(),
            outputs: one,
        };
        lent_to_both(&lists, two).expect("no sample is -32768")
    }

    /// Runs a block on the pair of each side.
    fn block(
        &mut self,
        mut pairs: [Pair; 2],
        lists: &tigbulode::calls::Lists,
    ) -> Result<[Pair; 2], Failing> {
        let lent = self.lent(lists);
        let before = pairs[0].0[0].psi;
        let mut given = Vec::new();
        for ((side, pair), name) in self.sides.into_iter().zip(&mut pairs).zip(SIDES) {
            let station = |state: &mut State, inputs: Inputs<'_>, out: &mut Outputs| {
                run(side, state, inputs, out)
            };
            let done = pair.block(&station, &lent);
            given.push(done.map_err(|unlike| failing(name, &unlike))?);
        }
        if given[0] != given[1] || pairs[0] != pairs[1] {
            let text = "the pair of the library is not that of the second implementation";
            return Err(Failing::of("swapped pair, difference", text));
        }
        let after = pairs[0].0[0].psi;
        self.tally.count(&lent[0], given[0].0, [before, after]);
        Ok(pairs)
    }
}

fn failing(side: &str, unlike: &Unlike) -> Failing {
    let check = format!("swapped pair, {}", unlike.part);
    Failing::of(&check, format!("swapped pair: {side}: {unlike}"))
}
