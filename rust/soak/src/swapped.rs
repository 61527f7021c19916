//! Swapped pairs along a list of calls: each block of it is also lent to a station and to its partner, whose samples
//! are negated, by both sides.
//!
//! A pair starts from the record that the list has at the first block after a set-up or a load, and takes all blocks up
//! to the next one. A block on another sound record has a pair of its own.

use crate::bench::{Bench, Failure};
use harness::calls::Call;
use harness::compare::SIDES;
use harness::sides::{record_of, state_of, Operations};
use reference::lists::Lists;
use reference::swapped::{lent_to_both, without_lowest, Pair};
use reference::{Inputs, Outputs, State};
use tigbulode::{Block, Equaliser};

/// A block by a side, on a state with its spare slots.
fn run(side: &dyn Operations, state: &mut State, inputs: Inputs<'_>, out: &mut Outputs) -> u8 {
    let mut record = record_of(state);
    let block = Block { samples: inputs.samples, gains: inputs.gains, entries: inputs.training };
    let Outputs { y, xi, decision, z, theta } = out;
    let number = side.run(&mut record, block, tigbulode::Outputs { y, xi, decision, z, theta });
    *state = state_of(&record);
    number
}

impl Bench<'_> {
    /// A call of the list, from the record that it had.
    pub fn swapped(&mut self, call: &Call, before: &Equaliser) -> Result<(), Failure> {
        match call {
            Call::SetUp(_) | Call::Load(_) => self.list.pairs = None,
            Call::Block(lists, None) => {
                let pairs = self.list.pairs.take().unwrap_or_else(|| self.started(before));
                self.list.pairs = Some(self.on_pairs(pairs, lists)?);
            }
            Call::Block(lists, Some(other)) if state_of(other).examine() == 0 => {
                let pairs = self.started(other);
                self.on_pairs(pairs, lists)?;
            }
            Call::Block(..) | Call::Trial(..) | Call::Save(..) => (),
        }
        Ok(())
    }

    fn started(&mut self, record: &Equaliser) -> [Pair; 2] {
        self.counts.add("pairs", true);
        [(); 2].map(|()| Pair::of(&state_of(record)))
    }

    /// The lists of both stations, with other numbers in their outputs.
    fn lent(&mut self, lists: &harness::calls::Lists) -> [Lists; 2] {
        let samples = without_lowest(&lists.m);
        self.counts.add("pair lowest", samples != lists.m);
        let [one, two] = [(); 2].map(|()| self.list.random.outputs(lists.rooms));
        let lists = Lists { samples, gains: lists.gains.clone(), training: lists.entries.clone(), outputs: one };
        lent_to_both(&lists, two).expect("no sample is -32768")
    }

    /// Runs a block on the pair of each side.
    fn on_pairs(&mut self, mut pairs: [Pair; 2], lists: &harness::calls::Lists) -> Result<[Pair; 2], Failure> {
        let lent = self.lent(lists);
        let before = pairs[0].0[0].psi;
        let mut given = Vec::new();
        for ((side, pair), name) in self.sides.station.into_iter().zip(&mut pairs).zip(SIDES) {
            let station = |state: &mut State, inputs: Inputs<'_>, out: &mut Outputs| run(side, state, inputs, out);
            let done = pair.block(&station, &lent).map_err(|unlike| {
                let check = format!("swapped pair, {}", unlike.part);
                Failure::of(&check, format!("swapped pair: {name}: {unlike}"))
            });
            given.push(done?);
        }
        if given[0] != given[1] || pairs[0] != pairs[1] {
            let text = "the pair of the library is not that of the second implementation";
            return Err(Failure::of("swapped pair, difference", text));
        }
        self.count_pair(&lent[0], given[0].0, [before, pairs[0].0[0].psi]);
        Ok(pairs)
    }

    fn count_pair(&mut self, lists: &Lists, number: u8, [before, after]: [u8; 2]) {
        self.counts.add("pair blocks", true);
        self.counts.add(&format!("pair answer {number}"), true);
        if number == 0 {
            self.counts.add("pair samples", lists.samples.len() as u64);
            self.counts.add("pair raised", after > before);
            self.counts.add("pair lowered", after < before);
        }
    }
}
