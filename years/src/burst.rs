//! What is sent for a reading: known symbols, then the payload.

use crate::assumptions::Assumptions;
use crate::payload;
use crate::random::{Purpose, Random};

const KNOWN: usize = 1021;

/// The sending end, and the part of it that the station knows too.
pub struct Sender<'a> {
    given: &'a Assumptions,
    known: Vec<i8>,
    filler: Random,
    scramblers: Random,
}

/// A burst of whole blocks.
pub struct Burst {
    /// The symbols in the order of sending, a lead-in of known ones first.
    pub sent: Vec<i8>,
    /// A training entry for each sample; 0 where the station decides.
    pub entries: Vec<i8>,
    pub payload: Vec<i8>,
    pub scrambler: u32,
}

fn symbol(random: &mut Random, r: u8) -> i8 {
    let levels = 2u32 << r;
    2 * random.below(levels) as i8 + 1 - levels as i8
}

impl<'a> Sender<'a> {
    pub fn new(given: &'a Assumptions) -> Sender<'a> {
        let mut preamble = Random::new(given.seed, Purpose::Preamble);
        Sender {
            given,
            known: (0..KNOWN)
                .map(|_| symbol(&mut preamble, given.sizes.r))
                .collect(),
            filler: Random::new(given.seed, Purpose::Filler),
            scramblers: Random::new(given.seed, Purpose::Scrambler),
        }
    }

    /// How many symbols are sent ahead of the one that meets the first sample.
    pub fn lead(&self) -> usize {
        self.given.burst.delay.max(self.given.cable.new.len() - 1)
    }

    /// Known symbols alone.
    pub fn commissioning(&self) -> Burst {
        let samples =
            self.given.burst.commissioning_blocks as usize * usize::from(self.given.sizes.n);
        self.around(samples, Vec::new(), 0)
    }

    /// The number in a payload whose other symbols are random, after the
    /// preamble.
    pub fn reading(&mut self, number: u16) -> Burst {
        let samples = self.given.burst.preamble_blocks as usize * usize::from(self.given.sizes.n);
        let r = self.given.sizes.r;
        let scrambler = (self.scramblers.draw() >> 32) as u32;
        let mut symbols = payload::send(number, scrambler, r);
        symbols.resize_with(self.given.payload_symbols(), || symbol(&mut self.filler, r));
        self.around(samples, symbols, scrambler)
    }

    /// Known symbols for so many samples, the payload, and known symbols until
    /// its last one is decided.
    fn around(&self, trained: usize, payload: Vec<i8>, scrambler: u32) -> Burst {
        let (lead, delay) = (self.lead(), self.given.burst.delay);
        let before = lead + trained - delay;
        let mut known = self.known.iter().copied().cycle();
        let mut sent: Vec<i8> = known.by_ref().take(before).collect();
        sent.extend(&payload);
        sent.extend(known.take(delay));
        let mut entries = sent[lead - delay..before].to_vec();
        entries.resize(trained + payload.len(), 0);
        Burst {
            sent,
            entries,
            payload,
            scrambler,
        }
    }
}
