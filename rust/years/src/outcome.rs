//! What a station made of a reading.

use crate::assumptions::Assumptions;
use crate::burst::Burst;
use crate::payload;
use crate::station::Ran;
use plots::power::ErrorPower;
use tigbulode::Equaliser;

#[derive(Clone, Copy, Debug)]
pub struct Outcome {
    /// After the reading.
    pub record: Equaliser,
    /// Of the payload; none where no block of it was accepted.
    pub error_power: Option<ErrorPower>,
    /// Payload symbols that were not decided as sent; in a block that was turned down that is all of them.
    pub wrong: usize,
    /// The pressure's number; none where the reading was lost.
    pub received: Option<u16>,
}

impl Outcome {
    /// Of a burst and the blocks that a station made of it.
    pub fn of(given: &Assumptions, burst: &Burst, blocks: &[Ran]) -> Outcome {
        let payload = &blocks[given.preamble_blocks..];
        let heard = payload.iter().filter_map(|block| block.heard.as_ref());
        let decisions: Vec<i8> = heard.clone().flat_map(|heard| heard.decisions.iter().copied()).collect();
        let whole = decisions.len() == burst.payload.len();
        Outcome {
            record: blocks[blocks.len() - 1].after,
            error_power: ErrorPower::joined(heard.map(|heard| heard.error_power)),
            wrong: wrong(payload, &burst.payload),
            received: whole.then(|| payload::receive(&decisions, burst.scrambler, given.settings.r)).flatten(),
        }
    }
}

fn wrong(blocks: &[Ran], sent: &[i8]) -> usize {
    let right = |(block, part): (&Ran, &[i8])| {
        let decisions = block.heard.as_ref().map_or(&[][..], |heard| &heard.decisions);
        decisions.iter().zip(part).filter(|(decision, symbol)| decision == symbol).count()
    };
    let parts = sent.chunks(sent.len() / blocks.len());
    sent.len() - blocks.iter().zip(parts).map(right).sum::<usize>()
}
