//! What a station made of a reading.

use crate::assumptions::Assumptions;
use crate::burst::Burst;
use crate::payload;
use crate::power::ErrorPower;
use crate::station::Decided;
use tigbulode::Equaliser;

#[derive(Clone, Copy, Debug)]
pub struct Outcome {
    /// After the reading.
    pub record: Equaliser,
    /// Of the payload; none where no block of it was accepted.
    pub error_power: Option<ErrorPower>,
    /// Payload symbols that were not decided as sent.
    pub wrong: u32,
    /// The pressure's number; none where the reading was lost.
    pub received: Option<u16>,
}

impl Outcome {
    /// Of a burst and the blocks that a station made of it.
    pub fn of(given: &Assumptions, burst: &Burst, blocks: &[Decided]) -> Outcome {
        let payload = &blocks[given.burst.preamble_blocks as usize..];
        Outcome {
            record: blocks[blocks.len() - 1].record,
            error_power: error_power(payload),
            wrong: wrong(payload, &burst.payload),
            received: received(given, payload, burst.scrambler),
        }
    }
}

fn received(given: &Assumptions, payload: &[Decided], scrambler: u32) -> Option<u16> {
    let decisions: Vec<i8> = payload
        .iter()
        .flat_map(|b| b.decisions.iter().copied())
        .collect();
    if decisions.len() < given.payload_symbols() {
        return None;
    }
    payload::receive(&decisions, scrambler, given.sizes.r)
}

/// Payload symbols that were not decided as sent; in a block that was turned
/// down that is all of them.
fn wrong(blocks: &[Decided], sent: &[i8]) -> u32 {
    let parts = sent.chunks(sent.len() / blocks.len());
    let right = |(block, part): (&Decided, &[i8])| {
        let pairs = block.decisions.iter().zip(part);
        pairs
            .filter(|(decision, symbol)| decision == symbol)
            .count()
    };
    (sent.len() - blocks.iter().zip(parts).map(right).sum::<usize>()) as u32
}

/// The error power over the accepted blocks.
fn error_power(blocks: &[Decided]) -> Option<ErrorPower> {
    ErrorPower::joined(blocks.iter().filter_map(|block| block.error_power))
}
