//! A block by the second implementation, which reads what is handed out too.

use harness::sides::{Operations, Second};
use plots::block::{Heard, Lists};
use plots::power::ErrorPower;
use reference::readings as second;
use tigbulode::{Block, Equaliser};
use tigbulode_laboratory::{Power, Reading};

pub fn read(lists: &Lists) -> Heard {
    let Lists { y, xi, z, theta, decision } = lists;
    let mut lent = vec![second::Reading::default(); y.len()];
    let power = second::readings(&second::ReadingInputs { y, xi, z, theta }, &mut lent).expect("read");
    let power = match power {
        second::Power::Mean(value) => Power::Mean(value),
        second::Power::Floor(value) => Power::Floor(value),
    };
    let readings = lent.iter().map(|second::Reading { y, error }| Reading { y: *y, error: *error });
    Heard { decisions: decision.clone(), readings: readings.collect(), error_power: ErrorPower::of_block(power) }
}

/// None where the block is turned down.
#[allow(dead_code)]
pub fn run(record: &mut Equaliser, block: Block) -> Option<Heard> {
    let mut lists = Lists::zeros(block.samples.len());
    let number = Second.run(record, block, lists.lent());
    (number == 0).then(|| read(&lists))
}
