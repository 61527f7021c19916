//! The library's record after each sample of an accepted block, got by running
//! the block in pieces.
//!
//! A piece has the block's B, because its record is given that as the previous
//! b. So it stores the same samples and hands out the same numbers, and its
//! record shows the weights where it ends. No piece has fewer than p - 1
//! samples, so a block's first p - 2 samples have no record.

use reference::numbers::Dyadic;
use tigbulode::calls::{Call, Lists};
use tigbulode::perform::{perform, Outcome};
use tigbulode::sides::Operations;
use tigbulode::Equaliser;

/// An accepted block as the library ran it, or tried it: then the record after
/// it is the state beside the trial's number.
pub struct Accepted<'a> {
    pub before: Equaliser,
    pub lists: &'a Lists,
    pub outcome: &'a Outcome,
    pub after: Equaliser,
}

/// The names of the five lists that a block hands out.
pub const OUTPUTS: [&str; 5] = ["Y", "xi", "decision", "Z", "theta"];

/// The past samples of a record at another B.
pub fn rescaled(record: &Equaliser, bmax: u8) -> Vec<i128> {
    let shift = i32::from(record.bmax) - i32::from(bmax);
    let past = record.past[..usize::from(record.p) - 1].iter();
    past.map(|&a| Dyadic::new(a.into(), shift).cut()).collect()
}

/// The record that a piece of `n` samples starts from.
fn start(record: &Equaliser, n: usize, bmax: u8) -> Option<Equaliser> {
    let mut start = *record;
    start.n = u8::try_from(n).ok()?;
    if bmax > record.bmax {
        for (place, a) in start.past.iter_mut().zip(rescaled(record, bmax)) {
            *place = i16::try_from(a).ok()?;
        }
        start.bmax = bmax;
    }
    start.b = bmax;
    Some(start)
}

/// The lists of the samples from `first` to `end`.
fn part_of(lists: &Lists, first: usize, end: usize) -> Lists {
    Lists {
        m: lists.m[first..end].to_vec(),
        gains: lists.gains[first..end].to_vec(),
        entries: lists.entries[first..end].to_vec(),
        rooms: [end - first; 5],
    }
}

/// The record after the samples from `first` to `end`, run from `record`.
fn piece(
    library: &dyn Operations,
    block: &Accepted,
    record: &Equaliser,
    (first, end): (usize, usize),
) -> Result<Equaliser, String> {
    let bmax = block.after.bmax;
    let mut record = start(record, end - first, bmax).ok_or("a past sample is too long")?;
    let call = Call::Block(part_of(block.lists, first, end), None);
    let outcome = perform(library, &call, &mut record);
    if outcome.number != 0 {
        return Err(format!("a piece answers {}", outcome.number));
    }
    for name in OUTPUTS {
        if outcome.list(name) != &block.outcome.list(name)[first..end] {
            return Err(format!("{name} of a piece differs from the block's"));
        }
    }
    if record.bmax != bmax {
        return Err("B of a piece differs from the block's".to_string());
    }
    record.n = block.before.n;
    Ok(record)
}

/// The records before the block and after each of its samples. A record of a
/// sample inside the block has the block's B and its own piece's b.
pub fn records(
    library: &dyn Operations,
    block: &Accepted,
) -> Result<Vec<Option<Equaliser>>, String> {
    let n = usize::from(block.before.n);
    let least = usize::from(block.before.p).saturating_sub(1).max(1);
    let mut records = vec![None; n + 1];
    records[0] = Some(block.before);
    for end in least..n {
        let first = if records[end - least].is_some() {
            end - least
        } else {
            0
        };
        let from = records[first].unwrap_or(block.before);
        let record = piece(library, block, &from, (first, end));
        records[end] = Some(record.map_err(|what| format!("{what} at sample {}", end - 1))?);
    }
    records[n] = Some(block.after);
    Ok(records)
}
