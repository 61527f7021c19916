//! Every number of an accepted block or trial from the library's own records
//! and outputs, for the checker of demand 3.

use crate::pieces::{records, rescaled, Accepted};
use reference::block::{one_sample, scaled_sample, BlockDetail, SampleDetail};
use reference::numbers::{bit_length, scale_count, Dyadic};
use reference::Settings;
use tigbulode::sides::{settings_of, Operations};
use tigbulode::Equaliser;

/// What the filters meet at a sample, and the weights before it.
struct Before {
    psi: i32,
    weights: Vec<i128>,
    /// All stored samples so far, newest first.
    line: Vec<i128>,
    symbols: Vec<i128>,
}

fn whole(list: &[i16]) -> Vec<i128> {
    list.iter().map(|&a| a.into()).collect()
}

/// The numbers of a block. Weights and ψ are the records', stored samples too
/// where a record shows them; Y, ξ, decision, Z and θ are the outputs'. F, H
/// and the new weights before step 7 follow from these.
pub fn detail(library: &dyn Operations, block: &Accepted) -> Result<BlockDetail, String> {
    let settings = settings_of(&block.before);
    let records = records(library, block)?;
    let (b, bmax) = (i32::from(block.after.b), i32::from(block.after.bmax));
    let s = scale_count(settings.p);
    let gains = &block.lists.gains;
    let sample = |(&m, &g)| scaled_sample(m, g);
    let x: Vec<i128> = block.lists.m.iter().zip(gains).map(sample).collect();
    let cut = |x: &i128| Dyadic::new(*x, 15 - bmax - s).cut();
    let mut stored: Vec<i128> = x.iter().map(cut).collect();
    for (end, record) in records.iter().enumerate().skip(1) {
        let past = record.iter().flat_map(samples_of);
        let newest_first = stored[..end].iter_mut().rev();
        newest_first.zip(past).for_each(|(a, seen)| *a = seen);
    }
    let past = rescaled(&block.before, block.after.bmax);
    let mut detail = BlockDetail {
        b,
        bmax,
        gamma: i32::from(settings.r) - 30 + bmax + s,
        x,
        stored,
        past,
        samples: Vec::new(),
    };
    detail.samples = samples(&settings, block, &records, &detail);
    Ok(detail)
}

fn samples_of(record: &Equaliser) -> Vec<i128> {
    whole(&record.past[..usize::from(record.p) - 1])
}

fn symbols_of(record: &Equaliser) -> Vec<i128> {
    let (p, q) = (usize::from(record.p), usize::from(record.q));
    whole(&record.past[p..p + q])
}

fn samples(
    settings: &Settings,
    block: &Accepted,
    records: &[Option<Equaliser>],
    detail: &BlockDetail,
) -> Vec<SampleDetail> {
    let mut before = Before {
        psi: block.before.psi.into(),
        weights: whole(&block.before.weights[..settings.taps()]),
        line: detail.past.clone(),
        symbols: symbols_of(&block.before),
    };
    let mut samples = Vec::new();
    for (place, &newest) in detail.stored.iter().enumerate() {
        before.line.insert(0, newest);
        let record = records[place + 1].as_ref();
        let d = sample(settings, block, (place, detail.gamma), &before, record);
        before.psi = d.psi_after;
        before.weights.clone_from(&d.weights_after);
        before.symbols.insert(0, d.v);
        before.symbols.truncate(settings.q.into());
        samples.push(d);
    }
    samples
}

/// The numbers of the sample at a place; the weights after it are those of the
/// record where there is one.
fn sample(
    settings: &Settings,
    block: &Accepted,
    (place, gamma): (usize, i32),
    before: &Before,
    record: Option<&Equaliser>,
) -> SampleDetail {
    let mut d = step(settings, gamma, before, block.lists.entries[place].into());
    let handed = |name: &str| block.outcome.list(name)[place];
    d.y = handed("Y").into();
    d.xi = handed("xi") as i32;
    d.decision = handed("decision").into();
    d.z = handed("Z").into();
    d.theta = handed("theta") as i32;
    if block.lists.entries[place] == 0 {
        d.v = d.decision;
    }
    if let Some(record) = record {
        d.psi_after = record.psi.into();
        d.weights_after = whole(&record.weights[..settings.taps()]);
    }
    d
}

fn step(settings: &Settings, gamma: i32, before: &Before, entry: i128) -> SampleDetail {
    let a = &before.line[..usize::from(settings.p)];
    let (psi, symbols) = (before.psi, &before.symbols);
    one_sample(settings, psi, &before.weights, gamma, a, symbols, entry)
}

/// Nothing clipped: each number is the one that its step gives.
pub fn as_the_steps_give(block: &Accepted, detail: &BlockDetail) -> Result<(), String> {
    let settings = settings_of(&block.before);
    let largest = detail.x.iter().map(|x| x.abs()).max().unwrap_or(0);
    let b = bit_length(largest);
    if (detail.b, detail.bmax) != (b, b.max(block.before.b.into())) {
        return Err("b or B is not the number that its step gives".to_string());
    }
    let s = scale_count(settings.p);
    for (n, (&x, &a)) in detail.x.iter().zip(&detail.stored).enumerate() {
        if a != Dyadic::new(x, 15 - b.max(block.before.b.into()) - s).cut() {
            return Err(format!("stored sample {n} is not the cut of its own"));
        }
    }
    for (n, d) in detail.samples.iter().enumerate() {
        if let Some(name) = unlike(&settings, detail.gamma, d, block.lists.entries[n].into()) {
            return Err(format!("{name} not as its step gives at sample {n}"));
        }
    }
    left(block, detail)
}

/// The first number of a sample that its step does not give.
fn unlike(settings: &Settings, gamma: i32, d: &SampleDetail, entry: i128) -> Option<&'static str> {
    let before = Before {
        psi: d.psi_before,
        weights: d.weights_before.clone(),
        line: d.a.clone(),
        symbols: d.symbols.clone(),
    };
    let own = step(settings, gamma, &before, entry);
    let same = [
        ("Y", d.y == own.y),
        ("xi", d.xi == own.xi),
        ("decision", d.decision == own.decision),
        ("Z", d.z == own.z),
        ("theta", d.theta == own.theta),
        ("psi", d.psi_after == own.psi_after),
        ("a weight", d.weights_after == own.weights_after),
    ];
    same.into_iter()
        .find(|(_, same)| !same)
        .map(|(name, _)| name)
}

/// The data of the record that the block left are its last samples and
/// symbols, newest first.
fn left(block: &Accepted, detail: &BlockDetail) -> Result<(), String> {
    let (p, q) = (usize::from(block.after.p), usize::from(block.after.q));
    let newest: Vec<i128> = detail.stored.iter().rev().take(p - 1).copied().collect();
    let mut symbols: Vec<i128> = detail.samples.iter().rev().map(|d| d.v).collect();
    symbols.extend(symbols_of(&block.before));
    let wanted: Vec<i128> = [&newest[..], &[0], &symbols[..q]].concat();
    if whole(&block.after.past[..p + q]) == wanted {
        Ok(())
    } else {
        Err("the data that the block left are not its last ones".to_string())
    }
}
