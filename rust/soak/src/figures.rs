//! Every number of an accepted block or trial from the library's own records and outputs, for the checker of demand 3.

use crate::pieces::{records, rescaled, Accepted};
use harness::sides::{record_of, state_of, Operations};
use reference::block::{one_sample, scaled_sample, work, BlockDetail, Inputs, SampleDetail};
use reference::numbers::{scale_count, Dyadic};
use tigbulode::Equaliser;

fn whole(list: &[i16]) -> Vec<i128> {
    list.iter().map(|&a| a.into()).collect()
}

/// The numbers of a block. Weights and ψ are the records', stored samples too where a record shows them; Y, ξ,
/// decision, Z and θ are the outputs'. F, H and the new weights before step 7 follow from these.
pub fn detail(library: &dyn Operations, block: &Accepted) -> Result<BlockDetail, String> {
    let settings = block.before.settings();
    let records = records(library, block)?;
    let (b, bmax) = (i32::from(block.after.b), i32::from(block.after.bmax));
    let s = scale_count(settings.p);
    let x: Vec<i128> = block.lists.m.iter().zip(&block.lists.gains).map(|(&m, &g)| scaled_sample(m, g)).collect();
    let cut = |x: &i128| Dyadic::new(*x, 15 - bmax - s).cut();
    let mut stored: Vec<i128> = x.iter().map(cut).collect();
    for (end, record) in records.iter().enumerate().skip(1) {
        let past = record.iter().flat_map(|e| whole(&e.past[..usize::from(e.p) - 1]));
        stored[..end].iter_mut().rev().zip(past).for_each(|(a, seen)| *a = seen);
    }
    let past = rescaled(&block.before, block.after.bmax);
    let gamma = i32::from(settings.r) - 30 + bmax + s;
    let mut detail = BlockDetail { b, bmax, gamma, x, stored, past, samples: Vec::new() };
    detail.samples = samples(block, &records, &detail);
    Ok(detail)
}

/// The numbers of each sample; the weights after it are those of the record where there is one.
fn samples(block: &Accepted, records: &[Option<Equaliser>], detail: &BlockDetail) -> Vec<SampleDetail> {
    let settings = block.before.settings();
    let (p, q, taps) = (usize::from(settings.p), usize::from(settings.q), settings.taps());
    let (mut psi, mut weights) = (i32::from(block.before.psi), whole(&block.before.weights[..taps]));
    let (mut line, mut symbols) = (detail.past.clone(), whole(&block.before.past[p..taps]));
    let mut samples = Vec::new();
    for (place, &newest) in detail.stored.iter().enumerate() {
        line.insert(0, newest);
        let entry = block.lists.entries[place].into();
        let mut d = one_sample(&settings, psi, &weights, detail.gamma, &line[..p], &symbols, entry);
        handed_out(block, place, &mut d);
        if let Some(record) = &records[place + 1] {
            d.psi_after = record.psi.into();
            d.weights_after = whole(&record.weights[..taps]);
        }
        psi = d.psi_after;
        weights.clone_from(&d.weights_after);
        symbols.insert(0, d.v);
        symbols.truncate(q);
        samples.push(d);
    }
    samples
}

/// Takes the outputs of a sample.
fn handed_out(block: &Accepted, place: usize, d: &mut SampleDetail) {
    let handed = |name: &str| block.outcome.list(name)[place];
    d.y = handed("Y").into();
    d.xi = handed("xi") as i32;
    d.decision = handed("decision").into();
    d.z = handed("Z").into();
    d.theta = handed("theta") as i32;
    if block.lists.entries[place] == 0 {
        d.v = d.decision;
    }
}

/// Nothing clipped: each number is the one that the steps give, and so is the record after the block.
pub fn as_the_steps_give(block: &Accepted, detail: &BlockDetail) -> Result<(), String> {
    let lists = block.lists;
    let inputs = Inputs { samples: &lists.m, gains: &lists.gains, training: &lists.entries };
    let (own, after) = work(&state_of(&block.before), inputs).map_err(|number| format!("the steps answer {number}"))?;
    if (detail.b, detail.bmax, &detail.stored) != (own.b, own.bmax, &own.stored) {
        return Err("b, B or a stored sample is not as its step gives".to_string());
    }
    for (n, (d, own)) in detail.samples.iter().zip(&own.samples).enumerate() {
        if let Some(name) = unlike(d, own) {
            return Err(format!("{name} not as its step gives at sample {n}"));
        }
    }
    match block.after == record_of(&after) {
        true => Ok(()),
        false => Err("the record that the block left is not as its steps give".to_string()),
    }
}

/// The first number of a sample that differs.
fn unlike(d: &SampleDetail, own: &SampleDetail) -> Option<&'static str> {
    let same = [
        ("Y", d.y == own.y),
        ("xi", d.xi == own.xi),
        ("decision", d.decision == own.decision),
        ("Z", d.z == own.z),
        ("theta", d.theta == own.theta),
        ("psi", d.psi_after == own.psi_after),
        ("a weight", d.weights_after == own.weights_after),
    ];
    same.into_iter().find(|(_, same)| !same).map(|(name, _)| name)
}
