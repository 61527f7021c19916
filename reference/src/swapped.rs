//! A swapped pair (request 2026-06): two stations of which one has its two
//! conductors swapped. Their past stored samples and their feed forward weights
//! are each other's negatives, all else is the same, and so are the samples that
//! they are lent. Then both answer and hand out the same.

use crate::block::{Inputs, Outputs};
use crate::lists::Lists;
use crate::state::State;
use crate::trace::read;
use crate::ACCEPTED;
use std::fmt::{self, Display};

/// How a station runs a block: as [`crate::run`] does.
pub type Station<'a> = &'a dyn Fn(&mut State, Inputs<'_>, &mut Outputs) -> u8;

/// What is not as it has to be with a pair.
#[derive(Clone, Debug, PartialEq, Eq)]
pub struct Unlike {
    pub part: &'static str,
    pub text: String,
}

impl Display for Unlike {
    fn fmt(&self, f: &mut fmt::Formatter<'_>) -> fmt::Result {
        write!(f, "{}: {}", self.part, self.text)
    }
}

/// The state of the other station: feed forward weights and past stored samples
/// negated. The sizes must be within their limits and the state sound.
pub fn partner(state: &State) -> State {
    let p = usize::from(state.settings.p);
    let mut other = state.clone();
    let weights = other.weights[..p].iter_mut();
    let negated = weights.chain(&mut other.data[..p - 1]);
    negated.for_each(|place| *place = -*place);
    other
}

/// −32767 in place of −32768, whose negative 16 bits do not hold.
pub fn without_lowest(samples: &[i16]) -> Vec<i16> {
    samples.iter().map(|&m| m.max(-i16::MAX)).collect()
}

/// The lists of both stations: the second has every sample negated and output
/// lists of its own. None where a sample is −32768.
pub fn lent_to_both(lists: &Lists, outputs: Outputs) -> Option<[Lists; 2]> {
    let negated: Option<Vec<i16>> = lists.samples.iter().map(|m| m.checked_neg()).collect();
    let other = Lists {
        samples: negated?,
        outputs,
        ..lists.clone()
    };
    Some([lists.clone(), other])
}

/// The bytes of a trace with every sample negated. None where they are no trace
/// or a sample is −32768.
pub fn swapped_trace(trace: &[u8]) -> Option<Vec<u8>> {
    read(trace).ok()?;
    let mut bytes = trace.to_vec();
    let samples = (bytes.len() - 12) / 4;
    for sample in bytes[12..].chunks_mut(3).take(samples) {
        let m = i16::from_le_bytes([sample[0], sample[1]]).checked_neg()?;
        sample[..2].copy_from_slice(&m.to_le_bytes());
    }
    Some(bytes)
}

/// Whether two lists are each other's negatives.
fn negatives(one: &[i16], two: &[i16]) -> bool {
    let mut pairs = one.iter().zip(two);
    one.len() == two.len() && pairs.all(|(&a, &b)| i32::from(a) == -i32::from(b))
}

/// What keeps two states from being a swapped pair.
pub fn unpaired(one: &State, two: &State) -> Option<&'static str> {
    if one.examine() != ACCEPTED || two.examine() != ACCEPTED {
        return Some("soundness");
    }
    if one.settings != two.settings {
        return Some("settings");
    }
    let p = usize::from(one.settings.p);
    let (forward, feedback) = one.weights.split_at(p);
    let (other_forward, other_feedback) = two.weights.split_at(p);
    let parts = [
        ("ψ", one.psi == two.psi),
        ("b", one.b == two.b),
        ("B", one.bmax == two.bmax),
        ("feed forward weights", negatives(forward, other_forward)),
        ("feedback weights", feedback == other_feedback),
        (
            "past samples",
            negatives(one.past_samples(), two.past_samples()),
        ),
        ("past symbols", one.past_symbols() == two.past_symbols()),
    ];
    let failing = parts.into_iter().find(|(_, good)| !good);
    failing.map(|(part, _)| part)
}

/// The first place at which two lists differ.
fn unlike_list<T: PartialEq + Display>(part: &'static str, one: &[T], two: &[T]) -> Option<Unlike> {
    let place = one.iter().zip(two).position(|(a, b)| a != b);
    let text = match place {
        Some(at) => format!("{} and {} at sample {at}", one[at], two[at]),
        None if one.len() != two.len() => format!("{} and {} samples", one.len(), two.len()),
        None => return None,
    };
    Some(Unlike { part, text })
}

/// The first of the five lists that differs.
fn unlike_outputs(one: &Outputs, two: &Outputs) -> Option<Unlike> {
    unlike_list("Y", &one.y, &two.y)
        .or_else(|| unlike_list("ξ", &one.xi, &two.xi))
        .or_else(|| unlike_list("decision", &one.decision, &two.decision))
        .or_else(|| unlike_list("Z", &one.z, &two.z))
        .or_else(|| unlike_list("θ", &one.theta, &two.theta))
}

/// What is wrong about the answers and output lists of two stations that were
/// lent these.
fn unlike(numbers: [u8; 2], lent: &[Lists; 2], left: &[Outputs; 2]) -> Option<Unlike> {
    let [one, two] = numbers;
    if one != two {
        let (part, text) = ("answer", format!("{one} and {two}"));
        return Some(Unlike { part, text });
    }
    if one == ACCEPTED {
        return unlike_outputs(&left[0], &left[1]);
    }
    let touched = (0..2).find(|&at| left[at] != lent[at].outputs)?;
    let (part, station) = ("output lists", touched + 1);
    let text = format!("turned down with {one}, those of station {station} are touched");
    Some(Unlike { part, text })
}

/// The states of two stations.
#[derive(Clone, Debug, PartialEq, Eq)]
pub struct Pair(pub [State; 2]);

impl Pair {
    /// A station in a sound state, and its partner.
    pub fn of(state: &State) -> Pair {
        Pair([state.clone(), partner(state)])
    }

    /// Runs a block on both, each with its own lists: the same answer, the same
    /// outputs where it is 0 and else those that were lent, states that are a
    /// swapped pair. Gives the answer and the first station's outputs, or what is
    /// not so.
    pub fn block(
        &mut self,
        station: Station<'_>,
        lent: &[Lists; 2],
    ) -> Result<(u8, Outputs), Unlike> {
        let [one, two] = &mut self.0;
        let mut left = lent.each_ref().map(|lists| lists.outputs.clone());
        let numbers = [
            station(one, lent[0].inputs(), &mut left[0]),
            station(two, lent[1].inputs(), &mut left[1]),
        ];
        if let Some(unlike) = unlike(numbers, lent, &left) {
            return Err(unlike);
        }
        let [left, _] = left;
        match unpaired(one, two) {
            None => Ok((numbers[0], left)),
            Some(part) => Err(Unlike {
                part,
                text: "the states are no swapped pair".to_string(),
            }),
        }
    }

    /// Runs blocks one after another. Gives their answers, or what is not so.
    pub fn blocks(
        &mut self,
        station: Station<'_>,
        blocks: &[[Lists; 2]],
    ) -> Result<Vec<u8>, Unlike> {
        let numbers = blocks.iter().map(|lent| self.block(station, lent));
        numbers.map(|done| done.map(|(number, _)| number)).collect()
    }
}
