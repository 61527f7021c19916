//! A shorter and simpler list that still fails.
//!
//! Calls are dropped, a lead-in replaced by loading the state that it leads to, blocks shortened, samples, entries,
//! weights and data brought to 0; of a cable symbols and values are dropped, values brought to 0 and symbols to 1; as
//! long as the list still fails in the same check.

use crate::bench::Step;
use crate::cables::CableInputs;
use harness::calls::{raw_image, Call, Lists};
use harness::perform::perform;
use harness::sides::{record_of, state_of, Second};
use reference::settings::Rules;
use reference::{Settings, State};

/// The most lists that are tried.
pub const MOST_TRIES: u32 = 20_000;

/// Lists, one after the other.
type Candidates<'a, T> = Box<dyn Iterator<Item = T> + 'a>;

/// A list with which `fails` is true, as it is with `steps`.
pub fn shrink(mut steps: Vec<Step>, fails: &mut dyn FnMut(&[Step]) -> bool) -> Vec<Step> {
    let mut tries = 0..MOST_TRIES;
    let mut last = Vec::new();
    while last != steps {
        last.clone_from(&steps);
        let mut at = 0;
        while let Some(other) = simpler_at(&steps, at).filter(|_| tries.next().is_some()) {
            match fails(&other) {
                true => steps = other,
                false => at += 1,
            }
        }
    }
    steps
}

/// The simpler list at a place: first come those with fewer calls.
fn simpler_at(steps: &[Step], at: usize) -> Option<Vec<Step>> {
    let simpler = with_fewer(steps).chain(loaded(steps)).chain(shortened(steps)).chain(with_simpler(steps));
    simpler.into_iter().nth(at)
}

/// Rows of a list of this length, long ones first.
fn rows(length: usize) -> impl Iterator<Item = (usize, usize)> {
    let halves = std::iter::successors(Some(length), |row| Some(row / 2)).take_while(|row| *row > 0);
    halves.flat_map(move |row| (0..length).step_by(row).map(move |first| (first, length.min(first + row))))
}

/// The list without a row of its calls.
fn with_fewer(steps: &[Step]) -> impl Iterator<Item = Vec<Step>> + '_ {
    rows(steps.len()).skip(1).map(|(first, end)| [&steps[..first], &steps[end..]].concat())
}

/// Loads the state that two or more calls lead to in their place.
fn loaded(steps: &[Step]) -> impl Iterator<Item = Vec<Step>> + '_ {
    let mut record = record_of(&State::fresh());
    let mut starts = Vec::new();
    for (place, step) in steps.iter().enumerate() {
        if place >= 2 {
            starts.push((place, Step::Call(Call::Load(raw_image(&record)))));
        }
        if let Step::Call(call) = step {
            perform(&Second, call, &mut record);
        }
    }
    starts.into_iter().rev().map(|(place, load)| [&[load], &steps[place..]].concat())
}

/// The N of a set-up, an image or another record.
fn block_length(step: &Step) -> Option<u8> {
    match step {
        Step::Call(Call::SetUp(settings)) => Some(settings.n),
        Step::Call(Call::Load(bytes)) => Some(bytes.get(2).copied().unwrap_or(0)),
        Step::Call(call) => call.other().map(|record| record.n),
        Step::Cable(_) => None,
    }
}

/// Makes all blocks shorter, at their end or at their start.
fn shortened(steps: &[Step]) -> impl Iterator<Item = Vec<Step>> + '_ {
    let longest = steps.iter().filter_map(block_length).max().unwrap_or(0);
    let lengths = [1, 2, longest / 4, longest / 2, longest.saturating_sub(1)];
    let short = lengths.into_iter().filter(move |&length| length >= 1 && length < longest);
    short.flat_map(move |length| [false, true].map(|at_start| with_length(steps, length, at_start)))
}

/// The list with every N at most `length`; each list of a block that was N long stays so, and any other keeps its
/// distance to N.
fn with_length(steps: &[Step], length: u8, at_start: bool) -> Vec<Step> {
    let mut n = 1;
    let mut all = steps.to_vec();
    for step in &mut all {
        let own = block_length(step).unwrap_or(n);
        let (less, least) = (usize::from(own.saturating_sub(length)), own.min(length));
        let Step::Call(call) = step else { continue };
        match call {
            Call::SetUp(settings) => (n, settings.n) = (own, least),
            Call::Load(bytes) => {
                n = own;
                bytes.iter_mut().skip(2).take(1).for_each(|n| *n = least);
            }
            Call::Block(lists, lent) | Call::Trial(lists, lent) => {
                shorten(lists, less, at_start);
                lent.iter_mut().for_each(|record| record.n = least);
            }
            Call::Save(_, lent) => lent.iter_mut().for_each(|record| record.n = least),
        }
    }
    all
}

fn shorten(lists: &mut Lists, less: usize, at_start: bool) {
    fn cut<T>(list: &mut Vec<T>, less: usize, at_start: bool) {
        let less = less.min(list.len());
        let first = if at_start { 0 } else { list.len() - less };
        list.drain(first..first + less);
    }
    cut(&mut lists.m, less, at_start);
    cut(&mut lists.gains, less, at_start);
    cut(&mut lists.entries, less, at_start);
    lists.rooms = lists.rooms.map(|room| room.saturating_sub(less));
}

/// The list with one simpler call.
fn with_simpler(steps: &[Step]) -> impl Iterator<Item = Vec<Step>> + '_ {
    steps.iter().enumerate().flat_map(move |(place, step)| {
        let simpler: Candidates<'_, Step> = match step {
            Step::Call(call) => Box::new(simpler_calls(call).map(Step::Call)),
            Step::Cable(lent) => Box::new(simpler_cables(lent).map(Step::Cable)),
        };
        simpler.map(move |step| [&steps[..place], &[step], &steps[place + 1..]].concat())
    })
}

fn simpler_calls(call: &Call) -> Candidates<'_, Call> {
    match call {
        Call::SetUp(settings) => Box::new(simpler_settings(*settings).map(Call::SetUp)),
        Call::Block(lists, lent) | Call::Trial(lists, lent) => {
            let made = if call.is_trial() { Call::Trial } else { Call::Block };
            let records = simpler_records(call).map(move |record| made(lists.clone(), record));
            Box::new(records.chain(simpler_lists(lists).map(move |lists| made(lists, *lent))))
        }
        Call::Save(room, _) => Box::new(simpler_records(call).map(|record| Call::Save(*room, record))),
        Call::Load(bytes) => match reference::load(bytes) {
            (0, state) => Box::new(simpler_states(state).map(|state| Call::Load(raw_image(&record_of(&state))))),
            _ => Box::new(leveled(bytes, 0).map(Call::Load)),
        },
    }
}

fn simpler_settings(s: Settings) -> impl Iterator<Item = Settings> {
    let least = [
        Settings { p: 1, n: 1, ..s },
        Settings { p: 1, ..s },
        Settings { q: 1, ..s },
        Settings { r: 0, ..s },
        Settings { l: 0, ..s },
        Settings { m: 0, ..s },
        Settings { p: s.p.min(2), ..s },
    ];
    least.into_iter().filter(move |settings| *settings != s)
}

/// The lists in which a row of `list` is `to`, where it is not so yet.
fn leveled<T: Copy + PartialEq>(list: &[T], to: T) -> impl Iterator<Item = Vec<T>> + '_ {
    let other = rows(list.len()).filter(move |&(first, end)| list[first..end].iter().any(|a| *a != to));
    other.map(move |(first, end)| [&list[..first], &vec![to; end - first], &list[end..]].concat())
}

fn simpler_lists(lists: &Lists) -> impl Iterator<Item = Lists> + '_ {
    let m = leveled(&lists.m, 0).map(|m| Lists { m, ..lists.clone() });
    let entries = leveled(&lists.entries, 0).map(|entries| Lists { entries, ..lists.clone() });
    let gains = leveled(&lists.gains, 15).map(|gains| Lists { gains, ..lists.clone() });
    // Half of the longest goes from the end of each.
    let longest = lists.lengths().into_iter().max().unwrap_or(0);
    let shorter = (longest > 0).then(|| {
        let mut shorter = lists.clone();
        shorten(&mut shorter, longest.div_ceil(2), false);
        shorter
    });
    m.chain(entries).chain(gains).chain(shorter)
}

/// No other record than the list's own, or a simpler one.
fn simpler_records(call: &Call) -> impl Iterator<Item = Option<tigbulode::Equaliser>> + '_ {
    let other = call.other().into_iter();
    other.flat_map(|e| std::iter::once(None).chain(simpler_states(state_of(e)).map(|state| Some(record_of(&state)))))
}

/// States with fewer taps, or with more zeros.
fn simpler_states(s: State) -> impl Iterator<Item = State> {
    let weights: Vec<State> = leveled(&s.weights, 0).map(|weights| State { weights, ..s.clone() }).collect();
    let data: Vec<State> = leveled(&s.data, 0).map(|data| State { data, ..s.clone() }).collect();
    let zeros = [
        State { psi: 0, ..s.clone() },
        State { b: 0, bmax: 0, ..s.clone() },
        State { b: s.bmax, ..s.clone() },
        State { settings: s.settings.with_m(0), ..s.clone() },
        State { settings: Settings { r: 0, ..s.settings }, ..s.clone() },
        State { settings: Settings { l: 0, ..s.settings }, ..s.clone() },
    ];
    let zeros = zeros.into_iter().filter(|state| *state != s).collect::<Vec<State>>();
    fewer_taps(&s).into_iter().chain(weights).chain(data).chain(zeros)
}

/// States with the first of the taps only.
fn fewer_taps(s: &State) -> Vec<State> {
    if !s.settings.within_limits() {
        return Vec::new();
    }
    let (p, q, taps) = (s.settings.p, s.settings.q, s.settings.taps());
    let fewer = [(1, q), (p, 1), (p / 2, q), (p, q / 2), (p - 1, q), (p, q - 1)];
    let fewer = fewer.into_iter().filter(|&(few, back)| few > 0 && back > 0 && (few, back) != (p, q));
    let with = |(few, back): (u8, u8)| {
        let kept = |list: &[i16], forward: u8| {
            let feedback = &list[usize::from(p)..taps][..usize::from(back)];
            [&list[..usize::from(forward)], feedback].concat()
        };
        let mut data = kept(&s.data, few - 1);
        data.insert(usize::from(few) - 1, s.filler());
        let settings = Settings { p: few, q: back, ..s.settings };
        State { settings, weights: kept(&s.weights, few), data, ..s.clone() }
    };
    fewer.map(with).collect()
}

/// The first or the last of a list, as many as are said.
fn ends<T: Copy>(list: &[T], kept: [usize; 4]) -> impl Iterator<Item = Vec<T>> + '_ {
    let kept = kept.into_iter().filter(|&kept| kept > 0 && kept < list.len());
    kept.flat_map(|kept| [list[..kept].to_vec(), list[list.len() - kept..].to_vec()])
}

/// The lists with one of the first places at `to`.
fn plainer<T: Copy + PartialEq>(list: &[T], to: T) -> impl Iterator<Item = Vec<T>> + '_ {
    let places = (0..list.len().min(100)).filter(move |&at| list[at] != to);
    places.map(move |at| [&list[..at], &[to], &list[at + 1..]].concat())
}

fn simpler_cables(lent: &CableInputs) -> impl Iterator<Item = CableInputs> + '_ {
    let n = usize::from(lent.settings.n.max(1));
    let (blocks, values) = (lent.symbols.len() / n, lent.response.len());
    let kept = [1, blocks / 8, blocks / 2, blocks.saturating_sub(1)].map(|blocks| blocks * n);
    let fewer_symbols = ends(&lent.symbols, kept).map(|symbols| lent.with_symbols(symbols));
    let fewer_values = ends(&lent.response, [1, values / 4, values / 2, values.saturating_sub(1)]);
    let values = fewer_values.chain(plainer(&lent.response, 0));
    let values = values.map(|response| CableInputs { response, ..lent.clone() });
    let settings = simpler_settings(lent.settings).map(|settings| CableInputs { settings, ..lent.clone() });
    let training = (lent.training > 0).then(|| CableInputs { training: 0, ..lent.clone() });
    let symbols = plainer(&lent.symbols, 1).map(|symbols| lent.with_symbols(symbols));
    fewer_symbols.chain(values).chain(settings).chain(training).chain(symbols)
}
