//! A shorter and simpler list that still fails.
//!
//! Calls are dropped, a lead-in replaced by loading the state that it leads to,
//! blocks shortened, and samples, entries, weights and data brought to 0, as
//! long as the list still fails in the same check.

use reference::{Settings, State};
use tigbulode::calls::{raw_image, Call, CallOfLists, Lists};
use tigbulode::perform::perform;
use tigbulode::sides::{record_of, Second};
use tigbulode::Equaliser;

/// The most lists that are tried.
pub const MOST_TRIES: u32 = 20_000;

/// A list that fails, and the test that it does.
struct Shrinking<'a> {
    calls: Vec<Call>,
    fails: &'a mut dyn FnMut(&[Call]) -> bool,
    tries: u32,
}

/// A list with which `fails` is true, as it is with `calls`.
pub fn shrink(calls: Vec<Call>, fails: &mut dyn FnMut(&[Call]) -> bool) -> Vec<Call> {
    let mut list = Shrinking {
        calls,
        fails,
        tries: 0,
    };
    loop {
        let dropped = list.drop_calls();
        let loaded = list.load_the_start();
        let shortened = list.shorten_blocks();
        let simplified = list.simplify_calls();
        if !(dropped || loaded || shortened || simplified) {
            return list.calls;
        }
    }
}

impl Shrinking<'_> {
    /// Takes another list if it fails too.
    fn take(&mut self, calls: Vec<Call>) -> bool {
        self.tries += 1;
        let taken = self.tries <= MOST_TRIES && (self.fails)(&calls);
        if taken {
            self.calls = calls;
        }
        taken
    }

    /// Drops rows of calls, long rows first.
    fn drop_calls(&mut self) -> bool {
        let mut any = false;
        let mut row = self.calls.len();
        while row > 0 {
            let mut end = self.calls.len();
            while end > 0 {
                let first = end.saturating_sub(row);
                let mut calls = self.calls.clone();
                calls.drain(first..end);
                any |= !calls.is_empty() && self.take(calls);
                end = first.min(self.calls.len());
            }
            row /= 2;
        }
        any
    }

    /// Loads the state that two or more calls lead to in their place.
    fn load_the_start(&mut self) -> bool {
        let mut record = record_of(&State::fresh());
        let mut starts = Vec::new();
        for (place, call) in self.calls.iter().enumerate() {
            if place >= 2 {
                starts.push((place, Call::Load(raw_image(&record))));
            }
            perform(&Second, call, &mut record);
        }
        starts.into_iter().rev().any(|(place, load)| {
            let mut calls = vec![load];
            calls.extend_from_slice(&self.calls[place..]);
            self.take(calls)
        })
    }

    /// Makes all blocks shorter, at their end or at their start.
    fn shorten_blocks(&mut self) -> bool {
        let longest = self.calls.iter().map(block_length).max().unwrap_or(0);
        let tried = [1, 2, longest / 4, longest / 2, longest.saturating_sub(1)];
        for length in tried {
            for at_start in [false, true] {
                let short = length >= 1 && length < longest;
                if short && self.take(shortened(&self.calls, length, at_start)) {
                    self.shorten_blocks();
                    return true;
                }
            }
        }
        false
    }

    /// Makes single calls simpler.
    fn simplify_calls(&mut self) -> bool {
        let mut any = false;
        for place in 0..self.calls.len() {
            let mut at = 0;
            while let Some(call) = simpler(&self.calls[place]).into_iter().nth(at) {
                let mut calls = self.calls.clone();
                calls[place] = call;
                if self.take(calls) {
                    any = true;
                } else {
                    at += 1;
                }
            }
        }
        any
    }
}

/// The N of a set-up, an image or another record.
fn block_length(call: &Call) -> u8 {
    match call {
        Call::SetUp(settings) => settings.n,
        Call::Load(bytes) => bytes.get(2).copied().unwrap_or(0),
        _ => call.other().map_or(0, |record| record.n),
    }
}

/// The list with every N at most `length`; each list of a block that was N
/// long stays so, and any other keeps its distance to N.
fn shortened(calls: &[Call], length: u8, at_start: bool) -> Vec<Call> {
    let mut n = 1;
    let mut all = calls.to_vec();
    for call in &mut all {
        let own = match call {
            Call::SetUp(_) | Call::Load(_) => {
                n = block_length(call);
                n
            }
            _ => call.other().map_or(n, |record| record.n),
        };
        let (less, least) = (usize::from(own.saturating_sub(length)), own.min(length));
        match call {
            Call::SetUp(settings) => settings.n = least,
            Call::Load(bytes) => bytes.iter_mut().skip(2).take(1).for_each(|n| *n = least),
            Call::Block(lists, lent) | Call::Trial(lists, lent) => {
                shorten(lists, less, at_start);
                lent.iter_mut().for_each(|record| record.n = least);
            }
            Call::Save(_, lent) => lent.iter_mut().for_each(|record| record.n = least),
        }
    }
    all
}

fn shorten(lists: &mut Lists, less: usize, at_start: bool) {
    fn cut<T>(list: &mut Vec<T>, less: usize, at_start: bool) {
        let less = less.min(list.len());
        let kept = list.len() - less;
        if at_start {
            list.drain(..less);
        } else {
            list.truncate(kept);
        }
    }
    cut(&mut lists.m, less, at_start);
    cut(&mut lists.gains, less, at_start);
    cut(&mut lists.entries, less, at_start);
    lists.rooms = lists.rooms.map(|room| room.saturating_sub(less));
}

/// Rows of a list of this length, long ones first.
fn rows(length: usize) -> Vec<(usize, usize)> {
    let mut rows = Vec::new();
    let mut row = length;
    while row > 0 {
        let starts = (0..length).step_by(row);
        rows.extend(starts.map(|first| (first, length.min(first + row))));
        row /= 2;
    }
    rows
}

/// The lists in which a row of `list` is `to`, where it is not so yet.
fn leveled<T: Copy + PartialEq>(list: &[T], to: T) -> Vec<Vec<T>> {
    let rows = rows(list.len()).into_iter();
    let other = rows.filter(|&(first, end)| list[first..end].iter().any(|a| *a != to));
    let leveled = other.map(|(first, end)| {
        let mut list = list.to_vec();
        list[first..end].fill(to);
        list
    });
    leveled.collect()
}

/// Calls that are simpler than this one.
fn simpler(call: &Call) -> Vec<Call> {
    match call {
        Call::SetUp(settings) => {
            let simpler = simpler_settings(settings).into_iter();
            simpler.map(Call::SetUp).collect()
        }
        Call::Block(lists, lent) => simpler_blocks(lists, *lent, Call::Block),
        Call::Trial(lists, lent) => simpler_blocks(lists, *lent, Call::Trial),
        Call::Save(room, lent) => {
            let records = lent.iter().flat_map(simpler_records);
            records.map(|record| Call::Save(*room, record)).collect()
        }
        Call::Load(bytes) => simpler_images(bytes).into_iter().map(Call::Load).collect(),
    }
}

/// Blocks or trials, which `made` makes, with a simpler record or simpler lists.
fn simpler_blocks(lists: &Lists, lent: Option<Equaliser>, made: CallOfLists) -> Vec<Call> {
    let records = lent.iter().flat_map(simpler_records);
    let records = records.map(|record| made(lists.clone(), record));
    let simpler = simpler_lists(lists).into_iter();
    let simpler = simpler.map(|lists| made(lists, lent));
    records.chain(simpler).collect()
}

fn simpler_settings(s: &Settings) -> Vec<Settings> {
    let least = [
        Settings { p: 1, ..*s },
        Settings { q: 1, ..*s },
        Settings { r: 0, ..*s },
        Settings { l: 0, ..*s },
        Settings { m: 0, ..*s },
        Settings {
            p: s.p.min(2),
            ..*s
        },
    ];
    least.into_iter().filter(|settings| settings != s).collect()
}

/// The lists without the half of the longest at their end, if they have any.
fn without_half(lists: &Lists) -> Option<Lists> {
    let longest = lists.lengths().into_iter().max().unwrap_or(0);
    let mut shorter = lists.clone();
    shorten(&mut shorter, longest.div_ceil(2), false);
    (longest > 0).then_some(shorter)
}

fn simpler_lists(lists: &Lists) -> Vec<Lists> {
    let m = leveled(&lists.m, 0).into_iter();
    let m = m.map(|m| Lists { m, ..lists.clone() });
    let entries = leveled(&lists.entries, 0).into_iter();
    let entries = entries.map(|entries| Lists {
        entries,
        ..lists.clone()
    });
    let gains = leveled(&lists.gains, 15).into_iter();
    let gains = gains.map(|gains| Lists {
        gains,
        ..lists.clone()
    });
    let shorter = without_half(lists).into_iter();
    m.chain(entries).chain(gains).chain(shorter).collect()
}

/// No other record, or one with more zeros.
fn simpler_records(record: &Equaliser) -> Vec<Option<Equaliser>> {
    let mut simpler = vec![None];
    let weights = leveled(&record.weights, 0).into_iter();
    let past = leveled(&record.past, 0).into_iter();
    let array = |list: Vec<i16>| list.try_into().unwrap_or(record.weights);
    simpler.extend(weights.map(|list| {
        Some(Equaliser {
            weights: array(list),
            ..*record
        })
    }));
    simpler.extend(past.map(|list| {
        Some(Equaliser {
            past: array(list),
            ..*record
        })
    }));
    simpler
}

/// Images with fewer taps, or with more zeros in weights and data, then in psi,
/// b, B and M.
fn simpler_images(bytes: &[u8]) -> Vec<Vec<u8>> {
    if bytes.len() < 12 {
        return leveled(bytes, 0);
    }
    let (header, places) = bytes.split_at(12);
    let (sizes, rest) = header.split_at(5);
    let zeroed = leveled(places, 0).into_iter();
    let zeroed = zeroed.map(|places| [header, &places].concat());
    let rests = leveled(rest, 0).into_iter();
    let rests = rests.map(|rest| [sizes, &rest, places].concat());
    let fewer = fewer_taps(bytes).into_iter();
    fewer.chain(zeroed).chain(rests).collect()
}

/// Images of the right length with fewer taps.
fn fewer_taps(bytes: &[u8]) -> Vec<Vec<u8>> {
    let (p, q) = (usize::from(bytes[0]), usize::from(bytes[1]));
    if p == 0 || bytes.len() != 12 + 4 * (p + q) {
        return Vec::new();
    }
    let fewer = [
        (1, q),
        (p, 1),
        (p / 2, q),
        (p, q / 2),
        (p - 1, q),
        (p, q.saturating_sub(1)),
    ];
    let fewer = fewer
        .into_iter()
        .filter(|&(few, back)| few > 0 && back > 0 && few + back < p + q);
    fewer
        .map(|(few, back)| with_taps(bytes, (p, q), (few, back)))
        .collect()
}

/// The image with the first of its taps only.
fn with_taps(bytes: &[u8], (p, q): (usize, usize), (few, back): (usize, usize)) -> Vec<u8> {
    let place = |at: usize, count: usize| &bytes[12 + 2 * at..12 + 2 * (at + count)];
    let mut header = bytes[..12].to_vec();
    (header[0], header[1]) = (few as u8, back as u8);
    let weights = [place(0, few), place(p, back)].concat();
    let filler = place(p + q + p - 1, 1);
    let data = [place(p + q, few - 1), filler, place(p + q + p, back)].concat();
    [header, weights, data].concat()
}

#[cfg(test)]
mod tests {
    use super::*;

    #[test]
    fn half_of_the_longest_goes_from_every_list() {
        let lists = Lists {
            m: vec![1, 2, 3, 4, 5],
            gains: vec![7, 8],
            entries: vec![1, -1, 3, -3],
            rooms: [5, 4, 3, 2, 0],
        };
        let half = without_half(&lists).unwrap();
        assert_eq!((half.m, half.gains), (vec![1, 2], Vec::new()));
        assert_eq!((half.entries, half.rooms), (vec![1], [2, 1, 0, 0, 0]));
        assert!(simpler_lists(&lists).contains(&without_half(&lists).unwrap()));
    }

    #[test]
    fn halves_end_with_empty_lists() {
        let empty = Lists {
            m: Vec::new(),
            gains: Vec::new(),
            entries: Vec::new(),
            rooms: [0; 5],
        };
        assert_eq!(without_half(&empty), None);
        let room = Lists {
            rooms: [0, 0, 0, 0, 9],
            ..empty
        };
        let halves = std::iter::successors(Some(room), without_half).take(9);
        let rooms: Vec<usize> = halves.map(|lists| lists.rooms[4]).collect();
        assert_eq!(rooms, [9, 4, 2, 1, 0]);
    }
}
