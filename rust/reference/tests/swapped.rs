//! Swapped pairs: from arbitrary sound states and from set-up through lists of blocks, faults that the comparison has
//! to find, and what is not said of them.

use faults::{Counts, Faulty, Implementation, FAULTS};
use reference::block::{work, BlockDetail};
use reference::lists::Lists;
use reference::numbers::Dyadic;
use reference::random::{Aim, Random};
use reference::swapped::{lent_to_both, partner, swapped_trace, unpaired, without_lowest, Pair, Station, Unlike};
use reference::trace::trace_with_state;
use reference::vectors::trace_vectors;
use reference::{run, set_up, Inputs, Outputs, State};
use std::sync::OnceLock;

/// A sound state, and the blocks for the station and its partner.
struct History {
    start: State,
    blocks: Vec<[Lists; 2]>,
}

/// The lists of both stations, with anything in their outputs.
fn lent(random: &mut Random, mut lists: Lists) -> [Lists; 2] {
    lists.samples = without_lowest(&lists.samples);
    let [_, _, _, outputs @ ..] = lists.lengths();
    lent_to_both(&lists, random.outputs(outputs)).expect("no sample is −32768")
}

/// Lists that pass 3, 4 and 5, or one time in four have causes of them; with ψ near its top often trained with end
/// symbols.
fn lists(random: &mut Random, start: &State) -> Lists {
    const CAUSES: [&[u8]; 7] = [&[3], &[4], &[5], &[4, 3], &[5, 3], &[5, 4], &[5, 4, 3]];
    let settings = &start.settings;
    let mut lists = random.lists(settings);
    if start.psi >= 14 && random.chance(1, 2) {
        lists.training = random.training(settings, Aim::Ends);
    }
    if random.chance(1, 4) {
        for &number in random.pick(&CAUSES) {
            random.spoil(&mut lists, settings, number);
        }
    }
    lists
}

/// A sound state: any, fresh, or with ψ near its top and the largest step.
fn start(random: &mut Random) -> State {
    let settings = random.settings();
    let mut state = random.state(settings);
    match random.below(8) {
        0 => state = set_up(settings).1,
        1 | 2 => {
            state.settings.m = settings.greatest_m();
            state.psi = random.byte(14, 15);
        }
        _ => {}
    }
    if random.chance(1, 2) {
        state.lent()
    } else {
        state
    }
}

fn any_history(random: &mut Random) -> History {
    let start = start(random);
    let mut blocks = Vec::new();
    for _ in 0..random.between(1, 5) {
        let lists = lists(random, &start);
        blocks.push(lent(random, lists));
    }
    History { start, blocks }
}

/// An output is even, with M = 0 each one: a weight is worth 2 and meets ±1, a sample or a symbol.
fn tied_history(random: &mut Random) -> History {
    let mut settings = random.settings();
    (settings.r, settings.l) = (random.byte(1, 3), 0);
    settings.m = random.pick(&[0, settings.greatest_m()]);
    let mut state = State::zeros(settings);
    state.psi = 3;
    let p = usize::from(settings.p);
    state.weights[random.pick(&[0, p])] = 8192 * random.sign() as i16;
    state.data[p] = random.sign() as i16;
    let mut lists = random.lists(&settings);
    lists.gains.fill(settings.r - 1);
    lists.training.fill(0);
    let signs = lists.samples.iter_mut();
    signs.for_each(|m| *m = 16384 * random.sign() as i16);
    let blocks = vec![lent(random, lists)];
    History { start: state, blocks }
}

/// The histories, made once.
fn histories() -> &'static [History] {
    static HISTORIES: OnceLock<Vec<History>> = OnceLock::new();
    HISTORIES.get_or_init(|| {
        let mut random = Random::new(2026);
        let made = (0..4000).map(|turn| match turn % 10 {
            0 => tied_history(&mut random),
            _ => any_history(&mut random),
        });
        made.collect()
    })
}

/// Counts what an accepted block has covered.
fn count_accepted(counts: &mut Counts, before: &State, lists: &Lists, detail: &BlockDetail) {
    let s = &before.settings;
    for (size, value) in [("p", s.p), ("q", s.q), ("N", s.n), ("r", s.r), ("L", s.l)] {
        counts.add(&format!("{size} {value}"), true);
    }
    for (&m, &g) in lists.samples.iter().zip(&lists.gains) {
        counts.add(&format!("gain {g}"), true);
        if [-i16::MAX, 0, i16::MAX].contains(&m) {
            counts.add(&format!("sample {m}"), true);
        }
    }
    let places = detail.bmax - i32::from(before.bmax);
    for &a in before.past_samples() {
        let cut = !Dyadic::new(a.into(), -places).is_whole();
        counts.add(&format!("cut {}", a.signum()), cut);
    }
    for (d, &entry) in detail.samples.iter().zip(&lists.training) {
        counts.add(&format!("stored {}", d.a[0].signum()), true);
        counts.add("halvings", d.psi_after > d.psi_before);
        counts.add("doublings", d.psi_after < d.psi_before);
        counts.add(if entry == 0 { "decided" } else { "trained" }, true);
        let tie = Dyadic::new(d.y, d.xi - 31).is_whole() && d.a[0] != 0 && entry == 0;
        counts.add(if d.y == 0 { "tie at 0" } else { "another tie" }, tie);
    }
}

/// Counts what a block has covered, from the state before it.
fn count(counts: &mut Counts, before: &State, lists: &Lists, number: u8) {
    counts.add(&format!("answer {number}"), true);
    let lengths = lists.lengths().map(|length| length != before.settings.n.into());
    let wrong: Vec<usize> = (0..8).filter(|&list| lengths[list]).collect();
    if let [list] = wrong[..] {
        counts.add(&format!("wrong length {list}"), true);
    }
    if number == 0 {
        let (detail, _) = work(before, lists.inputs()).expect("an accepted block");
        count_accepted(counts, before, lists, &detail);
    }
}

/// The histories with the second implementation: what they have covered, or what is not as it has to be.
fn over_pairs() -> Result<Counts, Unlike> {
    let mut counts = Counts::default();
    for history in histories() {
        let mut pair = Pair::of(&history.start);
        counts.add("fresh", pair.0[0] == pair.0[1]);
        for lent in &history.blocks {
            let before = pair.0[0].clone();
            let (number, _) = pair.block(&run, lent)?;
            count(&mut counts, &before, &lent[0], number);
        }
    }
    Ok(counts)
}

#[test]
fn the_stations_of_a_swapped_pair_do_the_same() {
    let counts = over_pairs().unwrap();
    let answers: Vec<usize> = counts.by_number("answer").iter().map(|(number, _)| *number).collect();
    assert_eq!(answers, [0, 3, 4, 5, 6]);
    let numbered = [("answer", 5, 200), ("wrong length", 8, 20), ("gain", 16, 1000), ("p", 16, 1), ("q", 16, 1)];
    for (name, different, least) in numbered.into_iter().chain([("r", 4, 1), ("L", 16, 1)]) {
        let seen = counts.by_number(name);
        assert_eq!(seen.len(), different, "{name}");
        assert!(seen.iter().all(|(_, count)| *count >= least), "{name}: {seen:?}");
    }
    let least: [(u64, &[&str]); 5] = [
        (1, &["N 1", "N 128"]),
        (100, &["cut -1", "cut 1"]),
        (200, &["halvings", "doublings", "tie at 0", "another tie", "fresh"]),
        (1000, &["sample -32767", "sample 0", "sample 32767"]),
        (10_000, &["stored -1", "stored 0", "stored 1", "decided", "trained"]),
    ];
    for (least, names) in least {
        assert_eq!(counts.seldom(least, names), [""; 0]);
    }
}

/// Whether a history shows that a pair is none.
fn shows(history: &History, pair: &Pair, station: Station<'_>) -> bool {
    pair.clone().blocks(station, &history.blocks).is_err()
}

#[test]
fn the_faults_that_a_swapped_pair_shows_are_found() {
    let found = |fault: &'static str| {
        let by = Faulty::new(fault);
        let station = |state: &mut State, inputs: Inputs<'_>, outputs: &mut Outputs| by.run(state, inputs, outputs);
        let mut histories = histories().iter().step_by(3);
        histories.any(|history| shows(history, &Pair::of(&history.start), &station))
    };
    assert!(!found(""));
    for fault in FAULTS {
        assert_eq!(found(fault.name), fault.found.contains('p'), "{}", fault.name);
    }
    assert_eq!(FAULTS.iter().filter(|fault| fault.found.contains('p')).count(), 33);
}

/// What is wrong with a partner.
const PARTS: [&str; 8] =
    ["ψ", "b", "B", "feed forward weights", "feedback weights", "past samples", "past symbols", "settings"];

/// Puts it there.
fn spoil(state: &mut State, part: &str) {
    let (p, taps) = (usize::from(state.settings.p), state.settings.taps());
    let negate = |list: &mut [i16]| list.iter_mut().for_each(|a| *a = -*a);
    match part {
        "ψ" => state.psi ^= 1,
        "b" => state.b = state.b.saturating_sub(1),
        "B" => state.bmax += 1,
        "feed forward weights" => negate(&mut state.weights[..p]),
        "feedback weights" => negate(&mut state.weights[p..taps]),
        "past samples" => negate(&mut state.data[..p - 1]),
        "past symbols" => negate(&mut state.data[p..taps]),
        _ => state.settings.m /= 2,
    }
}

/// A wrong partner in a sound state is told by its part, and in some blocks the stations do not do the same.
#[test]
fn a_wrong_partner_is_found() {
    for part in PARTS {
        let (mut told, mut shown) = (0, 0);
        for history in histories() {
            let right = Pair::of(&history.start);
            let [one, mut two] = right.0.clone();
            assert_eq!(unpaired(&one, &two), None);
            spoil(&mut two, part);
            if two == right.0[1] || two.examine() != 0 {
                continue;
            }
            assert_eq!(unpaired(&one, &two), Some(part));
            told += 1;
            let pair = Pair([one, two]);
            let unlike = |lent: &[Lists; 2]| pair.clone().block(&run, lent).err();
            let mut other = history.blocks.iter().filter_map(unlike);
            shown += u32::from(other.any(|unlike| unlike.part != part));
        }
        assert!(told >= 500 && shown >= 20, "{part}: {told}, {shown}");
    }
}

/// −32768 for one station and 32767 for the other at some place.
#[test]
fn the_lowest_sample_is_found_if_it_is_let_in() {
    let mut random = Random::new(6);
    let mut shown = 0;
    for history in histories().iter().filter(|history| !history.blocks[0][0].samples.is_empty()) {
        let mut lent = history.blocks[0].clone();
        let place = random.below(lent[0].samples.len() as u64) as usize;
        (lent[0].samples[place], lent[1].samples[place]) = (-32768, 32767);
        assert!(lent_to_both(&lent[0], lent[1].outputs.clone()).is_none());
        shown += u32::from(Pair::of(&history.start).block(&run, &lent).is_err());
    }
    assert!(shown >= 1000, "{shown}");
}

/// Only the samples are negated and the weights are kept: nothing is said of that, and the stations differ.
#[test]
fn kept_weights_make_a_difference() {
    let kept = |history: &History| Pair([history.start.clone(), history.start.clone()]);
    let shown = histories().iter().filter(|history| shows(history, &kept(history), &run)).count();
    assert!(shown >= 1000, "{shown}");
}

/// From a set-up a swapped joint changes nothing but signs, whatever follows.
#[test]
fn a_fresh_state_is_its_own_partner() {
    let mut random = Random::new(1);
    for _ in 0..500 {
        let (_, fresh) = set_up(random.settings());
        assert_eq!(partner(&fresh), fresh);
    }
    let (mut texts, mut refused) = (0, 0);
    for vector in trace_vectors() {
        let Some(swapped) = swapped_trace(&vector.input) else {
            continue;
        };
        let (text, other) = trace_with_state(&swapped);
        assert_eq!(text, vector.text, "{}", vector.about);
        let (_, state) = trace_with_state(&vector.input);
        assert_eq!(unpaired(&state, &other), None, "{}", vector.about);
        texts += u32::from(swapped != vector.input);
        refused += u32::from(text.contains("stop"));
    }
    assert!(texts >= 20 && refused >= 5, "{texts} {refused}");
}
