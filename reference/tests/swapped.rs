//! Swapped pairs: from arbitrary sound states and from set-up through lists of
//! blocks, faults that the comparison has to find, and what is not said of them.

mod wrong_trial;

use reference::block::{work, BlockDetail};
use reference::lists::Lists;
use reference::numbers::Dyadic;
use reference::random::{Aim, Random};
use reference::swapped::{
    lent_to_both, partner, swapped_trace, unpaired, without_lowest, Pair, Station, Unlike,
};
use reference::trace::trace_with_state;
use reference::vectors::trace_vectors;
use reference::{run, set_up, Inputs, Outputs, Settings, State};
use std::collections::HashSet;
use std::sync::OnceLock;
use wrong_trial::{wrong_trial, FAULTS};

/// A sound state, and the blocks for the station and its partner.
struct History {
    start: State,
    blocks: Vec<[Lists; 2]>,
}

/// The lists of both stations, with anything in their outputs.
fn lent(random: &mut Random, mut lists: Lists) -> [Lists; 2] {
    lists.samples = without_lowest(&lists.samples);
    let [_, _, _, outputs @ ..] = lists.lengths();
    lent_to_both(&lists, random.outputs(outputs)).expect("no sample is −32768")
}

/// Lists that pass 3, 4 and 5, or one time in four have causes of them; with ψ
/// near its top often trained with end symbols.
fn lists(random: &mut Random, start: &State) -> Lists {
    const CAUSES: [&[u8]; 7] = [&[3], &[4], &[5], &[4, 3], &[5, 3], &[5, 4], &[5, 4, 3]];
    let settings = &start.settings;
    let mut lists = random.lists(settings);
    if start.psi >= 14 && random.chance(1, 2) {
        lists.training = random.training(settings, Aim::Ends);
    }
    if random.chance(1, 4) {
        for &number in random.pick(&CAUSES) {
            random.spoil(&mut lists, settings, number);
        }
    }
    lists
}

/// A sound state: any, fresh, or with ψ near its top and the largest step.
fn start(random: &mut Random) -> State {
    let settings = random.settings();
    let mut state = random.state(settings);
    match random.below(8) {
        0 => state = set_up(settings).1,
        1 | 2 => {
            state.settings.m = settings.largest_m();
            state.psi = random.byte(14, 15);
        }
        _ => {}
    }
    match random.chance(1, 2) {
        true => state.lent(),
        false => state,
    }
}

fn any_history(random: &mut Random) -> History {
    let start = start(random);
    let mut blocks = Vec::new();
    for _ in 0..random.between(1, 5) {
        let lists = lists(random, &start);
        blocks.push(lent(random, lists));
    }
    History { start, blocks }
}

/// An output is even, with M = 0 each one: a weight is worth 2 and meets ±1,
/// a sample or a symbol.
fn tied_history(random: &mut Random) -> History {
    let mut settings = random.settings();
    (settings.r, settings.l) = (random.byte(1, 3), 0);
    settings.m = random.pick(&[0, settings.largest_m()]);
    let mut state = State::zeros(settings);
    state.psi = 3;
    let p = usize::from(settings.p);
    state.weights[random.pick(&[0, p])] = 8192 * random.sign() as i16;
    state.data[p] = random.sign() as i16;
    let mut lists = random.lists(&settings);
    lists.gains.fill(settings.r - 1);
    lists.training.fill(0);
    let signs = lists.samples.iter_mut();
    signs.for_each(|m| *m = 16384 * random.sign() as i16);
    let blocks = vec![lent(random, lists)];
    History {
        start: state,
        blocks,
    }
}

/// The histories, made once.
fn histories() -> &'static [History] {
    static HISTORIES: OnceLock<Vec<History>> = OnceLock::new();
    HISTORIES.get_or_init(|| {
        let mut random = Random::new(2026);
        let made = (0..4000).map(|turn| match turn % 10 {
            0 => tied_history(&mut random),
            _ => any_history(&mut random),
        });
        made.collect()
    })
}

/// What the histories have covered.
#[derive(Debug, Default)]
struct Seen {
    answers: [u64; 10],
    /// By list, where it alone has a wrong length.
    wrong_lengths: [u64; 8],
    sizes: HashSet<(char, u8)>,
    gains: [u64; 16],
    /// Samples of −32767, 0 and 32767.
    extremes: [u64; 3],
    /// Stored samples below 0, of 0 and above.
    stored: [u64; 3],
    /// Past samples below 0 and above of which bits are cut.
    cut: [u64; 2],
    halvings: u64,
    doublings: u64,
    /// Decided on y = 0, and on another even y, beside a sample other than 0.
    ties: [u64; 2],
    decided: u64,
    trained: u64,
    fresh: u64,
}

impl Seen {
    fn block(&mut self, before: &State, lists: &Lists, number: u8) {
        self.answers[usize::from(number)] += 1;
        let wrong = lists.lengths().map(|n| n != before.settings.n.into());
        if wrong.iter().filter(|&&wrong| wrong).count() == 1 {
            let list = wrong.iter().position(|&wrong| wrong);
            self.wrong_lengths[list.unwrap()] += 1;
        }
        if number == 0 {
            let (detail, _) = work(before, lists.inputs()).expect("an accepted block");
            self.accepted(before, lists, &detail);
        }
    }

    fn accepted(&mut self, before: &State, lists: &Lists, detail: &BlockDetail) {
        let s = &before.settings;
        let sizes = [('p', s.p), ('q', s.q), ('n', s.n), ('r', s.r), ('l', s.l)];
        self.sizes.extend(sizes);
        for (&m, &g) in lists.samples.iter().zip(&lists.gains) {
            self.gains[usize::from(g)] += 1;
            let place = [-i16::MAX, 0, i16::MAX].iter().position(|&end| end == m);
            place.into_iter().for_each(|at| self.extremes[at] += 1);
        }
        for &a in &detail.stored {
            self.stored[(a.signum() + 1) as usize] += 1;
        }
        let places = detail.bmax - i32::from(before.bmax);
        for &a in before.past_samples() {
            let cut = !Dyadic::new(a.into(), -places).is_whole();
            self.cut[usize::from(a > 0)] += u64::from(cut);
        }
        for (d, &entry) in detail.samples.iter().zip(&lists.training) {
            self.halvings += u64::from(d.psi_after > d.psi_before);
            self.doublings += u64::from(d.psi_after < d.psi_before);
            self.trained += u64::from(entry != 0);
            self.decided += u64::from(entry == 0);
            let even = Dyadic::new(d.y, d.xi - 31).is_whole();
            let tie = even && d.a[0] != 0;
            self.ties[usize::from(d.y != 0)] += u64::from(tie && entry == 0);
        }
    }
}

/// The histories with the station: what they have covered, or what is not as it
/// has to be.
fn over_pairs(station: Station<'_>) -> Result<Seen, Unlike> {
    let mut seen = Seen::default();
    for history in histories() {
        let mut pair = Pair::of(&history.start);
        seen.fresh += u64::from(pair.0[0] == pair.0[1]);
        for lent in &history.blocks {
            let before = pair.0[0].clone();
            let (number, _) = pair.block(station, lent)?;
            seen.block(&before, &lent[0], number);
        }
    }
    Ok(seen)
}

#[test]
fn the_stations_of_a_swapped_pair_do_the_same() {
    let seen = over_pairs(&run).unwrap();
    for number in [0, 3, 4, 5, 6] {
        assert!(seen.answers[number] >= 200, "{seen:?}");
    }
    let answers: u64 = [0, 3, 4, 5, 6].iter().map(|&n| seen.answers[n]).sum();
    assert_eq!(answers, seen.answers.iter().sum());
    let all = |counts: &[u64], least: u64| counts.iter().all(|&count| count >= least);
    assert!(all(&seen.wrong_lengths, 20), "{seen:?}");
    assert!(all(&seen.gains, 1000) && all(&seen.extremes, 1000));
    assert!(all(&seen.stored, 10_000) && all(&seen.cut, 100), "{seen:?}");
    assert!(seen.halvings >= 500 && seen.doublings >= 500, "{seen:?}");
    assert!(all(&seen.ties, 200) && all(&[seen.decided, seen.trained], 10_000));
    assert!(seen.fresh >= 200, "{seen:?}");
    let ends = [('p', 1, 16), ('q', 1, 16), ('r', 0, 3), ('l', 0, 15)];
    for (size, first, last) in ends {
        assert!((first..=last).all(|value| seen.sizes.contains(&(size, value))));
    }
    assert!([1, 128].map(|n| seen.sizes.contains(&('n', n))) == [true; 2]);
}

/// Whether a history shows that a pair is none.
fn shows(history: &History, pair: &Pair, station: Station<'_>) -> bool {
    pair.clone().blocks(station, &history.blocks).is_err()
}

#[test]
fn the_faults_that_a_swapped_pair_shows_are_found() {
    let found = |fault: &'static str| {
        let station = move |state: &mut State, inputs: Inputs<'_>, outputs: &mut Outputs| {
            let (number, next) = wrong_trial(state, inputs, outputs, fault);
            *state = next;
            number
        };
        let mut histories = histories().iter().step_by(3);
        histories.any(|history| shows(history, &Pair::of(&history.start), &station))
    };
    assert!(!found(""));
    for (fault, finders) in FAULTS {
        assert_eq!(found(fault), finders.contains('p'), "{fault}");
    }
    let shown = FAULTS.iter().filter(|(_, finders)| finders.contains('p'));
    let said = format!(
        "with {} faults; the tests of trials find each, and so do the block vectors; \
         swapped pairs show {} of them |",
        FAULTS.len(),
        shown.count()
    );
    assert!(include_str!("../README.md").contains(&said), "{said}");
}

/// What is wrong with a partner, and how to put it there.
type Wrong = (&'static str, fn(&mut State));

const WRONG_PARTNERS: [Wrong; 8] = [
    ("ψ", |state| state.psi ^= 1),
    ("b", |state| state.b = state.b.saturating_sub(1)),
    ("B", |state| state.bmax += 1),
    ("feed forward weights", |state| {
        let p = usize::from(state.settings.p);
        state.weights[..p].iter_mut().for_each(|w| *w = -*w);
    }),
    ("feedback weights", |state| {
        let (p, taps) = (usize::from(state.settings.p), state.settings.taps());
        state.weights[p..taps].iter_mut().for_each(|w| *w = -*w);
    }),
    ("past samples", |state| {
        let kept = usize::from(state.settings.p) - 1;
        state.data[..kept].iter_mut().for_each(|a| *a = -*a);
    }),
    ("past symbols", |state| {
        let (p, taps) = (usize::from(state.settings.p), state.settings.taps());
        state.data[p..taps].iter_mut().for_each(|v| *v = -*v);
    }),
    ("settings", |state| state.settings.m /= 2),
];

/// A wrong partner in a sound state is told by its part, and in some blocks the
/// stations do not do the same.
#[test]
fn a_wrong_partner_is_found() {
    for (part, spoil) in WRONG_PARTNERS {
        let (mut told, mut shown) = (0, 0);
        for history in histories() {
            let right = Pair::of(&history.start);
            let [one, mut two] = right.0.clone();
            assert_eq!(unpaired(&one, &two), None);
            spoil(&mut two);
            if two == right.0[1] || two.examine() != 0 {
                continue;
            }
            assert_eq!(unpaired(&one, &two), Some(part));
            told += 1;
            let pair = Pair([one, two]);
            let unlike = |lent: &[Lists; 2]| pair.clone().block(&run, lent).err();
            let mut other = history.blocks.iter().filter_map(unlike);
            shown += u32::from(other.any(|unlike| unlike.part != part));
        }
        assert!(told >= 500 && shown >= 20, "{part}: {told}, {shown}");
    }
}

/// A block of one sample with the gain 0, on a state with N = 1.
fn one_sample(state: &State, sample: i16, entry: i8) -> (Outputs, State) {
    let (mut after, mut outputs) = (state.clone(), Outputs::zeros(1));
    let inputs = Inputs {
        samples: &[sample],
        gains: &[0],
        training: &[entry],
    };
    assert_eq!(run(&mut after, inputs, &mut outputs), 0);
    (outputs, after)
}

/// The settings of the worked example.
fn worked_settings() -> Settings {
    Settings {
        p: 1,
        q: 1,
        n: 1,
        r: 0,
        l: 0,
        m: 67_108_864,
    }
}

/// What a block of one sample hands out: Y, ξ, decision, Z, θ.
fn handed_out(outputs: &Outputs) -> [i32; 5] {
    let (xi, theta) = (outputs.xi[0].into(), outputs.theta[0].into());
    let decision = outputs.decision[0].into();
    [outputs.y[0], xi, decision, outputs.z[0], theta]
}

/// −32768 has one binary digit more than 32767, so ξ, b, B and the weights
/// differ already in a first block.
#[test]
fn the_lowest_sample_has_no_negative() {
    let (_, fresh) = set_up(worked_settings());
    let cases = [
        (-32768, [0, 2, 1, 1 << 28, 2], 31, -2048),
        (32767, [0, 1, 1, 1 << 28, 2], 30, 2047),
        (-32767, [0, 1, 1, 1 << 28, 2], 30, -2047),
    ];
    let mut after = Vec::new();
    for (sample, outputs, b, weight) in cases {
        let (handed, state) = one_sample(&fresh, sample, 1);
        assert_eq!(handed_out(&handed), outputs, "{sample}");
        let mut wanted = State::zeros(worked_settings());
        (wanted.b, wanted.bmax) = (b, b);
        (wanted.weights, wanted.data) = (vec![weight, 0], vec![0, 1]);
        assert_eq!(state, wanted, "{sample}");
        after.push(state);
    }
    assert_eq!(unpaired(&after[0], &after[1]), Some("b"));
    assert_eq!(unpaired(&after[2], &after[1]), None);
}

/// Lists with −32768 for one station and 32767 for the other at some place.
fn with_lowest(random: &mut Random, lent: &[Lists; 2]) -> [Lists; 2] {
    let mut lent = lent.clone();
    let count = lent[0].samples.len().max(1);
    let place = random.below(count as u64) as usize;
    for (lists, lowest) in lent.iter_mut().zip([-32768, 32767]) {
        let m = lists.samples.get_mut(place);
        m.into_iter().for_each(|m| *m = lowest);
    }
    lent
}

#[test]
fn the_lowest_sample_is_found_if_it_is_let_in() {
    let mut random = Random::new(6);
    let mut shown = 0;
    for history in histories() {
        let pair = Pair::of(&history.start);
        let lent = with_lowest(&mut random, &history.blocks[0]);
        let outputs = lent[1].outputs.clone();
        assert!(lent[0].samples.is_empty() || lent_to_both(&lent[0], outputs).is_none());
        shown += u32::from(pair.clone().block(&run, &lent).is_err());
    }
    assert!(shown >= 1000, "{shown}");
}

/// Only the samples are negated and the weights are kept: nothing is said of
/// that, and the stations differ.
#[test]
fn kept_weights_make_a_difference() {
    let (_, mut state) = set_up(worked_settings());
    for entry in [1, 0] {
        (_, state) = one_sample(&state, 16384, entry);
    }
    let [kept, swapped] = [16384, -16384].map(|m| one_sample(&state, m, 0).0);
    assert_eq!((kept.y[0], swapped.y[0]), (24_838_144, 8_192_000));
    let (right, _) = one_sample(&partner(&state), -16384, 0);
    assert_eq!(right, kept);
    let mut shown = 0;
    for history in histories() {
        let kept = Pair([history.start.clone(), history.start.clone()]);
        shown += u32::from(shows(history, &kept, &run));
    }
    assert!(shown >= 1000, "{shown}");
}

/// From a set-up a swapped joint changes nothing but signs, whatever follows.
#[test]
fn a_fresh_state_is_its_own_partner() {
    let mut random = Random::new(1);
    for _ in 0..500 {
        let (_, fresh) = set_up(random.settings());
        assert_eq!(partner(&fresh), fresh);
    }
    let (mut texts, mut refused) = (0, 0);
    for vector in trace_vectors() {
        let Some(swapped) = swapped_trace(&vector.input) else {
            continue;
        };
        let (text, other) = trace_with_state(&swapped);
        assert_eq!(text, vector.text, "{}", vector.about);
        let (_, state) = trace_with_state(&vector.input);
        assert_eq!(unpaired(&state, &other), None, "{}", vector.about);
        texts += u32::from(swapped != vector.input);
        refused += u32::from(text.contains("stop"));
    }
    assert!(texts >= 20 && refused >= 5, "{texts} {refused}");
}
