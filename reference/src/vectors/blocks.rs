//! Blocks on lent records.

use super::falls::falls;
use crate::block::{run, work, BlockDetail, Inputs, Outputs};
use crate::image::header;
use crate::numbers::{bit_length, scale_count, Dyadic};
use crate::random::{Aim, Loudness, Random};
use crate::settings::Settings;
use crate::state::{State, SLOTS};

/// A block on a lent record with its answer.
#[derive(Clone, Debug)]
pub struct BlockVector {
    /// What the block is about.
    pub about: &'static str,
    pub before: State,
    pub samples: Vec<i16>,
    pub gains: Vec<u8>,
    pub training: Vec<i8>,
    /// The lengths of the five output lists: Y, ξ, decision, Z, θ.
    pub output_lengths: [usize; 5],
    pub number: u8,
    /// The five lists after the call; zeros where refused.
    pub outputs: Outputs,
    pub after: State,
}

/// A record: 12 bytes as in the image, 32 weights, 32 data.
fn record(state: &State) -> Vec<u8> {
    assert_eq!(state.weights.len(), SLOTS);
    assert_eq!(state.data.len(), SLOTS);
    let mut bytes = header(state).to_vec();
    for a in state.weights.iter().chain(&state.data) {
        bytes.extend(a.to_le_bytes());
    }
    bytes
}

impl BlockVector {
    /// The record; the lengths of the eight lists (u16); samples, gains and
    /// training entries; the number; where it is 0, Y, ξ, decision, Z and θ of
    /// each sample, then the record after the block.
    pub fn bytes(&self) -> Vec<u8> {
        let mut bytes = record(&self.before);
        let inputs = [self.samples.len(), self.gains.len(), self.training.len()];
        for &length in inputs.iter().chain(&self.output_lengths) {
            bytes.extend((length as u16).to_le_bytes());
        }
        for m in &self.samples {
            bytes.extend(m.to_le_bytes());
        }
        bytes.extend(&self.gains);
        bytes.extend(self.training.iter().map(|&t| t as u8));
        bytes.push(self.number);
        if self.number == 0 {
            let out = &self.outputs;
            for i in 0..usize::from(self.before.settings.n) {
                bytes.extend(out.y[i].to_le_bytes());
                bytes.push(out.xi[i]);
                bytes.push(out.decision[i] as u8);
                bytes.extend(out.z[i].to_le_bytes());
                bytes.push(out.theta[i]);
            }
            bytes.extend(record(&self.after));
        }
        bytes
    }
}

/// A record and lists that are being made.
#[derive(Clone, Debug)]
pub(super) struct Call {
    pub state: State,
    pub samples: Vec<i16>,
    pub gains: Vec<u8>,
    pub training: Vec<i8>,
    pub output_lengths: [usize; 5],
}

impl Call {
    pub fn any(random: &mut Random, state: State) -> Call {
        let loudness = random.loudness();
        let aim = random.aim();
        Call::with(random, state, loudness, aim)
    }

    pub fn with(random: &mut Random, state: State, loudness: Loudness, aim: Aim) -> Call {
        let (samples, gains) = random.samples(&state.settings, loudness);
        let training = random.training(&state.settings, aim);
        let n = usize::from(state.settings.n);
        Call {
            state: state.lent(),
            samples,
            gains,
            training,
            output_lengths: [n; 5],
        }
    }

    fn inputs(&self) -> Inputs<'_> {
        Inputs {
            samples: &self.samples,
            gains: &self.gains,
            training: &self.training,
        }
    }

    /// The detail of an accepted block, or its number.
    pub fn detail(&self) -> Result<BlockDetail, u8> {
        assert_eq!(self.state.examine(), 0);
        work(&self.state, self.inputs()).map(|(detail, _)| detail)
    }
}

pub(super) struct Collection {
    pub random: Random,
    list: Vec<BlockVector>,
}

impl Collection {
    pub fn put(&mut self, about: &'static str, call: &Call) -> u8 {
        let mut after = call.state.clone();
        let [y, xi, decision, z, theta] = call.output_lengths;
        let mut outputs = Outputs {
            y: vec![0; y],
            xi: vec![0; xi],
            decision: vec![0; decision],
            z: vec![0; z],
            theta: vec![0; theta],
        };
        let number = run(&mut after, call.inputs(), &mut outputs);
        assert!(number == 0 || after == call.state);
        self.list.push(BlockVector {
            about,
            before: call.state.clone(),
            samples: call.samples.clone(),
            gains: call.gains.clone(),
            training: call.training.clone(),
            output_lengths: call.output_lengths,
            number,
            outputs,
            after,
        });
        number
    }

    pub fn expect(&mut self, about: &'static str, call: &Call, number: u8) {
        assert_eq!(self.put(about, call), number, "{about}: {call:?}");
    }

    /// The record that the last block left.
    pub fn left(&self) -> &State {
        &self.list.last().expect("a block").after
    }

    /// Settings with blocks of moderate length.
    pub fn settings(&mut self) -> Settings {
        let mut settings = self.random.settings();
        settings.n = settings.n.min(24);
        settings
    }
}

/// All block vectors.
pub fn block_vectors() -> Vec<BlockVector> {
    let mut all = Collection {
        random: Random::new(0x626C_6F63),
        list: Vec::new(),
    };
    any_records(&mut all);
    records_at_their_bounds(&mut all);
    rescaled_past(&mut all);
    ties(&mut all);
    cut_errors(&mut all);
    last_bits_of_j(&mut all);
    beside_the_halving(&mut all);
    last_exponent(&mut all);
    refused_sizes(&mut all);
    refused_steps(&mut all);
    unsound_records(&mut all);
    refused_lists(&mut all);
    refused_gains_and_training(&mut all);
    refusals_in_order(&mut all);
    falls(&mut all);
    all.list
}

fn any_records(all: &mut Collection) {
    for psi in 0..=15 {
        for _ in 0..6 {
            let settings = all.settings();
            let mut state = all.random.sound_state(settings);
            state.psi = psi;
            let call = Call::any(&mut all.random, state);
            all.put("any sound record", &call);
        }
    }
    for (p, q) in [(1, 1), (16, 16), (5, 11)] {
        let settings = Settings {
            p,
            q,
            n: 128,
            r: 2,
            l: 0,
            m: 0,
        };
        let settings = settings.with_m(settings.largest_m());
        for psi in [0, 7] {
            let mut state = all.random.sound_state(settings);
            state.psi = psi;
            let call = Call::with(&mut all.random, state, Loudness::Wide, Aim::Mixed);
            all.put("the longest block", &call);
        }
    }
}

fn records_at_their_bounds(all: &mut Collection) {
    for psi in 0..=15 {
        for (p, q) in [(16, 16), (1, 16), (16, 1), (4, 4), (8, 2)] {
            let settings = Settings {
                p,
                q,
                n: 1.max(p - 1) + psi % 2,
                r: all.random.byte(0, 3),
                l: all.random.pick(&[0, 0, 1, 15]),
                m: 0,
            };
            let settings = settings.with_m(settings.largest_m());
            let mut state = State::zeros(settings);
            state.psi = psi;
            state.bmax = 31 - settings.l;
            state.b = state.bmax;
            // Every place at its bound, with the weights' signs alternating
            // in some, agreeing with the data in others, and any in the rest.
            let style = all.random.below(3);
            let bound = (1i16 << (15 - scale_count(p))) - 1;
            let end = settings.end_symbol() as i16;
            for place in 0..settings.taps() {
                let sign = all.random.sign() as i16;
                let own = match style {
                    0 => sign,
                    1 => [1, -1][place % 2],
                    _ => all.random.sign() as i16,
                };
                state.weights[place] = 16383 * own;
                if place + 1 < usize::from(p) {
                    state.data[place] = bound * sign;
                } else if place >= usize::from(p) {
                    state.data[place] = end * sign;
                }
            }
            let loudness = all.random.pick(&[
                Loudness::Loud,
                Loudness::Lowest,
                Loudness::Zero,
                Loudness::Faint,
            ]);
            let aim = all.random.pick(&[Aim::Ends, Aim::Decided, Aim::Mixed]);
            let call = Call::with(&mut all.random, state, loudness, aim);
            all.put("a record at its bounds", &call);
        }
    }
}

fn rescaled_past(all: &mut Collection) {
    for (b, bmax, loudness) in [
        (31, 31, Loudness::Zero),
        (31, 31, Loudness::Lowest),
        (20, 31, Loudness::Faint),
        (28, 31, Loudness::Zero),
        (22, 31, Loudness::Quiet),
        (21, 24, Loudness::Loud),
        (0, 31, Loudness::Zero),
        (0, 31, Loudness::Faint),
        (0, 0, Loudness::Zero),
        (1, 1, Loudness::Zero),
        (1, 1, Loudness::Lowest),
        (5, 5, Loudness::Any),
        (10, 15, Loudness::Even),
        (10, 15, Loudness::Faint),
    ] {
        for p in [2, 16] {
            let settings = Settings {
                p,
                q: 3,
                n: p,
                r: 1,
                l: 0,
                m: 0,
            };
            let settings = settings.with_m(settings.largest_m());
            let mut state = all.random.sound_state(settings);
            state.psi = 1;
            (state.b, state.bmax) = (b, bmax);
            let room = 15 + i32::from(b) - i32::from(bmax) - scale_count(p);
            let bound = if room > 0 { (1i64 << room) - 1 } else { 0 };
            for place in 0..usize::from(p) - 1 {
                let a = all.random.sign() * (bound - (place as i64 / 4).min(bound));
                state.data[place] = a as i16;
            }
            let call = Call::with(&mut all.random, state, loudness, Aim::Mixed);
            assert_eq!(call.state.examine(), 0);
            all.put("past samples rescaled", &call);
        }
    }
}

/// Outputs on and beside the boundaries between symbols.
fn ties(all: &mut Collection) {
    for r in 0..=3u8 {
        let end = (2i16 << r) - 1;
        for symbol in [1, -1, end, -end] {
            // A feedback weight of 2 with ψ = 3, and its two neighbours.
            for w in [8192, 8191, 8193] {
                let settings = Settings {
                    p: 1,
                    q: 2,
                    n: 1,
                    r,
                    l: 0,
                    m: 1000,
                };
                let mut state = State::zeros(settings);
                state.psi = 3;
                state.weights = vec![77, w, 0];
                state.data = vec![0, symbol, 1];
                let mut call = Call::with(&mut all.random, state, Loudness::Zero, Aim::Decided);
                call.gains[0] = 0;
                all.expect("output beside a boundary", &call, 0);
            }
        }
    }
}

/// Errors with a cut output: v is longer than every past symbol, ψ is 0 and
/// the samples are quiet, so that k is above ξ.
fn cut_errors(all: &mut Collection) {
    for sign in [1, -1] {
        let mut found = 0;
        while found < 16 {
            let mut settings = all.settings();
            settings.r = all.random.byte(1, 3);
            settings.m = settings.largest_m();
            let mut state = all.random.sound_state(settings);
            state.psi = 0;
            // γ is at most 9; a B of some 25 brings it beside ν.
            state.bmax = state.bmax.min(24);
            state.b = state.bmax;
            let p = usize::from(settings.p);
            for place in p..settings.taps() {
                state.data[place] = all.random.pick(&[0, 1, -1]);
            }
            let mut call = Call::with(&mut all.random, state, Loudness::Quiet, Aim::Mixed);
            call.training[0] = all.random.end_symbol(settings.r);
            let Ok(detail) = call.detail() else { continue };
            let s_feedback = scale_count(settings.q);
            let cut = detail.samples.iter().any(|d| {
                let k = s_feedback + bit_length(d.v);
                k > d.xi && d.y * sign > 0 && !Dyadic::new(d.y, d.xi - k).is_whole()
            });
            if cut {
                all.expect("an error with a cut output", &call, 0);
                found += 1;
            }
        }
    }
}

/// First samples where J one more or one less in magnitude would change a
/// weight. Z does not depend on M, so M is searched.
fn last_bits_of_j(all: &mut Collection) {
    for (about, forward, other) in [
        ("feed forward J one more", true, 1),
        ("feed forward J one less", true, -1),
        ("feedback J one more", false, 1),
        ("feedback J one less", false, -1),
    ] {
        for sign in [1, -1] {
            let mut found = 0;
            while found < 6 {
                let settings = all.settings();
                let mut state = all.random.sound_state(settings);
                state.psi = all.random.byte(0, 4);
                let mut call = Call::any(&mut all.random, state);
                let Ok(detail) = call.detail() else { continue };
                let d = &detail.samples[0];
                if d.z * sign <= 0 {
                    continue;
                }
                let (s, data) = if forward {
                    (scale_count(settings.p), &d.a)
                } else {
                    (scale_count(settings.q), &d.held)
                };
                let exponent = if forward { detail.gamma } else { d.nu } - s;
                let largest = settings.largest_m();
                let start = largest / 2 + all.random.below(u64::from(largest) / 4) as u32;
                let hit = (start..largest.min(start + 4000)).find(|&m| {
                    let product = i128::from(m) * d.z;
                    let j = Dyadic::new(product, exponent + d.theta - d.psi_before - 30);
                    let (j, whole) = (j.cut(), j.is_whole());
                    let gain = |j: i128, a: i128| Dyadic::new(j * a, s - 30).cut();
                    !whole && j != 0 && {
                        let wrong = j + other * sign;
                        data.iter().any(|&a| gain(j, a) != gain(wrong, a))
                    }
                });
                let Some(m) = hit else { continue };
                call.state.settings.m = m;
                if call.detail().is_ok() {
                    all.expect(about, &call, 0);
                    found += 1;
                }
            }
        }
    }
}

/// New weights at 16383, 16384, −16384, −16385 and so on before step 7.
fn beside_the_halving(all: &mut Collection) {
    for wanted in [16383, 16384, 16385, -16383, -16384, -16385, -16386] {
        let mut found = 0;
        while found < 4 {
            let mut settings = all.settings();
            settings.n = 1.max(settings.p - 1);
            settings.m = settings.largest_m() >> all.random.below(16);
            let mut state = all.random.sound_state(settings);
            for w in &mut state.weights {
                *w /= 2;
            }
            let near = (wanted as i64 - all.random.between(-2, 2)).clamp(-16383, 16383);
            let place = all.random.below(settings.taps() as u64) as usize;
            state.weights[place] = near as i16;
            let call = Call::any(&mut all.random, state);
            let Ok(detail) = call.detail() else { continue };
            let hit = detail.samples.iter().any(|d| {
                let largest = d.weights_new.iter().map(|w| w.abs()).max().unwrap_or(0);
                largest == i128::abs(wanted) && d.weights_new.contains(&wanted)
            });
            if hit {
                all.expect("new weight beside the halving", &call, 0);
                found += 1;
            }
        }
    }
}

/// ψ = 15 and 14 with weights near their bound.
fn last_exponent(all: &mut Collection) {
    let near_bound = |all: &mut Collection, psi: u8| {
        let mut settings = all.settings();
        settings.m = settings.largest_m() >> all.random.below(3);
        let mut state = all.random.sound_state(settings);
        state.psi = psi;
        for place in 0..settings.taps() {
            let w = all.random.sign() * (16383 - all.random.between(0, 30));
            state.weights[place] = w as i16;
        }
        let loudness = all.random.pick(&[
            Loudness::Loud,
            Loudness::LoudRandom,
            Loudness::Lowest,
            Loudness::Wide,
        ]);
        let aim = all.random.aim();
        Call::with(&mut all.random, state, loudness, aim)
    };
    // 6 at the first sample and at a later one only.
    let (mut first, mut later) = (0, 0);
    while first < 20 || later < 20 {
        let call = near_bound(all, 15);
        if call.detail().err() != Some(6) {
            continue;
        }
        // Whether the first sample already gives 6 shows in a block of that
        // sample alone, where p allows one.
        let mut short = call.clone();
        if short.state.settings.p > 2 {
            continue;
        }
        short.state.settings.n = 1;
        short.samples.truncate(1);
        short.gains.truncate(1);
        short.training.truncate(1);
        short.output_lengths = [1; 5];
        // The shorter block must have the same b, so its sample must be the
        // loudest.
        let largest = |call: &Call| {
            let x = call.samples.iter().zip(&call.gains);
            x.map(|(&m, &g)| i64::from(m).abs() << (15 - g)).max()
        };
        if largest(&short) != largest(&call) {
            continue;
        }
        if short.detail().is_err() {
            if first < 20 {
                all.expect("6 at the first sample", &call, 6);
                first += 1;
            }
        } else if later < 20 {
            all.expect("6 at a later sample", &call, 6);
            later += 1;
        }
    }
    // 6 with more taps.
    let mut found = 0;
    while found < 24 {
        let call = near_bound(all, 15);
        if call.state.settings.p > 2 && call.detail().err() == Some(6) {
            all.expect("6 with more taps", &call, 6);
            found += 1;
        }
    }
    // ψ = 15 and no rise.
    let mut found = 0;
    while found < 12 {
        let call = near_bound(all, 15);
        if call.detail().is_ok() {
            all.expect("no rise from the last exponent", &call, 0);
            found += 1;
        }
    }
    // A rise to 15.
    let mut found = 0;
    while found < 16 {
        let call = near_bound(all, 14);
        let rises = |detail: BlockDetail| detail.samples.iter().any(|d| d.psi_after == 15);
        if call.detail().is_ok_and(rises) {
            all.expect("a rise to the last exponent", &call, 0);
            found += 1;
        }
    }
    // Two rises from 14 are rare: a call is changed step by step toward them.
    let mut found = 0;
    while found < 12 {
        let mut call = near_bound(all, 14);
        let mut best = after_the_rise(&call);
        for _ in 0..400 {
            if best == i128::MAX {
                break;
            }
            let changed = slightly_changed(&call, &mut all.random);
            let reached = after_the_rise(&changed);
            if reached >= best {
                (call, best) = (changed, reached);
            }
        }
        if best == i128::MAX {
            all.expect("two rises from 14", &call, 6);
            found += 1;
        }
    }
    // The same with a frozen step.
    let mut call = near_bound(all, 15);
    call.state.settings.m = 0;
    all.expect("frozen at the last exponent", &call, 0);
}

/// How near a call from ψ = 14 comes to its second rise: the largest new
/// weight after the first one.
fn after_the_rise(call: &Call) -> i128 {
    let Ok(detail) = call.detail() else {
        return i128::MAX;
    };
    let risen = detail.samples.iter().filter(|d| d.psi_before == 15);
    let weights = risen.flat_map(|d| d.weights_new.iter().map(|w| w.abs()));
    weights.max().unwrap_or(0)
}

/// A call with one place changed: a weight's sign, a past symbol's, a sample
/// or a training entry.
fn slightly_changed(call: &Call, random: &mut Random) -> Call {
    let mut changed = call.clone();
    let settings = call.state.settings;
    let n = random.below(u64::from(settings.n)) as usize;
    let place = random.below(settings.taps() as u64) as usize;
    match random.below(4) {
        0 => changed.state.weights[place] *= -1,
        1 => changed.state.data[place] *= -1,
        2 => changed.samples[n] = random.pick(&[0, 32767, -32767, 16000, -16000]),
        _ => changed.training[n] = random.end_symbol(settings.r),
    }
    changed
}

fn good_call(all: &mut Collection) -> Call {
    loop {
        let mut settings = all.settings();
        // Some room for every kind of damage.
        settings.p = settings.p.clamp(2, 15);
        settings.q = settings.q.clamp(1, 15);
        settings.n = settings.n.max(2).max(settings.p - 1);
        settings.m = settings.largest_m() / 2;
        settings.l = settings.l.max(1);
        let state = all.random.sound_state(settings);
        let call = Call::any(&mut all.random, state);
        if call.state.examine() == 0 && call.detail().is_ok() {
            return call;
        }
    }
}

fn refused_sizes(all: &mut Collection) {
    type Change = fn(&mut Settings);
    let changes: [Change; 17] = [
        |s| s.p = 0,
        |s| {
            s.p = 17;
            s.n = 128;
        },
        |s| s.p = 255,
        |s| s.q = 0,
        |s| s.q = 17,
        |s| s.q = 255,
        |s| s.n = 0,
        |s| {
            s.p = 16;
            s.n = 14;
        },
        |s| {
            s.p = 3;
            s.n = 1;
        },
        |s| s.n = 129,
        |s| s.n = 255,
        |s| s.r = 4,
        |s| s.r = 128,
        |s| s.r = 255,
        |s| s.l = 16,
        |s| s.l = 31,
        |s| s.l = 255,
    ];
    for change in changes {
        let mut call = good_call(all);
        change(&mut call.state.settings);
        all.expect("a size outside its limits", &call, 1);
        // With everything else wrong as well.
        call.state.settings.m = u32::MAX;
        call.state.psi = 99;
        call.gains = vec![99; 3];
        all.expect("a size outside its limits", &call, 1);
    }
}

fn refused_steps(all: &mut Collection) {
    for i in 0..12u32 {
        let mut call = good_call(all);
        let largest = call.state.settings.largest_m();
        call.state.settings.m = match i % 3 {
            0 => largest + 1,
            1 => 1 << 30,
            _ => u32::MAX,
        };
        if i >= 6 {
            call.state.psi = 16;
            call.gains.clear();
        }
        all.expect("a step beyond the largest", &call, 2);
    }
}

fn unsound_records(all: &mut Collection) {
    type Change = fn(&mut State, &mut Random);
    let changes: [Change; 30] = [
        |s, _| s.psi = 16,
        |s, _| s.psi = 255,
        |s, _| s.b = s.bmax + 1,
        |s, _| s.b = 255,
        |s, _| {
            s.bmax = 32 - s.settings.l;
            s.b = s.bmax;
        },
        |s, _| s.bmax = 255,
        |s, _| (s.b, s.bmax) = (255, 255),
        |s, _| s.weights[0] = 16384,
        |s, _| s.weights[0] = -16384,
        |s, _| s.weights[s.settings.taps() - 1] = 16384,
        |s, _| s.weights[s.settings.taps() - 1] = -32768,
        |s, _| s.weights[usize::from(s.settings.p)] = -16384,
        |s, random| {
            let place = random.below(s.settings.taps() as u64) as usize;
            s.weights[place] = 32767;
        },
        // A stored sample at its bound, with b = B and with less room.
        |s, _| {
            s.b = s.bmax;
            s.data[0] = 1 << (15 - scale_count(s.settings.p));
        },
        |s, _| {
            s.b = s.bmax;
            s.data[usize::from(s.settings.p) - 2] = -(1 << (15 - scale_count(s.settings.p)));
        },
        |s, _| {
            (s.b, s.bmax) = (3, 6);
            s.data[..usize::from(s.settings.p) - 1].fill(0);
            s.data[0] = 1 << (12 - scale_count(s.settings.p));
        },
        |s, _| {
            (s.b, s.bmax) = (0, 16);
            s.data[..usize::from(s.settings.p) - 1].fill(0);
            s.data[0] = -1;
        },
        |s, _| s.data[0] = -32768,
        |s, _| s.data[usize::from(s.settings.p) - 1] = 1,
        |s, _| s.data[usize::from(s.settings.p) - 1] = -32768,
        |s, _| s.data[usize::from(s.settings.p)] = 2,
        |s, _| s.data[usize::from(s.settings.p)] = -2,
        |s, _| s.data[s.settings.taps() - 1] = (2 << s.settings.r) + 1,
        |s, _| s.data[s.settings.taps() - 1] = -(2 << s.settings.r) - 1,
        |s, _| s.data[s.settings.taps() - 1] = -32768,
        // Spare places.
        |s, _| s.weights[s.settings.taps()] = 1,
        |s, _| s.weights[SLOTS - 1] = -1,
        |s, _| s.data[s.settings.taps()] = 1,
        |s, _| s.data[SLOTS - 1] = -32768,
        |s, random| {
            let spare = (SLOTS - s.settings.taps()) as u64;
            let place = s.settings.taps() + random.below(spare) as usize;
            s.data[place] = 256;
        },
    ];
    for change in changes {
        for wrong_lists in [false, true] {
            let mut call = good_call(all);
            change(&mut call.state, &mut all.random);
            if wrong_lists {
                call.samples.pop();
                call.gains[0] = 200;
            }
            all.expect("an unsound record", &call, 9);
        }
    }
    // Sound neighbours.
    for _ in 0..6 {
        let mut call = good_call(all);
        let settings = call.state.settings;
        call.state.b = call.state.bmax;
        let bound = (1i16 << (15 - scale_count(settings.p))) - 1;
        call.state.data[0] = bound;
        call.state.weights[0] = -16383;
        call.state.data[settings.taps() - 1] = -((2 << settings.r) - 1);
        assert_eq!(call.state.examine(), 0);
        all.put("a sound neighbour", &call);
    }
}

fn refused_lists(all: &mut Collection) {
    for list in 0..8 {
        for kind in 0..5 {
            let mut call = good_call(all);
            let n = usize::from(call.state.settings.n);
            let length = match kind {
                0 => n - 1,
                1 => n + 1,
                2 => 0,
                3 => 128.max(n + 2),
                _ => 256 + n,
            };
            match list {
                0 => call.samples.resize(length, 5),
                1 => call.gains.resize(length, 15),
                2 => call.training.resize(length, 1),
                _ => call.output_lengths[list - 3] = length,
            }
            if kind == 1 {
                call.gains[0] = 16;
                call.training[0] = 2;
            }
            all.expect("a list of another length", &call, 3);
        }
    }
    // All lists agree on another length.
    for more in [false, true] {
        let mut call = good_call(all);
        let n = usize::from(call.state.settings.n);
        let length = if more { n + 1 } else { n - 1 };
        call.samples.resize(length, 5);
        call.gains.resize(length, 15);
        call.training.resize(length, 1);
        call.output_lengths = [length; 5];
        all.expect("all lists of another length", &call, 3);
    }
}

fn refused_gains_and_training(all: &mut Collection) {
    for i in 0..12 {
        let mut call = good_call(all);
        let l = call.state.settings.l;
        let n = call.gains.len();
        let place = [0, n / 2, n - 1][i % 3];
        call.gains[place] = [l - 1, 16, 0, 255][i % 4];
        if i >= 6 {
            call.training[0] = 2;
        }
        all.expect("a gain outside its limits", &call, 4);
    }
    for i in 0..14 {
        let mut call = good_call(all);
        let end = (2i16 << call.state.settings.r) - 1;
        let n = call.training.len();
        let place = [0, n / 2, n - 1][i % 3];
        let entry = [2, -2, end + 2, -end - 2, end + 1, -128, 127][i % 7];
        call.training[place] = entry as i8;
        all.expect("a training entry that is no symbol", &call, 5);
    }
}

/// Each refusal with all later ones present too.
fn refusals_in_order(all: &mut Collection) {
    // A record that gives 6 by itself, with two samples.
    let settings = Settings {
        p: 1,
        q: 2,
        n: 2,
        r: 0,
        l: 1,
        m: 0,
    };
    let settings = settings.with_m(settings.largest_m());
    let mut state = State::zeros(settings);
    state.psi = 15;
    state.weights = vec![16383, -16383, -16383];
    state.data = vec![0, 1, 1];
    let mut call = Call::with(&mut all.random, state, Loudness::Zero, Aim::Trained);
    call.samples = vec![0x2000, 0];
    call.gains = vec![1, 1];
    call.training = vec![1, 1];
    all.expect("6 alone", &call, 6);
    call.training[1] = 3;
    all.expect("5 before 6", &call, 5);
    call.gains[1] = 0;
    all.expect("4 before 5", &call, 4);
    call.output_lengths[4] = 3;
    all.expect("3 before 4", &call, 3);
    call.state.weights[3] = 1;
    all.expect("9 before 3", &call, 9);
    call.state.settings.m += 1;
    all.expect("2 before 9", &call, 2);
    call.state.settings.r = 4;
    all.expect("1 before 2", &call, 1);
}
