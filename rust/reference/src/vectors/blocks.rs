//! Blocks on lent records.

use super::falls::falls;
use super::states::{at_bounds, greatest, most_stored, raw, resized, UNSOUND};
use super::{pairs, Change, Made, Making};
use crate::block::{run, scaled_sample, work, BlockDetail, Inputs, Outputs};
use crate::numbers::{bit_length, scale_count, Dyadic};
use crate::random::{Aim, Loudness, Random};
use crate::settings::Settings;
use crate::state::State;

/// A block on a lent record with its answer.
#[derive(Clone, Debug)]
pub struct BlockVector {
    /// What the block is about.
    pub about: &'static str,
    pub before: State,
    pub samples: Vec<i16>,
    pub gains: Vec<u8>,
    pub training: Vec<i8>,
    /// The lengths of the five output lists: Y, ξ, decision, Z, θ.
    pub output_lengths: [usize; 5],
    pub number: u8,
    /// The five lists after the call; zeros where refused.
    pub outputs: Outputs,
    pub after: State,
}

impl BlockVector {
    /// A block that is not run yet.
    pub(super) fn lent(state: &State, samples: Vec<i16>, gains: Vec<u8>, training: Vec<i8>) -> BlockVector {
        let before = state.lent();
        let output_lengths = [before.settings.n.into(); 5];
        let (after, outputs) = (before.clone(), Outputs::zeros(0));
        BlockVector { about: "", before, samples, gains, training, output_lengths, number: 0, outputs, after }
    }

    pub fn inputs(&self) -> Inputs<'_> {
        Inputs { samples: &self.samples, gains: &self.gains, training: &self.training }
    }

    /// The detail of an accepted block on a sound state, or its number.
    pub(super) fn detail(&self) -> Result<BlockDetail, u8> {
        assert_eq!(self.before.examine(), 0);
        work(&self.before, self.inputs()).map(|(detail, _)| detail)
    }

    /// The bytes in the file.
    pub fn bytes(&self) -> Vec<u8> {
        let mut bytes = raw(&self.before);
        let inputs = [self.samples.len(), self.gains.len(), self.training.len()];
        bytes.extend(inputs.iter().chain(&self.output_lengths).flat_map(|&length| (length as u16).to_le_bytes()));
        bytes.extend(self.samples.iter().flat_map(|m| m.to_le_bytes()));
        bytes.extend(&self.gains);
        bytes.extend(self.training.iter().map(|&t| t as u8));
        bytes.push(self.number);
        if self.number == 0 {
            let out = &self.outputs;
            for i in 0..out.y.len() {
                bytes.extend(out.y[i].to_le_bytes());
                bytes.extend([out.xi[i], out.decision[i] as u8]);
                bytes.extend(out.z[i].to_le_bytes());
                bytes.push(out.theta[i]);
            }
            bytes.extend(raw(&self.after));
        }
        bytes
    }
}

impl Made for BlockVector {
    type Lent = BlockVector;

    fn of(about: &'static str, call: BlockVector) -> BlockVector {
        let [y, xi, decision, z, theta] = call.output_lengths;
        let (y, z, decision) = (vec![0; y], vec![0; z], vec![0; decision]);
        let mut outputs = Outputs { y, xi: vec![0; xi], decision, z, theta: vec![0; theta] };
        let mut after = call.before.clone();
        let number = run(&mut after, call.inputs(), &mut outputs);
        assert!(number == 0 || after == call.before);
        BlockVector { about, number, outputs, after, ..call }
    }

    fn answer(&self) -> u8 {
        self.number
    }
}

pub(super) type Blocks = Making<BlockVector>;

impl Blocks {
    /// Settings with blocks of moderate length.
    pub fn settings(&mut self) -> Settings {
        let settings = self.random.settings();
        Settings { n: settings.n.min(24), ..settings }
    }

    pub fn call(&mut self, state: &State, loudness: Loudness, aim: Aim) -> BlockVector {
        let (samples, gains) = self.random.samples(&state.settings, loudness);
        let training = self.random.training(&state.settings, aim);
        BlockVector::lent(state, samples, gains, training)
    }

    pub fn any_call(&mut self, state: &State) -> BlockVector {
        let (loudness, aim) = (self.random.loudness(), self.random.aim());
        self.call(state, loudness, aim)
    }

    /// An accepted block with some room for every kind of damage.
    fn good_call(&mut self) -> BlockVector {
        loop {
            let mut settings = self.settings();
            settings.p = settings.p.clamp(2, 15);
            settings.q = settings.q.clamp(1, 15);
            settings.n = settings.n.max(2).max(settings.p - 1);
            settings.m = settings.greatest_m() / 2;
            settings.l = settings.l.max(1);
            let state = self.random.sound_state(settings);
            let call = self.any_call(&state);
            if call.before.examine() == 0 && call.detail().is_ok() {
                return call;
            }
        }
    }

    /// A good block for each of a list, spoiled by it.
    fn spoiled<T>(
        &mut self,
        about: &'static str,
        answer: impl Into<Option<u8>>,
        list: impl IntoIterator<Item = T>,
        spoil: impl Fn(&mut BlockVector, &mut Random, T),
    ) {
        self.each(about, answer, list, |all, one| {
            let mut call = all.good_call();
            spoil(&mut call, &mut all.random, one);
            call
        });
    }
}

/// All block vectors.
pub fn block_vectors() -> Vec<BlockVector> {
    let mut all = Blocks::new(0x626C_6F63);
    any_records(&mut all);
    records_at_their_bounds(&mut all);
    rescaled_past(&mut all);
    ties_and_cuts(&mut all);
    last_bits_of_j(&mut all);
    beside_the_halving(&mut all);
    last_exponent(&mut all);
    rises_from_14(&mut all);
    refused_settings(&mut all);
    unsound_records(&mut all);
    refused_lists(&mut all);
    refusals_in_order(&mut all);
    falls(&mut all);
    all.list
}

fn any_records(all: &mut Blocks) {
    all.each("any sound record", None, (0..=15).flat_map(|psi| [psi; 6]), |all, psi| {
        let settings = all.settings();
        let state = State { psi, ..all.random.sound_state(settings) };
        all.any_call(&state)
    });
    all.each("the longest block", None, pairs([(1, 1), (16, 16), (5, 11)], [0, 7]), |all, ((p, q), psi)| {
        let state = State { psi, ..all.random.sound_state(greatest(p, q, 128, 2, 0)) };
        all.call(&state, Loudness::Wide, Aim::Mixed)
    });
}

/// The weights' signs are those of the data in some, alternate in others, and are any in the rest.
fn records_at_their_bounds(all: &mut Blocks) {
    let sizes = [(16, 16), (1, 16), (16, 1), (4, 4), (8, 2)];
    all.each("a record at its bounds", None, pairs(0..=15, sizes), |all, (psi, (p, q))| {
        let (r, l) = (all.random.byte(0, 3), all.random.pick(&[0, 0, 1, 15]));
        let style = all.random.below(3);
        let state = at_bounds(greatest(p, q, 1.max(p - 1) + psi % 2, r, l), psi, |place| {
            let sign = all.random.sign();
            match style {
                0 => [sign, sign],
                1 => [[1, -1][place % 2], sign],
                _ => [all.random.sign(), sign],
            }
        });
        let loudness = all.random.pick(&[Loudness::Loud, Loudness::Lowest, Loudness::Zero, Loudness::Faint]);
        let aim = all.random.pick(&[Aim::Ends, Aim::Decided, Aim::Mixed]);
        all.call(&state, loudness, aim)
    });
}

fn rescaled_past(all: &mut Blocks) {
    use Loudness::{Any, Even, Faint, Loud, Lowest, Quiet, Zero};
    let b = [31, 31, 20, 28, 22, 21, 0, 0, 0, 1, 1, 5, 10, 10];
    let bmax = [31, 31, 31, 31, 31, 24, 31, 31, 0, 1, 1, 5, 15, 15];
    let loudness = [Zero, Lowest, Faint, Zero, Quiet, Loud, Zero, Faint, Zero, Zero, Lowest, Any, Even, Faint];
    let lengths = b.into_iter().zip(bmax).zip(loudness);
    all.each("past samples rescaled", None, pairs(lengths, [2, 16]), |all, (((b, bmax), loudness), p)| {
        let state = all.random.sound_state(greatest(p, 3, p, 1, 0));
        let mut state = State { psi: 1, b, bmax, ..state };
        let bound = most_stored(p, b, bmax);
        for place in 0..usize::from(p) - 1 {
            state.data[place] = all.random.sign() as i16 * (bound - (place as i16 / 4).min(bound));
        }
        assert_eq!(state.examine(), 0);
        all.call(&state, loudness, Aim::Mixed)
    });
}

fn ties_and_cuts(all: &mut Blocks) {
    // A feedback weight of 2 with ψ = 3, and its two neighbours.
    let symbols = (0..=3).flat_map(|r| [1, -1, (2 << r) - 1, 1 - (2 << r)].map(|symbol| (r, symbol)));
    all.each("output beside a boundary", 0, pairs(symbols, [8192, 8191, 8193]), |all, ((r, symbol), w)| {
        let settings = Settings { p: 1, q: 2, n: 1, r, l: 0, m: 1000 };
        let (weights, data) = (vec![77, w, 0], vec![0, symbol, 1]);
        let state = State { psi: 3, weights, data, ..State::zeros(settings) };
        let call = all.call(&state, Loudness::Zero, Aim::Decided);
        BlockVector { gains: vec![0], ..call }
    });
    for sign in [1, -1] {
        all.find("an error with a cut output", 0, 16, |all| with_cut_error(all, sign));
    }
}

/// A block in which v is longer than every past symbol, ψ is 0 and the samples are quiet, so that k is above ξ.
fn with_cut_error(all: &mut Blocks, sign: i128) -> Option<BlockVector> {
    let mut settings = all.settings();
    settings.r = all.random.byte(1, 3);
    settings.m = settings.greatest_m();
    let state = all.random.sound_state(settings);
    // γ is at most 9; a B of some 25 brings it beside ν.
    let b = state.bmax.min(24);
    let mut state = State { psi: 0, b, bmax: b, ..state };
    state.data[settings.p.into()..].fill_with(|| all.random.pick(&[0, 1, -1]));
    let mut call = all.call(&state, Loudness::Quiet, Aim::Mixed);
    call.training[0] = all.random.end_symbol(settings.r);
    let cut = call.detail().ok()?.samples.iter().any(|d| {
        let k = scale_count(settings.q) + bit_length(d.v);
        k > d.xi && d.y * sign > 0 && !Dyadic::new(d.y, d.xi - k).is_whole()
    });
    cut.then_some(call)
}

/// First samples where J one more or one less in magnitude would change a weight.
fn last_bits_of_j(all: &mut Blocks) {
    for (forward, other) in [(true, 1), (true, -1), (false, 1), (false, -1)] {
        for sign in [1, -1] {
            all.find("the last bit of J", 0, 6, |all| with_last_bit_of_j(all, forward, sign, other));
        }
    }
}

/// A block whose first Z has this sign and whose J, off by `other`, changes a weight. Z does not depend on M, so M is
/// searched.
fn with_last_bit_of_j(all: &mut Blocks, forward: bool, sign: i128, other: i128) -> Option<BlockVector> {
    let settings = all.settings();
    let state = all.random.sound_state(settings);
    let psi = all.random.byte(0, 4);
    let mut call = all.any_call(&State { psi, ..state });
    let detail = call.detail().ok()?;
    let d = detail.samples.first().filter(|d| d.z * sign > 0)?;
    let (taps, own, data) = if forward { (settings.p, detail.gamma, &d.a) } else { (settings.q, d.nu, &d.held) };
    let s = scale_count(taps);
    let largest = settings.greatest_m();
    let start = largest / 2 + all.random.below(u64::from(largest) / 4) as u32;
    call.before.settings.m = (start..largest.min(start + 4000)).find(|&m| {
        let exact = Dyadic::new(i128::from(m) * d.z, own - s + d.theta - d.psi_before - 30);
        let j = exact.cut();
        let gain = |j: i128, a: i128| Dyadic::new(j * a, s - 30).cut();
        !exact.is_whole() && j != 0 && data.iter().any(|&a| gain(j, a) != gain(j + other * sign, a))
    })?;
    call.detail().is_ok().then_some(call)
}

/// New weights at 16383, 16384, −16384, −16385 and so on before step 7.
fn beside_the_halving(all: &mut Blocks) {
    for wanted in [16383, 16384, 16385, -16383, -16384, -16385, -16386] {
        all.find("new weight beside the halving", 0, 4, |all| {
            let mut settings = all.settings();
            settings.n = 1.max(settings.p - 1);
            settings.m = settings.greatest_m() >> all.random.below(16);
            let mut state = all.random.sound_state(settings);
            state.weights.iter_mut().for_each(|w| *w /= 2);
            let near = (wanted as i64 - all.random.between(-2, 2)).clamp(-16383, 16383);
            state.weights[all.random.below(settings.taps() as u64) as usize] = near as i16;
            let call = all.any_call(&state);
            let reaches = |new: &[i128]| new.contains(&wanted) && new.iter().all(|w| w.abs() <= wanted.abs());
            let hit = call.detail().ok()?.samples.iter().any(|d| reaches(&d.weights_new));
            hit.then_some(call)
        });
    }
}

/// A block from this ψ with weights near their bound.
fn near_bound(all: &mut Blocks, psi: u8) -> BlockVector {
    let mut settings = all.settings();
    settings.m = settings.greatest_m() >> all.random.below(3);
    let mut state = State { psi, ..all.random.sound_state(settings) };
    state.weights.fill_with(|| (all.random.sign() * (16383 - all.random.between(0, 30))) as i16);
    let loudness = all.random.pick(&[Loudness::Loud, Loudness::LoudRandom, Loudness::Lowest, Loudness::Wide]);
    let aim = all.random.aim();
    all.call(&state, loudness, aim)
}

/// Whether the first sample of a block that answers 6 does so: a block of that sample alone shows it, where p allows
/// one and the sample is the loudest, so that b is the same.
fn six_at_once(call: &BlockVector) -> Option<bool> {
    let x = |(&m, &g): (&i16, &u8)| scaled_sample(m, g).abs();
    let loudest = |call: &BlockVector| call.samples.iter().zip(&call.gains).map(x).max();
    let mut short = call.clone();
    short.before.settings.n = 1;
    short.samples.truncate(1);
    let is_comparable = call.before.settings.p <= 2 && loudest(&short) == loudest(call);
    (is_comparable && call.detail().err() == Some(6)).then(|| short.detail().is_err())
}

/// ψ = 15 with weights near their bound: 6 at the first sample and at a later one, 6 with more taps, and none.
fn last_exponent(all: &mut Blocks) {
    let mut left = [20; 2];
    while left != [0; 2] {
        let call = near_bound(all, 15);
        let Some(at_once) = six_at_once(&call).map(usize::from).filter(|&at_once| left[at_once] > 0) else { continue };
        all.put("6 at the first sample or at a later one", 6, call);
        left[at_once] -= 1;
    }
    all.find("6 with more taps", 6, 24, |all| {
        let call = near_bound(all, 15);
        (call.before.settings.p > 2 && call.detail().err() == Some(6)).then_some(call)
    });
    all.find("no rise from the last exponent", 0, 12, |all| {
        let call = near_bound(all, 15);
        call.detail().is_ok().then_some(call)
    });
}

/// ψ = 14 with weights near their bound: one rise and two, which are rare: a call is changed step by step toward them.
fn rises_from_14(all: &mut Blocks) {
    all.find("a rise to the last exponent", 0, 16, |all| {
        let call = near_bound(all, 14);
        let rises = call.detail().ok()?.samples.iter().any(|d| d.psi_after == 15);
        rises.then_some(call)
    });
    all.find("two rises from 14", 6, 12, |all| {
        let mut call = near_bound(all, 14);
        let (mut best, mut steps) = (after_the_rise(&call), 400);
        while best < i128::MAX && steps > 0 {
            let changed = slightly_changed(&call, &mut all.random);
            let reached = after_the_rise(&changed);
            if reached >= best {
                (call, best) = (changed, reached);
            }
            steps -= 1;
        }
        (best == i128::MAX).then_some(call)
    });
    let mut call = near_bound(all, 15);
    call.before.settings.m = 0;
    all.put("frozen at the last exponent", 0, call);
}

/// How near a call from ψ = 14 comes to its second rise: the largest new weight after the first one.
fn after_the_rise(call: &BlockVector) -> i128 {
    let Ok(detail) = call.detail() else { return i128::MAX };
    let risen = detail.samples.iter().filter(|d| d.psi_before == 15);
    risen.flat_map(|d| &d.weights_new).map(|w| w.abs()).max().unwrap_or(0)
}

/// A call with one place changed: a weight's sign, a past symbol's, a sample or a training entry.
fn slightly_changed(call: &BlockVector, random: &mut Random) -> BlockVector {
    let mut changed = call.clone();
    let settings = call.before.settings;
    let n = random.below(u64::from(settings.n)) as usize;
    let place = random.below(settings.taps() as u64) as usize;
    match random.below(4) {
        0 => changed.before.weights[place] *= -1,
        1 => changed.before.data[place] *= -1,
        2 => changed.samples[n] = random.pick(&[0, 32767, -32767, 16000, -16000]),
        _ => changed.training[n] = random.end_symbol(settings.r),
    }
    changed
}

/// Each size outside its limits and M beyond its greatest, alone and with everything else wrong as well.
fn refused_settings(all: &mut Blocks) {
    let list = "p0, p17 n128, p255, q0, q17, q255, n0, p16 n14, p3 n1, n129, n255, r4, r128, r255, l16, l31, l255";
    for sizes in list.split(", ") {
        let mut call = all.good_call();
        call.before.settings = resized(call.before.settings, sizes);
        all.put("a size outside its limits", 1, call.clone());
        (call.before.settings.m, call.before.psi, call.gains) = (u32::MAX, 99, vec![99; 3]);
        all.put("a size outside its limits", 1, call);
    }
    all.spoiled("a step beyond the largest", 2, 0..12, |call, _, i| {
        let largest = call.before.settings.greatest_m();
        call.before.settings.m = [largest + 1, 1 << 30, u32::MAX][i % 3];
        if i >= 6 {
            (call.before.psi, call.gains) = (16, Vec::new());
        }
    });
}

fn unsound_records(all: &mut Blocks) {
    let changes = UNSOUND.into_iter().filter(|(vectors, _)| vectors.contains('r'));
    all.spoiled("an unsound record", 9, pairs(changes, [false, true]), |call, random, ((_, change), wrong_lists)| {
        change(&mut call.before, random);
        if wrong_lists {
            call.samples.pop();
            call.gains[0] = 200;
        }
    });
    all.spoiled("a sound neighbour", None, 0..6, |call, _, _| {
        let (settings, state) = (call.before.settings, &mut call.before);
        state.b = state.bmax;
        (state.weights[0], state.data[0]) = (-16383, most_stored(settings.p, state.b, state.b));
        state.data[settings.taps() - 1] = -((2 << settings.r) - 1);
        assert_eq!(state.examine(), 0);
    });
}

/// Another length for some of the eight lists.
fn resize(call: &mut BlockVector, lists: std::ops::Range<usize>, length: usize) {
    for list in lists {
        match list {
            0 => call.samples.resize(length, 5),
            1 => call.gains.resize(length, 15),
            2 => call.training.resize(length, 1),
            _ => call.output_lengths[list - 3] = length,
        }
    }
}

fn refused_lists(all: &mut Blocks) {
    all.spoiled("a list of another length", 3, pairs(0..8, 0..5), |call, _, (list, kind)| {
        let n = call.samples.len();
        resize(call, list..list + 1, [n - 1, n + 1, 0, 128.max(n + 2), 256 + n][kind]);
        if kind == 1 {
            (call.gains[0], call.training[0]) = (16, 2);
        }
    });
    all.spoiled("all lists of another length", 3, [0, 2], |call, _, more| {
        resize(call, 0..8, call.samples.len() - 1 + more);
    });
    let place = |n: usize, i: usize| [0, n / 2, n - 1][i % 3];
    all.spoiled("a gain outside its limits", 4, 0..12, |call, _, i| {
        call.gains[place(call.samples.len(), i)] = [call.before.settings.l - 1, 16, 0, 255][i % 4];
        if i >= 6 {
            call.training[0] = 2;
        }
    });
    all.spoiled("a training entry that is no symbol", 5, 0..14, |call, _, i| {
        let end = (2i16 << call.before.settings.r) - 1;
        let entry = [2, -2, end + 2, -end - 2, end + 1, -128, 127][i % 7];
        call.training[place(call.samples.len(), i)] = entry as i8;
    });
}

/// Each refusal with all later ones present too, on a record that gives 6 by itself.
fn refusals_in_order(all: &mut Blocks) {
    let (weights, data) = (vec![16383, -16383, -16383], vec![0, 1, 1]);
    let state = State { psi: 15, weights, data, ..State::zeros(greatest(1, 2, 2, 0, 1)) };
    let call = all.call(&state, Loudness::Zero, Aim::Trained);
    let call = BlockVector { samples: vec![0x2000, 0], gains: vec![1, 1], training: vec![1, 1], ..call };
    let changes: [Change<BlockVector>; 7] = [
        ("6 alone", 6, |_| ()),
        ("5 before 6", 5, |call| call.training[1] = 3),
        ("4 before 5", 4, |call| call.gains[1] = 0),
        ("3 before 4", 3, |call| call.output_lengths[4] = 3),
        ("9 before 3", 9, |call| call.before.weights[3] = 1),
        ("2 before 9", 2, |call| call.before.settings.m += 1),
        ("1 before 2", 1, |call| call.before.settings.r = 4),
    ];
    all.changed(call, &changes);
}
