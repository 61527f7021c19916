//! "One block" and "One sample" of the specification, step by step.

use crate::numbers::{bit_length, is_symbol, scale_count, Dyadic};
use crate::settings::Settings;
use crate::state::State;
use crate::{ACCEPTED, EXPONENT, GAIN, LISTS, TRAINING};

/// The three lists that a block reads.
#[derive(Clone, Copy, Debug)]
pub struct Inputs<'a> {
    /// m of each sample.
    pub samples: &'a [i16],
    /// g of each sample.
    pub gains: &'a [u8],
    /// The training entries.
    pub training: &'a [i8],
}

/// The five lists that a block fills.
#[derive(Clone, Debug, PartialEq, Eq)]
pub struct Outputs {
    pub y: Vec<i32>,
    pub xi: Vec<u8>,
    pub decision: Vec<i8>,
    pub z: Vec<i32>,
    pub theta: Vec<u8>,
}

impl Outputs {
    /// Five lists of `n` zeros.
    pub fn zeros(n: usize) -> Outputs {
        Outputs {
            y: vec![0; n],
            xi: vec![0; n],
            decision: vec![0; n],
            z: vec![0; n],
            theta: vec![0; n],
        }
    }
}

/// The lengths of the eight lists: samples, gains, training entries, Y, ξ,
/// decision, Z, θ.
pub fn lengths(inputs: Inputs<'_>, outputs: &Outputs) -> [usize; 8] {
    [
        inputs.samples.len(),
        inputs.gains.len(),
        inputs.training.len(),
        outputs.y.len(),
        outputs.xi.len(),
        outputs.decision.len(),
        outputs.z.len(),
        outputs.theta.len(),
    ]
}

/// Every number of one sample, for the checker.
#[derive(Clone, Debug)]
pub struct SampleDetail {
    /// ψ before the sample.
    pub psi_before: i32,
    /// ψ after the sample.
    pub psi_after: i32,
    /// The stored samples A that the feed forward weights meet.
    pub a: Vec<i128>,
    /// The past symbols that the feedback weights meet.
    pub symbols: Vec<i128>,
    /// The same symbols as they are held.
    pub held: Vec<i128>,
    /// ν.
    pub nu: i32,
    /// F, the sum of feed forward weights times A.
    pub f: i128,
    /// H, the sum of feedback weights times held symbols.
    pub h: i128,
    /// Y.
    pub y: i128,
    /// ξ.
    pub xi: i32,
    pub decision: i128,
    /// The training entry, or the decision where that is 0.
    pub v: i128,
    /// Z.
    pub z: i128,
    /// θ.
    pub theta: i32,
    /// J of the feed forward filter.
    pub j_forward: i128,
    /// J of the feedback filter.
    pub j_feedback: i128,
    /// The weights before the sample.
    pub weights_before: Vec<i128>,
    /// The new weights before step 7.
    pub weights_new: Vec<i128>,
    /// The weights after step 7, kept, halved or doubled.
    pub weights_after: Vec<i128>,
}

/// Every number of one block, for the checker.
#[derive(Clone, Debug)]
pub struct BlockDetail {
    pub b: i32,
    /// B.
    pub bmax: i32,
    /// γ.
    pub gamma: i32,
    /// X of each sample.
    pub x: Vec<i128>,
    /// Each sample as stored.
    pub stored: Vec<i128>,
    /// The past samples after rescaling, newest first.
    pub past: Vec<i128>,
    pub samples: Vec<SampleDetail>,
}

/// Step 4: the decision on y.
pub fn decide(y: Dyadic, settings: &Settings) -> i128 {
    let end = settings.end_symbol();
    let decision = 2 * y.scaled(-1).floor() + 1;
    decision.clamp(-end, end)
}

/// How ψ moves in step 7.
#[derive(Clone, Copy, Debug, PartialEq, Eq)]
pub enum Rule {
    /// Up by a halving, down by a doubling.
    Amended,
    /// Up by a halving only: the rule before request 2026-04, for comparison
    /// only.
    RisesOnly,
}

/// Step 7 on the new weights of both filters: they are halved once, or doubled
/// once, or kept. Gives ψ and the weights after it.
pub fn step7(rule: Rule, psi: i32, new: &[i128]) -> (i32, Vec<i128>) {
    let scaled = |by: i32| new.iter().map(|&w| Dyadic::new(w, by).cut()).collect();
    if new.iter().any(|w| w.abs() >= 16384) {
        return (psi + 1, scaled(-1));
    }
    if rule == Rule::Amended && psi > 0 && new.iter().all(|w| w.abs() < 4096) {
        return (psi - 1, scaled(1));
    }
    (psi, new.to_vec())
}

/// The sum of products of two lists of one length.
fn sum_of_products(a: &[i128], b: &[i128]) -> i128 {
    assert_eq!(a.len(), b.len());
    a.iter().zip(b).map(|(x, y)| x * y).sum()
}

/// One sample, by the amended rule. `a` holds the stored samples newest first,
/// `symbols` the last q symbols newest first, `entry` is the training entry.
pub fn one_sample(
    settings: &Settings,
    psi: i32,
    weights: &[i128],
    gamma: i32,
    a: &[i128],
    symbols: &[i128],
    entry: i128,
) -> SampleDetail {
    let p = usize::from(settings.p);
    let s = scale_count(settings.p);
    let s_feedback = scale_count(settings.q);
    let m = i128::from(settings.m);
    let (forward, feedback) = weights.split_at(p);

    // 1. The symbol exponent and the held symbols.
    let c = symbols.iter().map(|&v| bit_length(v)).max().unwrap_or(0);
    let nu = s_feedback + c;
    let held: Vec<i128> = symbols
        .iter()
        .map(|&v| Dyadic::new(v, 15 - nu).exactly())
        .collect();

    // 2. The filter outputs.
    let f = sum_of_products(forward, a);
    let h = sum_of_products(feedback, &held);

    // 3. Their sum.
    let (y, xi) = if gamma > nu {
        (f + Dyadic::new(h, nu - gamma).cut(), psi + gamma)
    } else {
        (h + Dyadic::new(f, gamma - nu).cut(), psi + nu)
    };

    // 4. The decision.
    let decision = decide(Dyadic::new(y, xi - 30), settings);

    // 5. The error.
    let v = if entry == 0 { decision } else { entry };
    let k = s_feedback + bit_length(v);
    let (z, theta) = if k > xi {
        let cut = Dyadic::new(y, xi - k).cut();
        (Dyadic::new(v, 30 - k).exactly() - cut, k)
    } else {
        (Dyadic::new(v, 30 - xi).exactly() - y, xi)
    };

    // 6. The new weights.
    let j_forward = Dyadic::new(m * z, (gamma - s) + theta - psi - 30).cut();
    let j_feedback = Dyadic::new(m * z, (nu - s_feedback) + theta - psi - 30).cut();
    let gain = |j: i128, datum: i128, scale: i32| Dyadic::new(j * datum, scale - 30).cut();
    let forward_gains = a.iter().map(|&a| gain(j_forward, a, s));
    let feedback_gains = held.iter().map(|&v| gain(j_feedback, v, s_feedback));
    let weights_new: Vec<i128> = weights
        .iter()
        .zip(forward_gains.chain(feedback_gains))
        .map(|(w, gain)| w + gain)
        .collect();

    // 7. Halving or doubling.
    let (psi_after, weights_after) = step7(Rule::Amended, psi, &weights_new);

    SampleDetail {
        psi_before: psi,
        psi_after,
        a: a.to_vec(),
        symbols: symbols.to_vec(),
        held,
        nu,
        f,
        h,
        y,
        xi,
        decision,
        v,
        z,
        theta,
        j_forward,
        j_feedback,
        weights_before: weights.to_vec(),
        weights_new,
        weights_after,
    }
}

/// X = m·2^(15−g).
pub fn scaled_sample(m: i16, g: u8) -> i128 {
    Dyadic::new(i128::from(m), 15 - i32::from(g)).exactly()
}

/// The whole block on a state and lists that passed refusals 1 to 5. Gives
/// the detail and the state after it, or 6.
pub fn work(state: &State, inputs: Inputs<'_>) -> Result<(BlockDetail, State), u8> {
    work_by(Rule::Amended, state, inputs)
}

/// The same by one of the rules.
fn work_by(rule: Rule, state: &State, inputs: Inputs<'_>) -> Result<(BlockDetail, State), u8> {
    let mut detail = before_the_samples(state, inputs);
    let mut moving = Moving::of(state, &detail);
    for (&newest, &entry) in detail.stored.iter().zip(inputs.training) {
        let sample = moving.sample(rule, state, detail.gamma, newest, entry)?;
        detail.samples.push(sample);
    }
    let after = moving.state_after(state, &detail);
    Ok((detail, after))
}

/// Block steps 1 and 2; no sample has been worked.
fn before_the_samples(state: &State, inputs: Inputs<'_>) -> BlockDetail {
    let s = scale_count(state.settings.p);
    let r = i32::from(state.settings.r);

    // Block step 1: b, B and γ.
    let x: Vec<i128> = inputs
        .samples
        .iter()
        .zip(inputs.gains)
        .map(|(&m, &g)| scaled_sample(m, g))
        .collect();
    let largest = x.iter().map(|x| x.abs()).max().unwrap_or(0);
    let b = bit_length(largest);
    let bmax = b.max(i32::from(state.b));
    let gamma = r - 30 + bmax + s;

    // Block step 2: the stored samples of this block and of the one before.
    let stored = x
        .iter()
        .map(|&x| Dyadic::new(x, 15 - bmax - s).cut())
        .collect();
    let past = widened(state.past_samples())
        .into_iter()
        .map(|a| Dyadic::new(a, i32::from(state.bmax) - bmax).cut())
        .collect();
    BlockDetail {
        b,
        bmax,
        gamma,
        x,
        stored,
        past,
        samples: Vec::new(),
    }
}

fn widened(list: &[i16]) -> Vec<i128> {
    list.iter().map(|&a| i128::from(a)).collect()
}

/// What moves from sample to sample.
struct Moving {
    psi: i32,
    weights: Vec<i128>,
    /// All stored samples so far, newest first.
    line: Vec<i128>,
    /// The last q symbols, newest first.
    symbols: Vec<i128>,
}

impl Moving {
    fn of(state: &State, detail: &BlockDetail) -> Moving {
        Moving {
            psi: i32::from(state.psi),
            weights: widened(&state.weights[..state.settings.taps()]),
            line: detail.past.clone(),
            symbols: widened(state.past_symbols()),
        }
    }

    /// One sample by one of the rules, or 6.
    fn sample(
        &mut self,
        rule: Rule,
        state: &State,
        gamma: i32,
        newest: i128,
        entry: i8,
    ) -> Result<SampleDetail, u8> {
        let settings = &state.settings;
        self.line.insert(0, newest);
        let mut detail = one_sample(
            settings,
            self.psi,
            &self.weights,
            gamma,
            &self.line[..usize::from(settings.p)],
            &self.symbols,
            i128::from(entry),
        );
        if rule != Rule::Amended {
            (detail.psi_after, detail.weights_after) = step7(rule, self.psi, &detail.weights_new);
        }
        if detail.psi_after > i32::from(Settings::MOST_EXPONENT) {
            return Err(EXPONENT);
        }
        self.psi = detail.psi_after;
        self.weights = detail.weights_after.clone();
        // Step 8: v becomes the newest symbol.
        self.symbols.insert(0, detail.v);
        self.symbols.truncate(usize::from(settings.q));
        Ok(detail)
    }

    /// The state after the block's last sample.
    fn state_after(&self, state: &State, detail: &BlockDetail) -> State {
        let narrow = |a: i128| i16::try_from(a).expect("a stored number has 16 bits");
        let mut after = state.clone();
        after.psi = u8::try_from(self.psi).expect("ψ is a byte");
        after.b = u8::try_from(detail.b).expect("b is a byte");
        after.bmax = u8::try_from(detail.bmax).expect("B is a byte");
        for (place, &w) in after.weights.iter_mut().zip(&self.weights) {
            *place = narrow(w);
        }
        let kept = &self.line[..usize::from(state.settings.p) - 1];
        let data = kept.iter().chain(&[0]).chain(&self.symbols);
        for (place, &a) in after.data.iter_mut().zip(data) {
            *place = narrow(a);
        }
        after
    }
}

/// Refusals 1, 2, 9, 3, 4 and 5 in order, each over the whole block before
/// the next; else 0.
pub fn examine(state: &State, inputs: Inputs<'_>, outputs: &Outputs) -> u8 {
    let number = state.examine();
    if number != ACCEPTED {
        return number;
    }
    let settings = &state.settings;
    if lengths(inputs, outputs) != [usize::from(settings.n); 8] {
        return LISTS;
    }
    if inputs
        .gains
        .iter()
        .any(|&g| g < settings.l || g > Settings::MOST_GAIN)
    {
        return GAIN;
    }
    if inputs
        .training
        .iter()
        .any(|&t| t != 0 && !is_symbol(i128::from(t), settings.r))
    {
        return TRAINING;
    }
    ACCEPTED
}

/// Runs a block on a lent state. Refused, the state and the outputs stay as
/// they are.
pub fn run(state: &mut State, inputs: Inputs<'_>, outputs: &mut Outputs) -> u8 {
    run_by(Rule::Amended, state, inputs, outputs)
}

/// Runs a block by one of the rules.
pub fn run_by(rule: Rule, state: &mut State, inputs: Inputs<'_>, outputs: &mut Outputs) -> u8 {
    let number = examine(state, inputs, outputs);
    if number != ACCEPTED {
        return number;
    }
    let (detail, after) = match work_by(rule, state, inputs) {
        Ok(done) => done,
        Err(number) => return number,
    };
    for (n, sample) in detail.samples.iter().enumerate() {
        outputs.y[n] = i32::try_from(sample.y).expect("Y has 32 bits");
        outputs.xi[n] = u8::try_from(sample.xi).expect("ξ is a byte");
        outputs.decision[n] = i8::try_from(sample.decision).expect("a decision is a byte");
        outputs.z[n] = i32::try_from(sample.z).expect("Z has 32 bits");
        outputs.theta[n] = u8::try_from(sample.theta).expect("θ is a byte");
    }
    *state = after;
    ACCEPTED
}

/// A trial of a block: what running it on a copy of the state answers and
/// hands out, and the state that would follow. The state itself is only read.
/// Refused, the state comes back as given and the outputs stay as they are.
pub fn trial(state: &State, inputs: Inputs<'_>, outputs: &mut Outputs) -> (u8, State) {
    let mut copy = state.clone();
    let number = run(&mut copy, inputs, outputs);
    (number, copy)
}
