//! The figures of demand 3, checked with exact numbers at every sample of
//! every accepted block.

use crate::block::{examine, work, BlockDetail, Inputs, Outputs, SampleDetail};
use crate::exact::Exact;
use crate::settings::Settings;
use crate::state::State;
use crate::ACCEPTED;

/// The worst figures seen.
#[derive(Clone, Debug, Default)]
pub struct Worst {
    /// Samples looked at.
    pub samples: u64,
    /// Halvings among them.
    pub halvings: u64,
    /// Doublings among them.
    pub doublings: u64,
    /// The largest |W| before or after a sample.
    pub weight: i128,
    /// The largest |F|.
    pub f: i128,
    /// The largest |H|.
    pub h: i128,
    /// The largest |Y|.
    pub y: i128,
    /// The largest |Z|.
    pub z: i128,
    /// The largest new |W| before step 7.
    pub new_weight: i128,
    /// The greatest distance to the exact LMS step, in units of 2^(ψ−15) with
    /// the new ψ, or with the old one where the weights were doubled.
    pub step: Exact,
    /// The same where the weights were halved.
    pub halved_step: Exact,
    /// The same where they were doubled.
    pub doubled_step: Exact,
    /// The greatest |y − y*|, in units of 2^(ξ−30).
    pub output: Exact,
    /// The greatest distance of a stored sample in its own block, in units of
    /// 2^(γ−15).
    pub stored: Exact,
    /// The same in the next accepted block, with the larger of the two γ.
    pub past: Exact,
}

/// Whether a figure holds, or else what fails.
type Figure = Result<(), &'static str>;

fn figure(holds: bool, failing: &'static str) -> Figure {
    holds.then_some(()).ok_or(failing)
}

fn keep_greater(worst: &mut Exact, seen: &Exact) {
    if worst.less(seen) {
        *worst = seen.clone();
    }
}

/// A distance in units that is less than one.
fn within_a_unit(worst: &mut Exact, seen: &Exact, failing: &'static str) -> Figure {
    keep_greater(worst, seen);
    figure(seen.less(&Exact::new(1, 0)), failing)
}

/// What the samples held in a state were when they were received.
#[derive(Clone, Debug)]
pub struct Received {
    /// x of each past sample, newest first.
    x: Vec<Exact>,
    /// γ of their own block.
    gamma: i32,
}

/// A checker that goes along with a list of calls.
#[derive(Clone, Debug, Default)]
pub struct Checker {
    /// The worst figures so far.
    pub worst: Worst,
    received: Option<Received>,
}

impl Checker {
    /// A checker that saw nothing yet.
    pub fn new() -> Checker {
        Checker::default()
    }

    /// The next block runs on a state that no earlier block left.
    pub fn forget(&mut self) {
        self.received = None;
    }

    /// What the past samples of the state that the last block left were.
    pub fn received(&self) -> Option<Received> {
        self.received.clone()
    }

    /// The next block runs on a state whose past samples were these.
    pub fn recall(&mut self, received: Option<Received>) {
        self.received = received;
    }

    /// Runs a block on the state and checks every figure. Gives the block's
    /// answer, or a description of the figure that fails.
    pub fn block(&mut self, state: &mut State, inputs: Inputs<'_>) -> Result<u8, String> {
        let outputs = Outputs::zeros(usize::from(state.settings.n));
        let number = examine(state, inputs, &outputs);
        if number != ACCEPTED {
            return Ok(number);
        }
        let (detail, after) = match work(state, inputs) {
            Ok(done) => done,
            Err(number) => return Ok(number),
        };
        if !after.sound() {
            return Err("the state after the block is not sound".to_string());
        }
        self.figures(&state.settings, &detail).map_err(|figure| format!("{figure} of {state:?}, {inputs:?}"))?;
        *state = after;
        Ok(ACCEPTED)
    }

    /// Every figure of an accepted block, or a description of the one that
    /// fails.
    pub fn figures(&mut self, settings: &Settings, detail: &BlockDetail) -> Result<(), String> {
        self.stored(settings, detail)?;
        for (n, sample) in detail.samples.iter().enumerate() {
            self.sample(settings, detail.gamma, sample).map_err(|figure| format!("{figure} at sample {n}"))?;
        }
        Ok(())
    }

    /// The distances of the stored samples and of the past samples.
    fn stored(&mut self, settings: &Settings, detail: &BlockDetail) -> Figure {
        let gamma = detail.gamma;
        let r = i32::from(settings.r);
        // x = (m / 32768)·2^(r−g) and X = m·2^(15−g), so x = X·2^(r−30).
        let x: Vec<Exact> = detail.x.iter().map(|&x| Exact::new(x, r - 30)).collect();
        figure(x.len() == detail.stored.len(), "stored samples are missing")?;
        let own = furthest(&x, &detail.stored, gamma, gamma);
        within_a_unit(&mut self.worst.stored, &own, "a stored sample is a unit off")?;
        if let Some(received) = &self.received {
            figure(received.x.len() == detail.past.len(), "past samples are missing")?;
            let past = furthest(&received.x, &detail.past, gamma, gamma.max(received.gamma));
            within_a_unit(&mut self.worst.past, &past, "a past sample is a unit off")?;
        }
        // N is at least p − 1, so every past sample of the next block is one
        // of this block.
        let kept = usize::from(settings.p) - 1;
        let x = x.into_iter().rev().take(kept).collect();
        self.received = Some(Received { x, gamma });
        Ok(())
    }

    /// The figures of one sample.
    fn sample(&mut self, settings: &Settings, gamma: i32, d: &SampleDetail) -> Figure {
        self.worst.samples += 1;
        self.bounds(d)?;
        let numbers =
            |list: &[i128], exponent: i32| -> Vec<Exact> { list.iter().map(|&a| Exact::new(a, exponent)).collect() };
        let weights = numbers(&d.weights_before, d.psi_before - 15);
        let mut data = numbers(&d.a, gamma - 15);
        data.extend(numbers(&d.symbols, 0));
        let counted = weights.len() == data.len() && d.weights_after.len() == data.len();
        figure(counted, "weights and data differ in number")?;
        let products = weights.iter().zip(&data).map(|(weight, datum)| weight.times(datum));
        let y_star = products.fold(Exact::default(), |sum, product| sum.plus(&product));
        let off = Exact::new(d.y, d.xi - 30).minus(&y_star).magnitude().scaled(30 - d.xi);
        within_a_unit(&mut self.worst.output, &off, "y is a unit off")?;
        exponent(d)?;
        let mu = Exact::new(i128::from(settings.m), -30);
        let pull = mu.times(&Exact::new(d.v, 0).minus(&y_star));
        self.steps(d, &weights, &data, &pull)?;
        values(settings, d)
    }

    /// The bounds of whole numbers. |W| after step 7 is among them: one
    /// halving is enough.
    fn bounds(&mut self, d: &SampleDetail) -> Figure {
        let worst = &mut self.worst;
        let largest = |list: &[i128]| list.iter().map(|a| a.abs()).max().unwrap_or(0);
        let weight = largest(&d.weights_before).max(largest(&d.weights_after));
        let new = largest(&d.weights_new);
        let held = [
            (&mut worst.weight, weight, 16384, "|W| above 16383"),
            (&mut worst.new_weight, new, 1 << 15, "a new |W| of 2^15"),
            (&mut worst.f, d.f.abs(), 1 << 28, "|F| of 2^28"),
            (&mut worst.h, d.h.abs(), 1 << 28, "|H| of 2^28"),
            (&mut worst.y, d.y.abs(), 1 << 29, "|Y| of 2^29"),
            (&mut worst.z, d.z.abs(), 1 << 30, "|Z| of 2^30"),
        ];
        let mut good = Ok(());
        for (largest, seen, end, failing) in held {
            *largest = seen.max(*largest);
            good = good.and(figure(seen < end, failing));
        }
        good
    }

    /// The distance of each new weight to the exact LMS step, which is weight
    /// + pull · datum.
    fn steps(&mut self, d: &SampleDetail, weights: &[Exact], data: &[Exact], pull: &Exact) -> Figure {
        let worst = &mut self.worst;
        let halved = d.psi_after > d.psi_before;
        let doubled = d.psi_after < d.psi_before;
        let unit = if doubled { d.psi_before } else { d.psi_after };
        worst.halvings += u64::from(halved);
        worst.doublings += u64::from(doubled);
        for (i, (weight, datum)) in weights.iter().zip(data).enumerate() {
            let step = weight.plus(&pull.times(datum));
            let reached = Exact::new(d.weights_after[i], d.psi_after - 15);
            let units = reached.minus(&step).magnitude().scaled(15 - unit);
            keep_greater(&mut worst.step, &units);
            if halved {
                keep_greater(&mut worst.halved_step, &units);
            }
            if doubled {
                keep_greater(&mut worst.doubled_step, &units);
            }
            figure(units.at_most(&Exact::new(1025, -10)), "a weight is too far from the exact step")?;
        }
        Ok(())
    }
}

/// ψ rises by one exactly where the weights are halved, so that no such sample
/// doubles them; else it falls by one or stays. It is 0 to 15.
fn exponent(d: &SampleDetail) -> Figure {
    let halving = d.weights_new.iter().any(|w| w.abs() >= 16384);
    let change = d.psi_after - d.psi_before;
    let moved = match halving {
        true => change == 1,
        false => change == 0 || change == -1,
    };
    let failing = "ψ goes elsewhere than up by one with a halving, else down by one or nowhere,";
    figure(moved && (0..=15).contains(&d.psi_after), failing)
}

/// Step 7 changes no weight's value unless it halves: a doubling does not. With
/// M = 0 no sample changes any.
fn values(settings: &Settings, d: &SampleDetail) -> Figure {
    let keeps = |before: &[i128]| same_values((before, d.psi_before), (&d.weights_after, d.psi_after));
    let halved = d.psi_after > d.psi_before;
    figure(halved || keeps(&d.weights_new), "without a halving the value of a weight changes in step 7")?;
    figure(settings.m != 0 || keeps(&d.weights_before), "with M = 0 the value of a weight changes")
}

/// Whether W·2^(ψ−15) is the same for each weight of two lists.
fn same_values((before, old): (&[i128], i32), (after, new): (&[i128], i32)) -> bool {
    let value = |w: i128, psi: i32| Exact::new(w, psi - 15);
    let same = |(&w, &u): (&i128, &i128)| value(w, old).order(&value(u, new)).is_eq();
    before.len() == after.len() && before.iter().zip(after).all(same)
}

/// The greatest distance of A·2^(γ−15) to x, in units of 2^(`unit`−15).
fn furthest(x: &[Exact], a: &[i128], gamma: i32, unit: i32) -> Exact {
    let mut greatest = Exact::default();
    for (x, &a) in x.iter().zip(a) {
        let distance = Exact::new(a, gamma - 15).minus(x).magnitude();
        keep_greater(&mut greatest, &distance.scaled(15 - unit));
    }
    greatest
}
