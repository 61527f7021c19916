//! The figures of demand 3, checked with exact numbers at every sample of
//! every accepted block.

use crate::block::{examine, work, BlockDetail, Inputs, Outputs, SampleDetail};
use crate::exact::Exact;
use crate::settings::Settings;
use crate::state::State;
use crate::ACCEPTED;

/// The worst figures seen.
#[derive(Clone, Debug)]
pub struct Worst {
    /// Samples looked at.
    pub samples: u64,
    /// Halvings among them.
    pub halvings: u64,
    /// Doublings among them.
    pub doublings: u64,
    /// The largest |W| before or after a sample.
    pub weight: i128,
    /// The largest |F|.
    pub f: i128,
    /// The largest |H|.
    pub h: i128,
    /// The largest |Y|.
    pub y: i128,
    /// The largest |Z|.
    pub z: i128,
    /// The largest new |W| before step 7.
    pub new_weight: i128,
    /// The greatest distance to the exact LMS step, in units of 2^(ψ−15) with
    /// the new ψ, or with the old one where the weights were doubled.
    pub step: Exact,
    /// The same where the weights were halved.
    pub halved_step: Exact,
    /// The same where they were doubled.
    pub doubled_step: Exact,
    /// The greatest |y − y*|, in units of 2^(ξ−30).
    pub output: Exact,
    /// The greatest distance of a stored sample in its own block, in units of
    /// 2^(γ−15).
    pub stored: Exact,
    /// The same in the next accepted block, with the larger of the two γ.
    pub past: Exact,
}

impl Worst {
    /// Nothing seen yet.
    pub fn none() -> Worst {
        Worst {
            samples: 0,
            halvings: 0,
            doublings: 0,
            weight: 0,
            f: 0,
            h: 0,
            y: 0,
            z: 0,
            new_weight: 0,
            step: Exact::zero(),
            halved_step: Exact::zero(),
            doubled_step: Exact::zero(),
            output: Exact::zero(),
            stored: Exact::zero(),
            past: Exact::zero(),
        }
    }

    /// A report of a few lines.
    pub fn report(&self) -> String {
        let part = |a: i128, bits: u32| a as f64 / f64::from(bits).exp2();
        format!(
            "samples {}, halvings {}, doublings {}\n\
             |W| {}, new |W| {}\n\
             |F| / 2^28 {:.6}, |H| / 2^28 {:.6}, |Y| / 2^29 {:.6}, |Z| / 2^30 {:.6}\n\
             distance to the exact step {:.9} units, where halved {:.9}, where doubled {:.9}\n\
             |y - y*| {:.9} of 2^(xi-30)\n\
             stored sample {:.9} of its unit, in the next block {:.9}\n",
            self.samples,
            self.halvings,
            self.doublings,
            self.weight,
            self.new_weight,
            part(self.f, 28),
            part(self.h, 28),
            part(self.y, 29),
            part(self.z, 30),
            self.step.roughly(),
            self.halved_step.roughly(),
            self.doubled_step.roughly(),
            self.output.roughly(),
            self.stored.roughly(),
            self.past.roughly(),
        )
    }
}

fn keep_greater(worst: &mut Exact, seen: Exact) {
    if worst.less(&seen) {
        *worst = seen;
    }
}

/// What the samples held in a state were when they were received.
#[derive(Clone, Debug)]
pub struct Received {
    /// x of each past sample, newest first.
    x: Vec<Exact>,
    /// γ of their own block.
    gamma: i32,
}

/// A checker that goes along with a list of calls.
#[derive(Clone, Debug)]
pub struct Checker {
    /// The worst figures so far.
    pub worst: Worst,
    received: Option<Received>,
}

impl Default for Checker {
    fn default() -> Checker {
        Checker::new()
    }
}

impl Checker {
    /// A checker that saw nothing yet.
    pub fn new() -> Checker {
        Checker {
            worst: Worst::none(),
            received: None,
        }
    }

    /// The next block runs on a state that no earlier block left.
    pub fn forget(&mut self) {
        self.received = None;
    }

    /// What the past samples of the state that the last block left were.
    pub fn received(&self) -> Option<Received> {
        self.received.clone()
    }

    /// The next block runs on a state whose past samples were these.
    pub fn recall(&mut self, received: Option<Received>) {
        self.received = received;
    }

    /// Runs a block on the state and checks every figure. Gives the block's
    /// answer, or a description of the figure that fails.
    pub fn block(&mut self, state: &mut State, inputs: Inputs<'_>) -> Result<u8, String> {
        let outputs = Outputs::zeros(usize::from(state.settings.n));
        let number = examine(state, inputs, &outputs);
        if number != ACCEPTED {
            return Ok(number);
        }
        let (detail, after) = match work(state, inputs) {
            Ok(done) => done,
            Err(number) => return Ok(number),
        };
        if !after.sound() {
            return Err("the state after the block is not sound".to_string());
        }
        self.figures(&state.settings, &detail)
            .map_err(|figure| format!("{figure} of {state:?}, {inputs:?}"))?;
        *state = after;
        Ok(ACCEPTED)
    }

    /// Every figure of an accepted block, or a description of the one that
    /// fails.
    pub fn figures(&mut self, settings: &Settings, detail: &BlockDetail) -> Result<(), String> {
        self.stored(settings, detail)?;
        for (n, sample) in detail.samples.iter().enumerate() {
            self.sample(settings, detail.gamma, sample)
                .map_err(|figure| format!("{figure} at sample {n}"))?;
        }
        Ok(())
    }

    /// The distances of the stored samples and of the past samples.
    fn stored(&mut self, settings: &Settings, detail: &BlockDetail) -> Result<(), &'static str> {
        let gamma = detail.gamma;
        let r = i32::from(settings.r);
        // x = (m / 32768)·2^(r−g) and X = m·2^(15−g), so x = X·2^(r−30).
        let x: Vec<Exact> = detail.x.iter().map(|&x| Exact::new(x, r - 30)).collect();
        if x.len() != detail.stored.len() {
            return Err("stored samples are missing");
        }
        let own = furthest(&x, &detail.stored, gamma, gamma);
        keep_greater(&mut self.worst.stored, own.clone());
        if !own.less(&Exact::new(1, 0)) {
            return Err("a stored sample is a unit off");
        }
        if let Some(received) = &self.received {
            if received.x.len() != detail.past.len() {
                return Err("past samples are missing");
            }
            let greater = gamma.max(received.gamma);
            let past = furthest(&received.x, &detail.past, gamma, greater);
            keep_greater(&mut self.worst.past, past.clone());
            if !past.less(&Exact::new(1, 0)) {
                return Err("a past sample is a unit off");
            }
        }
        // N is at least p − 1, so every past sample of the next block is one
        // of this block.
        let kept = usize::from(settings.p) - 1;
        let x = x.into_iter().rev().take(kept).collect();
        self.received = Some(Received { x, gamma });
        Ok(())
    }

    /// The figures of one sample.
    fn sample(
        &mut self,
        settings: &Settings,
        gamma: i32,
        d: &SampleDetail,
    ) -> Result<(), &'static str> {
        self.worst.samples += 1;
        self.bounds(d)?;
        let numbers = |list: &[i128], exponent: i32| -> Vec<Exact> {
            list.iter().map(|&a| Exact::new(a, exponent)).collect()
        };
        let weights = numbers(&d.weights_before, d.psi_before - 15);
        let mut data = numbers(&d.a, gamma - 15);
        data.extend(numbers(&d.symbols, 0));
        if weights.len() != data.len() || d.weights_after.len() != data.len() {
            return Err("weights and data differ in number");
        }
        let mut y_star = Exact::zero();
        for (weight, datum) in weights.iter().zip(&data) {
            y_star = y_star.plus(&weight.times(datum));
        }
        self.output(d, &y_star)?;
        exponent(d)?;
        let mu = Exact::new(i128::from(settings.m), -30);
        let pull = mu.times(&Exact::new(d.v, 0).minus(&y_star));
        self.steps(d, &weights, &data, &pull)?;
        values(settings, d)
    }

    /// The bounds of whole numbers. |W| after step 7 is among them: one
    /// halving is enough.
    fn bounds(&mut self, d: &SampleDetail) -> Result<(), &'static str> {
        let worst = &mut self.worst;
        let largest = |list: &[i128]| list.iter().map(|a| a.abs()).max().unwrap_or(0);
        let weight = largest(&d.weights_before).max(largest(&d.weights_after));
        let new = largest(&d.weights_new);
        let held = [
            (&mut worst.weight, weight, 16384, "|W| above 16383"),
            (&mut worst.new_weight, new, 1 << 15, "a new |W| of 2^15"),
            (&mut worst.f, d.f.abs(), 1 << 28, "|F| of 2^28"),
            (&mut worst.h, d.h.abs(), 1 << 28, "|H| of 2^28"),
            (&mut worst.y, d.y.abs(), 1 << 29, "|Y| of 2^29"),
            (&mut worst.z, d.z.abs(), 1 << 30, "|Z| of 2^30"),
        ];
        let mut good = Ok(());
        for (largest, seen, end, failing) in held {
            *largest = seen.max(*largest);
            if seen >= end {
                good = good.and(Err(failing));
            }
        }
        good
    }

    /// The distance of y to y*.
    fn output(&mut self, d: &SampleDetail, y_star: &Exact) -> Result<(), &'static str> {
        let y = Exact::new(d.y, d.xi - 30);
        let off = y.minus(y_star).magnitude().scaled(30 - d.xi);
        let near = off.less(&Exact::new(1, 0));
        keep_greater(&mut self.worst.output, off);
        if near {
            Ok(())
        } else {
            Err("y is a unit off")
        }
    }

    /// The distance of each new weight to the exact LMS step, which is weight
    /// + pull · datum.
    fn steps(
        &mut self,
        d: &SampleDetail,
        weights: &[Exact],
        data: &[Exact],
        pull: &Exact,
    ) -> Result<(), &'static str> {
        let worst = &mut self.worst;
        let bound = Exact::new(1025, -10);
        let halved = d.psi_after > d.psi_before;
        let doubled = d.psi_after < d.psi_before;
        let unit = if doubled { d.psi_before } else { d.psi_after };
        worst.halvings += u64::from(halved);
        worst.doublings += u64::from(doubled);
        for (i, (weight, datum)) in weights.iter().zip(data).enumerate() {
            let step = weight.plus(&pull.times(datum));
            let reached = Exact::new(d.weights_after[i], d.psi_after - 15);
            let units = reached.minus(&step).magnitude().scaled(15 - unit);
            if halved {
                keep_greater(&mut worst.halved_step, units.clone());
            }
            if doubled {
                keep_greater(&mut worst.doubled_step, units.clone());
            }
            let near = units.at_most(&bound);
            keep_greater(&mut worst.step, units);
            if !near {
                return Err("a weight is too far from the exact step");
            }
        }
        Ok(())
    }
}

/// ψ rises by one exactly where the weights are halved, so that no such sample
/// doubles them; else it falls by one or stays. It is 0 to 15.
fn exponent(d: &SampleDetail) -> Result<(), &'static str> {
    let halving = d.weights_new.iter().any(|w| w.abs() >= 16384);
    let change = d.psi_after - d.psi_before;
    let moved = match halving {
        true => change == 1,
        false => change == 0 || change == -1,
    };
    if moved && (0..=15).contains(&d.psi_after) {
        Ok(())
    } else {
        Err("ψ goes elsewhere than up by one with a halving, else down by one or nowhere,")
    }
}

/// Step 7 changes no weight's value unless it halves: a doubling does not. With
/// M = 0 no sample changes any.
fn values(settings: &Settings, d: &SampleDetail) -> Result<(), &'static str> {
    let after = (&d.weights_after[..], d.psi_after);
    let halved = d.psi_after > d.psi_before;
    if !halved && !same_values((&d.weights_new, d.psi_before), after) {
        return Err("without a halving the value of a weight changes in step 7");
    }
    if settings.m == 0 && !same_values((&d.weights_before, d.psi_before), after) {
        return Err("with M = 0 the value of a weight changes");
    }
    Ok(())
}

/// Whether W·2^(ψ−15) is the same for each weight of two lists.
fn same_values((before, old): (&[i128], i32), (after, new): (&[i128], i32)) -> bool {
    let value = |w: i128, psi: i32| Exact::new(w, psi - 15);
    let same = |(&w, &u): (&i128, &i128)| value(w, old).order(&value(u, new)).is_eq();
    before.len() == after.len() && before.iter().zip(after).all(same)
}

/// The greatest distance of A·2^(γ−15) to x, in units of 2^(`unit`−15).
fn furthest(x: &[Exact], a: &[i128], gamma: i32, unit: i32) -> Exact {
    let mut greatest = Exact::zero();
    for (x, &a) in x.iter().zip(a) {
        let distance = Exact::new(a, gamma - 15).minus(x).magnitude();
        keep_greater(&mut greatest, distance.scaled(15 - unit));
    }
    greatest
}
