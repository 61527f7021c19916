//! A block in 64-bit numbers, written from the specification once more, with one thing wrong or nothing.

use reference::block::lengths;
use reference::{Inputs, Outputs, Settings, State};

/// T(a·2^places), or where it is rounded down the floor.
fn cut(a: i64, places: i64, down: bool) -> i64 {
    match places {
        0.. => a * (1 << places),
        _ if down => a >> -places,
        _ => a / (1 << -places),
    }
}

fn bits(a: i64) -> i64 {
    64 - i64::from(a.unsigned_abs().leading_zeros())
}

/// S(k), the bit length of 2k − 1.
fn count(k: u8) -> i64 {
    bits(2 * i64::from(k) - 1)
}

fn sizes_fit(s: &Settings) -> bool {
    let taps = 1..=16;
    let least = s.p.saturating_sub(1).max(1);
    let block = (least..=128).contains(&s.n);
    taps.contains(&s.p) && taps.contains(&s.q) && block && s.r < 4 && s.l < 16
}

/// M·D is at most 2^30, both sides times 2^L.
fn admitted(s: &Settings) -> bool {
    let d = ((8 + 4 * u64::from(s.q)) << s.l) + 4 * u64::from(s.p);
    u64::from(s.m) * (d << (2 * s.r)) <= 1 << (30 + s.l)
}

/// Whether `v` is 0 or a symbol.
fn entry(v: i64, r: u8) -> bool {
    v == 0 || (v & 1 == 1 && v.abs() < 2 << r)
}

fn sound(state: &State, fault: &str) -> bool {
    let (s, p) = (&state.settings, usize::from(state.settings.p));
    if state.psi > 15 || state.b > state.bmax || state.bmax > 31 - s.l {
        return false;
    }
    let (weights, spare) = state.weights.split_at(s.taps());
    let (data, more) = state.data.split_at(s.taps());
    let reach = i64::from(state.bmax) + count(s.p);
    let small = |a: &i16| i64::from(*a).abs() << reach < 1 << (15 + state.b);
    let zeros = spare.iter().chain(more).all(|&place| place == 0);
    weights.iter().all(|w| (-16383..=16383).contains(w))
        && data[..p - 1].iter().all(small)
        && data[p - 1] == 0
        && data[p..].iter().all(|&v| entry(v.into(), s.r))
        && (zeros || fault == "spare-unseen")
}

/// Whether every list is `n` long.
fn fitting(n: usize, inputs: Inputs<'_>, outputs: &Outputs, fault: &str) -> bool {
    let lengths = lengths(inputs, outputs);
    lengths[..3] == [n; 3] && (lengths[3..] == [n; 5] || fault == "outputs-unseen")
}

/// The first of 1, 2, 9, 3, 4 and 5 that holds, else 0.
pub fn refusal(state: &State, inputs: Inputs<'_>, outputs: &Outputs, fault: &str) -> u8 {
    let s = &state.settings;
    let bad_gain = |g: &u8| !(s.l..=15).contains(g);
    let bad_entry = |t: &i8| !entry((*t).into(), s.r);
    let holds = |number: &u8| match number {
        1 => !sizes_fit(s),
        2 => !admitted(s),
        9 => !sound(state, fault),
        3 => !fitting(s.n.into(), inputs, outputs, fault),
        4 => inputs.gains.iter().any(bad_gain),
        _ => inputs.training.iter().any(bad_entry) && fault != "5-with-6",
    };
    let mut order = [1, 2, 9, 3, 4, 5];
    match fault {
        "2-before-1" if s.r < 4 && s.l < 16 => order.swap(0, 1),
        "9-before-2" => order.swap(1, 2),
        "3-before-9" => order.swap(2, 3),
        "4-before-3" => order.swap(3, 4),
        "5-before-4" => order.swap(4, 5),
        "4-with-5" if sizes_fit(s) => {
            let first = inputs.gains.iter().position(bad_gain);
            if inputs.training.iter().position(bad_entry) < first {
                order.swap(4, 5);
            }
        }
        _ => {}
    }
    order.into_iter().find(holds).unwrap_or(0)
}

/// What changes from sample to sample, samples and symbols newest first, and what does not.
struct Walk<'a> {
    settings: &'a Settings,
    gamma: i64,
    fault: &'a str,
    psi: i64,
    weights: Vec<i64>,
    samples: Vec<i64>,
    symbols: Vec<i64>,
}

fn wide(list: &[i16]) -> Vec<i64> {
    list.iter().map(|&a| i64::from(a)).collect()
}

fn sum(weights: &[i64], data: &[i64]) -> i64 {
    weights.iter().zip(data).map(|(w, a)| w * a).sum()
}

impl Walk<'_> {
    /// Before the first sample of a block with this B.
    fn start<'a>(given: &'a State, bmax: i64, fault: &'a str) -> Walk<'a> {
        let settings = &given.settings;
        let (p, taps) = (usize::from(settings.p), settings.taps());
        let past = wide(&given.data[..p - 1]).into_iter();
        Walk {
            settings,
            gamma: i64::from(settings.r) - 30 + bmax + count(settings.p),
            fault,
            psi: given.psi.into(),
            weights: wide(&given.weights[..taps]),
            samples: past.map(|a| cut(a, i64::from(given.bmax) - bmax, fault == "past-down")).collect(),
            symbols: wide(&given.data[p..taps]),
        }
    }

    /// One sample, already the newest: Y, ξ, decision, Z, θ.
    fn sample(&mut self, entry: i64) -> [i64; 5] {
        let (s, fault, p) = (self.settings, self.fault, usize::from(self.settings.p));
        let before = self.weights.clone();
        let longest = self.symbols.iter().map(|&v| bits(v)).max();
        let nu = count(s.q) + longest.unwrap_or(0);
        let held: Vec<i64> = self.symbols.iter().map(|v| v << (15 - nu)).collect();
        let common = self.gamma.max(nu);
        let f = cut(sum(&self.weights[..p], &self.samples), self.gamma - common, fault == "f-down");
        let h = cut(sum(&self.weights[p..], &held), nu - common, false);
        let (y, xi) = (f + h, self.psi + common);
        let decision = self.decide(y, xi);
        let v = if entry == 0 { decision } else { entry };
        let theta = xi.max(count(s.q) + bits(v));
        let z = (v << (30 - theta)) - cut(y, xi - theta, fault == "y-down");
        let pull = |exponent| cut(i64::from(s.m) * z, exponent + theta - self.psi - 30, fault == "j-down");
        let j = [pull(self.gamma - count(s.p)), pull(nu - count(s.q))];
        self.adapt(j, &held);
        self.step7(p, &before);
        self.symbols.insert(0, v);
        self.symbols.truncate(s.q.into());
        [y, xi, decision, z, theta]
    }

    /// Step 4, with the newest sample for the fault.
    fn decide(&self, y: i64, xi: i64) -> i64 {
        let end = (2 << self.settings.r) - 1;
        let tie = y & ((1 << (31 - xi)) - 1) == 0;
        let lower = tie && self.samples[0] < 0 && self.fault == "tie";
        let decision = 2 * (y >> (31 - xi)) + 1;
        (decision - 2 * i64::from(lower)).clamp(-end, end)
    }

    /// Step 6 with J of both filters.
    fn adapt(&mut self, [forward, back]: [i64; 2], held: &[i64]) {
        let s = self.settings;
        let (weights, feedback) = self.weights.split_at_mut(s.p.into());
        for (w, &a) in weights.iter_mut().zip(&self.samples) {
            let a = if self.fault == "magnitudes" { a.abs() } else { a };
            *w += cut(forward * a, count(s.p) - 30, self.fault == "forward-down");
        }
        for (w, a) in feedback.iter_mut().zip(held) {
            *w += cut(back * a, count(s.q) - 30, self.fault == "feedback-down");
        }
    }

    /// One halving, one doubling or neither. `before` are the weights before step 6.
    fn step7(&mut self, p: usize, before: &[i64]) {
        let large = |w: &i64| match self.fault {
            "halved-positive" => *w > 16383,
            _ => w.abs() > 16383,
        };
        if self.weights.iter().any(large) {
            let down = self.fault == "halved-down";
            self.weights.iter_mut().for_each(|w| *w = cut(*w, -1, down));
            self.psi += 1;
            if self.fault == "doubled-after-halving" {
                self.double(p);
            }
            return;
        }
        while self.doubles(p, before) {
            self.double(p);
            if self.fault != "doubled-often" {
                return;
            }
        }
    }

    /// Whether the weights are to be doubled.
    fn doubles(&self, p: usize, before: &[i64]) -> bool {
        let end = match self.fault {
            "doubled-at-4096" => 4097,
            "doubled-below-4095" => 4095,
            "never-doubled" => 0,
            _ => 4096,
        };
        let looked_at = match self.fault {
            "doubled-by-old" => before,
            "doubled-by-forward" => &self.weights[..p],
            "doubled-by-feedback" => &self.weights[p..],
            _ => &self.weights,
        };
        // ψ falls to -1, a byte of 255, and no further.
        let least = i64::from(self.fault == "doubled-at-0");
        let small = |w: &i64| match self.fault {
            "doubled-negative" => *w < end,
            _ => w.abs() < end,
        };
        self.psi > -least && looked_at.iter().all(small)
    }

    fn double(&mut self, p: usize) {
        let doubled = match self.fault {
            "doubled-forward" => &mut self.weights[..p],
            "doubled-feedback" => &mut self.weights[p..],
            "doubled-but-last" => &mut self.weights[..self.settings.taps() - 1],
            _ => &mut self.weights,
        };
        doubled.iter_mut().for_each(|w| *w *= 2);
        self.psi -= 1;
    }

    /// The state that holds this, with the spare slots as given.
    fn state(&self, given: &State, b: i64, bmax: i64) -> State {
        let mut state = State { psi: self.psi as u8, b: b as u8, bmax: bmax as u8, ..given.clone() };
        let put = |places: &mut [i16], numbers: &[i64]| {
            places.iter_mut().zip(numbers).for_each(|(place, &a)| *place = a as i16);
        };
        let p = usize::from(self.settings.p);
        put(&mut state.weights, &self.weights);
        put(&mut state.data[..p - 1], &self.samples);
        put(&mut state.data[p..], &self.symbols);
        state
    }
}

/// A block that passed the refusals before 6: its number, the state that was reached and what was handed out.
pub fn block(given: &State, inputs: Inputs<'_>, fault: &str) -> (u8, State, Vec<[i64; 5]>) {
    let s = &given.settings;
    let received = inputs.samples.iter().zip(inputs.gains);
    let x: Vec<i64> = received.map(|(&m, &g)| i64::from(m) << (15 - g)).collect();
    let b = x.iter().map(|&x| bits(x)).max().unwrap_or(0);
    let bmax = b.max(given.b.into());
    let mut walk = Walk::start(given, bmax, fault);
    let mut handed = Vec::new();
    let most = match fault {
        "6-unseen" => 255,
        "6-early" => 14.max(walk.psi),
        _ => 15,
    };
    for (&x, &t) in x.iter().zip(inputs.training) {
        let before = walk.state(given, b, bmax);
        if !entry(t.into(), s.r) {
            return (5, before, handed);
        }
        walk.samples.insert(0, cut(x, 15 - bmax - count(s.p), fault == "samples-down"));
        walk.samples.truncate(s.p.into());
        let sample = walk.sample(t.into());
        if walk.psi > most {
            return (6, before, handed);
        }
        handed.push(sample);
    }
    (0, walk.state(given, b, bmax), handed)
}
