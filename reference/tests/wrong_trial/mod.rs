//! A trial of a block in 64-bit numbers, written a second time for the tests,
//! which must find each of its faults.

use reference::{Inputs, Outputs, Settings, State};

/// What can be wrong, and who finds it: the tests over any blocks (b), over
/// refusals (r), over lists of calls (l), over swapped pairs (p).
pub const FAULTS: [(&str, &str); 55] = [
    ("accepted, the given state comes back", "b"),
    ("accepted, the given state advances", "bl"),
    ("accepted, the outputs stay", "bp"),
    ("accepted, the last sample is missing", "bp"),
    ("accepted, ψ comes back as given", "b"),
    ("accepted, b comes back as given", "bp"),
    ("accepted, B comes back as given", "bp"),
    ("accepted, weights come back as given", "b"),
    ("accepted, data come back as given", "bp"),
    ("accepted, a spare slot is written", "bp"),
    ("refused, a fresh state comes back", "br"),
    ("refused, spare slots come back as 0", "r"),
    ("refused, the given state is fresh", "brl"),
    ("refused, spare slots are put to 0", "rl"),
    ("refused, an output is written", "brp"),
    ("refused, the outputs are zeros", "brp"),
    ("3 brings the outputs to N", "rp"),
    ("6 hands back what was reached", "brp"),
    ("6 advances the given state", "brl"),
    ("6 hands out what was reached", "brp"),
    ("the given b is put to B", "brl"),
    ("3 looks at no output", "rp"),
    ("9 looks at no spare slot", "r"),
    ("6 goes unseen", "brp"),
    ("6 while ψ can still rise", "b"),
    ("2 before 1", "r"),
    ("9 before 2", "r"),
    ("3 before 9", "r"),
    ("4 before 3", "r"),
    ("5 before 4", "r"),
    ("4 and 5 sample by sample", "r"),
    ("5 and 6 sample by sample", "r"),
    ("never doubled", "b"),
    ("doubled at 4096 too", "b"),
    ("doubled below 4095 only", "b"),
    ("doubled at ψ = 0 too", "bp"),
    ("doubled until some reach 4096", "b"),
    ("doubled right after a halving", "brp"),
    ("doubled feed forward only", "b"),
    ("doubled feedback only", "b"),
    ("doubled by the weights before step 6", "b"),
    ("doubled by the feed forward weights", "bp"),
    ("doubled by the feedback weights", "bp"),
    ("samples are rounded down", "bp"),
    ("past samples are rounded down", "bp"),
    ("F is rounded down", "b"),
    ("Y is rounded down in Z", "b"),
    ("J is rounded down", "b"),
    ("feed forward gains are rounded down", "bp"),
    ("feedback gains are rounded down", "b"),
    ("halved by rounding down", "bp"),
    ("halved for positive weights only", "brp"),
    ("doubled for negative weights too", "bp"),
    ("a tie goes with the newest sample", "bp"),
    ("feed forward gains by magnitudes", "bp"),
];

/// T(a·2^places).
fn scaled(a: i64, places: i64) -> i64 {
    if places >= 0 {
        a * (1 << places)
    } else {
        a / (1 << -places)
    }
}

/// The same, or where it is rounded down the floor.
fn cut(a: i64, places: i64, down: bool) -> i64 {
    if down && places < 0 {
        a >> -places
    } else {
        scaled(a, places)
    }
}

fn bits(a: i64) -> i64 {
    64 - i64::from(a.unsigned_abs().leading_zeros())
}

/// S(k), the bit length of 2k − 1.
fn count(k: u8) -> i64 {
    bits(2 * i64::from(k) - 1)
}

fn sizes_fit(s: &Settings) -> bool {
    let taps = 1..=16;
    let least = s.p.saturating_sub(1).max(1);
    let block = (least..=128).contains(&s.n);
    taps.contains(&s.p) && taps.contains(&s.q) && block && s.r < 4 && s.l < 16
}

/// M·D is at most 2^30, both sides times 2^L.
fn admitted(s: &Settings) -> bool {
    let d = ((8 + 4 * u64::from(s.q)) << s.l) + 4 * u64::from(s.p);
    u64::from(s.m) * (d << (2 * s.r)) <= 1 << (30 + s.l)
}

/// Whether `v` is 0 or a symbol.
fn entry(v: i64, r: u8) -> bool {
    v == 0 || (v & 1 == 1 && v.abs() < 2 << r)
}

fn sound(state: &State, fault: &str) -> bool {
    let (s, p) = (&state.settings, usize::from(state.settings.p));
    if state.psi > 15 || state.b > state.bmax || state.bmax > 31 - s.l {
        return false;
    }
    let (weights, spare) = state.weights.split_at(s.taps());
    let (data, more) = state.data.split_at(s.taps());
    let reach = i64::from(state.bmax) + count(s.p);
    let small = |a: &i16| i64::from(*a).abs() << reach < 1 << (15 + state.b);
    let zeros = spare.iter().chain(more).all(|&place| place == 0);
    weights.iter().all(|w| (-16383..=16383).contains(w))
        && data[..p - 1].iter().all(small)
        && data[p - 1] == 0
        && data[p..].iter().all(|&v| entry(v.into(), s.r))
        && (zeros || fault == "9 looks at no spare slot")
}

/// Whether every list is `n` long.
fn fitting(n: usize, inputs: Inputs<'_>, outputs: &Outputs, fault: &str) -> bool {
    let read = [
        inputs.samples.len(),
        inputs.gains.len(),
        inputs.training.len(),
    ];
    let written = [
        outputs.y.len(),
        outputs.xi.len(),
        outputs.decision.len(),
        outputs.z.len(),
        outputs.theta.len(),
    ];
    read == [n; 3] && (written == [n; 5] || fault == "3 looks at no output")
}

/// The first of 1, 2, 9, 3, 4 and 5 that holds, else 0.
fn refusal(state: &State, inputs: Inputs<'_>, outputs: &Outputs, fault: &str) -> u8 {
    let s = &state.settings;
    let bad_gain = |g: &u8| !(s.l..=15).contains(g);
    let bad_entry = |t: &i8| !entry((*t).into(), s.r);
    let holds = |number: &u8| match number {
        1 => !sizes_fit(s),
        2 => !admitted(s),
        9 => !sound(state, fault),
        3 => !fitting(s.n.into(), inputs, outputs, fault),
        4 => inputs.gains.iter().any(bad_gain),
        _ => inputs.training.iter().any(bad_entry) && fault != "5 and 6 sample by sample",
    };
    let mut order = [1, 2, 9, 3, 4, 5];
    match fault {
        "2 before 1" if s.r < 4 && s.l < 16 => order.swap(0, 1),
        "9 before 2" => order.swap(1, 2),
        "3 before 9" => order.swap(2, 3),
        "4 before 3" => order.swap(3, 4),
        "5 before 4" => order.swap(4, 5),
        "4 and 5 sample by sample" if sizes_fit(s) => {
            let first = inputs.gains.iter().position(bad_gain);
            if inputs.training.iter().position(bad_entry) < first {
                order.swap(4, 5);
            }
        }
        _ => {}
    }
    order.into_iter().find(holds).unwrap_or(0)
}

/// What changes from sample to sample; samples and symbols newest first.
#[derive(Clone)]
struct Walk {
    psi: i64,
    weights: Vec<i64>,
    samples: Vec<i64>,
    symbols: Vec<i64>,
}

fn sum(weights: &[i64], data: &[i64]) -> i64 {
    weights.iter().zip(data).map(|(w, a)| w * a).sum()
}

impl Walk {
    /// One sample, already the newest: Y, ξ, decision, Z, θ.
    fn sample(&mut self, s: &Settings, gamma: i64, entry: i64, fault: &str) -> [i64; 5] {
        let (p, q) = (usize::from(s.p), usize::from(s.q));
        let before = self.weights.clone();
        let longest = self.symbols.iter().map(|&v| bits(v)).max();
        let nu = count(s.q) + longest.unwrap_or(0);
        let held: Vec<i64> = self.symbols.iter().map(|v| v << (15 - nu)).collect();
        let common = gamma.max(nu);
        let f = sum(&self.weights[..p], &self.samples);
        let f = cut(f, gamma - common, fault == "F is rounded down");
        let h = scaled(sum(&self.weights[p..], &held), nu - common);
        let (y, xi) = (f + h, self.psi + common);
        let decision = self.decide(y, xi, s.r, fault);
        let v = if entry == 0 { decision } else { entry };
        let theta = xi.max(count(s.q) + bits(v));
        let z = (v << (30 - theta)) - cut(y, xi - theta, fault == "Y is rounded down in Z");
        let pull = |exponent| {
            let places = exponent + theta - self.psi - 30;
            cut(i64::from(s.m) * z, places, fault == "J is rounded down")
        };
        let j = [pull(gamma - count(s.p)), pull(nu - count(s.q))];
        self.adapt(s, j, &held, fault);
        self.step7(p, &before, fault);
        self.symbols.insert(0, v);
        self.symbols.truncate(q);
        [y, xi, decision, z, theta]
    }

    /// Step 4, with the newest sample for the fault.
    fn decide(&self, y: i64, xi: i64, r: u8, fault: &str) -> i64 {
        let end = (2 << r) - 1;
        let tie = y & ((1 << (31 - xi)) - 1) == 0;
        let lower = tie && self.samples[0] < 0 && fault == "a tie goes with the newest sample";
        let decision = 2 * (y >> (31 - xi)) + 1;
        (decision - 2 * i64::from(lower)).clamp(-end, end)
    }

    /// Step 6 with J of both filters.
    fn adapt(&mut self, s: &Settings, [forward, back]: [i64; 2], held: &[i64], fault: &str) {
        let (weights, feedback) = self.weights.split_at_mut(s.p.into());
        let down = fault == "feed forward gains are rounded down";
        for (w, &a) in weights.iter_mut().zip(&self.samples) {
            let a = match fault {
                "feed forward gains by magnitudes" => a.abs(),
                _ => a,
            };
            *w += cut(forward * a, count(s.p) - 30, down);
        }
        let down = fault == "feedback gains are rounded down";
        for (w, a) in feedback.iter_mut().zip(held) {
            *w += cut(back * a, count(s.q) - 30, down);
        }
    }

    /// One halving, one doubling or neither. `before` are the weights before
    /// step 6.
    fn step7(&mut self, p: usize, before: &[i64], fault: &str) {
        let large = |w: &i64| match fault {
            "halved for positive weights only" => *w > 16383,
            _ => w.abs() > 16383,
        };
        if self.weights.iter().any(large) {
            let down = fault == "halved by rounding down";
            self.weights.iter_mut().for_each(|w| *w = cut(*w, -1, down));
            self.psi += 1;
            if fault == "doubled right after a halving" {
                self.double(p, fault);
            }
            return;
        }
        while self.doubles(p, before, fault) {
            self.double(p, fault);
            if fault != "doubled until some reach 4096" {
                return;
            }
        }
    }

    /// Whether the weights are to be doubled.
    fn doubles(&self, p: usize, before: &[i64], fault: &str) -> bool {
        let end = match fault {
            "doubled at 4096 too" => 4097,
            "doubled below 4095 only" => 4095,
            "never doubled" => 0,
            _ => 4096,
        };
        let looked_at = match fault {
            "doubled by the weights before step 6" => before,
            "doubled by the feed forward weights" => &self.weights[..p],
            "doubled by the feedback weights" => &self.weights[p..],
            _ => &self.weights,
        };
        // ψ falls to -1, a byte of 255, and no further.
        let least = i64::from(fault == "doubled at ψ = 0 too");
        let small = |w: &i64| match fault {
            "doubled for negative weights too" => *w < end,
            _ => w.abs() < end,
        };
        self.psi > -least && looked_at.iter().all(small)
    }

    fn double(&mut self, p: usize, fault: &str) {
        let doubled = match fault {
            "doubled feed forward only" => &mut self.weights[..p],
            "doubled feedback only" => &mut self.weights[p..],
            _ => &mut self.weights,
        };
        doubled.iter_mut().for_each(|w| *w *= 2);
        self.psi -= 1;
    }
}

/// The block: its number, the state that was reached and what was handed out.
fn block(given: &State, inputs: Inputs<'_>, fault: &str) -> (u8, State, Vec<[i64; 5]>) {
    let (s, scale) = (&given.settings, count(given.settings.p));
    let received = inputs.samples.iter().zip(inputs.gains);
    let x: Vec<i64> = received.map(|(&m, &g)| i64::from(m) << (15 - g)).collect();
    let b = x.iter().map(|&x| bits(x)).max().unwrap_or(0);
    let bmax = b.max(given.b.into());
    let gamma = i64::from(s.r) - 30 + bmax + scale;
    let mut walk = Walk::start(given, i64::from(given.bmax) - bmax, fault);
    let mut handed = Vec::new();
    let most = match fault {
        "6 goes unseen" => 255,
        "6 while ψ can still rise" => 14.max(walk.psi),
        _ => 15,
    };
    for (&x, &t) in x.iter().zip(inputs.training) {
        let before = walk.state(given, b, bmax);
        if !entry(t.into(), s.r) {
            return (5, before, handed);
        }
        let down = fault == "samples are rounded down";
        walk.samples.insert(0, cut(x, 15 - bmax - scale, down));
        walk.samples.truncate(s.p.into());
        let sample = walk.sample(s, gamma, t.into(), fault);
        if walk.psi > most {
            return (6, before, handed);
        }
        handed.push(sample);
    }
    (0, walk.state(given, b, bmax), handed)
}

impl Walk {
    /// Before the first sample; `fall` is by how much B falls.
    fn start(given: &State, fall: i64, fault: &str) -> Walk {
        let (p, taps) = (usize::from(given.settings.p), given.settings.taps());
        let wide = |list: &[i16]| list.iter().map(|&a| i64::from(a)).collect();
        let past = given.data[..p - 1].iter();
        let down = fault == "past samples are rounded down";
        Walk {
            psi: given.psi.into(),
            weights: wide(&given.weights[..taps]),
            samples: past.map(|&a| cut(a.into(), fall, down)).collect(),
            symbols: wide(&given.data[p..taps]),
        }
    }

    /// The state that holds this, with the spare slots as given.
    fn state(&self, given: &State, b: i64, bmax: i64) -> State {
        let mut state = given.clone();
        state.psi = self.psi as u8;
        state.b = b as u8;
        state.bmax = bmax as u8;
        for (place, &w) in state.weights.iter_mut().zip(&self.weights) {
            *place = w as i16;
        }
        let p = usize::from(given.settings.p);
        for (place, &a) in state.data[..p - 1].iter_mut().zip(&self.samples) {
            *place = a as i16;
        }
        for (place, &v) in state.data[p..].iter_mut().zip(&self.symbols) {
            *place = v as i16;
        }
        state
    }
}

/// Writes what was handed out, as far as the lists go.
fn write(handed: &[[i64; 5]], out: &mut Outputs) {
    fn put<T: TryFrom<i64>>(list: &mut [T], numbers: impl Iterator<Item = i64>) {
        for (place, number) in list.iter_mut().zip(numbers) {
            *place = T::try_from(number).ok().expect("a number that fits");
        }
    }
    put(&mut out.y, handed.iter().map(|sample| sample[0]));
    put(&mut out.xi, handed.iter().map(|sample| sample[1]));
    put(&mut out.decision, handed.iter().map(|sample| sample[2]));
    put(&mut out.z, handed.iter().map(|sample| sample[3]));
    put(&mut out.theta, handed.iter().map(|sample| sample[4]));
}

/// What becomes of the outputs.
fn hand_out(number: u8, n: u8, handed: &[[i64; 5]], out: &mut Outputs, fault: &str) {
    let n = usize::from(n);
    match (number, fault) {
        (0, "accepted, the outputs stay") => {}
        (0, "accepted, the last sample is missing") => write(&handed[..n - 1], out),
        (0, _) | (6, "6 hands out what was reached") => write(handed, out),
        (_, "refused, an output is written") => out.y.iter_mut().take(1).for_each(|y| *y = !*y),
        (_, "refused, the outputs are zeros") => write(&vec![[0; 5]; 128], out),
        (3, "3 brings the outputs to N") => {
            out.y.resize(n, 0);
            out.xi.resize(n, 0);
            out.decision.resize(n, 0);
            out.z.resize(n, 0);
            out.theta.resize(n, 0);
        }
        _ => {}
    }
}

/// The same state with every spare slot 0.
fn cleared(state: &State) -> State {
    let mut cleared = state.compact();
    cleared.weights.resize(state.weights.len(), 0);
    cleared.data.resize(state.data.len(), 0);
    cleared
}

/// What comes back.
fn hand_back(number: u8, given: &State, reached: &State, fault: &str) -> State {
    let mut back = if number == 0 { reached } else { given }.clone();
    match (number, fault) {
        (0, "accepted, the given state comes back") => back = given.clone(),
        (0, "accepted, ψ comes back as given") => back.psi = given.psi,
        (0, "accepted, b comes back as given") => back.b = given.b,
        (0, "accepted, B comes back as given") => back.bmax = given.bmax,
        (0, "accepted, weights come back as given") => back.weights = given.weights.clone(),
        (0, "accepted, data come back as given") => back.data = given.data.clone(),
        (0, "accepted, a spare slot is written") => {
            let spare = back.data.iter_mut().skip(given.settings.taps());
            spare.take(1).for_each(|place| *place = 1);
        }
        (1.., "refused, a fresh state comes back") => back = State::fresh(),
        (1.., "refused, spare slots come back as 0") => back = cleared(given),
        (6, "6 hands back what was reached") => back = reached.clone(),
        _ => {}
    }
    back
}

/// What becomes of the given state.
fn leave(number: u8, given: &mut State, reached: &State, fault: &str) {
    match (number, fault) {
        (0, "accepted, the given state advances") => *given = reached.clone(),
        (1.., "refused, the given state is fresh") => *given = State::fresh(),
        (1.., "refused, spare slots are put to 0") => *given = cleared(given),
        (6, "6 advances the given state") => *given = reached.clone(),
        (_, "the given b is put to B") => given.b = given.bmax,
        _ => {}
    }
}

/// A trial with a fault, or the right one where the fault is none of the list.
/// The state is lent to be written, so that a fault can write to it.
pub fn wrong_trial(
    given: &mut State,
    inputs: Inputs<'_>,
    outputs: &mut Outputs,
    fault: &str,
) -> (u8, State) {
    let mut number = refusal(given, inputs, outputs, fault);
    let (mut reached, mut handed) = (given.clone(), Vec::new());
    if number == 0 {
        (number, reached, handed) = block(given, inputs, fault);
    }
    hand_out(number, given.settings.n, &handed, outputs, fault);
    let back = hand_back(number, given, &reached, fault);
    leave(number, given, &reached, fault);
    (number, back)
}
