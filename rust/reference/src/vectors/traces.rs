//! Traces with their texts.

use super::states::{every_r_and_l, greatest, resized};
use super::{number_after, pairs, Made, Making};
use crate::random::{Aim, Loudness};
use crate::settings::{Rules, Settings};
use crate::trace::trace;

/// A trace and its text.
#[derive(Clone, Debug)]
pub struct TraceVector {
    /// What the trace is about.
    pub about: &'static str,
    pub input: Vec<u8>,
    pub text: String,
}

impl TraceVector {
    /// The bytes in the file.
    pub fn bytes(&self) -> Vec<u8> {
        let lengths = [self.input.len(), self.text.len()].map(|length| (length as u32).to_le_bytes());
        [&lengths[0], &self.input[..], &lengths[1], self.text.as_bytes()].concat()
    }
}

impl Made for TraceVector {
    type Lent = Vec<u8>;

    fn of(about: &'static str, input: Vec<u8>) -> TraceVector {
        let text = trace(&input);
        TraceVector { about, input, text }
    }

    /// The number with which it stops, or 0.
    fn answer(&self) -> u8 {
        number_after("stop ", self.text.lines().last().unwrap_or_default().as_bytes())
    }
}

/// A trace that is being made.
#[derive(Clone, Debug)]
struct Plan {
    settings: Settings,
    samples: Vec<i16>,
    gains: Vec<u8>,
    training: Vec<i8>,
}

impl Plan {
    /// No blocks yet.
    fn empty(settings: Settings) -> Plan {
        Plan { settings, samples: Vec::new(), gains: Vec::new(), training: Vec::new() }
    }

    fn push(&mut self, sample: i64, gain: u8, entry: i64) {
        self.samples.push(sample as i16);
        self.gains.push(gain);
        self.training.push(entry as i8);
    }
}

impl From<Plan> for Vec<u8> {
    /// The bytes; where N is 0, of one block.
    fn from(plan: Plan) -> Vec<u8> {
        let s = &plan.settings;
        let count = plan.samples.len().checked_div(s.n.into()).unwrap_or(1);
        let mut input = vec![s.p, s.q, s.n, s.r, s.l, 0];
        input.extend((count as u16).to_le_bytes());
        input.extend(s.m.to_le_bytes());
        for (m, &g) in plan.samples.iter().zip(&plan.gains) {
            input.extend(m.to_le_bytes());
            input.push(g);
        }
        input.extend(plan.training.iter().map(|&t| t as u8));
        input
    }
}

type Traces = Making<TraceVector>;

impl Traces {
    /// Blocks with each loudness of a list.
    fn blocks(&mut self, settings: Settings, list: &[Loudness], aim: Aim) -> Plan {
        let mut plan = Plan::empty(settings);
        list.iter().for_each(|&loudness| self.add(&mut plan, loudness, aim));
        plan
    }

    /// One block more.
    fn add(&mut self, plan: &mut Plan, loudness: Loudness, aim: Aim) {
        let (samples, gains) = self.random.samples(&plan.settings, loudness);
        plan.samples.extend(samples);
        plan.gains.extend(gains);
        plan.training.extend(self.random.training(&plan.settings, aim));
    }

    /// Symbols sent over a channel with four taps and a little noise. The
    /// first `trained` samples have their symbol as training entry.
    fn channel(&mut self, settings: Settings, count: usize, trained: usize) -> Plan {
        let mut plan = Plan::empty(settings);
        let end = settings.end_symbol() as i64;
        let mut sent = [0; 4];
        for i in 0..usize::from(settings.n) * count {
            sent.rotate_right(1);
            sent[0] = self.random.symbol(settings.r).into();
            let sum: i64 = sent.iter().zip([256, 100, -60, 30]).map(|(a, h)| a * h).sum();
            // A small value may come with a greater gain.
            let mut m = sum * 32000 / (446 * end) + self.random.between(-100, 100);
            let mut g = settings.l;
            while g < 15 && m.abs() < 16000 && self.random.chance(2, 3) {
                m *= 2;
                g += 1;
            }
            plan.push(m, g, if i < trained { sent[0] } else { 0 });
        }
        plan
    }
}

/// All trace vectors.
pub fn trace_vectors() -> Vec<TraceVector> {
    let mut all = Traces::new(0x7261_6365);
    all.put("worked example", 0, vec![1, 1, 1, 0, 0, 0, 2, 0, 0, 0, 0, 4, 0, 0x40, 0, 0, 0x40, 0, 1, 0]);
    sizes(&mut all);
    steps(&mut all);
    loud_and_quiet(&mut all);
    training(&mut all);
    no_blocks(&mut all);
    refused_sizes(&mut all);
    refused_steps(&mut all);
    refused_gains_and_training(&mut all);
    refused_bytes(&mut all);
    longest_inputs(&mut all);
    long_blocks(&mut all);
    any_traces(&mut all);
    all.list
}

/// Any r and L; p and q with the shortest block, p − 1 or 1, with one more, and with the longest.
fn sizes(all: &mut Traces) {
    all.each("every r and L", 0, every_r_and_l(), |all, (r, l)| {
        let (p, q) = (all.random.byte(1, 16), all.random.byte(1, 16));
        let n = all.random.byte(1.max(p - 1), 20);
        let list = [all.random.loudness(), Loudness::LoudRandom, all.random.loudness()];
        let aim = all.random.aim();
        all.blocks(greatest(p, q, n, r, l), &list, aim)
    });
    let taps = [(1, 1), (1, 16), (16, 1), (16, 16), (2, 2), (3, 9), (4, 5), (5, 4), (8, 8), (9, 3), (15, 7), (16, 8)];
    for (p, q) in taps {
        let (r, l, least) = (all.random.byte(0, 3), all.random.byte(0, 3), 1.max(p - 1));
        let blocks = [(least, 6, 4 * least), (least + 1, 6, 4 * (least + 1)), (128, 2, 160)];
        all.each("taps with short blocks and long ones", 0, blocks, |all, (n, count, trained)| {
            all.channel(greatest(p, q, n, r, l), count, trained.into())
        });
    }
    all.each("blocks of one sample", 0, [1, 2], |all, p| all.channel(greatest(p, 3, 1, 1, 0), 150, 90));
}

fn steps(all: &mut Traces) {
    for [p, q, n, r, l] in [[1, 1, 8, 0, 0], [3, 3, 8, 2, 1], [16, 16, 16, 3, 0], [4, 2, 8, 1, 15]] {
        let settings = greatest(p, q, n, r, l);
        let m = settings.m;
        all.each("steps from 0 to the largest", 0, [0, 1, 2, m / 1000, m / 2, m - 1, m], |all, m| {
            all.channel(settings.with_m(m), 5, 24)
        });
    }
    for settings in [greatest(1, 1, 1, 0, 0), greatest(3, 3, 2, 2, 1)] {
        for (number, m) in [(0, settings.m), (2, settings.m + 1)] {
            let plan = all.blocks(settings.with_m(m), &[Loudness::Loud], Aim::Trained);
            all.put("beside the largest step", number, plan);
        }
    }
}

fn loud_and_quiet(all: &mut Traces) {
    use Loudness::{Any, Even, Faint, Loud, LoudRandom, Lowest, Quiet, Wide, Zero};
    all.each("lowest sample throughout", 0, pairs([1, 2, 5, 16], [0, 4, 15]), |all, (p, l)| {
        all.blocks(greatest(p, 2, p.max(3), p % 4, l), &[Lowest; 3], Aim::Trained)
    });
    let mut plan = Plan::empty(greatest(2, 2, 16, 1, 0));
    (0..32).for_each(|at| plan.push(-32768, at % 16, 0));
    all.put("lowest sample with every gain", 0, plan);
    let lists: [&[Loudness]; 12] = [
        &[Zero],
        &[Zero, Zero, Zero],
        &[Zero, Faint, Zero, Zero, Faint],
        &[Loud, Quiet, Loud],
        &[Loud, Quiet, Quiet, Quiet, Loud, Loud],
        &[Quiet, Loud, Quiet, Loud],
        &[Loud, Zero, Zero, Loud],
        &[LoudRandom, Faint, Faint, LoudRandom, Zero, Faint],
        &[Faint, Quiet, Even, LoudRandom, Even, Quiet, Faint],
        &[Wide, Wide, Wide, Wide],
        &[Any, Zero, Any, Quiet, Any],
        &[Lowest, Zero, Faint, Lowest],
    ];
    let aims = [(1, Aim::Mixed), (7, Aim::Trained), (16, Aim::Decided)];
    all.each("loud and quiet blocks", 0, pairs(lists.iter().enumerate(), aims), |all, ((i, list), (p, aim))| {
        all.blocks(greatest(p, 4, p, i as u8 % 4, 0), list, aim)
    });
}

fn training(all: &mut Traces) {
    for settings in [0, 1, 2, 3].map(|r| greatest(6, 5, 10, r, 0)) {
        all.each("trained, then decided", 0, [120, 60, 0], |all, trained| all.channel(settings, 12, trained));
        all.each("mixed and end symbols", 0, [Aim::Mixed, Aim::Ends], |all, aim| {
            all.blocks(settings, &[Loudness::LoudRandom; 6], aim)
        });
    }
}

fn no_blocks(all: &mut Traces) {
    let good = greatest(3, 2, 5, 1, 2);
    let [longest, too_short] = [128, 14].map(|n| Settings { p: 16, q: 16, n, r: 3, l: 15, m: 0 });
    let bad_r = Settings { p: 1, q: 1, n: 1, r: 4, l: 0, m: 0 };
    for (number, settings) in [(0, good), (0, longest), (1, too_short), (1, bad_r), (2, good.with_m(good.m + 1))] {
        all.put("no blocks", number, Plan::empty(settings));
    }
    let mut bad = Vec::from(Plan::empty(good.with_m(0)));
    bad[5] = 255;
    all.put("no blocks", 8, bad);
}

fn refused_sizes(all: &mut Traces) {
    let good = Settings { p: 3, q: 2, n: 4, r: 1, l: 2, m: 0 };
    let list = "p0, p17 n128, p255, q0, q17, q255, p1 n0, n1, p16 n14, n129, n255, r4, r255, l16, l255, p4 n2, \
        p0 q0 n0 r9 l99";
    all.each("a size outside its limits", 1, list.split(", ").enumerate(), |_, (i, sizes)| {
        let mut plan = Plan::empty(resized(good, sizes).with_m([0, u32::MAX][i % 2]));
        let samples = usize::from(plan.settings.n) * (1 + i % 2);
        (0..samples).for_each(|_| plan.push(1234, 5, 1));
        plan
    });
    let plan = all.channel(resized(good, "p4 n3"), 2, 6);
    all.put("a size at its limit", 0, plan);
}

fn refused_steps(all: &mut Traces) {
    all.each("a step beyond the largest", 2, pairs(0..=3, [0, 3, 14, 15]), |all, (r, l)| {
        let (p, q) = (all.random.byte(1, 16), all.random.byte(1, 16));
        let settings = greatest(p, q, p, r, l);
        all.blocks(settings.with_m(settings.m + 1), &[Loudness::Any], Aim::Trained)
    });
    all.each("a step beyond the largest", 2, [1 << 30, 1 << 31, u32::MAX], |all, m| {
        let plan = all.blocks(greatest(1, 1, 1, 0, 15).with_m(m), &[Loudness::Any], Aim::Trained);
        Plan { gains: vec![0], training: vec![2], ..plan }
    });
}

/// In half of the bad gains an entry of the block is bad too, and one of a later block; with some bad entries a gain
/// of a later block is.
fn refused_gains_and_training(all: &mut Traces) {
    let wrong = [(0, 0), (4, 4), (2, 16), (5, 255), (9, 4), (11, 17), (14, 128), (15, 0), (18, 16), (19, 3)];
    let aims = [Aim::Trained, Aim::Decided];
    all.each("a gain outside its limits", 4, pairs(wrong, aims), |all, ((place, gain), aim)| {
        let mut plan = all.blocks(greatest(4, 3, 5, 2, 5), &[Loudness::Wide; 4], aim);
        plan.gains[place] = gain;
        if aim == Aim::Decided {
            plan.training[place - place % 5] = 2;
            plan.training[19] = -2;
        }
        plan
    });
    for r in 0..=3 {
        let (settings, end) = (greatest(2, 3, 4, r, 1), (2i16 << r) - 1);
        let entries = [end + 2, -end - 2, 2, -2, end + 1, -128, 127];
        all.each("a training entry that is no symbol", 5, entries.into_iter().enumerate(), |all, (i, entry)| {
            let mut plan = all.blocks(settings, &[Loudness::LoudRandom; 3], Aim::Mixed);
            plan.training[4 * (i % 3) + i % 4] = entry as i8;
            if i % 3 < 2 {
                plan.gains[11] = 0;
            }
            plan
        });
        let training = [end, -end, 1, -1].map(|entry| entry as i8).to_vec();
        let plan = all.blocks(settings, &[Loudness::Any], Aim::Decided);
        all.put("training entries at their limits", 0, Plan { training, ..plan });
    }
}

fn refused_bytes(all: &mut Traces) {
    let good: Vec<u8> = all.blocks(greatest(2, 2, 3, 1, 0), &[Loudness::Any; 2], Aim::Mixed).into();
    let whole = good.len();
    let mut put = |number: u8, length: usize, changes: &[(usize, u8)]| {
        let mut bytes = good.clone();
        bytes.resize(length, 0);
        changes.iter().for_each(|&(place, byte)| bytes[place] = byte);
        all.put("other bytes than a good trace", number, bytes);
    };
    put(0, whole, &[]);
    let lengths = [0, 1, 2, 5, 6, 8, 11, 12, 13, 24, whole - 1, whole + 1, whole + 2, whole + 3, whole + 4, whole + 12];
    lengths.into_iter().for_each(|length| put(8, length, &[]));
    [1, 2, 128, 255].into_iter().for_each(|byte| put(8, whole, &[(5, byte)]));
    for (low, high) in [(0, 0), (1, 0), (3, 0), (0, 1), (2, 1), (255, 255)] {
        put(8, whole, &[(6, low), (7, high)]);
    }
    put(8, whole, &[(2, 4)]);
    // With bad sizes, 8 still goes first.
    [0, 1, 3, 4].into_iter().for_each(|place| put(8, whole - 1, &[(place, 200)]));
    put(8, whole, &[(0, 0), (5, 7)]);
    put(8, whole, &[(2, 0)]);
}

/// 65,536 bytes are 12 + 4·16381, and 16381 is prime: N = 1.
fn longest_inputs(all: &mut Traces) {
    let settings = greatest(2, 6, 1, 1, 0);
    let plan = all.channel(settings, 16381, 9000);
    let longest = Vec::from(plan.clone());
    all.put("the longest input", 0, longest.clone());
    all.put("one byte beyond the longest", 8, [&longest[..], &[0]].concat());
    all.put("one byte less than it says", 8, &longest[..longest.len() - 1]);
    let mut early = plan.clone();
    early.gains[300] = 16;
    all.put("the longest input, stopped early", 4, early);
    all.put("the longest input, step refused", 2, Plan { settings: settings.with_m(settings.m + 1), ..plan });
    let beyond = [(settings, 16382), (greatest(16, 16, 128, 3, 0).with_m(0), 128)];
    all.each("right length beyond the longest", 8, beyond, |all, (settings, count)| all.channel(settings, count, 0));
}

fn long_blocks(all: &mut Traces) {
    // 12 + 4·128·127 = 65,036, nearly all of it loud and quiet in turn.
    let mut plan = all.channel(greatest(16, 16, 128, 3, 0), 127, 8000);
    for block in 0..127 {
        let own = 128 * block..128 * (block + 1);
        match block % 5 {
            1 => plan.gains[own].fill(15),
            3 if block % 2 == 1 => plan.samples[own].fill(0),
            4 => plan.samples[own].fill(-32768),
            _ => {}
        }
    }
    all.put("long blocks, many of them", 0, plan);

    // 12 + 4·126·130 = 65,532, stopped on the way.
    let mut plan = all.channel(greatest(9, 4, 126, 2, 1), 130, 20000);
    plan.training[126 * 12 + 125] = 9;
    all.put("long blocks, stopped early", 5, plan);
}

/// Any blocks, and blocks in which ψ goes up and down: quiet samples for the end symbol make large weights, loud ones
/// for 1 small weights again, and each sample has the sign of its symbol.
fn any_traces(all: &mut Traces) {
    all.each("any trace", 0, 0..60, |all, _| {
        let settings = all.random.settings();
        let mut plan = Plan::empty(Settings { n: settings.n.min(40), ..settings });
        for _ in 0..all.random.between(1, 6) {
            let (loudness, aim) = (all.random.loudness(), all.random.aim());
            all.add(&mut plan, loudness, aim);
        }
        plan
    });
    all.each("up and down", 0, [[1, 1, 16, 3], [3, 2, 8, 3], [1, 2, 1, 1], [2, 1, 5, 2]], |all, [p, q, n, r]| {
        let mut plan = Plan::empty(greatest(p, q, n, r, 0));
        let end = plan.settings.end_symbol() as i64;
        for (samples, sample, symbol) in [(160, 8000, end), (80, 32767, 1), (60, 12000, end)] {
            for _ in 0..samples - samples % n {
                let sign = all.random.sign();
                plan.push(sign * sample, 0, sign * symbol);
            }
        }
        plan
    });
}
