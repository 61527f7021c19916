//! Traces with their texts.

use crate::random::{Aim, Loudness, Random};
use crate::settings::Settings;
use crate::trace::trace;

/// A trace and its text.
#[derive(Clone, Debug)]
pub struct TraceVector {
    /// What the trace is about.
    pub about: &'static str,
    pub input: Vec<u8>,
    pub text: String,
}

impl TraceVector {
    /// The trace's length (u32), the trace, the text's length (u32), the text.
    pub fn bytes(&self) -> Vec<u8> {
        let mut bytes = Vec::new();
        bytes.extend((self.input.len() as u32).to_le_bytes());
        bytes.extend(&self.input);
        bytes.extend((self.text.len() as u32).to_le_bytes());
        bytes.extend(self.text.as_bytes());
        bytes
    }
}

/// A trace that is being made.
#[derive(Clone, Debug)]
struct Plan {
    settings: Settings,
    count: u16,
    samples: Vec<i16>,
    gains: Vec<u8>,
    training: Vec<i8>,
}

impl Plan {
    fn input(&self) -> Vec<u8> {
        let s = &self.settings;
        let mut input = vec![s.p, s.q, s.n, s.r, s.l, 0];
        input.extend(self.count.to_le_bytes());
        input.extend(s.m.to_le_bytes());
        for (m, &g) in self.samples.iter().zip(&self.gains) {
            input.extend(m.to_le_bytes());
            input.push(g);
        }
        input.extend(self.training.iter().map(|&t| t as u8));
        input
    }

    /// No blocks yet.
    fn empty(settings: Settings) -> Plan {
        Plan {
            settings,
            count: 0,
            samples: Vec::new(),
            gains: Vec::new(),
            training: Vec::new(),
        }
    }

    /// One block more.
    fn add(&mut self, random: &mut Random, loudness: Loudness, aim: Aim) {
        let (samples, gains) = random.samples(&self.settings, loudness);
        self.samples.extend(samples);
        self.gains.extend(gains);
        self.training.extend(random.training(&self.settings, aim));
        self.count += 1;
    }

    /// Blocks with each loudness of a list.
    fn of(random: &mut Random, settings: Settings, list: &[Loudness], aim: Aim) -> Plan {
        let mut plan = Plan::empty(settings);
        for &loudness in list {
            plan.add(random, loudness, aim);
        }
        plan
    }

    /// Blocks in which each sample has the sign of its symbol, of one size
    /// each, with the least gain.
    fn spell(&mut self, random: &mut Random, blocks: u16, sample: i16, symbol: i8) {
        for _ in 0..usize::from(self.settings.n) * usize::from(blocks) {
            let sign = random.sign();
            self.samples.push(sign as i16 * sample);
            self.gains.push(self.settings.l);
            self.training.push(sign as i8 * symbol);
        }
        self.count += blocks;
    }

    /// Symbols sent over a channel with four taps and a little noise. The
    /// first `trained` samples have their symbol as training entry.
    fn channel(random: &mut Random, settings: Settings, count: u16, trained: usize) -> Plan {
        let mut plan = Plan::empty(settings);
        plan.count = count;
        let end = settings.end_symbol() as i64;
        let mut sent = [0i64; 4];
        for i in 0..usize::from(settings.n) * usize::from(count) {
            sent.rotate_right(1);
            sent[0] = i64::from(random.symbol(settings.r));
            let sum: i64 = sent
                .iter()
                .zip([256, 100, -60, 30])
                .map(|(a, h)| a * h)
                .sum();
            let m = sum * 32000 / (446 * end) + random.between(-100, 100);
            // A small value may come with a greater gain.
            let mut m = m;
            let mut g = settings.l;
            while g < 15 && m.abs() < 16000 && random.chance(2, 3) {
                m *= 2;
                g += 1;
            }
            plan.samples.push(m as i16);
            plan.gains.push(g);
            plan.training
                .push(if i < trained { sent[0] as i8 } else { 0 });
        }
        plan
    }
}

struct Collection {
    random: Random,
    list: Vec<TraceVector>,
}

impl Collection {
    fn put(&mut self, about: &'static str, input: Vec<u8>) {
        let text = trace(&input);
        self.list.push(TraceVector { about, input, text });
    }

    fn plan(&mut self, about: &'static str, plan: &Plan) {
        self.put(about, plan.input());
    }
}

fn sizes(p: u8, q: u8, n: u8, r: u8, l: u8) -> Settings {
    Settings {
        p,
        q,
        n,
        r,
        l,
        m: 0,
    }
}

fn with_largest(settings: Settings) -> Settings {
    settings.with_m(settings.largest_m())
}

/// All trace vectors.
pub fn trace_vectors() -> Vec<TraceVector> {
    let mut all = Collection {
        random: Random::new(0x7261_6365),
        list: Vec::new(),
    };
    worked_example(&mut all);
    every_r_and_l(&mut all);
    tap_counts(&mut all);
    steps(&mut all);
    loudness(&mut all);
    training(&mut all);
    no_blocks(&mut all);
    refused_sizes(&mut all);
    refused_steps(&mut all);
    refused_gains(&mut all);
    refused_training(&mut all);
    refused_bytes(&mut all);
    long_traces(&mut all);
    any_traces(&mut all);
    up_and_down(&mut all);
    all.list
}

fn worked_example(all: &mut Collection) {
    let example = [
        0x01, 0x01, 0x01, 0x00, 0x00, 0x00, 0x02, 0x00, 0x00, 0x00, 0x00, 0x04, 0x00, 0x40, 0x00,
        0x00, 0x40, 0x00, 0x01, 0x00,
    ];
    all.put("worked example", example.to_vec());
}

fn every_r_and_l(all: &mut Collection) {
    for r in 0..=3 {
        for l in 0..=15 {
            let p = all.random.byte(1, 16);
            let q = all.random.byte(1, 16);
            let n = all.random.byte(1.max(p - 1), 20);
            let settings = with_largest(sizes(p, q, n, r, l));
            let list = [
                all.random.loudness(),
                Loudness::LoudRandom,
                all.random.loudness(),
            ];
            let aim = all.random.aim();
            let plan = Plan::of(&mut all.random, settings, &list, aim);
            all.plan("every r and L", &plan);
        }
    }
}

fn tap_counts(all: &mut Collection) {
    let pairs = [
        (1, 1),
        (1, 16),
        (16, 1),
        (16, 16),
        (2, 2),
        (3, 9),
        (4, 5),
        (5, 4),
        (8, 8),
        (9, 3),
        (15, 7),
        (16, 8),
    ];
    for (p, q) in pairs {
        let r = all.random.byte(0, 3);
        let l = all.random.byte(0, 3);
        // The shortest block, p − 1 or 1, and one more.
        let least = 1.max(p - 1);
        for n in [least, least + 1] {
            let settings = with_largest(sizes(p, q, n, r, l));
            let trained = usize::from(n) * 4;
            let plan = Plan::channel(&mut all.random, settings, 6, trained);
            all.plan("taps with a short block", &plan);
        }
        let settings = with_largest(sizes(p, q, 128, r, l));
        let plan = Plan::channel(&mut all.random, settings, 2, 160);
        all.plan("taps with the longest block", &plan);
    }
    for p in [1, 2] {
        let settings = with_largest(sizes(p, 3, 1, 1, 0));
        let plan = Plan::channel(&mut all.random, settings, 150, 90);
        all.plan("blocks of one sample", &plan);
    }
}

fn steps(all: &mut Collection) {
    for (p, q, n, r, l) in [
        (1, 1, 8, 0, 0),
        (3, 3, 8, 2, 1),
        (16, 16, 16, 3, 0),
        (4, 2, 8, 1, 15),
    ] {
        let settings = sizes(p, q, n, r, l);
        let largest = settings.largest_m();
        for m in [0, 1, 2, largest / 1000, largest / 2, largest - 1, largest] {
            let plan = Plan::channel(&mut all.random, settings.with_m(m), 5, 24);
            let about = if m == 0 {
                "frozen"
            } else if m == largest {
                "largest step"
            } else {
                "other step"
            };
            all.plan(about, &plan);
        }
    }
    // The two cases beside the limits, with one sample.
    for (settings, m) in [
        (sizes(1, 1, 1, 0, 0), 67_108_864),
        (sizes(3, 3, 2, 2, 1), 2_581_110),
    ] {
        for m in [m, m + 1] {
            let list = [Loudness::Loud];
            let plan = Plan::of(&mut all.random, settings.with_m(m), &list, Aim::Trained);
            all.plan("beside the largest step", &plan);
        }
    }
}

fn loudness(all: &mut Collection) {
    use Loudness::{Any, Even, Faint, Loud, LoudRandom, Lowest, Quiet, Wide, Zero};
    for p in [1, 2, 5, 16] {
        for l in [0, 4, 15] {
            let settings = with_largest(sizes(p, 2, p.max(3), p % 4, l));
            let plan = Plan::of(&mut all.random, settings, &[Lowest; 3], Aim::Trained);
            all.plan("lowest sample throughout", &plan);
        }
    }
    // The lowest sample alone with every gain.
    let mut plan = Plan::empty(with_largest(sizes(2, 2, 16, 1, 0)));
    for _ in 0..2 {
        plan.count += 1;
        for g in 0..16 {
            plan.samples.push(-32768);
            plan.gains.push(g);
            plan.training.push(0);
        }
    }
    all.plan("lowest sample with every gain", &plan);
    let lists: [&[Loudness]; 12] = [
        &[Zero],
        &[Zero, Zero, Zero],
        &[Zero, Faint, Zero, Zero, Faint],
        &[Loud, Quiet, Loud],
        &[Loud, Quiet, Quiet, Quiet, Loud, Loud],
        &[Quiet, Loud, Quiet, Loud],
        &[Loud, Zero, Zero, Loud],
        &[LoudRandom, Faint, Faint, LoudRandom, Zero, Faint],
        &[Faint, Quiet, Even, LoudRandom, Even, Quiet, Faint],
        &[Wide, Wide, Wide, Wide],
        &[Any, Zero, Any, Quiet, Any],
        &[Lowest, Zero, Faint, Lowest],
    ];
    for (i, list) in lists.into_iter().enumerate() {
        for (p, aim) in [(1, Aim::Mixed), (7, Aim::Trained), (16, Aim::Decided)] {
            let r = (i % 4) as u8;
            let settings = with_largest(sizes(p, 4, p, r, 0));
            let plan = Plan::of(&mut all.random, settings, list, aim);
            all.plan("loud and quiet blocks", &plan);
        }
    }
}

fn training(all: &mut Collection) {
    for r in 0..=3 {
        let settings = with_largest(sizes(6, 5, 10, r, 0));
        for trained in [120, 60, 0] {
            let plan = Plan::channel(&mut all.random, settings, 12, trained);
            let about = match trained {
                120 => "trained",
                60 => "trained, then decided",
                _ => "decided",
            };
            all.plan(about, &plan);
        }
        let list = [Loudness::LoudRandom; 6];
        let plan = Plan::of(&mut all.random, settings, &list, Aim::Mixed);
        all.plan("mixed", &plan);
        let plan = Plan::of(&mut all.random, settings, &list, Aim::Ends);
        all.plan("end symbols", &plan);
    }
}

fn no_blocks(all: &mut Collection) {
    let good = sizes(3, 2, 5, 1, 2);
    all.plan("no blocks", &Plan::empty(with_largest(good)));
    all.plan("no blocks", &Plan::empty(sizes(16, 16, 128, 3, 15)));
    all.plan("no blocks", &Plan::empty(sizes(16, 16, 14, 3, 15)));
    all.plan("no blocks", &Plan::empty(sizes(1, 1, 1, 4, 0)));
    let beyond = good.with_m(good.largest_m() + 1);
    all.plan("no blocks", &Plan::empty(beyond));
    let mut bad = Plan::empty(good).input();
    bad[5] = 255;
    all.put("no blocks", bad);
}

fn refused_sizes(all: &mut Collection) {
    let good = sizes(3, 2, 4, 1, 2);
    let list = [
        Settings { p: 0, ..good },
        Settings {
            p: 17,
            n: 128,
            ..good
        },
        Settings { p: 255, ..good },
        Settings { q: 0, ..good },
        Settings { q: 17, ..good },
        Settings { q: 255, ..good },
        Settings { p: 1, n: 0, ..good },
        Settings { n: 1, ..good },
        Settings {
            p: 16,
            n: 14,
            ..good
        },
        Settings { n: 129, ..good },
        Settings { n: 255, ..good },
        Settings { r: 4, ..good },
        Settings { r: 255, ..good },
        Settings { l: 16, ..good },
        Settings { l: 255, ..good },
        Settings { p: 4, n: 2, ..good },
        Settings {
            p: 0,
            q: 0,
            n: 0,
            r: 9,
            l: 99,
            m: u32::MAX,
        },
    ];
    for (i, settings) in list.into_iter().enumerate() {
        let count = 1 + (i % 2) as u16;
        let samples = usize::from(settings.n) * usize::from(count);
        let plan = Plan {
            settings: settings.with_m([0, u32::MAX][i % 2]),
            count,
            samples: vec![1234; samples],
            gains: vec![5; samples],
            training: vec![1; samples],
        };
        all.plan("a size outside its limits", &plan);
    }
    // The neighbour of p = 4, N = 2 passes.
    let plan = Plan::channel(&mut all.random, sizes(4, 2, 3, 1, 2), 2, 6);
    all.plan("a size at its limit", &plan);
}

fn refused_steps(all: &mut Collection) {
    for r in 0..=3 {
        for l in [0, 3, 14, 15] {
            let p = all.random.byte(1, 16);
            let q = all.random.byte(1, 16);
            let settings = sizes(p, q, p, r, l);
            let beyond = settings.with_m(settings.largest_m() + 1);
            let plan = Plan::of(&mut all.random, beyond, &[Loudness::Any], Aim::Trained);
            all.plan("a step beyond the largest", &plan);
        }
    }
    for m in [1 << 30, 1 << 31, u32::MAX] {
        let settings = sizes(1, 1, 1, 0, 15).with_m(m);
        let mut plan = Plan::of(&mut all.random, settings, &[Loudness::Any], Aim::Trained);
        plan.gains[0] = 0;
        plan.training[0] = 2;
        all.plan("a step beyond the largest", &plan);
    }
}

fn refused_gains(all: &mut Collection) {
    for (block, place, g) in [
        (0, 0, 0),
        (0, 4, 4),
        (0, 2, 16),
        (1, 0, 255),
        (1, 4, 4),
        (2, 1, 17),
        (2, 4, 128),
        (3, 0, 0),
        (3, 3, 16),
        (3, 4, 3),
    ] {
        for aim in [Aim::Trained, Aim::Decided] {
            let settings = with_largest(sizes(4, 3, 5, 2, 5));
            let list = [Loudness::Wide; 4];
            let mut plan = Plan::of(&mut all.random, settings, &list, aim);
            plan.gains[5 * block + place] = g;
            // In half of them a training entry of the block is bad too, and
            // one of a later block.
            if aim == Aim::Decided {
                plan.training[5 * block] = 2;
                plan.training[19] = -2;
            }
            all.plan("a gain outside its limits", &plan);
        }
    }
}

fn refused_training(all: &mut Collection) {
    for r in 0..=3u8 {
        let end = (2i16 << r) - 1;
        for (i, entry) in [end + 2, -end - 2, 2, -2, end + 1, -128, 127]
            .into_iter()
            .enumerate()
        {
            let settings = with_largest(sizes(2, 3, 4, r, 1));
            let list = [Loudness::LoudRandom; 3];
            let mut plan = Plan::of(&mut all.random, settings, &list, Aim::Mixed);
            plan.training[4 * (i % 3) + i % 4] = entry as i8;
            // A bad gain in a later block does not show.
            if i % 3 < 2 {
                plan.gains[11] = 0;
            }
            all.plan("a training entry that is no symbol", &plan);
        }
        let settings = with_largest(sizes(2, 3, 4, r, 1));
        let mut plan = Plan::of(&mut all.random, settings, &[Loudness::Any], Aim::Decided);
        plan.training = vec![end as i8, -end as i8, 1, -1];
        all.plan("training entries at their limits", &plan);
    }
}

fn refused_bytes(all: &mut Collection) {
    let settings = with_largest(sizes(2, 2, 3, 1, 0));
    let list = [Loudness::Any; 2];
    let good = Plan::of(&mut all.random, settings, &list, Aim::Mixed).input();
    all.put("good before its damage", good.clone());
    for length in [0, 1, 2, 5, 6, 8, 11, 12, 13, 24, good.len() - 1] {
        all.put("too short", good[..length].to_vec());
    }
    for more in [1, 2, 3, 4, 12] {
        let mut long = good.clone();
        long.extend(vec![0; more]);
        all.put("too long", long);
    }
    for byte in [1, 2, 128, 255] {
        let mut bad = good.clone();
        bad[5] = byte;
        all.put("nonzero byte 5", bad);
    }
    for (low, high) in [(0, 0), (1, 0), (3, 0), (0, 1), (2, 1), (255, 255)] {
        let mut bad = good.clone();
        bad[6] = low;
        bad[7] = high;
        all.put("another count", bad);
    }
    let mut bad = good.clone();
    bad[2] = 4;
    all.put("another block length", bad);
    // With bad sizes, 8 still goes first.
    for place in [0, 1, 3, 4] {
        let mut bad = good.clone();
        bad[place] = 200;
        bad.pop();
        all.put("bad sizes and a bad length", bad);
    }
    let mut bad = good.clone();
    bad[0] = 0;
    bad[5] = 7;
    all.put("bad sizes and byte 5", bad);
    let mut bad = good.clone();
    bad[2] = 0;
    all.put("no samples in a block, too long", bad);
}

fn long_traces(all: &mut Collection) {
    // 65,536 bytes are 12 + 4·16381, and 16381 is prime: N = 1.
    let settings = with_largest(sizes(2, 6, 1, 1, 0));
    let plan = Plan::channel(&mut all.random, settings, 16381, 9000);
    let longest = plan.input();
    all.put("the longest input", longest.clone());

    let mut one_more = longest.clone();
    one_more.push(0);
    all.put("one byte beyond the longest", one_more);
    all.put(
        "one byte less than it says",
        longest[..longest.len() - 1].to_vec(),
    );
    let mut early = plan.clone();
    early.gains[300] = 16;
    all.plan("the longest input, stopped early", &early);
    let mut bad = plan.clone();
    bad.settings.m = plan.settings.m + 1;
    all.plan("the longest input, step refused", &bad);

    // Right by its own count, but too long.
    let beyond = Plan::channel(&mut all.random, settings, 16382, 0);
    all.plan("right length beyond the longest", &beyond);
    let beyond = Plan::channel(&mut all.random, sizes(16, 16, 128, 3, 0), 128, 0);
    all.plan("right length beyond the longest", &beyond);

    // 12 + 4·128·127 = 65,036, nearly all of it loud and quiet in turn.
    let settings = with_largest(sizes(16, 16, 128, 3, 0));
    let mut plan = Plan::channel(&mut all.random, settings, 127, 8000);
    for block in 0..127 {
        let own = 128 * block..128 * (block + 1);
        match block % 5 {
            1 => plan.gains[own].fill(15),
            3 if block % 2 == 1 => plan.samples[own].fill(0),
            4 => plan.samples[own].fill(-32768),
            _ => {}
        }
    }
    all.plan("long blocks, many of them", &plan);

    // 12 + 4·126·130 = 65,532, stopped on the way.
    let settings = with_largest(sizes(9, 4, 126, 2, 1));
    let mut plan = Plan::channel(&mut all.random, settings, 130, 20000);
    plan.training[126 * 12 + 125] = 9;
    all.plan("long blocks, stopped early", &plan);
}

fn any_traces(all: &mut Collection) {
    for _ in 0..60 {
        let mut settings = all.random.settings();
        settings.n = settings.n.min(40);
        let mut plan = Plan::empty(settings);
        for _ in 0..all.random.between(1, 6) {
            let loudness = all.random.loudness();
            let aim = all.random.aim();
            plan.add(&mut all.random, loudness, aim);
        }
        all.plan("any trace", &plan);
    }
}

/// Quiet samples for the end symbol make large weights, loud ones for 1 small
/// weights again.
fn up_and_down(all: &mut Collection) {
    for (p, q, n, r) in [(1, 1, 16, 3), (3, 2, 8, 3), (1, 2, 1, 1), (2, 1, 5, 2)] {
        let settings = with_largest(sizes(p, q, n, r, 0));
        let end = settings.end_symbol() as i8;
        let mut plan = Plan::empty(settings);
        let blocks = |samples: u16| samples / u16::from(n);
        plan.spell(&mut all.random, blocks(160), 8000, end);
        plan.spell(&mut all.random, blocks(80), 32767, 1);
        plan.spell(&mut all.random, blocks(60), 12000, end);
        all.plan("up and down", &plan);
    }
}
