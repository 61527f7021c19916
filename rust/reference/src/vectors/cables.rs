//! Cables with their traces, and cables that are turned down.

use super::spoiled::{self, Spoiler};
use super::states::{every_r_and_l, resized};
use super::{pairs, Made, Making};
use crate::cable::{cable, gain, sum_at, Cause};
use crate::description::Description;
use crate::random::Random;
use crate::settings::Settings;

/// A cable, the length of the lent output, and the answer.
#[derive(Clone, Debug)]
pub struct CableVector {
    /// What the cable is about.
    pub about: &'static str,
    pub description: Description,
    /// The length of the lent output.
    pub output: usize,
    pub number: u8,
    /// The trace; empty where the number is not 0.
    pub trace: Vec<u8>,
}

impl CableVector {
    /// The bytes in the file.
    pub fn bytes(&self) -> Vec<u8> {
        let output = (self.output as u32).to_le_bytes();
        [&self.description.bytes()[..], &output, &[self.number], &self.trace].concat()
    }
}

impl Made for CableVector {
    /// A cable and the length of its output.
    type Lent = (Description, usize);

    fn of(about: &'static str, (description, output): (Description, usize)) -> CableVector {
        let mut trace = vec![0xA5; output];
        let number = cable(&description.cable(), &mut trace);
        if number != 0 {
            assert!(trace.iter().all(|&byte| byte == 0xA5));
            trace.clear();
        }
        CableVector { about, description, output, number, trace }
    }

    fn answer(&self) -> u8 {
        self.number
    }
}

impl From<Description> for (Description, usize) {
    /// With an output as long as the trace.
    fn from(description: Description) -> (Description, usize) {
        let output = description.cable().trace_length();
        (description, output)
    }
}

type Cables = Making<CableVector>;

impl Cables {
    /// Settings for so many symbols: N divides them.
    fn settings(&mut self, symbols: usize, r: u8, l: u8) -> Settings {
        let lengths: Vec<u8> = (1..=128).filter(|&n| symbols.is_multiple_of(n.into())).collect();
        let n = self.random.pick(&lengths);
        self.settings_with(n, r, l)
    }

    /// Settings with these sizes and any p, q and M.
    fn settings_with(&mut self, n: u8, r: u8, l: u8) -> Settings {
        let settings = Settings { p: self.random.byte(1, (n + 1).min(16)), q: self.random.byte(1, 16), n, r, l, m: 0 };
        settings.with_m(self.random.admitted_m(&settings))
    }

    fn any_r(&mut self) -> u8 {
        self.random.byte(0, 3)
    }

    /// An L, often 0.
    fn least_gain(&mut self) -> u8 {
        match self.random.below(3) {
            0 => 0,
            style => self.random.byte(0, [5, 15][style as usize - 1]),
        }
    }

    /// A response of one style.
    fn response(&mut self, values: usize) -> Vec<i16> {
        let random = &mut self.random;
        let style = random.below(6);
        let value = |at: usize| match style {
            0 => random.between(-32768, 32767),
            1 => random.pick(&[-32768, 32767]),
            2 => random.between(-32768, 32767) >> at.min(15),
            3 => random.between(-9, 9),
            4 if random.chance(3, 4) => 0,
            4 => random.between(-32768, 32767),
            _ => random.between(-32768, 32767) / (values as i64),
        };
        (0..values).map(value).map(|h| h as i16).collect()
    }

    /// Symbols of one style.
    fn symbols(&mut self, count: usize, r: u8) -> Vec<i8> {
        let random = &mut self.random;
        let style = random.below(5);
        let one = random.symbol(r);
        let symbol = |at: usize| match style {
            0 => one,
            1 => [one, -one][at % 2],
            2 => random.end_symbol(r),
            _ => random.symbol(r),
        };
        (0..count).map(symbol).collect()
    }

    /// A cable with any settings of this r and L; half of the symbols are training.
    fn described(&mut self, r: u8, l: u8, (response, symbols): (Vec<i16>, Vec<i8>)) -> Description {
        let training = symbols.len() as u32 / 2;
        Description { settings: self.settings(symbols.len(), r, l), response, symbols, training }
    }

    /// An accepted cable with any settings of this r and L.
    fn any(&mut self, r: u8, l: u8, values: usize, symbols: usize) -> Description {
        let settings = self.settings(symbols, r, l);
        self.fitting(settings, values, symbols)
    }

    /// An accepted cable: its response is halved until every gain is there.
    fn fitting(&mut self, settings: Settings, values: usize, symbols: usize) -> Description {
        let mut description = Description {
            settings,
            response: self.response(values),
            symbols: self.symbols(symbols, settings.r),
            training: self.random.between(0, symbols as i64) as u32,
        };
        loop {
            let cable = description.cable();
            match cable.cause(cable.trace_length()) {
                None => return description,
                Some(cause) => assert_eq!(cause, Cause::Gain, "{description:?}"),
            }
            description.response.iter_mut().for_each(|h| *h /= 2);
        }
    }
}

/// All cable vectors.
pub fn cable_vectors() -> Vec<CableVector> {
    let mut all = Cables::new(0x6361_626C);
    all.put("worked example", 0, spoiled::worked_example());
    every_gain(&mut all);
    no_gain(&mut all);
    silence(&mut all);
    ends_of_the_response(&mut all);
    every_length(&mut all);
    training_and_steps(&mut all);
    entries_that_are_no_symbols(&mut all);
    lists_turned_down(&mut all);
    outputs_turned_down(&mut all);
    set_up_goes_first(&mut all);
    two_causes(&mut all);
    long_traces(&mut all);
    any_cables(&mut all);
    all.list
}

/// A response and symbols with s = `target` at the last place and no greater |s| before it.
fn aimed(random: &mut Random, r: u8, target: i64) -> (Vec<i16>, Vec<i8>) {
    let small = target.abs() < 2000 || random.chance(1, 2);
    if target.abs() <= 32768 && small {
        return aimed_by_one(random, target);
    }
    loop {
        if let Some(found) = aimed_by_several(random, r, target) {
            return found;
        }
    }
}

/// The same with one value and symbols of 1 and −1.
fn aimed_by_one(random: &mut Random, target: i64) -> (Vec<i16>, Vec<i8>) {
    let sign = match target {
        32768 => -1,
        -32768 => 1,
        _ => random.sign(),
    };
    let before = random.below(5);
    let mut symbols: Vec<i8> = (0..before).map(|_| random.sign() as i8).collect();
    symbols.push(sign as i8);
    (vec![(sign * target) as i16], symbols)
}

/// The same with several values, where the draw leads there.
fn aimed_by_several(random: &mut Random, r: u8, target: i64) -> Option<(Vec<i16>, Vec<i8>)> {
    let values = random.between(2, 12) as usize;
    let mut symbols: Vec<i8> = (0..values).map(|_| random.symbol(r)).collect();
    let free = random.below(values as u64) as usize;
    symbols[free] = random.sign() as i8;
    let mut response = vec![0i16; values];
    let mut rest = target;
    for place in (0..values).filter(|&place| place != free) {
        let v = i64::from(symbols[place]);
        let share = 2 * rest / (v * values as i64);
        let h = (share + random.between(-99, 99)).clamp(-32768, 32767);
        response[values - 1 - place] = h as i16;
        rest -= h * v;
    }
    response[values - 1 - free] = i16::try_from(rest * i64::from(symbols[free])).ok()?;
    let mut earlier = (0..values - 1).map(|place| sum_at(&response, &symbols, place));
    let below = earlier.all(|s| s.abs() < i128::from(target.abs()));
    let last = sum_at(&response, &symbols, values - 1);
    (below && last == i128::from(target)).then_some((response, symbols))
}

/// |s| = 2^(15+r−g) and one less for each g, with both signs. L is the least gain: the greatest |s| is 2^(15+r−L) − 1,
/// and in others 2^(14+r−L).
fn every_gain(all: &mut Cables) {
    for (r, g) in every_r_and_l() {
        let power = 1i64 << (15 + r - g);
        for target in [power, power - 1, -power, 1 - power] {
            let lists = aimed(&mut all.random, r, target);
            let description = all.described(r, 0, lists);
            let has_gain = g > 0 || target.abs() < power;
            all.put("beside a gain", if has_gain { 0 } else { 10 }, description);
        }
    }
    let powers = every_r_and_l().map(|(r, l)| (r, l, 1i64 << (15 + r - l)));
    let targets = powers.flat_map(|(r, l, power)| [(r, l, power - 1), (r, l, -(power / 2))]);
    all.each("a gain of L", 0, targets, |all, (r, l, target)| {
        let lists = aimed(&mut all.random, r, target);
        all.described(r, l, lists)
    });
}

/// Delayed by `delay` symbols, one sample of s = a·(the first symbol): after
/// it the echoes of alternating symbols cancel.
fn one_sample(a: i16, first: i8, delay: usize, symbols: usize) -> (Vec<i16>, Vec<i8>) {
    let response = [vec![0; delay], vec![a, a]].concat();
    (response, alternating(first, -first, symbols))
}

fn alternating<T: Copy>(one: T, other: T, count: usize) -> Vec<T> {
    (0..count).map(|at| [one, other][at % 2]).collect()
}

/// A gain of L − 1 or none, at the first, a middle or the last place, and the greatest |s| of all, with both signs.
fn no_gain(all: &mut Cables) {
    all.each("a gain of L - 1", 10, every_r_and_l().filter(|(_, l)| *l > 0), |all, (r, l)| {
        let (limit, end) = (1i32 << (15 + r - l), (2 << r) - 1);
        let a = all.random.sign() as i16 * ((limit + end - 1) / end) as i16;
        let first = all.random.end_symbol(r);
        assert_eq!(gain(i128::from(a) * i128::from(first), r), Some(l - 1));
        all.described(r, l, one_sample(a, first, [0, 3, 5][usize::from(l) % 3], 6))
    });
    for r in 0..=3 {
        all.each("no gain", 10, [0, 3, 7], |all, delay| {
            let first = all.random.end_symbol(r);
            all.described(r, 0, one_sample(-32768, first, delay, 8))
        });
        all.each("no gain by far", 10, [-32768, 32767], |all, h| {
            let symbols = vec![all.random.end_symbol(r); 40];
            all.described(r, 0, (vec![h; 32], symbols))
        });
    }
}

/// s = 0 throughout, with L up to 15, and echoes that cancel after one sample that does not.
fn silence(all: &mut Cables) {
    for r in 0..=3 {
        all.each("silence", 0, [(15, 1), (15, 32), (0, 7)], |all, (l, values)| {
            let symbols = all.symbols(12, r);
            all.described(r, l, (vec![0; values], symbols))
        });
        let v = all.random.symbol(r);
        let description = all.described(r, 14, one_sample(1, v.signum(), 2, 9));
        all.put("echoes that cancel", 0, description);
    }
}

/// h = −32768 and 32767 alone and with each other, and one echo for each place of the response.
fn ends_of_the_response(all: &mut Cables) {
    for r in 0..=3 {
        let symbols = [1, -1, (1 << r) - 1, -(2 << r) + 1];
        all.each("one value at its end", None, pairs([-32768, 32767], symbols), |all, (h, v)| {
            all.described(r, 0, (vec![h], vec![v | 1; 4]))
        });
        let ends = [(-32768, 32767), (32767, -32768), (-32768, -32768)];
        all.each("values at their ends", None, ends, |all, (one, other)| {
            let v = [1, -1][usize::from(r % 2)];
            let symbols = alternating(v, if one == other { -v } else { v }, 48);
            all.described(r, 0, (alternating(one, other, 32), symbols))
        });
    }
    all.each("one echo", 0, 0..32, |all, delay| {
        let r = (delay % 4) as u8;
        let mut response = vec![0; delay + 1];
        response[delay] = all.random.between(-2184, 2184) as i16 | 1;
        let symbols = all.symbols(33, r);
        all.described(r, 0, (response, symbols))
    });
}

/// N from 1 to 128, one or two blocks; 1 to 32 values, with more symbols than values and with fewer.
fn every_length(all: &mut Cables) {
    all.each("every N", 0, 1..=128, |all, n| {
        let (r, l) = (all.any_r(), all.least_gain());
        let settings = all.settings_with(n, r, l);
        let blocks = if n <= 16 { 2 } else { 1 };
        let values = all.random.between(1, 32) as usize;
        all.fitting(settings, values, usize::from(n) * blocks)
    });
    for values in 1..=32 {
        let r = all.any_r();
        all.each("every response length", 0, [36, 1 + values / 3], |all, symbols| all.any(r, 0, values, symbols));
    }
}

/// No training, some, and all; M at its limit and beyond.
fn training_and_steps(all: &mut Cables) {
    all.each("training entries", 0, pairs(0..=3, [0, 1, 9, 17, 18]), |all, (r, training)| Description {
        training,
        ..all.any(r, 1, 4, 18)
    });
    for (r, l) in pairs(0..=3, [0, 1, 7, 15]) {
        let mut description = all.any(r, l, 3, 4);
        description.settings.m = description.settings.greatest_m();
        all.put("the greatest step", 0, description.clone());
        description.settings.m += 1;
        all.put("a step beyond it", 2, description);
    }
    all.each("a step beyond it", 2, [1 << 30, 1 << 31, u32::MAX], |all, m| {
        let mut description = all.described(0, 15, (vec![0], vec![1, -1, 1, -1]));
        description.settings.m = m;
        description
    });
}

/// 0, even and too large ones at the first, a middle and the last place, among training entries and behind them.
fn entries_that_are_no_symbols(all: &mut Cables) {
    for r in 0..=3 {
        let end = (2i16 << r) - 1;
        let entries = [0, 2, -2, end + 1, end + 2, -end - 2, 127, -127, -128];
        all.each("an entry that is no symbol", 10, pairs(entries, [0, 4, 9]), |all, (entry, place)| {
            let mut description = all.any(r, 0, 2, 10);
            description.response = vec![100, -20];
            description.training = all.random.pick(&[0, 5, 10]);
            description.symbols[place] = entry as i8;
            description
        });
    }
}

/// An empty response or a long one, some of which are 1 to 32 values to whoever counts in a byte; no symbols, symbols
/// that are no whole blocks, and more training than symbols.
fn lists_turned_down(all: &mut Cables) {
    all.each("an empty response", 10, [(0, 0), (1, 15), (2, 3), (3, 15)], |all, (r, l)| {
        let symbols = all.symbols(6, r);
        all.described(r, l, (Vec::new(), symbols))
    });
    all.each("a response too long", 10, [33, 33, 33, 34, 64, 255, 256, 257, 288, 300], |all, values| {
        let r = all.any_r();
        let mut description = all.any(r, 0, 32, 8);
        description.response.resize(values, 0);
        description.response[values - 1] = all.random.sign() as i16;
        description
    });
    all.each("no symbols", 10, [(0, 1), (1, 2), (2, 17), (3, 128)], |all, (r, n)| {
        let settings = all.settings_with(n, r, 3);
        Description { settings, response: all.response(5), symbols: Vec::new(), training: 0 }
    });
    let lengths =
        [(2, 1), (2, 3), (3, 2), (3, 4), (16, 24), (100, 50), (127, 128), (128, 1), (128, 127), (128, 129), (128, 255)];
    all.each("symbols that are no whole blocks", 10, lengths, |all, (n, symbols)| {
        let r = all.any_r();
        let description = all.any(r, 2, 3, symbols);
        Description { settings: all.settings_with(n, r, 2), ..description }
    });
    all.each("more training than symbols", 10, [1, 1, 1, 2, 256, 65_536, u32::MAX - 7], |all, beyond| {
        let r = all.any_r();
        Description { training: 7 + beyond, ..all.any(r, 1, 6, 7) }
    });
}

/// An output that is a byte short, a byte long, empty, and others; each size alone outside its limits.
fn outputs_turned_down(all: &mut Cables) {
    for symbols in [1, 2, 6, 30, 128] {
        let (r, length) = (all.any_r(), 12 + 4 * symbols);
        let description = all.any(r, 0, 3, symbols);
        let outputs = [length - 1, length + 1, 0, 12, length - 4, length + 4, 4 * symbols, length + 256];
        all.each("another output length", 10, outputs, |_, output| (description.clone(), output));
    }
    let description = all.any(1, 0, 2, 3);
    all.each("another output length", 10, [65_536, 65_536 + 24], |_, output| (description.clone(), output));
    all.each("a size outside its limits", 1, spoiled::SIZES, |_, sizes| {
        let good = spoiled::good();
        let settings = resized(good.settings, sizes);
        Description { settings, symbols: vec![1; settings.n.max(1).into()], training: 0, ..good }
    });
}

/// The cable with an output as long as its trace, or a byte less where the output is a cause.
fn lent(description: Description, causes: &[Spoiler]) -> (Description, usize) {
    let short = causes.iter().any(|(_, cause, _)| *cause == Cause::Output);
    let output = description.cable().trace_length() - usize::from(short);
    (description, output)
}

/// Each cause of 10 alone, behind M, and behind a size.
fn set_up_goes_first(all: &mut Cables) {
    let list = spoiled::ALL.into_iter().chain(spoiled::OTHERS);
    for (at, spoiler) in list.filter(|(_, cause, _)| cause.number() == 10).enumerate() {
        let mut description = spoiled::good();
        spoiler.2(&mut description);
        let lent = lent(description, &[spoiler]);
        all.put("each cause alone", 10, lent.clone());
        behind_set_up(all, &lent.0, lent.1, at);
    }
    let description = spoiled::good();
    let length = description.cable().trace_length();
    for (at, output) in [length + 1, length + 4, 0, 12].into_iter().enumerate() {
        behind_set_up(all, &description, output, at);
    }
}

/// The same cable behind M, behind a size, and behind both.
fn behind_set_up(all: &mut Cables, description: &Description, output: usize, at: usize) {
    let with = |settings: Settings| (Description { settings, ..description.clone() }, output);
    let step = description.settings.with_m(u32::MAX);
    all.put("2 before 10", 2, with(step));
    all.put("1 before 10", 1, with(resized(description.settings, ["q0", "q17"][at % 2])));
    if output < 1000 {
        all.put("1 before 2 and 10", 1, with(resized(step, spoiled::SIZES[at % spoiled::SIZES.len()])));
    }
}

/// Two different causes of 10 at once, of those that make no long list.
fn two_causes(all: &mut Cables) {
    let list = spoiled::ALL.into_iter().filter(|(_, cause, _)| cause.number() == 10 && *cause != Cause::Trace);
    let two = pairs(list.clone(), list).filter(|(one, other)| one.1 < other.1);
    all.each("two causes", 10, two, |_, (one, other)| lent(spoiled::with(&[one, other]), &[one, other]));
}

/// 65,536 bytes are 12 + 4·16381, and 16381 is prime: N = 1; 12 + 4·126·130 are 65,532. More than 65,535 blocks are more
/// than 65,535 symbols, and their trace is too long as well: this cause is never alone.
fn long_traces(all: &mut Cables) {
    let settings = all.settings_with(1, 1, 0);
    let mut longest = Description { training: 9_000, ..all.fitting(settings, 32, 16_381) };
    all.put("the longest trace", 0, longest.clone());
    longest.symbols.push(1);
    all.put("a symbol beyond the longest", 10, longest);
    let settings = all.settings_with(126, 3, 0);
    let description = all.fitting(settings, 32, 126 * 130);
    all.put("long blocks, many of them", 0, description);
    let long = [([2, 2, 5], [7, -1], 1, 16_382), ([128, 2, 5], [7, -1], 1, 16_384), ([1, 0, 0], [5, 1], -1, 65_536)];
    all.each("too many blocks", 10, long, |all, ([n, r, l], response, v, symbols)| {
        let (settings, training) = (all.settings_with(n, r, l), symbols as u32 / 2);
        Description { settings, response: response.to_vec(), symbols: vec![v; symbols], training }
    });
}

/// Any cables, some of them twice as loud as well.
fn any_cables(all: &mut Cables) {
    for _ in 0..120 {
        let (r, l) = (all.any_r(), all.least_gain());
        let symbols = all.random.between(1, 60) as usize;
        let values = all.random.between(1, 32) as usize;
        let mut description = all.any(r, l, values, symbols);
        all.put("any cable", 0, description.clone());
        if all.random.chance(1, 4) {
            description.response.iter_mut().for_each(|h| *h = h.saturating_mul(2));
            all.put("any cable, twice as loud", None, description);
        }
    }
}
