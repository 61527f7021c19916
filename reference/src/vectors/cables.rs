//! Cables with their traces, and cables that are turned down.

use crate::cable::{cable, gain, sum_at, Cause};
use crate::description::Description;
use crate::random::Random;
use crate::settings::Settings;
use crate::vectors::spoiled::{self, Spoiler};

/// A cable, the length of the lent output, and the answer.
#[derive(Clone, Debug)]
pub struct CableVector {
    /// What the cable is about.
    pub about: &'static str,
    pub description: Description,
    /// The length of the lent output.
    pub output: usize,
    pub number: u8,
    /// The trace; empty where the number is not 0.
    pub trace: Vec<u8>,
}

impl CableVector {
    /// The description, the length of the lent output (u32), the number and,
    /// where it is 0, the trace.
    pub fn bytes(&self) -> Vec<u8> {
        let mut bytes = self.description.bytes();
        bytes.extend((self.output as u32).to_le_bytes());
        bytes.push(self.number);
        bytes.extend(&self.trace);
        bytes
    }
}

struct Collection {
    random: Random,
    list: Vec<CableVector>,
}

impl Collection {
    /// A cable with an output of so many bytes.
    fn lend(&mut self, about: &'static str, description: &Description, output: usize) -> u8 {
        let mut trace = vec![0xA5; output];
        let number = cable(&description.cable(), &mut trace);
        if number != 0 {
            assert!(trace.iter().all(|&byte| byte == 0xA5));
            trace.clear();
        }
        self.list.push(CableVector {
            about,
            description: description.clone(),
            output,
            number,
            trace,
        });
        number
    }

    /// A cable with an output as long as its trace.
    fn put(&mut self, about: &'static str, description: &Description) -> u8 {
        self.lend(about, description, description.cable().trace_length())
    }

    fn accept(&mut self, about: &'static str, description: &Description) {
        assert_eq!(self.put(about, description), 0, "{about}: {description:?}");
    }

    fn refuse(&mut self, about: &'static str, description: &Description, cause: Cause) {
        let cable = description.cable();
        assert_eq!(cable.cause(cable.trace_length()), Some(cause), "{about}");
        self.put(about, description);
    }

    /// Settings for so many symbols: N divides them.
    fn settings(&mut self, symbols: usize, r: u8, l: u8) -> Settings {
        let divides = |n: &u8| symbols.is_multiple_of(usize::from(*n));
        let lengths: Vec<u8> = (1..=128).filter(divides).collect();
        let n = self.random.pick(&lengths);
        self.settings_with(n, r, l)
    }

    /// Settings with these sizes and any p, q and M.
    fn settings_with(&mut self, n: u8, r: u8, l: u8) -> Settings {
        let settings = Settings {
            p: self.random.byte(1, (n + 1).min(16)),
            q: self.random.byte(1, 16),
            n,
            r,
            l,
            m: 0,
        };
        settings.with_m(self.random.admitted_m(&settings))
    }

    /// An L, often 0.
    fn least_gain(&mut self) -> u8 {
        match self.random.below(3) {
            0 => 0,
            1 => self.random.byte(0, 5),
            _ => self.random.byte(0, 15),
        }
    }

    /// A response of one style.
    fn response(&mut self, values: usize) -> Vec<i16> {
        let random = &mut self.random;
        let style = random.below(6);
        let value = |at: usize| match style {
            0 => random.between(-32768, 32767),
            1 => random.pick(&[-32768, 32767]),
            2 => random.between(-32768, 32767) >> at.min(15),
            3 => random.between(-9, 9),
            4 if random.chance(3, 4) => 0,
            4 => random.between(-32768, 32767),
            _ => random.between(-32768, 32767) / (values as i64),
        };
        (0..values).map(value).map(|h| h as i16).collect()
    }

    /// Symbols of one style.
    fn symbols(&mut self, count: usize, r: u8) -> Vec<i8> {
        let random = &mut self.random;
        let style = random.below(5);
        let one = random.symbol(r);
        let symbol = |at: usize| match style {
            0 => one,
            1 => [one, -one][at % 2],
            2 => random.end_symbol(r),
            _ => random.symbol(r),
        };
        (0..count).map(symbol).collect()
    }

    /// An accepted cable: its response is halved until every gain is there.
    fn fitting(&mut self, settings: Settings, values: usize, symbols: usize) -> Description {
        let mut description = Description {
            settings,
            response: self.response(values),
            symbols: self.symbols(symbols, settings.r),
            training: self.random.between(0, symbols as i64) as u32,
        };
        loop {
            let cable = description.cable();
            match cable.cause(cable.trace_length()) {
                None => return description,
                Some(cause) => assert_eq!(cause, Cause::Gain, "{description:?}"),
            }
            for h in &mut description.response {
                *h /= 2;
            }
        }
    }
}

/// All cable vectors.
pub fn cable_vectors() -> Vec<CableVector> {
    let mut all = Collection {
        random: Random::new(0x6361_626C),
        list: Vec::new(),
    };
    all.accept("worked example", &spoiled::worked_example());
    beside_every_gain(&mut all);
    gain_exactly_least(&mut all);
    gain_below_least(&mut all);
    no_gain(&mut all);
    silence(&mut all);
    ends_of_the_response(&mut all);
    single_echoes(&mut all);
    every_block_length(&mut all);
    every_response_length(&mut all);
    training_counts(&mut all);
    steps(&mut all);
    entries_that_are_no_symbols(&mut all);
    responses_turned_down(&mut all);
    symbols_turned_down(&mut all);
    training_turned_down(&mut all);
    outputs_turned_down(&mut all);
    sizes_turned_down(&mut all);
    set_up_goes_first(&mut all);
    two_causes(&mut all);
    long_traces(&mut all);
    any_cables(&mut all);
    all.list
}

/// A description of which half is training.
fn described(settings: Settings, response: Vec<i16>, symbols: Vec<i8>) -> Description {
    let training = symbols.len() as u32 / 2;
    Description {
        settings,
        response,
        symbols,
        training,
    }
}

/// A response and symbols with s = `target` at the last place and no greater
/// |s| before it.
fn aimed(random: &mut Random, r: u8, target: i64) -> (Vec<i16>, Vec<i8>) {
    let small = target.abs() < 2000 || random.chance(1, 2);
    if target.abs() <= 32768 && small {
        return aimed_by_one(random, target);
    }
    loop {
        if let Some(found) = aimed_by_several(random, r, target) {
            return found;
        }
    }
}

/// The same with one value and symbols of 1 and −1.
fn aimed_by_one(random: &mut Random, target: i64) -> (Vec<i16>, Vec<i8>) {
    let sign = match target {
        32768 => -1,
        -32768 => 1,
        _ => random.sign(),
    };
    let before = random.below(5);
    let mut symbols: Vec<i8> = (0..before).map(|_| random.sign() as i8).collect();
    symbols.push(sign as i8);
    (vec![(sign * target) as i16], symbols)
}

/// The same with several values, where the draw leads there.
fn aimed_by_several(random: &mut Random, r: u8, target: i64) -> Option<(Vec<i16>, Vec<i8>)> {
    let values = random.between(2, 12) as usize;
    let mut symbols: Vec<i8> = (0..values).map(|_| random.symbol(r)).collect();
    let free = random.below(values as u64) as usize;
    symbols[free] = random.sign() as i8;
    let mut response = vec![0i16; values];
    let mut rest = target;
    for place in (0..values).filter(|&place| place != free) {
        let v = i64::from(symbols[place]);
        let share = 2 * rest / (v * values as i64);
        let h = (share + random.between(-99, 99)).clamp(-32768, 32767);
        response[values - 1 - place] = h as i16;
        rest -= h * v;
    }
    response[values - 1 - free] = i16::try_from(rest * i64::from(symbols[free])).ok()?;
    let mut earlier = (0..values - 1).map(|place| sum_at(&response, &symbols, place));
    let below = earlier.all(|s| s.abs() < i128::from(target.abs()));
    let last = sum_at(&response, &symbols, values - 1);
    (below && last == i128::from(target)).then_some((response, symbols))
}

/// |s| = 2^(15+r−g) and one less for each g, with both signs.
fn beside_every_gain(all: &mut Collection) {
    for r in 0..=3 {
        for g in 0..=15 {
            let power = 1i64 << (15 + r - g);
            for target in [power, power - 1, -power, 1 - power] {
                let (response, symbols) = aimed(&mut all.random, r, target);
                let settings = all.settings(symbols.len(), r, 0);
                let description = described(settings, response, symbols);
                if g == 0 && target.abs() == power {
                    all.refuse("no gain by one", &description, Cause::Gain);
                } else {
                    all.accept("beside a gain", &description);
                }
            }
        }
    }
}

/// The least gain of the cable is L: the greatest |s| is 2^(15+r−L) − 1, and
/// in others 2^(14+r−L).
fn gain_exactly_least(all: &mut Collection) {
    for r in 0..=3 {
        for l in 0..=15 {
            let most = (1i64 << (15 + r - l)) - 1;
            for target in [most, -(most + 1) / 2] {
                let (response, symbols) = aimed(&mut all.random, r, target);
                let settings = all.settings(symbols.len(), r, l);
                let description = described(settings, response, symbols);
                all.accept("a gain of L", &description);
            }
        }
    }
}

/// Delayed by `delay` symbols, one sample of s = a·(the first symbol): after
/// it the echoes of alternating symbols cancel.
fn one_sample(a: i16, first: i8, delay: usize, symbols: usize) -> (Vec<i16>, Vec<i8>) {
    let mut response = vec![0; delay];
    response.extend([a, a]);
    let symbols = (0..symbols).map(|at| [first, -first][at % 2]).collect();
    (response, symbols)
}

/// One gain of L − 1 at the first, a middle or the last place.
fn gain_below_least(all: &mut Collection) {
    for r in 0..=3u8 {
        for l in 1..=15 {
            let limit = 1i32 << (15 + r - l);
            let end = (2 << r) - 1;
            let a = (limit + end - 1) / end;
            let delay = [0, 3, 5][usize::from(l) % 3];
            let a = all.random.sign() as i16 * a as i16;
            let first = all.random.end_symbol(r);
            let (response, symbols) = one_sample(a, first, delay, 6);
            assert_eq!(gain(i128::from(a) * i128::from(first), r), Some(l - 1));
            let settings = all.settings(6, r, l);
            let description = described(settings, response, symbols);
            all.refuse("a gain of L - 1", &description, Cause::Gain);
        }
    }
}

/// No gain at the first, a middle or the last place.
fn no_gain(all: &mut Collection) {
    for r in 0..=3 {
        for delay in [0, 3, 7] {
            let first = all.random.end_symbol(r);
            let (response, symbols) = one_sample(-32768, first, delay, 8);
            let settings = all.settings(8, r, 0);
            let description = described(settings, response, symbols);
            all.refuse("no gain", &description, Cause::Gain);
        }
        // The greatest |s| of all, with both signs.
        for h in [-32768, 32767] {
            let symbols = vec![all.random.end_symbol(r); 40];
            let settings = all.settings(40, r, 0);
            let description = described(settings, vec![h; 32], symbols);
            all.refuse("no gain by far", &description, Cause::Gain);
        }
    }
}

/// s = 0 throughout, with L up to 15.
fn silence(all: &mut Collection) {
    for r in 0..=3 {
        for (l, values) in [(15, 1), (15, 32), (0, 7)] {
            let symbols = all.symbols(12, r);
            let settings = all.settings(12, r, l);
            let description = described(settings, vec![0; values], symbols);
            all.accept("silence", &description);
        }
        // Echoes that cancel, after one sample that does not.
        let v = all.random.symbol(r);
        let (response, symbols) = one_sample(1, v.signum(), 2, 9);
        let settings = all.settings(9, r, 14);
        let description = described(settings, response, symbols);
        all.accept("echoes that cancel", &description);
    }
}

/// h = −32768 and 32767 alone and with each other.
fn ends_of_the_response(all: &mut Collection) {
    for r in 0..=3 {
        for h in [-32768, 32767] {
            for v in [1, -1, (1 << r) - 1, -(2 << r) + 1] {
                let symbols = vec![v | 1; 4];
                let settings = all.settings(4, r, 0);
                let description = described(settings, vec![h], symbols);
                all.put("one value at its end", &description);
            }
        }
        for (one, other) in [(-32768, 32767), (32767, -32768), (-32768, -32768)] {
            let response = (0..32).map(|at| [one, other][at % 2]).collect();
            let v = [1i8, -1][usize::from(r % 2)];
            let symbols = match one == other {
                false => vec![v; 48],
                true => (0..48).map(|at| [v, -v][at % 2]).collect(),
            };
            let settings = all.settings(48, r, 0);
            let description = described(settings, response, symbols);
            all.put("values at their ends", &description);
        }
    }
}

/// A first symbol and its echoes, one for each place of the response.
fn single_echoes(all: &mut Collection) {
    for delay in 0..32 {
        let r = (delay % 4) as u8;
        let mut response = vec![0; delay + 1];
        response[delay] = all.random.between(-2184, 2184) as i16 | 1;
        let symbols = all.symbols(33, r);
        let settings = all.settings(33, r, 0);
        let description = described(settings, response, symbols);
        all.accept("one echo", &description);
    }
}

/// N from 1 to 128, one or two blocks.
fn every_block_length(all: &mut Collection) {
    for n in 1..=128 {
        let (r, l) = (all.random.byte(0, 3), all.least_gain());
        let settings = all.settings_with(n, r, l);
        let blocks = if n <= 16 { 2 } else { 1 };
        let values = all.random.between(1, 32) as usize;
        let description = all.fitting(settings, values, usize::from(n) * blocks);
        all.accept("every N", &description);
    }
}

/// 1 to 32 values, with more symbols than values and with fewer.
fn every_response_length(all: &mut Collection) {
    for values in 1..=32 {
        let r = all.random.byte(0, 3);
        let settings = all.settings(36, r, 0);
        let description = all.fitting(settings, values, 36);
        all.accept("every response length", &description);
        let symbols = 1 + values / 3;
        let settings = all.settings(symbols, r, 0);
        let description = all.fitting(settings, values, symbols);
        all.accept("a response longer than the symbols", &description);
    }
}

/// No training, some, and all.
fn training_counts(all: &mut Collection) {
    for r in 0..=3 {
        for training in [0, 1, 9, 17, 18] {
            let settings = all.settings(18, r, 1);
            let mut description = all.fitting(settings, 4, 18);
            description.training = training;
            all.accept("training entries", &description);
        }
    }
}

/// M at its limit and one beyond.
fn steps(all: &mut Collection) {
    for r in 0..=3 {
        for l in [0, 1, 7, 15] {
            let settings = all.settings(4, r, l);
            let mut description = all.fitting(settings, 3, 4);
            description.settings.m = settings.largest_m();
            all.accept("the greatest step", &description);
            description.settings.m += 1;
            all.refuse("a step beyond it", &description, Cause::Step);
        }
    }
    for m in [1 << 30, 1 << 31, u32::MAX] {
        let settings = all.settings(4, 0, 15).with_m(m);
        let description = described(settings, vec![0], vec![1, -1, 1, -1]);
        all.refuse("a step beyond it", &description, Cause::Step);
    }
}

/// 0, even and too large ones at the first, a middle and the last place,
/// among training entries and behind them.
fn entries_that_are_no_symbols(all: &mut Collection) {
    for r in 0..=3u8 {
        let end = (2i16 << r) - 1;
        for entry in [0, 2, -2, end + 1, end + 2, -end - 2, 127, -127, -128] {
            for place in [0, 4, 9] {
                let settings = all.settings(10, r, 0);
                let mut description = all.fitting(settings, 2, 10);
                description.response = vec![100, -20];
                description.training = all.random.pick(&[0, 5, 10]);
                description.symbols[place] = entry as i8;
                all.refuse("an entry that is no symbol", &description, Cause::Entry);
            }
        }
    }
}

fn responses_turned_down(all: &mut Collection) {
    for (r, l) in [(0, 0), (1, 15), (2, 3), (3, 15)] {
        let symbols = all.symbols(6, r);
        let settings = all.settings(6, r, l);
        let description = described(settings, Vec::new(), symbols);
        all.refuse("an empty response", &description, Cause::Response);
    }
    // Some of them are 1 to 32 values to whoever counts in a byte.
    for values in [33, 33, 33, 34, 64, 255, 256, 257, 288, 300] {
        let r = all.random.byte(0, 3);
        let settings = all.settings(8, r, 0);
        let mut description = all.fitting(settings, 32, 8);
        description.response.resize(values, 0);
        let last = all.random.sign() as i16;
        description.response[values - 1] = last;
        all.refuse("a response too long", &description, Cause::Response);
    }
}

fn symbols_turned_down(all: &mut Collection) {
    for (r, n) in [(0, 1), (1, 2), (2, 17), (3, 128)] {
        let settings = all.settings_with(n, r, 3);
        let mut description = described(settings, all.response(5), Vec::new());
        description.training = 0;
        all.refuse("no symbols", &description, Cause::Blocks);
    }
    for (n, symbols) in [
        (2, 1),
        (2, 3),
        (3, 2),
        (3, 4),
        (16, 24),
        (100, 50),
        (127, 128),
        (128, 1),
        (128, 127),
        (128, 129),
        (128, 255),
    ] {
        let r = all.random.byte(0, 3);
        let settings = all.settings(symbols, r, 2);
        let mut description = all.fitting(settings, 3, symbols);
        description.settings = all.settings_with(n, r, 2);
        all.refuse(
            "symbols that are no whole blocks",
            &description,
            Cause::Blocks,
        );
    }
}

fn training_turned_down(all: &mut Collection) {
    for beyond in [1, 1, 1, 2, 256, 65_536, u32::MAX - 7] {
        let r = all.random.byte(0, 3);
        let settings = all.settings(7, r, 1);
        let mut description = all.fitting(settings, 6, 7);
        description.training = 7 + beyond;
        all.refuse("more training than symbols", &description, Cause::Training);
    }
}

/// An output that is a byte short, a byte long, empty, and others.
fn outputs_turned_down(all: &mut Collection) {
    for symbols in [1, 2, 6, 30, 128] {
        let r = all.random.byte(0, 3);
        let settings = all.settings(symbols, r, 0);
        let description = all.fitting(settings, 3, symbols);
        let length = 12 + 4 * symbols;
        for output in [
            length - 1,
            length + 1,
            0,
            12,
            length - 4,
            length + 4,
            4 * symbols,
            length + 256,
        ] {
            assert_eq!(all.lend("another output length", &description, output), 10);
        }
    }
    let settings = all.settings(3, 1, 0);
    let description = all.fitting(settings, 2, 3);
    for output in [65_536, 65_536 + 24] {
        assert_eq!(all.lend("another output length", &description, output), 10);
    }
}

/// Each size alone outside its limits.
fn sizes_turned_down(all: &mut Collection) {
    for spoil in spoiled::SIZES {
        let mut description = spoiled::good();
        spoil(&mut description);
        let n = usize::from(description.settings.n);
        description.symbols = vec![1; n.max(1)];
        description.training = 0;
        all.refuse("a size outside its limits", &description, Cause::Sizes);
    }
}

/// The output that is lent: as long as the trace, or a byte less where the
/// output is a cause.
fn lent(description: &Description, causes: &[&Spoiler]) -> usize {
    let short = causes.iter().any(|spoiler| spoiler.cause == Cause::Output);
    description.cable().trace_length() - usize::from(short)
}

/// Each cause of 10 alone, behind M, and behind a size.
fn set_up_goes_first(all: &mut Collection) {
    let list = spoiled::ALL.iter().chain(&spoiled::OTHERS);
    let behind = list.filter(|spoiler| spoiler.cause.number() == 10);
    for (at, spoiler) in behind.enumerate() {
        let mut description = spoiled::good();
        (spoiler.spoil)(&mut description);
        let output = lent(&description, &[spoiler]);
        assert_eq!(all.lend("each cause alone", &description, output), 10);
        behind_set_up(all, &description, output, at);
    }
    let description = spoiled::good();
    let length = description.cable().trace_length();
    for (at, output) in [length + 1, length + 4, 0, 12].into_iter().enumerate() {
        behind_set_up(all, &description, output, at);
    }
}

/// The same cable behind M, behind a size, and behind both.
fn behind_set_up(all: &mut Collection, description: &Description, output: usize, at: usize) {
    let mut step = description.clone();
    step.settings.m = u32::MAX;
    assert_eq!(all.lend("2 before 10", &step, output), 2);
    let mut size = description.clone();
    size.settings.q = [0, 17][at % 2];
    assert_eq!(all.lend("1 before 10", &size, output), 1);
    if output < 1000 {
        spoiled::SIZES[at % spoiled::SIZES.len()](&mut step);
        assert_eq!(all.lend("1 before 2 and 10", &step, output), 1);
    }
}

/// Two different causes of 10 at once, of those that make no long list.
fn two_causes(all: &mut Collection) {
    let short = |s: &&Spoiler| s.cause.number() == 10 && s.cause != Cause::Trace;
    let list: Vec<&Spoiler> = spoiled::ALL.iter().filter(short).collect();
    for one in &list {
        for other in list.iter().filter(|other| one.cause < other.cause) {
            let pair = [*one, *other];
            let description = spoiled::with(&pair);
            let output = lent(&description, &pair);
            assert_eq!(all.lend("two causes", &description, output), 10);
        }
    }
}

/// 65,536 bytes are 12 + 4·16381, and 16381 is prime: N = 1.
fn long_traces(all: &mut Collection) {
    let settings = all.settings_with(1, 1, 0);
    let mut longest = all.fitting(settings, 32, 16_381);
    longest.training = 9_000;
    all.accept("the longest trace", &longest);
    longest.symbols.push(1);
    all.refuse("a symbol beyond the longest", &longest, Cause::Trace);

    // 12 + 4·126·130 = 65,532.
    let settings = all.settings_with(126, 3, 0);
    let description = all.fitting(settings, 32, 126 * 130);
    all.accept("long blocks, many of them", &description);
    for (n, symbols) in [(2, 16_382), (128, 16_384)] {
        let settings = all.settings_with(n, 2, 5);
        let description = described(settings, vec![7, -1], vec![1; symbols]);
        all.refuse("a block beyond the longest", &description, Cause::Trace);
    }

    // More than 65,535 blocks are more than 65,535 symbols, and their trace
    // is too long as well: this cause is never alone.
    let settings = all.settings_with(1, 0, 0);
    let description = described(settings, vec![5, 1], vec![-1; 65_536]);
    all.refuse("too many blocks", &description, Cause::Blocks);
}

/// Any cables, most of them accepted.
fn any_cables(all: &mut Collection) {
    for _ in 0..120 {
        let (r, l) = (all.random.byte(0, 3), all.least_gain());
        let symbols = all.random.between(1, 60) as usize;
        let values = all.random.between(1, 32) as usize;
        let settings = all.settings(symbols, r, l);
        let mut description = all.fitting(settings, values, symbols);
        all.accept("any cable", &description);
        if all.random.chance(1, 4) {
            for h in &mut description.response {
                *h = h.saturating_mul(2);
            }
            all.put("any cable, twice as loud", &description);
        }
    }
}
