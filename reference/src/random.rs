//! A small generator of numbers from a fixed start, and arbitrary settings,
//! sound states, samples and training entries.

use crate::numbers::scale_count;
use crate::settings::Settings;
use crate::state::State;

/// A 64-bit counter with a mixing function; the same start gives the same
/// numbers.
#[derive(Clone, Debug)]
pub struct Random(u64);

impl Random {
    /// The generator from a start.
    pub fn new(start: u64) -> Random {
        Random(start)
    }

    /// The next 64 bits.
    #[allow(clippy::should_implement_trait)]
    pub fn next(&mut self) -> u64 {
        self.0 = self.0.wrapping_add(0x9E37_79B9_7F4A_7C15);
        let mut z = self.0;
        z = (z ^ (z >> 30)).wrapping_mul(0xBF58_476D_1CE4_E5B9);
        z = (z ^ (z >> 27)).wrapping_mul(0x94D0_49BB_1331_11EB);
        z ^ (z >> 31)
    }

    /// A number below `end`.
    pub fn below(&mut self, end: u64) -> u64 {
        self.next() % end
    }

    /// A number from `low` to `high`, both among them.
    pub fn between(&mut self, low: i64, high: i64) -> i64 {
        low + self.below((high - low + 1) as u64) as i64
    }

    /// A byte from `low` to `high`, both among them.
    pub fn byte(&mut self, low: u8, high: u8) -> u8 {
        self.between(i64::from(low), i64::from(high)) as u8
    }

    /// True in `part` of `whole` cases.
    pub fn chance(&mut self, part: u64, whole: u64) -> bool {
        self.below(whole) < part
    }

    /// One of a list.
    pub fn pick<T: Copy>(&mut self, list: &[T]) -> T {
        list[self.below(list.len() as u64) as usize]
    }

    /// A sign, 1 or −1.
    pub fn sign(&mut self) -> i64 {
        if self.chance(1, 2) {
            1
        } else {
            -1
        }
    }

    /// A symbol for r.
    pub fn symbol(&mut self, r: u8) -> i8 {
        (self.sign() * (2 * self.between(0, (1 << r) - 1) + 1)) as i8
    }

    /// One of the two end symbols for r.
    pub fn end_symbol(&mut self, r: u8) -> i8 {
        (self.sign() * ((2 << r) - 1)) as i8
    }

    /// An M that is admitted: often the largest, else of any length.
    pub fn admitted_m(&mut self, settings: &Settings) -> u32 {
        let largest = settings.largest_m();
        match self.below(8) {
            0..=3 => largest,
            4 => self.below(u64::from(largest) + 1) as u32,
            5 => largest - self.below(16).min(u64::from(largest)) as u32,
            6 => largest >> self.below(27),
            _ => self.pick(&[0, 1, 2, 3]),
        }
    }

    /// Settings within the limits and with an admitted M. Blocks are mostly
    /// short.
    pub fn settings(&mut self) -> Settings {
        let taps = |random: &mut Random| match random.below(4) {
            0 => 1,
            1 => 16,
            _ => random.byte(1, 16),
        };
        let p = taps(self);
        let q = taps(self);
        let least = 1.max(p - 1);
        let n = match self.below(8) {
            0..=2 => least,
            3 => self.byte(least, 128),
            _ => self.byte(least, least + 4),
        };
        let l = match self.below(3) {
            0 => 0,
            _ => self.byte(0, 15),
        };
        let settings = Settings {
            p,
            q,
            n,
            r: self.byte(0, 3),
            l,
            m: 0,
        };
        settings.with_m(self.admitted_m(&settings))
    }

    /// A weight within its bound.
    fn weight(&mut self, style: u64) -> i16 {
        let value = match style {
            0 => self.sign() * 16383,
            1 => self.sign() * (16383 - self.between(0, 3)),
            2 => self.between(-16383, 16383),
            3 => {
                let bits = self.between(0, 14);
                self.between(-((1 << bits) - 1), (1 << bits) - 1)
            }
            _ => 0,
        };
        value as i16
    }

    /// A sound state with these settings, which must be within the limits;
    /// without spare slots.
    pub fn sound_state(&mut self, settings: Settings) -> State {
        let most = 31 - settings.l;
        let bmax = match self.below(4) {
            0 => most,
            1 => self.byte(0, 4.min(most)),
            _ => self.byte(0, most),
        };
        let b = match self.below(4) {
            0 | 1 => bmax,
            2 => bmax - self.byte(0, 6.min(bmax)),
            _ => self.byte(0, bmax),
        };
        let psi = match self.below(4) {
            0 => 0,
            1 => 15,
            _ => self.byte(0, 15),
        };
        let mut state = State::zeros(settings);
        state.psi = psi;
        state.b = b;
        state.bmax = bmax;
        let style = self.below(6);
        for place in 0..settings.taps() {
            let own = if style == 5 { self.below(5) } else { style };
            state.weights[place] = self.weight(own);
        }
        // |A| is below 2^room, or 0 where room is not positive.
        let s = scale_count(settings.p);
        let room = 15 + i32::from(b) - i32::from(bmax) - s;
        let bound = if room > 0 { (1i64 << room) - 1 } else { 0 };
        let style = self.below(4);
        let p = usize::from(settings.p);
        for place in 0..p - 1 {
            let a = match style {
                0 => self.sign() * bound,
                1 => self.sign() * (bound - self.between(0, 2.min(bound))),
                2 => self.between(-bound, bound),
                _ => self.between(-bound, bound) >> self.between(0, 15),
            };
            state.data[place] = a as i16;
        }
        let style = self.below(4);
        for place in p..settings.taps() {
            let v = match style {
                0 => self.end_symbol(settings.r),
                1 if self.chance(1, 2) => 0,
                2 => self.sign() as i8,
                _ => self.symbol(settings.r),
            };
            state.data[place] = i16::from(v);
        }
        state
    }

    /// A sound state with ψ from 1 to 15 and weights about to be doubled: of
    /// at most 12 bits, often all of one length, and sometimes one of them
    /// right beside 4096.
    pub fn falling_state(&mut self, settings: Settings) -> State {
        let mut state = self.sound_state(settings);
        state.psi = self.byte(1, 15);
        let bits = self.pick(&[0, 0, 1, 4, 8, 11, 12, 12]);
        let most = (1i64 << bits) - 1;
        let least = self.pick(&[0, (most - 3).max(0)]);
        for place in 0..settings.taps() {
            state.weights[place] = (self.sign() * self.between(least, most)) as i16;
        }
        if self.chance(1, 3) {
            let place = self.below(settings.taps() as u64) as usize;
            state.weights[place] = (self.sign() * self.between(4094, 4097)) as i16;
        }
        state
    }

    /// A sound state, one in four with weights about to be doubled.
    pub fn state(&mut self, settings: Settings) -> State {
        match self.chance(1, 4) {
            true => self.falling_state(settings),
            false => self.sound_state(settings),
        }
    }

    /// The samples and gains of one block: the style says how loud.
    pub fn samples(&mut self, settings: &Settings, style: Loudness) -> (Vec<i16>, Vec<u8>) {
        let l = settings.l;
        let one_gain = self.byte(l, 15);
        let mut samples = Vec::new();
        let mut gains = Vec::new();
        for _ in 0..settings.n {
            let (m, g) = match style {
                Loudness::Any => (self.between(-32768, 32767), self.byte(l, 15)),
                Loudness::Even => (self.between(-32768, 32767), one_gain),
                Loudness::Loud => (self.pick(&[-32768, 32767, -32767, 32766]), l),
                Loudness::LoudRandom => (self.between(-32768, 32767), l),
                Loudness::Lowest => (-32768, l),
                Loudness::Quiet => (self.between(-40, 40), 15),
                Loudness::Faint => (self.between(-1, 1), 15),
                Loudness::Zero => (0, self.byte(l, 15)),
                Loudness::Wide => {
                    let bits = self.between(0, 15);
                    let m = self.between(-(1 << bits), (1 << bits) - 1);
                    (m, self.byte(l, 15))
                }
            };
            samples.push(m as i16);
            gains.push(g);
        }
        (samples, gains)
    }

    /// A style of loudness.
    pub fn loudness(&mut self) -> Loudness {
        self.pick(&Loudness::ALL)
    }

    /// The training entries of one block.
    pub fn training(&mut self, settings: &Settings, style: Aim) -> Vec<i8> {
        let r = settings.r;
        (0..settings.n)
            .map(|_| match style {
                Aim::Decided => 0,
                Aim::Trained => self.symbol(r),
                Aim::Ends => self.end_symbol(r),
                Aim::Mixed if self.chance(1, 2) => 0,
                Aim::Mixed => self.symbol(r),
            })
            .collect()
    }

    /// A style of training.
    pub fn aim(&mut self) -> Aim {
        self.pick(&[Aim::Decided, Aim::Trained, Aim::Ends, Aim::Mixed])
    }
}

/// How loud the samples of a block are.
#[derive(Clone, Copy, Debug, PartialEq, Eq)]
pub enum Loudness {
    /// Any sample with any gain.
    Any,
    /// Any sample with one gain.
    Even,
    /// Samples at their ends with the least gain.
    Loud,
    /// Any sample with the least gain.
    LoudRandom,
    /// m = −32768 with the least gain throughout.
    Lowest,
    /// Small samples with gain 15.
    Quiet,
    /// Samples of magnitude at most 1 with gain 15.
    Faint,
    /// All zero.
    Zero,
    /// Samples of all lengths with any gain.
    Wide,
}

impl Loudness {
    /// All styles.
    pub const ALL: [Loudness; 9] = [
        Loudness::Any,
        Loudness::Even,
        Loudness::Loud,
        Loudness::LoudRandom,
        Loudness::Lowest,
        Loudness::Quiet,
        Loudness::Faint,
        Loudness::Zero,
        Loudness::Wide,
    ];
}

/// What the training entries of a block are.
#[derive(Clone, Copy, Debug, PartialEq, Eq)]
pub enum Aim {
    /// All 0.
    Decided,
    /// Symbols.
    Trained,
    /// End symbols.
    Ends,
    /// 0 and symbols.
    Mixed,
}
