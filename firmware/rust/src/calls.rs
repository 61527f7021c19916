//! A list of calls, made one by one from the state that the list has led to.

use crate::sides::{record_of, settings_of};
use crate::{Equaliser, IMAGE_BYTES, SLOTS};
use reference::random::Random;
use reference::{image_length, Settings, State};

/// The three lists that a block reads, and the lengths of the five that it
/// hands out.
#[derive(Clone, Debug, PartialEq, Eq)]
pub struct Lists {
    pub m: Vec<i16>,
    pub gains: Vec<u8>,
    pub entries: Vec<i8>,
    pub rooms: [usize; 5],
}

impl Lists {
    /// Another length for one of the eight lists: m, gains, entries, Y, xi,
    /// decision, Z, theta.
    pub fn resize(&mut self, list: usize, length: usize) {
        match list {
            0 => self.m.resize(length, 1),
            1 => self.gains.resize(length, 15),
            2 => self.entries.resize(length, 0),
            other => self.rooms[other - 3] = length,
        }
    }

    /// The lengths of the eight lists.
    pub fn lengths(&self) -> [usize; 8] {
        let [y, xi, decision, z, theta] = self.rooms;
        let read = [self.m.len(), self.gains.len(), self.entries.len()];
        [read[0], read[1], read[2], y, xi, decision, z, theta]
    }
}

/// One call with all that is lent to it. A block, a trial or a save has the
/// list's own record, or where one is given that one, which the list then
/// forgets.
#[derive(Clone, Debug, PartialEq, Eq)]
pub enum Call {
    SetUp(Settings),
    Block(Lists, Option<Equaliser>),
    Trial(Lists, Option<Equaliser>),
    Save(usize, Option<Equaliser>),
    Load(Vec<u8>),
}

/// [`Call::Block`] or [`Call::Trial`].
pub type CallOfLists = fn(Lists, Option<Equaliser>) -> Call;

impl Call {
    /// The names of the five kinds.
    pub const KINDS: [&'static str; 5] = ["set-up", "block", "trial", "save", "load"];

    /// The place of this call's kind among them.
    pub fn kind(&self) -> usize {
        match self {
            Call::SetUp(_) => 0,
            Call::Block(..) => 1,
            Call::Trial(..) => 2,
            Call::Save(..) => 3,
            Call::Load(_) => 4,
        }
    }

    pub fn is_trial(&self) -> bool {
        matches!(self, Call::Trial(..))
    }

    /// The lists of a block or a trial.
    pub fn lists(&self) -> Option<&Lists> {
        match self {
            Call::Block(lists, _) | Call::Trial(lists, _) => Some(lists),
            _ => None,
        }
    }

    /// The record that is lent in place of the list's own.
    pub fn other(&self) -> Option<&Equaliser> {
        match self {
            Call::Block(_, other) | Call::Trial(_, other) | Call::Save(_, other) => other.as_ref(),
            _ => None,
        }
    }
}

/// Makes the calls of a list.
pub struct Maker {
    pub random: Random,
    images: Vec<Vec<u8>>,
}

impl Maker {
    const KEPT_IMAGES: usize = 32;

    pub fn new(seed: u64) -> Maker {
        Maker {
            random: Random::new(seed),
            images: Vec::new(),
        }
    }

    /// Keeps an image that the list saved, for later loads.
    pub fn keep(&mut self, image: &[u8]) {
        if self.images.len() < Maker::KEPT_IMAGES {
            self.images.push(image.to_vec());
        } else {
            let place = self.random.below(Maker::KEPT_IMAGES as u64) as usize;
            self.images[place] = image.to_vec();
        }
    }

    /// Whether bytes are those of a kept image.
    pub fn has_kept(&self, bytes: &[u8]) -> bool {
        self.images.iter().any(|image| image == bytes)
    }

    /// The next call. The state of a refused set-up or load is mostly left at
    /// once, by an accepted one.
    pub fn next(&mut self, record: &Equaliser) -> Call {
        let left_over = *record == record_of(&State::fresh());
        if left_over && self.random.chance(3, 4) {
            return if self.random.chance(1, 2) {
                Call::SetUp(self.random.settings())
            } else {
                Call::Load(self.good_image())
            };
        }
        match self.random.below(100) {
            0..=3 => Call::SetUp(self.any_settings()),
            4..=55 => self.block(record),
            56..=71 => self.trial(record),
            72..=87 => self.save(record),
            _ => Call::Load(self.any_bytes()),
        }
    }

    pub fn any_settings(&mut self) -> Settings {
        let mut settings = self.random.settings();
        match self.random.below(4) {
            0 => self.wrong_size(&mut settings),
            1 => settings.m = self.wrong_step(&settings),
            _ => (),
        }
        settings
    }

    fn wrong_size(&mut self, s: &mut Settings) {
        match self.random.below(6) {
            0 => s.p = self.random.pick(&[0, 17, 255]),
            1 => s.q = self.random.pick(&[0, 17, 255]),
            2 => s.n = self.random.pick(&[0, 129, 255]),
            3 => s.r = self.random.pick(&[4, 255]),
            4 => s.l = self.random.pick(&[16, 255]),
            _ => (s.p, s.n) = (16, self.random.byte(1, 14)),
        }
    }

    fn wrong_step(&mut self, settings: &Settings) -> u32 {
        let above = settings.largest_m() + 1;
        self.random.pick(&[above, above, 1 << 30, u32::MAX])
    }

    pub fn block(&mut self, record: &Equaliser) -> Call {
        let (lists, lent) = self.lists(record);
        Call::Block(lists, lent)
    }

    fn trial(&mut self, record: &Equaliser) -> Call {
        let (lists, lent) = self.lists(record);
        Call::Trial(lists, lent)
    }

    /// The lists of a block of any loudness and aim, mostly one that can be
    /// run, and a record to lend in place of the list's own.
    fn lists(&mut self, record: &Equaliser) -> (Lists, Option<Equaliser>) {
        let settings = settings_of(record);
        let loudness = self.random.loudness();
        let (m, gains) = self.random.samples(&settings, loudness);
        let aim = self.random.aim();
        let entries = self.random.training(&settings, aim);
        let mut lists = Lists {
            m,
            gains,
            entries,
            rooms: [usize::from(record.n); 5],
        };
        let mut lent = None;
        match self.random.below(100) {
            0..=6 => self.wrong_length(&mut lists, record.n),
            7..=11 => self.wrong_gain(&mut lists, record.l),
            12..=16 => self.wrong_entry(&mut lists, record.r),
            17..=20 => self.several_wrong(&mut lists, record),
            21..=25 => lent = Some(self.wrong_record(record)),
            26 => {
                lent = Some(self.wrong_record(record));
                self.several_wrong(&mut lists, record);
            }
            _ => (),
        }
        (lists, lent)
    }

    /// Another length for one of the eight lists.
    fn wrong_length(&mut self, lists: &mut Lists, n: u8) {
        let n = usize::from(n);
        let any = self.random.below(140) as usize;
        let length = self.random.pick(&[0, n - 1, n - 1, n + 1, n + 1, any]);
        lists.resize(self.random.below(8) as usize, length);
    }

    pub fn wrong_gain(&mut self, lists: &mut Lists, l: u8) {
        let below = l.checked_sub(1).unwrap_or(16);
        let gain = self.random.pick(&[below, below, 16, 17, 255]);
        let place = self.random.below(lists.gains.len().max(1) as u64) as usize;
        if let Some(own) = lists.gains.get_mut(place) {
            *own = gain;
        }
    }

    pub fn wrong_entry(&mut self, lists: &mut Lists, r: u8) {
        let beyond = (2 << r) + 1;
        let entry = self.random.pick(&[2, -2, beyond, -beyond, 127, -128]);
        let place = self.random.below(lists.entries.len().max(1) as u64) as usize;
        if let Some(own) = lists.entries.get_mut(place) {
            *own = entry;
        }
    }

    pub fn several_wrong(&mut self, lists: &mut Lists, record: &Equaliser) {
        self.wrong_entry(lists, record.r);
        self.wrong_gain(lists, record.l);
        for _ in 0..self.random.below(3) {
            self.wrong_length(lists, record.n);
        }
    }

    /// The record with something wrong in it, or anything at all.
    pub fn wrong_record(&mut self, record: &Equaliser) -> Equaliser {
        let mut e = *record;
        let mut settings = settings_of(record);
        match self.random.below(9) {
            0 | 1 => self.wrong_size(&mut settings),
            2 | 3 => settings.m = self.wrong_step(&settings),
            4 => return self.any_record(),
            _ => self.wrong_place(&mut e),
        }
        (e.p, e.q, e.n) = (settings.p, settings.q, settings.n);
        (e.r, e.l, e.step) = (settings.r, settings.l, settings.m);
        e
    }

    /// One place of an otherwise sound record.
    fn wrong_place(&mut self, e: &mut Equaliser) {
        let (p, taps) = (usize::from(e.p), usize::from(e.p + e.q));
        let tap = self.random.below(taps as u64) as usize;
        let symbol = self.random.between(p as i64, taps as i64 - 1) as usize;
        let spare = taps.min(SLOTS - 1);
        match self.random.below(10) {
            0 => e.psi = self.random.byte(16, 255),
            1 => e.b = e.bmax + 1,
            2 => (e.b, e.bmax) = (32 - e.l, 32 - e.l),
            3 => e.weights[tap] = self.random.pick(&[16384, -16384, 32767, -32768]),
            4 => e.past[0] = self.random.pick(&[-32768, 32767, 16384]),
            5 => e.past[p - 1] = self.random.pick(&[1, -1, 256]),
            6 => e.past[symbol] = self.random.pick(&[2, -2, 17, -17, 256]),
            7 => e.weights[self.random.between(spare as i64, 31) as usize] = -32768,
            8 => e.past[self.random.between(spare as i64, 31) as usize] = 256,
            _ => (e.b, e.bmax) = (255, 255),
        }
    }

    fn any_record(&mut self) -> Equaliser {
        let mut any = || self.random.next();
        Equaliser {
            p: any() as u8,
            q: any() as u8,
            n: any() as u8,
            r: any() as u8,
            l: any() as u8,
            psi: any() as u8,
            b: any() as u8,
            bmax: any() as u8,
            step: any() as u32,
            weights: std::array::from_fn(|_| any() as i16),
            past: std::array::from_fn(|_| any() as i16),
        }
    }

    /// A save with any room, mostly enough.
    pub fn save(&mut self, record: &Equaliser) -> Call {
        let exact = image_length(&settings_of(record));
        let room = match self.random.below(8) {
            0 => exact - 1,
            1 => self.random.below(exact as u64) as usize,
            2 | 3 => exact,
            4 => exact + 1,
            _ => IMAGE_BYTES + self.random.below(60) as usize,
        };
        let lent = self.random.chance(1, 8).then(|| self.wrong_record(record));
        Call::Save(room, lent)
    }

    /// An image of an earlier save, or one of any sound state.
    pub fn good_image(&mut self) -> Vec<u8> {
        if !self.images.is_empty() && self.random.chance(1, 2) {
            let place = self.random.below(self.images.len() as u64) as usize;
            return self.images[place].clone();
        }
        let settings = self.random.settings();
        let mut record = record_of(&self.random.sound_state(settings));
        match self.random.below(6) {
            0 | 1 => self.near_a_fall(&mut record),
            2 | 3 => self.near_the_limit(&mut record),
            _ => (),
        }
        raw_image(&record)
    }

    /// A record whose exponent is about to rise: all weights near their bound,
    /// the largest step.
    pub fn near_the_limit(&mut self, e: &mut Equaliser) {
        e.psi = self.random.pick(&[0, 7, 13, 14, 14, 14, 15]);
        e.step = settings_of(e).largest_m();
        let taps = usize::from(e.p + e.q);
        for weight in &mut e.weights[..taps] {
            *weight = (self.random.sign() * self.random.between(16380, 16383)) as i16;
        }
    }

    /// A record whose exponent is about to fall: by some steps, since all
    /// weights are small, or by one or none, since one of them is beside 4096.
    pub fn near_a_fall(&mut self, e: &mut Equaliser) {
        e.psi = self.random.pick(&[0, 1, 1, 2, 7, 14, 15]);
        let most = self.random.pick(&[1, 63, 1023, 4095, 4095, 4095]);
        let taps = usize::from(e.p + e.q);
        for weight in &mut e.weights[..taps] {
            *weight = self.random.between(-most, most) as i16;
        }
        if most == 4095 {
            let tap = self.random.below(taps as u64) as usize;
            e.weights[tap] = (self.random.sign() * self.random.between(4092, 4099)) as i16;
        }
    }

    /// Bytes to load: good images, damaged ones and any bytes.
    pub fn any_bytes(&mut self) -> Vec<u8> {
        let mut bytes = self.good_image();
        match self.random.below(20) {
            0 => bytes.truncate(bytes.len() - 1),
            1 => bytes.push(0),
            2 => bytes.truncate(self.random.below(20) as usize),
            3..=4 => {
                let length = self.random.below(160) as usize;
                bytes = (0..length).map(|_| self.random.next() as u8).collect();
            }
            5 => bytes[12..].fill_with(|| self.random.next() as u8),
            6..=7 => {
                let place = self.random.below(bytes.len() as u64) as usize;
                bytes[place] ^= 1 << self.random.below(8);
            }
            8..=11 => bytes = self.wrong_image(),
            _ => (),
        }
        bytes
    }

    /// The image of a record with something wrong in it.
    fn wrong_image(&mut self) -> Vec<u8> {
        let settings = self.random.settings();
        let sound = record_of(&self.random.sound_state(settings));
        raw_image(&self.wrong_record(&sound))
    }
}

/// The image of any record, sound or not, with all its taps if they fit its
/// places.
pub fn raw_image(e: &Equaliser) -> Vec<u8> {
    let taps = SLOTS.min(usize::from(e.p) + usize::from(e.q));
    let mut bytes = vec![e.p, e.q, e.n, e.r, e.l, e.psi, e.b, e.bmax];
    bytes.extend(e.step.to_le_bytes());
    for place in e.weights[..taps].iter().chain(&e.past[..taps]) {
        bytes.extend(place.to_le_bytes());
    }
    bytes
}
