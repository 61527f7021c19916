//! Single calls of a list, from the record that the list has led to.

use crate::lists::Lister;
use faults::spoiled::{unsound, wrong_size, wrong_step};
use harness::calls::{raw_image, Call, CallOfLists, Lists};
use harness::sides::{record_of, state_of};
use reference::random::{Aim, Loudness, Random};
use reference::{image_length, Settings, State};
use tigbulode::{Equaliser, IMAGE_BYTES, SLOTS};

const KEPT_IMAGES: usize = 32;

/// Settings of which half are turned down.
pub fn any_settings(random: &mut Random) -> Settings {
    let mut settings = random.settings();
    match random.below(4) {
        0 => wrong_size(random, &mut settings),
        1 => settings.m = wrong_step(random, &settings),
        _ => (),
    }
    settings
}

impl Lister {
    /// Keeps an image that the list saved, for later loads.
    pub fn keep(&mut self, image: &[u8]) {
        if self.images.len() < KEPT_IMAGES {
            self.images.push(image.to_vec());
        } else {
            let place = self.random.below(KEPT_IMAGES as u64) as usize;
            self.images[place] = image.to_vec();
        }
    }

    /// Any call. The state of a refused set-up or load is mostly left at once, by an accepted one.
    pub(crate) fn any_call(&mut self, record: &Equaliser) -> Call {
        let left_over = *record == record_of(&State::fresh());
        if left_over && self.random.chance(3, 4) {
            return match self.random.chance(1, 2) {
                true => Call::SetUp(self.random.settings()),
                false => Call::Load(self.good_image()),
            };
        }
        match self.random.below(100) {
            0..=3 => Call::SetUp(any_settings(&mut self.random)),
            4..=55 => self.any_block(record, Call::Block),
            56..=71 => self.any_block(record, Call::Trial),
            72..=87 => self.save(record),
            _ => Call::Load(self.any_bytes()),
        }
    }

    /// The lists of a block on a record.
    pub(crate) fn lists(&mut self, record: &Equaliser, loudness: Loudness, aim: Aim) -> Lists {
        let settings = record.settings();
        let (m, gains) = self.random.samples(&settings, loudness);
        let entries = self.random.training(&settings, aim);
        Lists { m, gains, entries, rooms: [usize::from(record.n); 5] }
    }

    /// A block, or a trial, of any loudness and aim, mostly one that can be run, and sometimes on another record.
    pub(crate) fn any_block(&mut self, record: &Equaliser, made: CallOfLists) -> Call {
        let settings = record.settings();
        let loudness = self.random.loudness();
        let (m, gains) = self.random.samples(&settings, loudness);
        let aim = self.random.aim();
        let entries = self.random.training(&settings, aim);
        let mut lists = Lists { m, gains, entries, rooms: [usize::from(record.n); 5] };
        let mut lent = None;
        match self.random.below(100) {
            0..=6 => self.wrong_length(&mut lists, record.n),
            7..=11 => self.wrong_gain(&mut lists, record.l),
            12..=16 => self.wrong_entry(&mut lists, record.r),
            17..=20 => self.several_wrong(&mut lists, record),
            21..=25 => lent = Some(self.wrong_record(record)),
            26 => {
                lent = Some(self.wrong_record(record));
                self.several_wrong(&mut lists, record);
            }
            _ => (),
        }
        made(lists, lent)
    }

    /// Another length for one of the eight lists.
    fn wrong_length(&mut self, lists: &mut Lists, n: u8) {
        let n = usize::from(n);
        let any = self.random.below(140) as usize;
        let length = self.random.pick(&[0, n - 1, n - 1, n + 1, n + 1, any]);
        lists.resize(self.random.below(8) as usize, length);
    }

    fn wrong_gain(&mut self, lists: &mut Lists, l: u8) {
        let below = l.checked_sub(1).unwrap_or(16);
        let gain = self.random.pick(&[below, below, 16, 17, 255]);
        self.put(&mut lists.gains, gain);
    }

    fn wrong_entry(&mut self, lists: &mut Lists, r: u8) {
        let beyond = (2 << r) + 1;
        let entry = self.random.pick(&[2, -2, beyond, -beyond, 127, -128]);
        self.put(&mut lists.entries, entry);
    }

    /// Puts a value into a list, if it has a place.
    fn put<T>(&mut self, list: &mut [T], value: T) {
        let place = self.random.below(list.len().max(1) as u64) as usize;
        if let Some(own) = list.get_mut(place) {
            *own = value;
        }
    }

    fn several_wrong(&mut self, lists: &mut Lists, record: &Equaliser) {
        self.wrong_entry(lists, record.r);
        self.wrong_gain(lists, record.l);
        for _ in 0..self.random.below(3) {
            self.wrong_length(lists, record.n);
        }
    }

    /// The record with something wrong in it, or anything at all.
    fn wrong_record(&mut self, record: &Equaliser) -> Equaliser {
        let mut state = state_of(record);
        match self.random.below(9) {
            0 | 1 => wrong_size(&mut self.random, &mut state.settings),
            2 | 3 => state.settings.m = wrong_step(&mut self.random, &state.settings),
            4 => return self.any_record(),
            _ => unsound(&mut self.random, &mut state),
        }
        record_of(&state)
    }

    fn any_record(&mut self) -> Equaliser {
        let [p, q, n, r, l, psi, b, bmax] = [(); 8].map(|()| self.random.next() as u8);
        let m = self.random.next() as u32;
        let [weights, data] = [(); 2].map(|()| self.random.list(SLOTS, |bits| bits as i16));
        record_of(&State { settings: Settings { p, q, n, r, l, m }, psi, b, bmax, weights, data })
    }

    /// A save with any room, mostly enough.
    pub(crate) fn save(&mut self, record: &Equaliser) -> Call {
        let exact = image_length(&record.settings());
        let room = match self.random.below(8) {
            0 => exact - 1,
            1 => self.random.below(exact as u64) as usize,
            2 | 3 => exact,
            4 => exact + 1,
            _ => IMAGE_BYTES + self.random.below(60) as usize,
        };
        let lent = self.random.chance(1, 8).then(|| self.wrong_record(record));
        Call::Save(room, lent)
    }

    /// A record of any sound state.
    pub(crate) fn sound_record(&mut self) -> Equaliser {
        let settings = self.random.settings();
        record_of(&self.random.sound_state(settings))
    }

    /// An image of an earlier save, or one of any sound state.
    pub(crate) fn good_image(&mut self) -> Vec<u8> {
        if !self.images.is_empty() && self.random.chance(1, 2) {
            let place = self.random.below(self.images.len() as u64) as usize;
            return self.images[place].clone();
        }
        let mut record = self.sound_record();
        match self.random.below(6) {
            0 | 1 => self.near_a_fall(&mut record),
            2 | 3 => self.near_the_limit(&mut record),
            _ => (),
        }
        raw_image(&record)
    }

    /// A record whose exponent is about to rise: all weights near their bound, the largest step.
    pub(crate) fn near_the_limit(&mut self, e: &mut Equaliser) {
        e.psi = self.random.pick(&[0, 7, 13, 14, 14, 14, 15]);
        e.step = e.settings().greatest_m();
        for weight in &mut e.weights[..usize::from(e.p + e.q)] {
            *weight = (self.random.sign() * self.random.between(16380, 16383)) as i16;
        }
    }

    /// A record whose exponent is about to fall: by some steps, since all weights are small, or by one or none, since
    /// one of them is beside 4096.
    fn near_a_fall(&mut self, e: &mut Equaliser) {
        e.psi = self.random.pick(&[0, 1, 1, 2, 7, 14, 15]);
        let most = self.random.pick(&[1, 63, 1023, 4095, 4095, 4095]);
        let taps = usize::from(e.p + e.q);
        for weight in &mut e.weights[..taps] {
            *weight = self.random.between(-most, most) as i16;
        }
        if most == 4095 {
            let tap = self.random.below(taps as u64) as usize;
            e.weights[tap] = (self.random.sign() * self.random.between(4092, 4099)) as i16;
        }
    }

    /// Bytes to load: good images, damaged ones and any bytes.
    pub(crate) fn any_bytes(&mut self) -> Vec<u8> {
        let mut bytes = self.good_image();
        match self.random.below(20) {
            0 => bytes.truncate(bytes.len() - 1),
            1 => bytes.push(0),
            2 => bytes.truncate(self.random.below(20) as usize),
            3..=4 => {
                let length = self.random.below(160) as usize;
                bytes = self.random.list(length, |bits| bits as u8);
            }
            5 => bytes[12..].fill_with(|| self.random.next() as u8),
            6..=7 => {
                let place = self.random.below(bytes.len() as u64) as usize;
                bytes[place] ^= 1 << self.random.below(8);
            }
            8..=11 => {
                let sound = self.sound_record();
                bytes = raw_image(&self.wrong_record(&sound));
            }
            _ => (),
        }
        bytes
    }
}
