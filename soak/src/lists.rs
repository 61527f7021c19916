//! The calls of a list, made one by one from the record that the list has led
//! to. What a list is about follows from its place in the run.

use reference::numbers::scale_count;
use reference::random::{Aim, Loudness};
use reference::vectors::gathering::gathering;
use reference::Settings;
use tigbulode::calls::{raw_image, Call, Lists, Maker};
use tigbulode::sides::{record_of, settings_of};
use tigbulode::Equaliser;

/// What a list is about.
#[derive(Clone, Copy, Debug, PartialEq, Eq)]
pub enum Plan {
    /// Anything.
    Mixed,
    /// Settings at a corner of their limits.
    Corner(usize),
    /// Loud and quiet spells, trained first and decided later.
    Spells,
    /// Symbols through a channel, so that the equaliser settles.
    Channel,
    /// Weights about to be halved, ψ near its top.
    Top,
    /// Weights about to be doubled, ψ above 0.
    Falling,
    /// Weights and data at their bounds, with signs that agree.
    Bounds,
    /// Saved images bent in one or several places.
    Bent,
    /// Lent lists of wrong lengths.
    Lengths,
}

/// The settings at a corner: p, q, N, r, L at an end of their limits (p also
/// at 2, the least with a past sample), and M the largest, 0 or 1.
pub fn corner(place: usize) -> Settings {
    let mut rest = place;
    let mut choose = |count: usize| {
        let chosen = rest % count;
        rest /= count;
        chosen
    };
    let p = [1, 16, 2][choose(3)];
    let m = choose(3);
    let q = [1, 16][choose(2)];
    let n = [1.max(p - 1), Settings::MOST_BLOCK][choose(2)];
    let r = [0, Settings::MOST_R][choose(2)];
    let l = [0, Settings::MOST_GAIN][choose(2)];
    let settings = Settings {
        p,
        q,
        n,
        r,
        l,
        m: 0,
    };
    settings.with_m([settings.largest_m(), 0, 1][m])
}

/// How many corners there are.
pub const CORNERS: usize = 144;

/// Makes the calls of one list.
pub struct Lister {
    maker: Maker,
    plan: Plan,
    turn: usize,
    length: usize,
    spell: (Loudness, Aim),
    channel: [i32; 3],
    /// The last symbols that were sent, newest first.
    sent: [i32; 3],
    /// A block that follows the last call: its trial, or the load of its record.
    following: Option<Call>,
}

/// The start of a list's own numbers.
pub fn start(seed: u64, list: u64) -> u64 {
    seed.wrapping_mul(0xD134_2543_DE82_EF95)
        .wrapping_add(list)
        .wrapping_mul(0x2545_F491_4F6C_DD1D)
}

impl Lister {
    pub fn new(seed: u64, list: u64) -> Lister {
        let mut maker = Maker::new(start(seed, list));
        let corner = (list / 10 * 2) as usize % CORNERS;
        let plan = match list % 10 {
            0 => Plan::Corner(corner),
            1 => Plan::Mixed,
            2 => Plan::Spells,
            3 => Plan::Top,
            4 => Plan::Corner(corner + 1),
            5 => Plan::Bounds,
            6 => Plan::Bent,
            7 => Plan::Lengths,
            8 => Plan::Falling,
            _ => Plan::Channel,
        };
        let length = maker.random.between(12, 36) as usize;
        let channel = [(); 3].map(|()| maker.random.between(-300, 300) as i32);
        Lister {
            maker,
            plan,
            turn: 0,
            length,
            spell: (Loudness::Loud, Aim::Trained),
            channel,
            sent: [1; 3],
            following: None,
        }
    }

    /// The next call, or none at the end of the list.
    pub fn next(&mut self, record: &Equaliser) -> Option<Call> {
        let turn = self.turn;
        self.turn += 1;
        if turn >= self.length {
            return None;
        }
        let block = self.following.take();
        block.or_else(|| Some(self.perhaps_tried(turn, record)))
    }

    /// The next call, or where it is a block sometimes a trial of it; the block
    /// then follows.
    fn perhaps_tried(&mut self, turn: usize, record: &Equaliser) -> Call {
        let call = self.planned(turn, record);
        match &call {
            Call::Block(lists, lent) if self.maker.random.chance(1, 5) => {
                let trial = Call::Trial(lists.clone(), *lent);
                self.following = Some(call);
                trial
            }
            _ => call,
        }
    }

    fn planned(&mut self, turn: usize, record: &Equaliser) -> Call {
        if turn > 0 && self.maker.random.chance(1, 5) {
            return self.maker.next(record);
        }
        if self.maker.random.chance(1, 30) {
            return self.on_another();
        }
        match self.plan {
            Plan::Mixed => self.maker.next(record),
            Plan::Corner(place) => self.corner(corner(place), record),
            Plan::Spells => self.spells(turn, record),
            Plan::Channel => self.channel(turn, record),
            Plan::Top => self.top(turn, record),
            Plan::Falling => self.falling(turn, record),
            Plan::Bounds => self.bounds(turn, record),
            Plan::Bent => self.bent(turn, record),
            Plan::Lengths => self.lengths(turn, record),
        }
    }

    /// Keeps an image that the list saved, for later loads.
    pub fn keep(&mut self, image: &[u8]) {
        self.maker.keep(image);
    }

    fn lists(&mut self, record: &Equaliser, loudness: Loudness, aim: Aim) -> Lists {
        let settings = settings_of(record);
        let (m, gains) = self.maker.random.samples(&settings, loudness);
        let entries = self.maker.random.training(&settings, aim);
        let rooms = [usize::from(record.n); 5];
        Lists {
            m,
            gains,
            entries,
            rooms,
        }
    }

    fn block(&mut self, record: &Equaliser, loudness: Loudness, aim: Aim) -> Call {
        Call::Block(self.lists(record, loudness, aim), None)
    }

    fn any_good_block(&mut self, record: &Equaliser) -> Call {
        let loudness = self.maker.random.loudness();
        let aim = self.maker.random.aim();
        self.block(record, loudness, aim)
    }

    /// A block or a save on another sound record.
    fn on_another(&mut self) -> Call {
        let settings = self.maker.random.settings();
        let other = record_of(&self.maker.random.sound_state(settings));
        match self.any_good_block(&other) {
            Call::Block(lists, _) if self.maker.random.chance(2, 3) => {
                Call::Block(lists, Some(other))
            }
            _ => Call::Save(tigbulode::IMAGE_BYTES, Some(other)),
        }
    }

    fn corner(&mut self, settings: Settings, record: &Equaliser) -> Call {
        if settings_of(record) != settings {
            if self.maker.random.chance(1, 2) {
                return Call::SetUp(settings);
            }
            let state = self.maker.random.sound_state(settings);
            return Call::Load(raw_image(&record_of(&state)));
        }
        match self.maker.random.below(8) {
            0 => self.maker.save(record),
            1 => self.maker.block(record),
            _ => self.any_good_block(record),
        }
    }

    fn spells(&mut self, turn: usize, record: &Equaliser) -> Call {
        if turn == 0 {
            return Call::SetUp(self.maker.random.settings());
        }
        if self.maker.random.chance(1, 3) {
            self.spell.0 = self.maker.random.loudness();
        }
        if turn > self.length / 2 {
            self.spell.1 = Aim::Decided;
        }
        match self.maker.random.below(8) {
            0 => self.maker.save(record),
            1 => Call::Load(self.maker.good_image()),
            _ => self.block(record, self.spell.0, self.spell.1),
        }
    }

    /// A sample of the channel, and the symbol that was sent.
    fn received(&mut self, r: u8) -> (i16, i8) {
        let symbol = self.maker.random.symbol(r);
        self.sent = [symbol.into(), self.sent[0], self.sent[1]];
        let taps = self.channel.iter().zip(self.sent);
        let noise = self.maker.random.between(-20, 20) as i32;
        let sum: i32 = 1500 * self.sent[0] + taps.map(|(h, s)| h * s).sum::<i32>() + noise;
        (sum.clamp(-32768, 32767) as i16, symbol)
    }

    fn channel(&mut self, turn: usize, record: &Equaliser) -> Call {
        if turn == 0 {
            let mut settings = self.maker.random.settings();
            settings.n = self.maker.random.byte(32.max(settings.n), 128);
            return Call::SetUp(settings.with_m(settings.largest_m() / 2));
        }
        if self.maker.random.chance(1, 8) {
            return self.maker.save(record);
        }
        let mut lists = self.lists(record, Loudness::Zero, Aim::Decided);
        lists.gains.fill(record.l);
        for (m, entry) in lists.m.iter_mut().zip(&mut lists.entries) {
            let (sample, symbol) = self.received(record.r);
            *m = sample;
            *entry = if turn < self.length / 2 { symbol } else { 0 };
        }
        Call::Block(lists, None)
    }

    fn top(&mut self, turn: usize, record: &Equaliser) -> Call {
        if turn.is_multiple_of(6) {
            let settings = self.maker.random.settings();
            let mut e = record_of(&self.maker.random.sound_state(settings));
            self.maker.near_the_limit(&mut e);
            e.psi = self.maker.random.byte(12, 15);
            return Call::Load(raw_image(&e));
        }
        if self.maker.random.chance(1, 6) {
            return self.maker.save(record);
        }
        let loudness = [
            Loudness::Loud,
            Loudness::LoudRandom,
            Loudness::Any,
            Loudness::Faint,
        ];
        let loudness = self.maker.random.pick(&loudness);
        let aim = self
            .maker
            .random
            .pick(&[Aim::Ends, Aim::Ends, Aim::Decided]);
        self.block(record, loudness, aim)
    }

    /// A record whose weights are about to be doubled; one in four has ψ = 15,
    /// weights of 0 and a block in which they come down to 0.
    fn falling_record(&mut self) -> Equaliser {
        let random = &mut self.maker.random;
        let mut settings = random.settings();
        settings.n = random.byte(1.max(settings.p - 1), 40);
        let whole = random.chance(1, 4);
        if whole {
            settings.n = random.byte(15.max(settings.n), 40);
            settings.m = random.pick(&[0, 1, settings.m]);
        }
        let mut e = record_of(&random.falling_state(settings));
        if whole {
            e.psi = 15;
            e.weights.fill(0);
        }
        e
    }

    /// The record of a block in which ψ falls from 15 and comes up again, to 15
    /// or to the refusal 6; the block follows.
    fn gathering(&mut self) -> Call {
        let random = &mut self.maker.random;
        let (size, larger) = (random.between(3790, 3860), random.below(33));
        let block = gathering(size as i16, larger as usize);
        let lists = Lists {
            rooms: [block.samples.len(); 5],
            m: block.samples,
            gains: block.gains,
            entries: block.training,
        };
        self.following = Some(Call::Block(lists, None));
        Call::Load(raw_image(&record_of(&block.state)))
    }

    fn falling(&mut self, turn: usize, record: &Equaliser) -> Call {
        if turn.is_multiple_of(4) && self.maker.random.chance(1, 40) {
            return self.gathering();
        }
        if turn.is_multiple_of(4) {
            return Call::Load(raw_image(&self.falling_record()));
        }
        if self.maker.random.chance(1, 8) {
            return self.maker.save(record);
        }
        self.any_good_block(record)
    }

    /// A record with every weight and datum at its bound or just below.
    fn record_at_bounds(&mut self) -> Equaliser {
        let random = &mut self.maker.random;
        let mut settings = random.settings();
        settings.p = random.pick(&[1, 2, 4, 8, 16, settings.p]);
        settings.q = random.pick(&[1, 2, 4, 8, 16, settings.q]);
        settings.n = random.byte(1.max(settings.p - 1), 16);
        settings.m = random.pick(&[settings.largest_m(), settings.largest_m(), 0]);
        let mut e = record_of(&reference::State::zeros(settings));
        let psi = random.byte(0, 15);
        e.psi = random.pick(&[0, 0, 1, psi]);
        e.bmax = 30 - e.l;
        e.b = e.bmax;
        let (p, taps) = (usize::from(e.p), settings.taps());
        let [weight, forward, back] = [(); 3].map(|()| random.sign() as i16);
        let bound = (1i16 << (15 - scale_count(e.p))) - 1;
        for place in 0..taps {
            e.weights[place] = weight * (16383 - random.pick(&[0, 0, 1, 2]));
            e.past[place] = match place {
                place if place < p - 1 => forward * bound,
                place if place < p => 0,
                _ => back * settings.end_symbol() as i16,
            };
        }
        if random.chance(1, 2) {
            let other = random.below(taps as u64) as usize;
            e.weights[other] *= -1;
        }
        e
    }

    fn bounds(&mut self, turn: usize, record: &Equaliser) -> Call {
        if turn.is_multiple_of(3) {
            return Call::Load(raw_image(&self.record_at_bounds()));
        }
        let aim = self.maker.random.pick(&[Aim::Ends, Aim::Ends, Aim::Mixed]);
        let mut lists = self.lists(record, Loudness::Loud, aim);
        let sign = if self.maker.random.chance(1, 2) {
            32767
        } else {
            -32767
        };
        lists.m.iter_mut().for_each(|m| *m = sign);
        if self.maker.random.chance(1, 2) {
            let end = self.maker.random.end_symbol(record.r);
            lists.entries.fill(end);
        }
        Call::Block(lists, None)
    }

    /// Bends bytes in one or several places.
    fn bend(&mut self, bytes: &mut [u8]) {
        let random = &mut self.maker.random;
        for _ in 0..random.pick(&[1, 1, 1, 2, 3, 8]) {
            let place = random.below(bytes.len().max(1) as u64) as usize;
            let any = random.next() as u8;
            let bit = 1 << random.below(8);
            if let Some(byte) = bytes.get_mut(place) {
                *byte = random.pick(&[*byte ^ bit, *byte ^ bit, any, 0, 255]);
            }
        }
    }

    fn bent(&mut self, turn: usize, record: &Equaliser) -> Call {
        match turn % 5 {
            0 => Call::Load(self.maker.good_image()),
            1 => self.any_good_block(record),
            2 => Call::Save(tigbulode::IMAGE_BYTES, None),
            3 => {
                let mut bytes = self.maker.good_image();
                self.bend(&mut bytes);
                Call::Load(bytes)
            }
            _ => Call::Load(self.maker.any_bytes()),
        }
    }

    fn lengths(&mut self, turn: usize, record: &Equaliser) -> Call {
        if turn == 0 {
            return Call::SetUp(self.maker.random.settings());
        }
        let (loudness, aim) = (self.maker.random.loudness(), self.maker.random.aim());
        let mut lists = self.lists(record, loudness, aim);
        let n = usize::from(record.n);
        let random = &mut self.maker.random;
        let any = random.below(260) as usize;
        let length = random.pick(&[0, n - 1, n + 1, 2 * n, 128, 255, 256, any]);
        match random.below(8) {
            0 => (0..8).for_each(|list| lists.resize(list, length)),
            1 => (0..3).for_each(|list| lists.resize(list, length)),
            2 => (3..8).for_each(|list| lists.resize(list, length)),
            3 | 4 => (),
            _ => lists.resize((turn - 1) % 8, length),
        }
        Call::Block(lists, None)
    }
}
