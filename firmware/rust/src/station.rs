//! A station as firmware would run it, with the lines of `station.c`: it has
//! one record, trains on known symbols, goes on from its own decisions, keeps
//! its state beside a check sum, loses power, recovers, and goes on. Then calls
//! that are turned down, every bent byte in what it keeps, and a spell whose
//! blocks it tries before it takes them.

mod kept;
mod tried;

use crate::sides::Operations;
use crate::{greatest_step, image_length, number};
use crate::{Answer, Block, Equaliser, Outputs, Saved};
use kept::{keep, recover, Finding, Findings, Kept};
use reference::Settings;

const N: usize = 16;
const IMAGE: usize = image_length(SIZES.p, SIZES.q);
const SIZES: Settings = Settings {
    p: 4,
    q: 3,
    n: N as u8,
    r: 1,
    l: 0,
    m: 7_456_540,
};
const SMALLEST: Settings = Settings {
    p: 1,
    q: 1,
    n: 1,
    r: 0,
    l: 0,
    m: 67_108_864,
};
/// Of the cable, in units of 1/32768.
const RESPONSE: [i32; 4] = [13000, 4000, -2000, 900];
/// The cable's levels, in quarters of the usual one.
const FAINT: i32 = 2;
const USUAL: i32 = 4;
const LOUD: i32 = 16;

/// What a block reads.
#[derive(Clone, Default)]
struct Received {
    samples: [i16; N],
    gains: [u8; N],
    entries: [i8; N],
}

/// What a block hands out.
#[derive(Clone, PartialEq)]
struct OutputArrays {
    y: [i32; N],
    xi: [u8; N],
    decision: [i8; N],
    z: [i32; N],
    theta: [u8; N],
}

impl OutputArrays {
    fn filled() -> OutputArrays {
        OutputArrays {
            y: [0x5555_5555; N],
            xi: [0x55; N],
            decision: [0x55; N],
            z: [0x5555_5555; N],
            theta: [0x55; N],
        }
    }

    /// A sum over all that was handed out.
    fn add_to(&self, mut sum: u32) -> u32 {
        for i in 0..N {
            let numbers = [
                self.y[i],
                self.xi[i].into(),
                self.decision[i].into(),
                self.z[i],
                self.theta[i].into(),
            ];
            for number in numbers {
                sum = (sum ^ number as u32).wrapping_mul(16_777_619);
            }
        }
        sum
    }
}

/// The far end of the cable and the converter.
#[derive(Clone)]
struct Cable {
    random: u32,
    /// Newest first.
    sent: [i32; 4],
    level: i32,
}

impl Cable {
    fn next_random(&mut self) -> u32 {
        let product = self.random.wrapping_mul(1_664_525);
        self.random = product.wrapping_add(1_013_904_223);
        self.random
    }

    /// The next symbol, and its received sample at the highest gain that the
    /// converter can take; it cuts what is too loud.
    fn receive(&mut self) -> (i8, i16, u8) {
        self.sent.rotate_right(1);
        self.sent[0] = 2 * (self.next_random() >> 30) as i32 - 3;
        let noise = (self.next_random() >> 26) as i32 - 32;
        let products = RESPONSE.iter().zip(self.sent);
        let s = products.map(|(h, v)| h * v).sum::<i32>() + noise;
        let s = i64::from(s * self.level / USUAL);
        let end = 1i64 << (15 + SIZES.r);
        let gain = (0..15).take_while(|g| s.abs() << (g + 1) < end).count();
        let m = (s * (1i64 << gain)) / (1i64 << SIZES.r);
        let m = m.clamp(i16::MIN.into(), i16::MAX.into());
        (self.sent[0] as i8, m as i16, gain as u8)
    }

    /// The next block, without training entries, and the symbols that were
    /// sent.
    fn receive_block(&mut self) -> (Received, [i8; N]) {
        let mut block = Received::default();
        let mut sent = [0; N];
        let lists = block.samples.iter_mut().zip(&mut block.gains);
        for ((m, gain), symbol) in lists.zip(&mut sent) {
            (*symbol, *m, *gain) = self.receive();
        }
        (block, sent)
    }
}

fn hexadecimal(bytes: &[u8]) -> String {
    bytes.iter().map(|byte| format!(" {byte:02X}")).collect()
}

/// The station and what it has printed.
struct Station<'a> {
    side: &'a dyn Operations,
    record: Equaliser,
    cable: Cable,
    text: String,
    marks: u32,
}

/// The lines of the station by one side, and whether nothing that was turned
/// down or tried left a mark, each block did what its trial had shown, and no
/// bent image was taken.
pub fn text(side: &dyn Operations) -> (String, bool) {
    let answer = side.set_up(SIZES);
    let mut station = Station {
        side,
        record: answer.state,
        cable: Cable {
            random: 2026,
            sent: [0; 4],
            level: USUAL,
        },
        text: String::new(),
        marks: 0,
    };
    station.worked_example();
    station.line(set_up_line(answer.number));
    station.after_set_up();
    (station.text, station.marks == 0)
}

fn set_up_line(number: u8) -> String {
    let Settings { p, q, n, r, l, m } = SIZES;
    format!("set-up p {p} q {q} N {n} r {r} L {l} M {m}: answer {number}")
}

fn block_of(read: &Received, length: usize) -> Block<'_> {
    Block {
        samples: &read.samples[..length],
        gains: &read.gains[..length],
        entries: &read.entries[..length],
    }
}

fn lists_of(out: &mut OutputArrays, length: usize) -> Outputs<'_> {
    Outputs {
        y: &mut out.y[..length],
        xi: &mut out.xi[..length],
        decision: &mut out.decision[..length],
        z: &mut out.z[..length],
        theta: &mut out.theta[..length],
    }
}

fn run(
    side: &dyn Operations,
    s: &mut Equaliser,
    read: &Received,
    length: usize,
    out: &mut OutputArrays,
) -> u8 {
    side.run(s, block_of(read, length), lists_of(out, length))
}

impl Station<'_> {
    fn line(&mut self, line: String) {
        self.text.push_str(&line);
        self.text.push('\n');
    }

    fn after_set_up(&mut self) {
        for first in [0, 16, 32, 48] {
            self.run_blocks(first, true);
        }
        for first in [64, 80, 96, 112] {
            self.run_blocks(first, false);
        }
        let kept = self.keep_record();
        self.lose_power_and_recover(&kept);
        for first in [128, 144, 160, 176] {
            self.run_blocks(first, false);
        }
        self.refused_lists();
        self.refused_records();
        self.refused_save();
        self.refused_set_ups_and_loads(&kept.image);
        self.run_blocks(192, false);
        let kept = self.keep_record();
        self.bend_image(&kept);
        self.bend_check_sum(kept);
        self.recover_from_anything(kept);
        self.run_blocks(208, true);
        self.run_blocks(224, true);
        self.run_blocks(240, false);
        self.spell();
        self.run_blocks(384, true);
    }

    /// The two samples of the specification's example, and the image that
    /// they leave.
    fn worked_example(&mut self) {
        self.line("worked example".to_string());
        let mut s = self.side.set_up(SMALLEST).state;
        let mut out = OutputArrays::filled();
        for (i, entry) in [1, 0].into_iter().enumerate() {
            let mut read = Received::default();
            read.samples[0] = 0x4000;
            read.entries[0] = entry;
            if run(self.side, &mut s, &read, 1, &mut out) == number::ACCEPTED {
                self.line(format!(
                    "{i} {} {} {}",
                    out.y[0], out.xi[0], out.decision[0]
                ));
            }
        }
        let mut image = [0; crate::IMAGE_BYTES];
        let saved = self.side.save(&mut s, &mut image);
        self.line(format!("image{}", hexadecimal(&image[..saved.length])));
    }

    /// Sixteen blocks in place, with known symbols or without.
    fn run_blocks(&mut self, first: u32, trained: bool) {
        let mut wrong = 0;
        let mut sum = 2_166_136_261;
        for b in 0..16 {
            let (mut read, sent) = self.cable.receive_block();
            if trained {
                read.entries = sent;
            }
            let mut out = OutputArrays::filled();
            let number = run(self.side, &mut self.record, &read, N, &mut out);
            if number != 0 {
                self.line(format!("block {}: answer {number}", first + b));
                self.marks += 1;
            }
            wrong += out
                .decision
                .iter()
                .zip(sent)
                .filter(|(d, v)| **d != *v)
                .count();
            sum = out.add_to(sum);
        }
        let kind = if trained { "trained" } else { "decided" };
        let Equaliser { psi, b, bmax, .. } = self.record;
        let last = first + 15;
        let blocks = format!("{kind} blocks {first} to {last}: wrong decisions {wrong} of 256");
        self.line(format!(
            "{blocks}, psi {psi}, b {b}, B {bmax}, outputs {sum:08X}"
        ));
    }

    /// Keeps the record, which stays as it is, and prints what is kept.
    fn keep_record(&mut self) -> Kept {
        let before = self.record;
        let mut kept = Kept::filled(0);
        let Saved { number, length } = keep(self.side, &mut self.record, &mut kept);
        self.marks += u32::from(self.record != before);
        let sum = kept.check_sum;
        self.line(format!(
            "kept: answer {number}, length {length}, check sum {sum:08X}"
        ));
        self.line(format!("image{}", hexadecimal(&kept.image[..length])));
        kept
    }

    fn unchanged(&mut self, same: bool) -> &'static str {
        self.marks += u32::from(!same);
        if same {
            "kept"
        } else {
            "CHANGED"
        }
    }

    /// A block that is turned down, and its trial, which hands back the
    /// record's own state.
    fn refuse_block(&mut self, about: &str, before: Equaliser, read: &Received, length: usize) {
        let mut s = before;
        let mut out = OutputArrays::filled();
        let number = run(self.side, &mut s, read, length, &mut out);
        let record = self.unchanged(s == before);
        let outputs = self.unchanged(out == OutputArrays::filled());
        let run = format!("answer {number}, record {record}, outputs {outputs}");
        let trial = self.try_block(&mut { before }, read, length);
        self.marks += u32::from(trial.answer.number != number);
        let (number, record) = (trial.answer.number, trial.record);
        let outputs = self.unchanged(trial.out == OutputArrays::filled());
        let state = self.unchanged(trial.answer.state == trial.before);
        let trial = format!("answer {number}, record {record}, outputs {outputs}, state {state}");
        self.line(format!("{about}: {run}; its trial: {trial}"));
    }

    fn refused_lists(&mut self) {
        let (read, _) = self.cable.clone().receive_block();
        self.refuse_block("block with lists of 15", self.record, &read, N - 1);
        let mut other = read.clone();
        other.gains[N - 1] = 16;
        self.refuse_block("block with a gain of 16", self.record, &other, N);
        let mut other = read;
        other.entries[N - 1] = 2;
        self.refuse_block("block with an entry of 2", self.record, &other, N);
    }

    fn refused_records(&mut self) {
        let mut read = Received::default();
        let mut s = self.record;
        s.q = 0;
        self.refuse_block("block on a record with q 0", s, &read, N);
        s = self.record;
        s.step = SIZES.m + 1;
        self.refuse_block("block on a record with too large a step", s, &read, N);
        s = self.record;
        s.weights[SIZES.taps()] = 1;
        let about = "block on a record with something in a spare slot";
        self.refuse_block(about, s, &read, N);
        s = self.side.set_up(SMALLEST).state;
        s.psi = 15;
        s.weights[0] = 16383;
        s.weights[1] = -16383;
        s.past[1] = 1;
        read.samples[0] = 0x2000;
        read.entries[0] = 1;
        self.refuse_block("block that would raise psi to 16", s, &read, 1);
    }

    fn refused_save(&mut self) {
        let before = self.record;
        let mut lent = [0x55; IMAGE - 1];
        let saved = self.side.save(&mut self.record, &mut lent);
        let record = self.unchanged(self.record == before);
        let buffer = self.unchanged(lent == [0x55; IMAGE - 1]);
        let (number, length) = (saved.number, saved.length);
        self.line(format!(
            "save to 39 bytes: answer {number}, length {length}, record {record}, buffer {buffer}"
        ));
    }

    fn print_refused(&mut self, about: &str, answer: Answer) {
        let number = answer.number;
        let Equaliser {
            p,
            q,
            n,
            r,
            l,
            step,
            ..
        } = answer.state;
        self.line(format!(
            "{about}: answer {number}, state p {p} q {q} N {n} r {r} L {l} M {step}"
        ));
    }

    fn refused_set_ups_and_loads(&mut self, image: &[u8; IMAGE]) {
        let side = self.side;
        let settings = Settings {
            p: 17,
            m: 0,
            ..SIZES
        };
        self.print_refused("set-up with 17 taps", side.set_up(settings));
        let settings = SIZES.with_m(SIZES.m + 1);
        self.print_refused("set-up with too large a step", side.set_up(settings));
        self.print_refused("load of a byte less", side.load(&image[..IMAGE - 1]));
        let damaged = |place: usize, byte: u8| {
            let mut bytes = *image;
            bytes[place] = byte;
            side.load(&bytes)
        };
        self.print_refused("load with r 4", damaged(3, 4));
        self.print_refused("load with too large a step", damaged(11, 0xFF));
        self.print_refused("load with a weight of 16384 or more", damaged(13, 0x40));
    }

    fn lose_power_and_recover(&mut self, kept: &Kept) {
        let before = self.record;
        let lost = Equaliser {
            p: 0xFF,
            q: 0xFF,
            n: 0xFF,
            r: 0xFF,
            l: 0xFF,
            psi: 0xFF,
            b: 0xFF,
            bmax: 0xFF,
            step: u32::MAX,
            weights: [-1; crate::SLOTS],
            past: [-1; crate::SLOTS],
        };
        self.line("power lost".to_string());
        self.refuse_block(
            "block on a record of FF bytes",
            lost,
            &Received::default(),
            N,
        );
        let (found, state) = recover(self.side, kept);
        self.record = state;
        let record = self.unchanged(self.record == before);
        let text = found.text();
        self.line(format!("{text}, record of before the loss {record}"));
    }

    /// Counts what the station finds. Where it doesn't recover it has the
    /// fresh state.
    fn count_finding(&mut self, kept: &Kept, counts: &mut Findings) {
        let fresh = self.side.set_up(SIZES).state;
        let (found, state) = recover(self.side, kept);
        counts.add(found);
        self.marks += u32::from(found != Finding::OwnState && state != fresh);
    }

    /// What the station finds with one byte of the image bent in every way.
    /// The check sum stays that of the good image, or is made right, as if
    /// there were none.
    fn bend_byte(&mut self, good: &Kept, place: usize, made_right: bool, counts: &mut Findings) {
        for bend in 1..=255 {
            let mut kept = *good;
            kept.image[place] ^= bend;
            if made_right {
                kept.make_right();
            }
            self.count_finding(&kept, counts);
        }
    }

    /// Bends every byte of the image. Without a check sum some must be taken,
    /// or the bending would show nothing.
    fn bend_image(&mut self, kept: &Kept) {
        let (mut counts, mut without) = (Findings::default(), Findings::default());
        for place in 0..IMAGE {
            self.bend_byte(kept, place, false, &mut counts);
            self.bend_byte(kept, place, true, &mut without);
        }
        let other = without.of(Finding::OtherSettings);
        let sound = without.of(Finding::OwnState) + other;
        let taken = counts.of(Finding::OwnState);
        let all = IMAGE * 255;
        self.line(format!(
            "bent images: {all}; a load alone takes {sound} of them as sound states, \
             {other} of these with other settings; \
             taken after check sum and settings: {taken}"
        ));
        self.marks += u32::from(taken != 0 || sound == other);
    }

    /// Bends every byte of the check sum.
    fn bend_check_sum(&mut self, good: Kept) {
        let mut counts = Findings::default();
        for i in 0..4 * 255 {
            let mut kept = good;
            kept.check_sum ^= (1 + i % 255) << (8 * (i / 255));
            self.count_finding(&kept, &mut counts);
        }
        let taken = counts.of(Finding::OwnState);
        self.line(format!("bent check sums: {}; taken: {taken}", 4 * 255));
        self.marks += u32::from(taken != 0);
    }

    /// The station recovers from memory that doesn't hold its own state.
    fn recover_from(&mut self, about: &str, kept: &Kept) {
        let (found, state) = recover(self.side, kept);
        self.record = state;
        self.line(format!("{about}: {}", found.text()));
        self.marks += u32::from(found == Finding::OwnState);
    }

    /// The state of another station, kept as that one would keep it.
    fn recover_from_other(&mut self, about: &str, settings: Settings) {
        let mut other = self.side.set_up(settings).state;
        let mut kept = Kept::filled(0);
        let saved = keep(self.side, &mut other, &mut kept);
        self.marks += u32::from(saved.number != number::ACCEPTED);
        self.recover_from(about, &kept);
    }

    fn recover_from_anything(&mut self, mut kept: Kept) {
        kept.image[13] = 0x40;
        kept.make_right();
        let about = "image with a weight of 16384 or more, its check sum right";
        self.recover_from(about, &kept);
        let Settings { p, q, r, l, m, .. } = SIZES;
        let turned = Settings {
            p: q,
            q: p,
            ..SIZES
        };
        let greatest = greatest_step(q, p, r, l).expect("the sizes are within their limits");
        self.recover_from_other("image of a station with p 3 q 4", turned.with_m(greatest));
        let smaller = SIZES.with_m(m - 1);
        self.recover_from_other("image of a station with a smaller step", smaller);
        self.recover_from("memory of zeros", &Kept::filled(0));
        self.recover_from("memory of FF bytes", &Kept::filled(0xFF));
    }
}
