//! Descriptions with what the program writes, and the text of that as a trace.

use super::spoiled::{self, Spoiler};
use super::states::resized;
use super::{number_after, Made, Making};
use crate::cable::Cause;
use crate::description::{description, Description};
use crate::random::Random;
use crate::trace::trace;

/// A description, well formed or not, what the program `cable` writes, and what the program `trace` writes for that.
#[derive(Clone, Debug)]
pub struct DescriptionVector {
    /// What the description is about.
    pub about: &'static str,
    pub input: Vec<u8>,
    pub written: Vec<u8>,
    pub text: String,
}

impl DescriptionVector {
    /// The bytes in the file.
    pub fn bytes(&self) -> Vec<u8> {
        let parts = [&self.input, &self.written, self.text.as_bytes()];
        parts.map(|part| [&(part.len() as u32).to_le_bytes(), part].concat()).concat()
    }
}

impl Made for DescriptionVector {
    type Lent = Vec<u8>;

    fn of(about: &'static str, input: Vec<u8>) -> DescriptionVector {
        let written = description(&input);
        let text = trace(&written);
        DescriptionVector { about, input, written, text }
    }

    /// The number of the line that `cable` writes, or 0 where it is a trace.
    fn answer(&self) -> u8 {
        number_after("cable: ", &self.written)
    }
}

type Descriptions = Making<DescriptionVector>;

/// All descriptions.
pub fn description_vectors() -> Vec<DescriptionVector> {
    let mut all = Descriptions::new(0x6465_7363);
    well_formed(&mut all);
    wrong_lengths(&mut all);
    wrong_counts(&mut all);
    each_cause(&mut all);
    two_lines(&mut all);
    long_descriptions(&mut all);
    all.list
}

fn well_formed(all: &mut Descriptions) {
    all.put("worked example", 0, spoiled::worked_example().bytes());
    all.put("good", 0, spoiled::good().bytes());
    all.each("good", 0, [1, 2, 5, 12, 40, 128], |all, symbols| {
        let (mut described, random) = (spoiled::good(), &mut all.random);
        let settings = &mut described.settings;
        settings.p = 1;
        settings.n = if symbols > 12 { symbols } else { 1 };
        settings.l = random.byte(0, 2);
        settings.m = settings.greatest_m();
        described.symbols = (0..symbols).map(|_| random.symbol(1)).collect();
        described.training = random.below(u64::from(symbols) + 1) as u32;
        described.response = (0..random.between(1, 32)).map(|_| random.between(-150, 150) as i16).collect();
        described.bytes()
    });
}

fn wrong_lengths(all: &mut Descriptions) {
    let good = spoiled::good().bytes();
    let whole = good.len();
    let lengths = [0, 1, 5, 6, 12, 19, 20, 26, whole - 1, whole + 1, whole + 2, whole + 12];
    all.each("another length", 8, lengths, |_, length| {
        let mut bytes = good.clone();
        bytes.resize(length, 1);
        bytes
    });
    // 9 values and no symbol.
    let mut other = good.clone();
    (other[6], other[12]) = (9, 0);
    all.put("other counts of the same length", 10, other);
    // 20 bytes describe a cable without response and symbols.
    let none = Description { response: Vec::new(), symbols: Vec::new(), training: 0, ..spoiled::good() }.bytes();
    all.put("nothing but counts of 0", 10, none.clone());
    all.put("nothing but counts of 0, a byte short", 8, &none[..19]);
    all.put("20 bytes of 0", 1, vec![0; 20]);
    all.put("a byte of 0 less", 8, vec![0; 19]);
}

/// Counts that do not go with the length, the last of them by 2^32, and a byte 5 that is not 0.
fn wrong_counts(all: &mut Descriptions) {
    let values = [2, 4, 3, 3, 3, 0, 65_535, 3, 3, 259, 3, 10];
    let symbols = [12, 12, 11, 13, 0, 12, 12, 1 << 31, u32::MAX, 12, 65_536 + 12, u32::MAX - 1];
    all.each("other counts", 8, values.into_iter().zip(symbols), |_, (values, symbols)| {
        let mut bad = spoiled::good().bytes();
        bad[6..8].copy_from_slice(&u16::to_le_bytes(values));
        bad[12..16].copy_from_slice(&symbols.to_le_bytes());
        bad
    });
    all.each("a byte 5 that is not 0", 8, [1, 2, 128, 255], |_, byte| {
        let mut bad = spoiled::good().bytes();
        bad[5] = byte;
        bad
    });
}

/// Those that show in the program, whose output is always right.
fn shown() -> Vec<Spoiler> {
    spoiled::ALL.into_iter().filter(|(_, cause, _)| *cause != Cause::Output).collect()
}

/// Each cause alone, in every way.
fn each_cause(all: &mut Descriptions) {
    for (about, cause, spoil) in shown().into_iter().chain(spoiled::OTHERS) {
        let mut described = spoiled::good();
        spoil(&mut described);
        all.put(about, cause.number(), described.bytes());
    }
    all.each("a size outside its limits", 1, spoiled::SIZES, |_, sizes| {
        let good = spoiled::good();
        Description { settings: resized(good.settings, sizes), ..good }.bytes()
    });
}

/// Two causes of different lines: the first is told, and 8 before every other.
fn two_lines(all: &mut Descriptions) {
    let mut list = shown();
    list.sort_by_key(|(_, cause, _)| *cause);
    list.dedup_by_key(|(_, cause, _)| *cause);
    for (at, &first) in list.iter().enumerate() {
        all.each("two causes", first.1.number(), &list[at + 1..], |_, &other| spoiled::with(&[first, other]).bytes());
    }
    for spoiler in shown().into_iter().filter(|(_, cause, _)| *cause != Cause::Trace) {
        let mut input = spoiled::with(&[spoiler]).bytes();
        input[5] = 1;
        all.put("8 before another", 8, input.clone());
        input[5] = 0;
        input.push(1);
        all.put("8 before another", 8, input);
    }
}

/// The longest trace, and descriptions of 65,536 and 65,537 bytes.
fn long_descriptions(all: &mut Descriptions) {
    let mut random = Random::new(0x6C6F_6E67);
    let mut long = spoiled::good();
    (long.settings.p, long.settings.n, long.training) = (2, 1, 16_381);
    long.response = (0..32).map(|at| 40 - 3 * at).collect();
    long.symbols = (0..16_381).map(|_| random.symbol(1)).collect();
    all.put("the longest trace", 0, long.bytes());
    long.symbols.resize(65_536 - 20 - 64, 1);
    all.put("the longest description", 10, long.bytes());
    long.symbols.push(1);
    all.put("a byte beyond the longest", 8, long.bytes());
}
