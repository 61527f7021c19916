//! Descriptions with what the program writes, and the text of that as a trace.

use crate::cable::Cause;
use crate::description::description;
use crate::random::Random;
use crate::trace::trace;
use crate::vectors::spoiled::{self, Spoiler};

/// A description, well formed or not, what the program `cable` writes, and what
/// the program `trace` writes for that.
#[derive(Clone, Debug)]
pub struct DescriptionVector {
    /// What the description is about.
    pub about: &'static str,
    pub input: Vec<u8>,
    pub written: Vec<u8>,
    pub text: String,
}

impl DescriptionVector {
    /// The description, what is written, and the text, each after its length
    /// (u32).
    pub fn bytes(&self) -> Vec<u8> {
        let mut bytes = Vec::new();
        for part in [&self.input, &self.written, self.text.as_bytes()] {
            bytes.extend((part.len() as u32).to_le_bytes());
            bytes.extend(part);
        }
        bytes
    }
}

struct Collection {
    list: Vec<DescriptionVector>,
}

impl Collection {
    fn put(&mut self, about: &'static str, input: Vec<u8>) {
        let written = description(&input);
        let text = trace(&written);
        self.list.push(DescriptionVector {
            about,
            input,
            written,
            text,
        });
    }

    /// A description whose line starts with this number.
    fn refuse(&mut self, about: &'static str, input: Vec<u8>, number: u8) {
        let start = format!("cable: {number}, ");
        self.put(about, input);
        let written = &self.list[self.list.len() - 1].written;
        assert!(written.starts_with(start.as_bytes()), "{about}");
    }
}

/// All descriptions.
pub fn description_vectors() -> Vec<DescriptionVector> {
    let mut all = Collection { list: Vec::new() };
    well_formed(&mut all);
    wrong_lengths(&mut all);
    wrong_counts(&mut all);
    wrong_byte(&mut all);
    each_line(&mut all);
    other_causes(&mut all);
    two_lines(&mut all);
    bytes_first(&mut all);
    long_descriptions(&mut all);
    all.list
}

fn well_formed(all: &mut Collection) {
    all.put("worked example", spoiled::worked_example().bytes());
    all.put("good", spoiled::good().bytes());
    let mut random = Random::new(0x6465_7363);
    for symbols in [1, 2, 5, 12, 40, 128] {
        let mut described = spoiled::good();
        described.settings.p = 1;
        described.settings.n = if symbols > 12 { symbols } else { 1 };
        described.settings.l = random.byte(0, 2);
        described.settings.m = described.settings.largest_m();
        described.symbols = (0..symbols).map(|_| random.symbol(1)).collect();
        described.training = random.below(u64::from(symbols) + 1) as u32;
        let values = random.between(1, 32);
        let value = |_| random.between(-150, 150) as i16;
        described.response = (0..values).map(value).collect();
        all.put("good", described.bytes());
    }
}

fn wrong_lengths(all: &mut Collection) {
    let good = spoiled::good().bytes();
    for length in [0, 1, 5, 6, 12, 19, 20, 26, good.len() - 1] {
        all.refuse("too short", good[..length].to_vec(), 8);
    }
    for more in [1, 2, 12] {
        let mut long = good.clone();
        long.extend(vec![1; more]);
        all.refuse("too long", long, 8);
    }
    // Other counts that go with the length: 9 values and no symbol.
    let mut other = good.clone();
    (other[6], other[12]) = (9, 0);
    all.refuse("other counts of the same length", other, 10);
    // 20 bytes describe a cable without response and symbols.
    let mut none = spoiled::good();
    none.response.clear();
    none.symbols.clear();
    none.training = 0;
    all.refuse("nothing but counts of 0", none.bytes(), 10);
    all.refuse(
        "nothing but counts of 0, a byte short",
        none.bytes()[..19].to_vec(),
        8,
    );
    all.refuse("20 bytes of 0", vec![0; 20], 1);
    all.refuse("a byte of 0 less", vec![0; 19], 8);
}

/// Counts that do not go with the length, the last of them by 2^32.
fn wrong_counts(all: &mut Collection) {
    let good = spoiled::good().bytes();
    for (values, symbols) in [
        (2, 12),
        (4, 12),
        (3, 11),
        (3, 13),
        (3, 0),
        (0, 12),
        (65_535, 12),
        (3, 1 << 31),
        (3, u32::MAX),
        (259, 12),
        (3, 65_536 + 12),
        (10, u32::MAX - 1),
    ] {
        let mut bad = good.clone();
        bad[6..8].copy_from_slice(&u16::to_le_bytes(values));
        bad[12..16].copy_from_slice(&u32::to_le_bytes(symbols));
        all.refuse("other counts", bad, 8);
    }
}

fn wrong_byte(all: &mut Collection) {
    for byte in [1, 2, 128, 255] {
        let mut bad = spoiled::good().bytes();
        bad[5] = byte;
        all.refuse("a byte 5 that is not 0", bad, 8);
    }
}

/// Those that show in the program, whose output is always right.
fn shown() -> Vec<&'static Spoiler> {
    let shows = |spoiler: &&Spoiler| spoiler.cause != Cause::Output;
    spoiled::ALL.iter().filter(shows).collect()
}

fn each_line(all: &mut Collection) {
    for spoiler in shown() {
        let input = spoiled::with(&[spoiler]).bytes();
        all.refuse(spoiler.about, input, spoiler.cause.number());
    }
}

/// Further causes of the same lines.
fn other_causes(all: &mut Collection) {
    for spoiler in spoiled::OTHERS {
        let mut described = spoiled::good();
        (spoiler.spoil)(&mut described);
        all.refuse(spoiler.about, described.bytes(), spoiler.cause.number());
    }
    for spoil in spoiled::SIZES {
        let mut described = spoiled::good();
        spoil(&mut described);
        all.refuse("a size outside its limits", described.bytes(), 1);
    }
}

/// Two causes of different lines: the first is told.
fn two_lines(all: &mut Collection) {
    let mut list = shown();
    list.sort_by_key(|spoiler| spoiler.cause);
    list.dedup_by_key(|spoiler| spoiler.cause);
    for (at, first) in list.iter().enumerate() {
        for other in &list[at + 1..] {
            let input = spoiled::with(&[first, other]).bytes();
            all.refuse("two causes", input, first.cause.number());
        }
    }
}

/// 8 before every other line.
fn bytes_first(all: &mut Collection) {
    let short = |spoiler: &&Spoiler| spoiler.cause != Cause::Trace;
    for spoiler in shown().into_iter().filter(short) {
        let mut input = spoiled::with(&[spoiler]).bytes();
        input[5] = 1;
        all.refuse("8 before another", input.clone(), 8);
        input[5] = 0;
        input.push(1);
        all.refuse("8 before another", input, 8);
    }
}

/// The longest trace, and descriptions of 65,536 and 65,537 bytes.
fn long_descriptions(all: &mut Collection) {
    let mut long = spoiled::good();
    long.settings.p = 2;
    long.settings.n = 1;
    long.response = (0..32).map(|at| 40 - 3 * at).collect();
    let mut random = Random::new(0x6C6F_6E67);
    long.symbols = (0..16_381).map(|_| random.symbol(1)).collect();
    long.training = 16_381;
    all.put("the longest trace", long.bytes());
    long.symbols.resize(65_536 - 20 - 64, 1);
    all.refuse("the longest description", long.bytes(), 10);
    long.symbols.push(1);
    all.refuse("a byte beyond the longest", long.bytes(), 8);
}
