//! Test vectors: six files that are the same bytes every time, as `tests/vectors.sums` has it.
//!
//! A file is a sequence of vectors without a header. Multi-byte numbers are little-endian.
//!
//! * `traces.bin`: a trace and its text, each after its length (u32).
//! * `blocks.bin`, to be run or tried: the lent record, which is the 12 bytes of an image's header, 32 weights and 32
//!   data (i16), spare slots among them; the lengths (u16) of the eight lists samples, gains, training, Y, ξ, decision,
//!   Z and θ; samples (i16), gains (u8) and training entries (i8); the answer (u8); where it is 0, Y (i32), ξ (u8),
//!   decision (i8), Z (i32) and θ (u8) of each sample, then the record after the block.
//! * `images.bin`: the length (u16), so many bytes, the answer of loading them (u8). Where it is 0, saving the loaded
//!   state gives the same bytes; otherwise the state is that of a refused set-up.
//! * `cables.bin`: a description as the program `cable` reads it, with right counts and of any length; the length of
//!   the lent output (u32); the answer (u8); where it is 0, the trace.
//! * `descriptions.bin`: what the program `cable` reads, what it writes, and what the program `trace` writes for that,
//!   each after its length (u32).
//! * `readings.bin`: the lengths (u16) of the five lists Y, ξ, Z, θ and readings; Y (i32), ξ (u8), Z (i32), θ (u8); the
//!   answer (u8); where it is 0, a byte that is 1 if the power is a floor and 0 if it is a mean, the bits of the power
//!   (u64), then for each sample the bits of y and of the error (u64).
//!
//! Where the answer is not 0, all that is lent stays as it was.

mod blocks;
mod cables;
mod descriptions;
mod falls;
pub mod gathering;
mod images;
mod readings;
pub mod spoiled;
pub mod spoiled_lists;
mod states;
mod traces;

use crate::random::Random;
pub use blocks::{block_vectors, BlockVector};
pub use cables::{cable_vectors, CableVector};
pub use descriptions::{description_vectors, DescriptionVector};
pub use images::{image_vectors, ImageVector};
pub use readings::{handed_out, readings_vectors, worked_lists, Lists, ReadingsVector, Sample};
use std::collections::BTreeMap;
pub use traces::{trace_vectors, TraceVector};

/// A vector that is made of what is lent.
trait Made {
    type Lent;
    fn of(about: &'static str, lent: Self::Lent) -> Self;
    /// The number that is answered; of readings 1 where the power is a floor.
    fn answer(&self) -> u8;
}

/// A change of what is lent: what it is about, the answer after it, and what it does.
type Change<L> = (&'static str, u8, fn(&mut L));

/// Vectors that are being made.
struct Making<V> {
    random: Random,
    list: Vec<V>,
}

impl<V: Made> Making<V> {
    fn new(start: u64) -> Making<V> {
        Making { random: Random::new(start), list: Vec::new() }
    }

    /// A vector with this answer; with any where none is given.
    fn put(&mut self, about: &'static str, answer: impl Into<Option<u8>>, lent: impl Into<V::Lent>) {
        let vector = V::of(about, lent.into());
        assert_eq!(vector.answer(), answer.into().unwrap_or(vector.answer()), "{about}, vector {}", self.list.len());
        self.list.push(vector);
    }

    /// A vector for each of a list.
    fn each<T, L: Into<V::Lent>>(
        &mut self,
        about: &'static str,
        answer: impl Into<Option<u8>>,
        list: impl IntoIterator<Item = T>,
        lent: impl Fn(&mut Self, T) -> L,
    ) {
        let answer = answer.into();
        for one in list {
            let lent = lent(self, one);
            self.put(about, answer, lent);
        }
    }

    /// A vector after each change of what is lent.
    fn changed(&mut self, mut lent: V::Lent, changes: &[Change<V::Lent>])
    where
        V::Lent: Clone,
    {
        for (about, answer, change) in changes {
            change(&mut lent);
            self.put(about, *answer, lent.clone());
        }
    }

    /// So many vectors of what is drawn.
    fn find<L: Into<V::Lent>>(
        &mut self,
        about: &'static str,
        answer: u8,
        count: usize,
        draw: impl Fn(&mut Self) -> Option<L>,
    ) {
        let end = self.list.len() + count;
        while self.list.len() < end {
            if let Some(lent) = draw(self) {
                self.put(about, answer, lent);
            }
        }
    }
}

/// Each of a list with each of another.
fn pairs<A: Clone, B>(
    list: impl IntoIterator<Item = A>,
    other: impl IntoIterator<Item = B> + Clone,
) -> impl Iterator<Item = (A, B)> {
    list.into_iter().flat_map(move |a| other.clone().into_iter().map(move |b| (a.clone(), b)))
}

/// A file of vectors.
pub struct File {
    pub name: &'static str,
    pub bytes: Vec<u8>,
    /// How many vectors answer with each number.
    pub answers: BTreeMap<u8, usize>,
}

impl File {
    fn of<V>(name: &'static str, list: &[V], bytes: fn(&V) -> Vec<u8>, number: fn(&V) -> u8) -> File {
        let mut answers = BTreeMap::new();
        for vector in list {
            *answers.entry(number(vector)).or_insert(0) += 1;
        }
        File { name, bytes: list.iter().flat_map(bytes).collect(), answers }
    }

    /// Its name and its counts.
    pub fn line(&self) -> String {
        let count: usize = self.answers.values().sum();
        let answers: Vec<String> = self.answers.iter().map(|(number, count)| format!("{number}: {count}")).collect();
        format!("{}: {count} vectors, {} bytes; answers {}", self.name, self.bytes.len(), answers.join(", "))
    }
}

/// All files.
pub fn files() -> [File; 6] {
    [
        File::of("traces.bin", &trace_vectors(), TraceVector::bytes, Made::answer),
        File::of("blocks.bin", &block_vectors(), BlockVector::bytes, |vector| vector.number),
        File::of("images.bin", &image_vectors(), ImageVector::bytes, |vector| vector.number),
        File::of("cables.bin", &cable_vectors(), CableVector::bytes, |vector| vector.number),
        File::of("descriptions.bin", &description_vectors(), DescriptionVector::bytes, Made::answer),
        File::of("readings.bin", &readings_vectors(), ReadingsVector::bytes, |vector| vector.number),
    ]
}

/// The number that stands after these words at the start of a text; 0 where they don't stand there.
fn number_after(words: &str, text: &[u8]) -> u8 {
    let rest = text.strip_prefix(words.as_bytes()).unwrap_or_default();
    rest.iter().take_while(|byte| byte.is_ascii_digit()).fold(0, |number, digit| 10 * number + digit - b'0')
}
