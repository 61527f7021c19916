//! Takes bytes from the front of a list, and replays files of vectors.
#![allow(dead_code)]

use reference::Settings;
use std::collections::BTreeSet;

pub struct Reader<'a>(pub &'a [u8]);

impl<'a> Reader<'a> {
    pub fn take(&mut self, length: usize) -> &'a [u8] {
        let (front, rest) = self.0.split_at(length);
        self.0 = rest;
        front
    }

    pub fn byte(&mut self) -> u8 {
        self.take(1)[0]
    }

    pub fn short(&mut self) -> u16 {
        u16::from_le_bytes(self.take(2).try_into().unwrap())
    }

    pub fn long(&mut self) -> u32 {
        u32::from_le_bytes(self.take(4).try_into().unwrap())
    }

    pub fn double(&mut self) -> u64 {
        u64::from_le_bytes(self.take(8).try_into().unwrap())
    }

    /// The bytes after their length.
    pub fn part(&mut self) -> &'a [u8] {
        let length = self.long() as usize;
        self.take(length)
    }
}

/// A length and so many bytes after it.
pub fn part(bytes: &[u8]) -> Vec<u8> {
    [&(bytes.len() as u32).to_le_bytes(), bytes].concat()
}

/// The settings in the first 12 bytes of a trace, an image or a description.
pub fn settings(header: &[u8]) -> Settings {
    let m = u32::from_le_bytes(header[8..12].try_into().unwrap());
    Settings { p: header[0], q: header[1], n: header[2], r: header[3], l: header[4], m }
}

/// Replays a file: `answer` takes the inputs of a vector and gives the bytes that have to follow them. Gives the count of
/// the vectors, or the place of one that is followed by something else.
pub fn replay(bytes: &[u8], answer: impl Fn(&mut Reader<'_>) -> Vec<u8>) -> Result<usize, usize> {
    let mut reader = Reader(bytes);
    let mut count = 0;
    while !reader.0.is_empty() {
        let answer = answer(&mut reader);
        reader.0 = reader.0.strip_prefix(&answer[..]).ok_or(count)?;
        count += 1;
    }
    Ok(count)
}

/// The vectors replay, and none with a bit of its answer changed does.
pub fn holds(vectors: &[Vec<u8>], answer: impl Fn(&mut Reader<'_>) -> Vec<u8>) {
    assert_eq!(replay(&vectors.concat(), &answer), Ok(vectors.len()));
    for (at, vector) in vectors.iter().enumerate() {
        let length = answer(&mut Reader(vector)).len();
        let mut other = vector.clone();
        other[vector.len() - 1 - at % length] ^= 1 << (at % 8);
        assert_eq!(replay(&other, &answer), Err(0), "vector {at}");
    }
}

/// How many different ones a list has.
pub fn distinct<T: Ord>(list: impl IntoIterator<Item = T>) -> usize {
    list.into_iter().collect::<BTreeSet<T>>().len()
}

/// How many of those that are wanted were seen.
pub fn among<T: Ord>(wanted: impl IntoIterator<Item = T>, seen: impl IntoIterator<Item = T>) -> usize {
    let seen: BTreeSet<T> = seen.into_iter().collect();
    wanted.into_iter().filter(|one| seen.contains(one)).count()
}

/// A table of what the vectors have: how often it is wanted and how often it was seen.
pub fn hold_counts(rows: &[(&str, usize, usize)]) {
    let other: Vec<_> = rows.iter().filter(|(_, wanted, seen)| wanted != seen).collect();
    assert!(other.is_empty(), "wanted and seen: {other:?}");
}
