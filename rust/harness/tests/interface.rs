//! What the Rust packages have beside the calls, against the library, the second implementation, the headers and what the
//! C programs print.

use reference::settings::Rules;
use std::mem::{offset_of, size_of};
use tigbulode::{check_sum, image_length, number, number_text, set_up};
use tigbulode::{Answer, Equaliser, Saved, Settings, IMAGE_BYTES, SLOTS};
use tigbulode_laboratory as laboratory;

const HEADERS: [&str; 3] = [
    include_str!("../../../include/tigbulode.h"),
    include_str!("../../../include/tigbulode_common.h"),
    include_str!("../../../include/tigbulode_laboratory.h"),
];
const PRINTED_IN_C: &str = include_str!("../../../tests/station_interface.out");

fn settings([p, q, r, l]: [u8; 4]) -> Settings {
    Settings { p, q, n: 128, r, l, m: 0 }
}

/// All sizes up to one more than their limits, then each from 0 to 255, the others being 1.
fn all_settings() -> impl Iterator<Item = Settings> {
    let near = (0..18 * 18 * 5 * 17).map(|i| [i % 18, i / 18 % 18, i / 324 % 5, i / 1620].map(|size: u32| size as u8));
    let any = (0..4 * 256).map(|i| {
        let mut sizes = [1; 4];
        sizes[i / 256] = (i % 256) as u8;
        sizes
    });
    near.chain(any).map(settings)
}

#[test]
fn the_greatest_m_is_the_librarys_and_the_second_implementations() {
    for s in all_settings() {
        let (m, within) = (s.greatest_m(), s.within_limits());
        assert!((within || m == 0) && Settings { n: 0, ..s }.greatest_m() == m, "{s:?}");
        let numbers = |m| [set_up(s.with_m(m)).number, s.with_m(m).examine()];
        assert_eq!(numbers(m), [u8::from(!within); 2], "{s:?}");
        assert_eq!(numbers(m + 1), [if within { 2 } else { 1 }; 2], "{s:?}");
    }
}

#[test]
fn the_image_length_is_the_second_implementations() {
    for (p, q) in (1..=16).flat_map(|p| (1..=16).map(move |q| (p, q))) {
        assert_eq!(reference::image_length(&settings([p, q, 0, 0])), image_length(p, q));
    }
}

#[test]
fn the_largest_weight_is_that_of_every_place() {
    let fresh = Equaliser { psi: 255, past: [-1; SLOTS], ..set_up(settings([1; 4])).state };
    assert_eq!(fresh.largest_weight(), 0);
    for place in 0..SLOTS {
        let mut s = fresh;
        for value in i16::MIN..=i16::MAX {
            s.weights[place] = value;
            assert_eq!(i32::from(s.largest_weight()), i32::from(value).abs());
        }
        s.weights[place] = -300;
        for other in (0..SLOTS).filter(|other| *other != place) {
            let mut s = s;
            s.weights[other] = 299;
            assert_eq!(s.largest_weight(), 300);
        }
    }
}

/// Whether some of the numbers, taken together, give 0.
fn cancel(mut numbers: Vec<u32>) -> bool {
    while let Some(number) = numbers.pop() {
        if number == 0 {
            return true;
        }
        let lowest = number & number.wrapping_neg();
        numbers.iter_mut().filter(|other| **other & lowest != 0).for_each(|other| *other ^= number);
    }
    false
}

/// By how much some bits of an image change its check sum.
fn change(mut bytes: [u8; IMAGE_BYTES], bits: &[usize]) -> u32 {
    let good = check_sum(&bytes);
    bits.iter().for_each(|bit| bytes[bit / 8] ^= 1 << (bit % 8));
    check_sum(&bytes) ^ good
}

/// Several bits change it by all of theirs, so that no changes together may cancel.
#[test]
fn every_change_within_four_bytes_changes_the_check_sum() {
    let of_bit = |bit| change([0; IMAGE_BYTES], &[bit]);
    let within = |first: usize, bytes: usize| (8 * first..8 * (first + bytes)).map(of_bit).collect();
    assert!((0..=IMAGE_BYTES - 4).all(|first| !cancel(within(first, 4))));
    assert!(cancel(within(0, 5)));
    let bits = [0, 9, 500, 501, 8 * IMAGE_BYTES - 1];
    let together = bits.into_iter().map(of_bit).fold(0, |sum, one| sum ^ one);
    assert_eq!(change(std::array::from_fn(|i| (37 * i + 11) as u8), &bits), together);
}

#[test]
fn the_same_is_printed_in_c() {
    let has = |line: &str| PRINTED_IN_C.lines().any(|printed| printed == line);
    assert!((0..=12).all(|number| has(&format!("number {number}: {}", number_text(number)))));
    assert!(!has(&format!("number 0: {}", number_text(1))));
    let bytes: Vec<u8> = (0..IMAGE_BYTES).map(|i| (37 * i + 11) as u8).collect();
    let sums = (0..IMAGE_BYTES).map(|length| check_sum(&bytes[..length]));
    let sums = sums.fold(0, |all: u32, sum| all.wrapping_mul(31).wrapping_add(sum));
    assert!(has(&format!("check sums of 0 to 139 bytes: {sums:08X}")));
}

#[test]
fn the_records_are_laid_out_as_in_the_header() {
    assert_eq!(size_of::<Equaliser>(), 140);
    assert_eq!([offset_of!(Equaliser, step), offset_of!(Equaliser, weights), offset_of!(Equaliser, past)], [8, 12, 76]);
    assert_eq!([size_of::<Answer>(), offset_of!(Answer, state)], [144, 4]);
    assert_eq!([size_of::<Saved>(), offset_of!(Saved, length)], [16, 8]);
}

/// Whether a header gives a name this value.
fn has(name: &str, value: &str) -> bool {
    let lines = HEADERS.iter().flat_map(|header| header.lines());
    let words = lines.map(|line| line.replace(['=', ','], " ").replace("#define", ""));
    words
        .map(|line| line.split_whitespace().take(2).map(String::from).collect::<Vec<_>>())
        .any(|two| two == [name, value])
}

#[test]
fn the_headers_have_the_same_versions() {
    for (name, version) in [("TIGBULODE", tigbulode::VERSION), ("TIGBULODE_LABORATORY", laboratory::VERSION)] {
        let (major, minor) = version.split_once('.').unwrap();
        assert!(has(&format!("{name}_VERSION"), &format!("{version:?}")));
        assert!(has(&format!("{name}_VERSION_MAJOR"), major) && has(&format!("{name}_VERSION_MINOR"), minor));
    }
}

#[test]
#[rustfmt::skip]
fn the_headers_have_the_same_numbers_and_limits() {
    let numbers = [
        ("ACCEPTED", number::ACCEPTED), ("SIZES", number::SIZES), ("STEP", number::STEP), ("LENGTHS", number::LENGTHS),
        ("GAIN", number::GAIN), ("ENTRY", number::ENTRY), ("EXPONENT", number::EXPONENT), ("BUFFER", number::BUFFER),
        ("IMAGE", number::IMAGE), ("UNSOUND", number::UNSOUND), ("CABLE", number::CABLE),
        ("READINGS", number::READINGS), ("MOST_TAPS", tigbulode::MOST_TAPS), ("MOST_BLOCK", tigbulode::MOST_BLOCK),
        ("MOST_R", tigbulode::MOST_R), ("MOST_GAIN", tigbulode::MOST_GAIN),
        ("MOST_EXPONENT", tigbulode::MOST_EXPONENT), ("LEAST_READING_EXPONENT", laboratory::LEAST_READING_EXPONENT),
        ("MOST_READING_EXPONENT", laboratory::MOST_READING_EXPONENT),
    ];
    let limits = [
        ("MOST_WEIGHT", i32::from(tigbulode::MOST_WEIGHT)), ("MOST_Y", laboratory::MOST_Y), ("MOST_Z", laboratory::MOST_Z),
    ];
    let lengths = [
        ("SLOTS", SLOTS), ("HEADER_BYTES", tigbulode::HEADER_BYTES), ("IMAGE_BYTES", IMAGE_BYTES),
        ("MOST_RESPONSE", laboratory::MOST_RESPONSE), ("MOST_TRACE", laboratory::MOST_TRACE),
        ("MOST_SYMBOLS", laboratory::MOST_SYMBOLS), ("TRACE_HEADER_BYTES", laboratory::HEADER_BYTES),
    ];
    let numbers = numbers.into_iter().map(|(name, number)| (name, i64::from(number)));
    let limits = limits.into_iter().map(|(name, limit)| (name, i64::from(limit)));
    let lengths = lengths.into_iter().map(|(name, length)| (name, length as i64));
    for (name, value) in numbers.chain(limits).chain(lengths) {
        let has = |value: i64| has(&format!("TIGBULODE_{name}"), &value.to_string());
        assert!(has(value) && !has(value + 1), "{name}");
    }
}
