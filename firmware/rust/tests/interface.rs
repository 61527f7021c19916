//! The functions beside the five, against the library, the header and
//! `interface.out`, which is made anew without the library.

use reference::Settings;
use tigbulode::sides::{Library, Operations, Second};
use tigbulode::{check_sum, greatest_step, image_length, number_text};
use tigbulode::{set_up, Equaliser, IMAGE_BYTES, SLOTS, VERSION};

const HEADER: &str = include_str!("../../tigbulode.h");
const README: &str = include_str!("../../README.md");
const STORED: &str = include_str!("../../interface.out");

/// All sizes up to one more than their limits: p, q, r, L.
fn all_sizes() -> impl Iterator<Item = [u8; 4]> {
    let taps = || 0..=Settings::MOST_TAPS + 1;
    let pairs = taps().flat_map(move |p| taps().map(move |q| (p, q)));
    let rs = || 0..=Settings::MOST_R + 1;
    let threes = pairs.flat_map(move |(p, q)| rs().map(move |r| (p, q, r)));
    threes.flat_map(|(p, q, r)| (0..=Settings::MOST_GAIN + 1).map(move |l| [p, q, r, l]))
}

/// Each size from 0 to 255, the others being 1.
fn any_size() -> impl Iterator<Item = [u8; 4]> {
    (0..4).flat_map(|place| {
        (0..=255).map(move |value| {
            let mut sizes = [1; 4];
            sizes[place] = value;
            sizes
        })
    })
}

fn settings([p, q, r, l]: [u8; 4]) -> Settings {
    let (n, m) = (Settings::MOST_BLOCK, 0);
    Settings { p, q, n, r, l, m }
}

fn within(sizes: impl Iterator<Item = [u8; 4]>) -> usize {
    sizes.filter(|&s| settings(s).within_limits()).count()
}

#[test]
fn the_greatest_step_is_the_librarys() {
    for sizes in all_sizes().chain(any_size()) {
        let [p, q, r, l] = sizes;
        let number = |step| set_up(p, q, 128, r, l, step).number;
        let is_greatest = |step| (number(step), number(step + 1)) == (0, 2);
        match greatest_step(p, q, r, l) {
            None => assert_eq!(number(0), 1, "{sizes:?}"),
            Some(step) => {
                assert!(is_greatest(step), "{sizes:?}");
                assert!(!is_greatest(step - 1) && !is_greatest(step + 1));
            }
        }
    }
}

#[test]
fn the_greatest_step_is_the_second_implementations() {
    for sizes in all_sizes().chain(any_size()) {
        let [p, q, r, l] = sizes;
        let settings = settings(sizes);
        let greatest = settings.within_limits().then(|| settings.largest_m());
        assert_eq!(greatest_step(p, q, r, l), greatest, "{sizes:?}");
    }
}

#[test]
fn the_image_length_is_the_librarys() {
    for (p, q) in (1..=16).flat_map(|p| (1..=16).map(move |q| (p, q))) {
        let saved = tigbulode::save(&set_up(p, q, 128, 0, 0, 0).state, &mut [0; IMAGE_BYTES]);
        assert_eq!((saved.number, saved.length), (0, image_length(p, q)));
        let settings = settings([p, q, 0, 0]);
        assert_eq!(reference::image_length(&settings), image_length(p, q));
    }
}

/// A sound state with something in each of its places.
fn any_state(p: u8, q: u8) -> Equaliser {
    let step = greatest_step(p, q, 3, 0).unwrap();
    let mut s = set_up(p, q, 128, 3, 0, step).state;
    (s.psi, s.b, s.bmax) = (7, 29, 30);
    let (p, q) = (usize::from(p), usize::from(q));
    let fill = |places: &mut [i16], first: i16, apart: i16| {
        let values = (0..).map(|i| first + i * apart);
        places.iter_mut().zip(values).for_each(|(w, v)| *w = v);
    };
    fill(&mut s.weights[..p + q], -16383, 1001);
    fill(&mut s.past[..p - 1], -255, 33);
    fill(&mut s.past[p..p + q], 15, -2);
    s
}

/// What a save by one side leaves: its answer, the buffer and the record.
fn saved(side: &dyn Operations, mut s: Equaliser, length: usize) -> (u8, usize, Vec<u8>, bool) {
    let before = s;
    let mut buffer = vec![0x55; IMAGE_BYTES + 1];
    let answer = side.save(&mut s, &mut buffer[..length]);
    (answer.number, answer.length, buffer, s == before)
}

#[test]
fn a_save_fits_into_every_buffer_that_is_long_enough() {
    for (p, q) in (1..=16).flat_map(|p| (1..=16).map(move |q| (p, q))) {
        let (s, image) = (any_state(p, q), image_length(p, q));
        for length in 0..=image + 1 {
            let by_library = saved(&Library, s, length);
            assert_eq!(by_library, saved(&Second, s, length), "{p} {q} {length}");
            let fits = length >= image;
            let expected = if fits { (0, image) } else { (7, 0) };
            assert_eq!((by_library.0, by_library.1), expected);
            let written = by_library.2.iter().any(|byte| *byte != 0x55);
            assert!(written == fits && by_library.3);
        }
        assert_eq!(
            tigbulode::load(&saved(&Library, s, image).2[..image]).state,
            s
        );
    }
}

const NOTHING: Equaliser = Equaliser {
    p: 255,
    q: 255,
    n: 255,
    r: 255,
    l: 255,
    psi: 255,
    b: 255,
    bmax: 255,
    step: u32::MAX,
    weights: [0; SLOTS],
    past: [-1; SLOTS],
};

#[test]
fn the_largest_weight_is_that_of_every_place() {
    assert_eq!(NOTHING.largest_weight(), 0);
    for place in 0..SLOTS {
        let mut s = NOTHING;
        for value in i16::MIN..=i16::MAX {
            s.weights[place] = value;
            assert_eq!(i32::from(s.largest_weight()), i32::from(value).abs());
        }
        s.weights[place] = -300;
        for other in (0..SLOTS).filter(|other| *other != place) {
            let mut s = s;
            s.weights[other] = 299;
            assert_eq!(s.largest_weight(), 300);
        }
    }
}

/// Whether some of the numbers, taken together, give 0.
fn cancel(numbers: &[u32]) -> bool {
    let mut left: Vec<u32> = numbers.to_vec();
    while let Some(number) = left.pop() {
        if number == 0 {
            return true;
        }
        let lowest = number & number.wrapping_neg();
        for other in left.iter_mut().filter(|other| **other & lowest != 0) {
            *other ^= number;
        }
    }
    false
}

/// By how much one bit of an image changes the check sum. Several bits change
/// it by all of theirs.
fn change(bit: usize) -> u32 {
    let mut bytes = [0; IMAGE_BYTES];
    let good = check_sum(&bytes);
    bytes[bit / 8] ^= 1 << (bit % 8);
    check_sum(&bytes) ^ good
}

#[test]
fn every_change_within_four_bytes_changes_the_check_sum() {
    for first in 0..=IMAGE_BYTES - 4 {
        let changes: Vec<u32> = (8 * first..8 * first + 32).map(change).collect();
        assert!(!cancel(&changes), "bytes {first} to {}", first + 3);
    }
    let five: Vec<u32> = (0..40).map(change).collect();
    assert!(cancel(&five));
}

#[test]
fn bits_change_the_check_sum_together() {
    let mut bytes: [u8; IMAGE_BYTES] = std::array::from_fn(|i| (37 * i + 11) as u8);
    let good = check_sum(&bytes);
    let bits = [0, 9, 500, 501, 8 * IMAGE_BYTES - 1];
    for bit in bits {
        bytes[bit / 8] ^= 1 << (bit % 8);
    }
    let changes = bits.into_iter().fold(0, |sum, bit| sum ^ change(bit));
    assert_eq!(check_sum(&bytes) ^ good, changes);
}

#[test]
fn the_header_has_the_same_version_and_sizes() {
    assert!(HEADER.contains(&format!("#define TIGBULODE_VERSION \"{VERSION}\"\n")));
    let (major, minor) = VERSION.split_once('.').unwrap();
    assert!(HEADER.contains(&format!("#define TIGBULODE_VERSION_MAJOR {major}\n")));
    assert!(HEADER.contains(&format!("#define TIGBULODE_VERSION_MINOR {minor}\n")));
    assert_eq!(env!("CARGO_PKG_VERSION"), format!("{VERSION}.0"));
    assert!(README.contains(&format!("The version of the interface is {VERSION}.")));
    assert!(HEADER.contains(&format!("TIGBULODE_SLOTS = {SLOTS},")));
    assert!(HEADER.contains(&format!("TIGBULODE_IMAGE_BYTES = {IMAGE_BYTES} ")));
}

/// The check sums of 0 to 139 bytes, as one number.
fn many_check_sums() -> u32 {
    let bytes: Vec<u8> = (0..IMAGE_BYTES).map(|i| (37 * i + 11) as u8).collect();
    let sums = (0..IMAGE_BYTES).map(|length| check_sum(&bytes[..length]));
    sums.fold(0, |all: u32, sum| all.wrapping_mul(31).wrapping_add(sum))
}

#[test]
fn the_interface() {
    let mut text = format!("version {VERSION}\n");
    for number in 0..=10 {
        text += &format!("number {number}: {}\n", number_text(number));
    }
    let (all, any) = (all_sizes().count(), any_size().count());
    let (good, good_any) = (within(all_sizes()), within(any_size()));
    let outside = all - good;
    text += &format!("greatest step: {good} sizes within the limits, {outside} outside\n");
    let outside = any - good_any;
    text += "greatest step, one size of any value: ";
    text += &format!("{good_any} within the limits, {outside} outside\n");
    text += "image lengths: 256\n";
    let pairs = (1..=16).flat_map(|p| (1..=16).map(move |q| (p, q)));
    let bytes: usize = pairs.map(|(p, q)| image_length(p, q)).sum();
    text += "saves: 512 into buffers that are long enough, ";
    text += &format!("{bytes} into shorter ones\n");
    let sum = check_sum(b"123456789");
    text += &format!("check sum of 123456789: {sum:08X}\n");
    let sums = many_check_sums();
    text += &format!("check sums of 0 to 139 bytes: {sums:08X}\n");
    // p, q, N, r, L and the four bytes of M.
    text += "settings: 140 bytes changed, 9 of them told\n";
    text += "largest weight: 65536 values in each of 32 places, 992 pairs of places\n";
    text += "blocks: 32 of length 16, 512 of other lengths, run and tried\n";
    text += "lists left out: 8, run and tried, each turned down with 3\n";
    // A step more and a step less, another length, each byte of an image, a
    // smaller weight, two changes of a block that is run and of one that is
    // tried.
    let changes = 2 * (good + good_any) + 256 + bytes + 992 + 4 * 32;
    text += &format!("changed expectations told apart: {changes} of {changes}\n");
    text += "differences: 0\n";
    assert_eq!(text, STORED);
}
