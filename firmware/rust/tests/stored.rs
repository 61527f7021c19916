//! The stored outputs are the second implementation's, the records are laid
//! out as the header has them, and the README shows what is stored.

use reference::vectors::{block_vectors, image_vectors, BlockVector};
use reference::{image_length, Settings};
use std::mem::{offset_of, size_of};
use tigbulode::compare::{text, text_changed, CHANGED_COUNT, COUNT, SEED};
use tigbulode::sides::{Operations, Second};
use tigbulode::{greatest_step, number_text};
use tigbulode::{Answer, Block, Equaliser, Outputs, Saved};

#[test]
fn the_station() {
    let (text, kept) = tigbulode::station::text(&Second);
    assert!(kept);
    assert_eq!(text, include_str!("../../station.out"));
}

#[test]
fn the_images() {
    let images = image_vectors();
    let count = |number: u8| images.iter().filter(|i| i.number == number).count();
    let (all, good) = (images.len(), count(0));
    let mut text = format!("images {all}: good {good}, damaged {}\n", all - good);
    for number in [0, 1, 2, 8, 9] {
        text += &format!("answer {number}: {}\n", count(number));
    }
    // Four other answers and two other lists of bytes for each image; the
    // empty one has no bytes to change.
    let changes = 6 * all - images.iter().filter(|i| i.image.is_empty()).count();
    text += &format!("changed expectations told apart: {changes} of {changes}\n");
    text += "no difference\n";
    assert_eq!(text, include_str!("../../images.out"));
}

/// How many changed expectations blocks.c has for a call with a vector: nine
/// other answers, each byte of the state, of the record, of the eight lists with
/// four values on either side, and where it is accepted of the image and of what
/// the file says of it.
fn changes_of_block(vector: &BlockVector) -> usize {
    let [y, xi, decision, z, theta] = vector.output_lengths;
    let (samples, gains, entries) = (&vector.samples, &vector.gains, &vector.training);
    let read = 2 * samples.len() + gains.len() + entries.len();
    let lists = read + 4 * (y + z) + xi + decision + theta;
    let around = (2 + 1 + 1 + 4 + 1 + 1 + 4 + 1) * 2 * 4;
    let accepted = image_length(&vector.after.settings) + 11 * samples.len() + 140;
    9 + 2 * 140 + lists + around + [0, accepted][usize::from(vector.number == 0)]
}

#[test]
fn the_blocks() {
    let blocks = block_vectors();
    let count = |number: u8| blocks.iter().filter(|b| b.number == number).count();
    let (all, good) = (blocks.len(), count(0));
    let other = all - good;
    let mut text = format!("blocks {all}, run and tried: accepted {good}, turned down {other}\n");
    for number in [0, 1, 2, 3, 4, 5, 6, 9] {
        text += &format!("answer {number}: {}\n", count(number));
    }
    let changes = 2 * blocks.iter().map(changes_of_block).sum::<usize>();
    text += &format!("changed expectations told apart: {changes} of {changes}\n");
    text += "no difference\n";
    assert_eq!(text, include_str!("../../blocks.out"));
}

#[test]
fn the_calls() {
    let (text, same) = text(&Second, &Second, SEED, COUNT);
    assert!(same);
    assert_eq!(text, include_str!("../../calls.out"));
}

#[test]
fn the_calls_with_changes() {
    let (text, all) = text_changed(&Second, &Second, SEED, CHANGED_COUNT);
    assert!(all);
    assert_eq!(text, include_str!("../../changed.out"));
}

/// What the first program prints.
fn first_program() -> String {
    let step = greatest_step(1, 1, 0, 0).unwrap();
    let settings = Settings {
        p: 1,
        q: 1,
        n: 2,
        r: 0,
        l: 0,
        m: step,
    };
    let (mut y, mut xi, mut decision) = ([0; 2], [0; 2], [0; 2]);
    let block = Block {
        samples: &[0x4000, 0x4000],
        gains: &[0, 0],
        entries: &[1, 0],
    };
    let out = Outputs {
        y: &mut y,
        xi: &mut xi,
        decision: &mut decision,
        z: &mut [0; 2],
        theta: &mut [0; 2],
    };
    let number = Second.run(&mut Second.set_up(settings).state, block, out);
    let about = number_text(number);
    format!(
        "{about}: y {} * 2^({} - 30), decision {}\n",
        y[1], xi[1], decision[1]
    )
}

#[test]
fn the_first_program() {
    let in_c_and_cpp_and_rust = first_program().repeat(3);
    assert_eq!(in_c_and_cpp_and_rust, include_str!("../../first.out"));
}

/// What the README shows in a language.
fn shown_in(readme: &'static str, language: &str) -> Vec<&'static str> {
    let parts = readme.split("\n```").skip(1).step_by(2);
    let after = |part: &'static str| part.strip_prefix(language)?.strip_prefix('\n');
    parts.filter_map(after).collect()
}

#[test]
fn the_readmes_code_is_that_of_the_programs() {
    let readme = include_str!("../../README.md");
    let in_c = [
        include_str!("../../first.c"),
        include_str!("../../station.c"),
    ];
    let in_rust = [include_str!("../examples/first.rs")];
    for (language, count, files) in [("c", 2, &in_c[..]), ("rust", 1, &in_rust)] {
        let parts = shown_in(readme, language);
        assert_eq!(parts.len(), count);
        for part in parts {
            let part = format!("{part}\n");
            assert!(files.iter().any(|file| file.contains(&part)), "{part}");
        }
    }
}

#[test]
fn the_readme() {
    let readme = include_str!("../../README.md");
    let shown = |text: &str| assert!(readme.contains(text), "the README lacks {text}");
    let in_c = include_str!("../../first.c");
    shown(&format!("\n```c\n{in_c}```\n"));
    let in_rust = include_str!("../examples/first.rs");
    shown(&format!("\n```rust\n{in_rust}```\n"));
    shown(&format!("`{}`", first_program().trim()));
    for number in 0..10 {
        shown(&format!("\n| {number} | {} | ", number_text(number)));
    }
    let station = include_str!("../../station.out").lines();
    let begins = |line: &&str| {
        ["bent", "tried", "faint", "usual", "loud"]
            .iter()
            .any(|b| line.starts_with(b))
    };
    for line in station.filter(begins) {
        shown(&format!("\n    {line}\n"));
    }
}

#[test]
fn the_records() {
    assert_eq!(size_of::<Equaliser>(), 140);
    assert_eq!(offset_of!(Equaliser, step), 8);
    assert_eq!(offset_of!(Equaliser, weights), 12);
    assert_eq!(offset_of!(Equaliser, past), 76);
    assert_eq!((size_of::<Answer>(), offset_of!(Answer, state)), (144, 4));
    assert_eq!((size_of::<Saved>(), offset_of!(Saved, length)), (16, 8));
}
