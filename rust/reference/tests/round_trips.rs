//! Saving and loading: from arbitrary sound states, and of the images of every release.

use reference::random::Random;
use reference::{image_length, load, save, State};

fn image(state: &State) -> Vec<u8> {
    let mut buffer = vec![0xA5; image_length(&state.settings)];
    assert_eq!(save(state, &mut buffer), (0, buffer.len()));
    buffer
}

#[test]
fn a_saved_state_loads_as_it_was() {
    let mut random = Random::new(1);
    for _ in 0..3000 {
        let settings = random.settings();
        let state = random.sound_state(settings);
        assert_eq!(state.examine(), 0);
        let bytes = image(&state);
        assert_eq!(load(&bytes), (0, state.clone()));
        assert_eq!(image(&state.lent()), bytes);
    }
}

#[test]
fn any_bytes_that_load_save_as_they_were() {
    let mut random = Random::new(2);
    let mut loaded = 0;
    for _ in 0..20_000 {
        let settings = random.settings();
        let mut bytes = image(&random.sound_state(settings));
        for _ in 0..random.between(1, 3) {
            let place = random.below(bytes.len() as u64) as usize;
            bytes[place] ^= 1 << random.below(8);
        }
        let (number, state) = load(&bytes);
        if number == 0 {
            loaded += 1;
            assert_eq!(image(&state), bytes);
        } else {
            assert!([1, 2, 8, 9].contains(&number));
            assert_eq!(state, State::fresh());
        }
    }
    assert!(loaded > 1000);
}

fn loads_and_saves(bytes: &[u8]) -> bool {
    let (number, state) = load(bytes);
    number == 0 && image(&state) == bytes
}

/// The bytes of a line in hexadecimal.
fn bytes_of(line: &str) -> Vec<u8> {
    let digits = |at: usize| u8::from_str_radix(&line[at..at + 2], 16).expect("two digits");
    (0..line.len()).step_by(2).map(digits).collect()
}

#[test]
fn the_images_of_every_release_load() {
    let folder = concat!(env!("CARGO_MANIFEST_DIR"), "/../../tests/images");
    let files: Vec<_> = std::fs::read_dir(folder).expect("tests/images").collect();
    assert!(files.len() >= 2);
    for file in files {
        let text = std::fs::read_to_string(file.expect("a file").path()).expect("a text");
        let images = text.lines().filter(|line| !line.starts_with('#'));
        assert!(images.clone().count() >= 12);
        for mut image in images.map(bytes_of) {
            assert!(loads_and_saves(&image), "{image:?}");
            image[5] += 16;
            assert!(!loads_and_saves(&image), "{image:?}");
        }
    }
}
