//! Saving and loading from arbitrary sound states.

use reference::random::Random;
use reference::{image_length, load, run, save, Inputs, Outputs, State};

fn image(state: &State) -> Vec<u8> {
    let mut buffer = vec![0xA5; image_length(&state.settings)];
    assert_eq!(save(state, &mut buffer), (0, buffer.len()));
    buffer
}

#[test]
fn a_saved_state_loads_as_it_was() {
    let mut random = Random::new(1);
    for _ in 0..3000 {
        let settings = random.settings();
        let state = random.sound_state(settings);
        assert_eq!(state.examine(), 0);
        let bytes = image(&state);
        assert_eq!(load(&bytes), (0, state.clone()));
        assert_eq!(image(&state.lent()), bytes);
    }
}

#[test]
fn any_bytes_that_load_save_as_they_were() {
    let mut random = Random::new(2);
    let mut loaded = 0;
    for _ in 0..20_000 {
        let settings = random.settings();
        let mut bytes = image(&random.sound_state(settings));
        for _ in 0..random.between(1, 3) {
            let place = random.below(bytes.len() as u64) as usize;
            bytes[place] ^= 1 << random.below(8);
        }
        let (number, state) = load(&bytes);
        if number == 0 {
            loaded += 1;
            assert_eq!(image(&state), bytes);
        } else {
            assert!([1, 2, 8, 9].contains(&number));
            assert_eq!(state, State::fresh());
        }
    }
    assert!(loaded > 1000);
}

/// A saved and loaded state, and a lent record, run on like the state itself.
#[test]
fn a_loaded_state_runs_on() {
    let mut random = Random::new(3);
    for _ in 0..400 {
        let settings = random.settings();
        let mut state = random.sound_state(settings);
        let mut lent = state.lent();
        for _ in 0..4 {
            let loudness = random.loudness();
            let (samples, gains) = random.samples(&settings, loudness);
            let aim = random.aim();
            let training = random.training(&settings, aim);
            let inputs = Inputs {
                samples: &samples,
                gains: &gains,
                training: &training,
            };
            let n = usize::from(settings.n);
            let (mut one, mut two) = (Outputs::zeros(n), Outputs::zeros(n));
            let before = image(&state);
            let number = run(&mut state, inputs, &mut one);
            assert_eq!(run(&mut lent, inputs, &mut two), number);
            assert_eq!(one, two);
            assert_eq!(lent, state.lent());
            if number == 6 {
                assert_eq!(image(&state), before);
            } else {
                assert_eq!(number, 0);
            }
            state = load(&image(&state)).1;
        }
    }
}
