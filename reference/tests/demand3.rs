//! The figures of demand 3 over lists of calls from arbitrary sound states.

use reference::block::{work, BlockDetail, SampleDetail};
use reference::demand3::Checker;
use reference::exact::Exact;
use reference::random::Random;
use reference::{image_length, load, save, Inputs, Settings};

/// Lists of calls: blocks, saves and loads. Gives the checker and the count
/// of each answer of a block.
fn lists_of_calls(start: u64, lists: u32) -> (Checker, [u64; 10]) {
    let mut random = Random::new(start);
    let mut checker = Checker::new();
    let mut answers = [0u64; 10];
    for _ in 0..lists {
        let settings = random.settings();
        let mut state = random.state(settings);
        checker.forget();
        for _ in 0..random.between(1, 4) {
            let loudness = random.loudness();
            let (samples, mut gains) = random.samples(&settings, loudness);
            let aim = random.aim();
            let mut training = random.training(&settings, aim);
            // Some blocks are turned down in between.
            if random.chance(1, 30) {
                gains[0] = 16;
            }
            if random.chance(1, 30) {
                training[0] = 2;
            }
            let inputs = Inputs {
                samples: &samples,
                gains: &gains,
                training: &training,
            };
            let number = checker.block(&mut state, inputs).unwrap();
            answers[usize::from(number)] += 1;
            if random.chance(1, 3) {
                let mut image = vec![0; image_length(&settings)];
                assert_eq!(save(&state, &mut image).0, 0);
                let (number, loaded) = load(&image);
                assert_eq!(number, 0);
                assert_eq!(loaded, state);
                state = loaded;
            }
        }
    }
    (checker, answers)
}

#[test]
fn the_figures_hold_from_arbitrary_sound_states() {
    let (checker, answers) = lists_of_calls(2026, 9000);
    print!("{}", checker.worst.report());
    println!("answers {answers:?}");
    assert!(checker.worst.samples > 200_000);
    assert!(checker.worst.halvings > 1000);
    assert!(checker.worst.doublings > 10_000);
    assert!(answers[0] > 10_000 && answers[4] > 100 && answers[5] > 100 && answers[6] > 100);
    assert_eq!(
        answers.iter().sum::<u64>() - answers[0],
        answers[4] + answers[5] + answers[6]
    );
}

/// In the unit after it, the distance of a doubling is beyond the bound: the
/// unit before it is needed.
#[test]
fn a_doubling_needs_the_unit_before_it() {
    let (checker, _) = lists_of_calls(7, 1000);
    let worst = &checker.worst;
    let bound = Exact::new(1025, -10);
    assert!(worst.doubled_step.at_most(&bound));
    assert!(bound.less(&worst.doubled_step.scaled(1)));
}

/// The detail of an accepted block whose last sample is as `wanted`.
fn block_with(
    random: &mut Random,
    wanted: fn(&Settings, &SampleDetail) -> bool,
) -> (Settings, BlockDetail) {
    loop {
        let mut settings = random.settings();
        if random.chance(1, 2) {
            settings.m = 0;
        }
        let state = random.state(settings);
        let (loudness, aim) = (random.loudness(), random.aim());
        let (samples, gains) = random.samples(&settings, loudness);
        let training = random.training(&settings, aim);
        let inputs = Inputs {
            samples: &samples,
            gains: &gains,
            training: &training,
        };
        match work(&state, inputs) {
            Ok((detail, _)) if wanted(&settings, detail.samples.last().unwrap()) => {
                return (settings, detail)
            }
            _ => {}
        }
    }
}

fn doubled(_: &Settings, d: &SampleDetail) -> bool {
    d.psi_after < d.psi_before && d.weights_after.iter().any(|&w| w != 0)
}

fn halved(_: &Settings, d: &SampleDetail) -> bool {
    d.psi_after > d.psi_before
}

fn kept(_: &Settings, d: &SampleDetail) -> bool {
    d.psi_after == d.psi_before && d.weights_after.iter().any(|w| w.abs() > 1)
}

/// What is asked of the last sample, what is then made of it, and the figure
/// that must refuse that.
type Wrong = (
    fn(&Settings, &SampleDetail) -> bool,
    fn(&mut SampleDetail),
    &'static str,
);

const WRONG: [Wrong; 9] = [
    // One weight is not doubled.
    (doubled, forget_one, "a weight"),
    // A weight is half a unit off.
    (
        |s, d| s.m == 0 && doubled(s, d),
        |d| d.weights_after[0] += 1,
        "value of a weight changes in step 7",
    ),
    // The weights are doubled and ψ stays, or ψ falls and they stay.
    (doubled, |d| d.psi_after += 1, "a weight"),
    (
        |s, d| d.psi_before > 0 && kept(s, d),
        |d| d.psi_after -= 1,
        "a weight",
    ),
    // Two doublings, or one after a halving, with ψ or without.
    (doubled, double, "ψ goes elsewhere"),
    (halved, double, "|W| above 16383"),
    (halved, |d| d.psi_after -= 1, "ψ goes elsewhere"),
    // A doubling at ψ = 0.
    (
        |s, d| d.psi_before == 0 && kept(s, d) && d.weights_after.iter().all(|w| w.abs() < 8192),
        double,
        "ψ goes elsewhere",
    ),
    // A frozen weight is one unit off.
    (
        |s, d| s.m == 0 && kept(s, d),
        |d| {
            toward_zero(d);
            d.weights_new.clone_from(&d.weights_after);
        },
        "with M = 0 the value of a weight changes",
    ),
];

/// The weights are doubled once more.
fn double(d: &mut SampleDetail) {
    d.weights_after.iter_mut().for_each(|w| *w *= 2);
    d.psi_after -= 1;
}

/// One weight that is not 0 loses one unit.
fn toward_zero(d: &mut SampleDetail) {
    let weight = d.weights_after.iter_mut().find(|w| **w != 0).unwrap();
    *weight -= weight.signum();
}

/// One weight is not doubled.
fn forget_one(d: &mut SampleDetail) {
    let place = d.weights_new.iter().position(|&w| w != 0).unwrap();
    d.weights_after[place] = d.weights_new[place];
}

#[test]
fn each_wrong_doubling_is_refused() {
    let mut random = Random::new(4);
    for (place, (wanted, change, figure)) in WRONG.into_iter().enumerate() {
        for _ in 0..30 {
            let (settings, mut detail) = block_with(&mut random, wanted);
            assert_eq!(Checker::new().figures(&settings, &detail), Ok(()));
            change(detail.samples.last_mut().unwrap());
            let refused = Checker::new().figures(&settings, &detail).unwrap_err();
            assert!(refused.contains(figure), "{place}: {refused}");
        }
    }
}

/// A longer search, for the worst figures: `cargo test --release -- --ignored`.
#[test]
#[ignore]
fn the_figures_hold_in_a_longer_search() {
    let mut searches = Vec::new();
    for part in 0..2 {
        searches.push(std::thread::spawn(move || {
            lists_of_calls(7_000_000 + part, 200_000)
        }));
    }
    for search in searches {
        let (checker, answers) = search.join().unwrap();
        println!("{}answers {answers:?}\n", checker.worst.report());
    }
}
