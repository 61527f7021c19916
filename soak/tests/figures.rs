//! The checker of demand 3 and the steps refuse a wrong number of a block.

use reference::block::{BlockDetail, SampleDetail};
use reference::demand3::Checker;
use reference::random::{Aim, Loudness, Random};
use reference::{Settings, State};
use soak::figures::{as_the_steps_give, detail};
use soak::pieces::{records, Accepted};
use tigbulode::calls::{Call, Lists};
use tigbulode::perform::perform;
use tigbulode::sides::{record_of, settings_of, Library};
use tigbulode::Equaliser;

/// Calls `check` on an accepted block of the library, from any sound record.
fn with_block<T>(random: &mut Random, check: impl FnOnce(&Accepted) -> T) -> T {
    with_block_from(random, Random::sound_state, check)
}

/// The same from a record whose weights are about to be doubled.
fn with_falling_block<T>(random: &mut Random, check: impl FnOnce(&Accepted) -> T) -> T {
    with_block_from(random, Random::falling_state, check)
}

fn with_block_from<T>(
    random: &mut Random,
    state: fn(&mut Random, Settings) -> State,
    check: impl FnOnce(&Accepted) -> T,
) -> T {
    loop {
        let mut settings = random.settings();
        settings.p = settings.p.max(2);
        settings.n = random.byte(settings.p, 24);
        let settings = settings.with_m(settings.largest_m() / 2);
        let before = record_of(&state(random, settings));
        let loudness = random.pick(&[Loudness::Any, Loudness::Even, Loudness::LoudRandom]);
        let (m, gains) = random.samples(&settings, loudness);
        let entries = random.training(&settings, Aim::Mixed);
        let rooms = [usize::from(settings.n); 5];
        let lists = Lists {
            m,
            gains,
            entries,
            rooms,
        };
        let mut after = before;
        let outcome = perform(&Library, &Call::Block(lists.clone(), None), &mut after);
        if outcome.number == 0 {
            let (lists, outcome) = (&lists, &outcome);
            return check(&Accepted {
                before,
                lists,
                outcome,
                after,
            });
        }
    }
}

fn figures(block: &Accepted, detail: &BlockDetail) -> Result<(), String> {
    Checker::new().figures(&settings_of(&block.before), detail)
}

#[test]
fn the_library_passes() {
    let mut random = Random::new(1);
    for _ in 0..200 {
        with_block(&mut random, |block| {
            let detail = detail(&Library, block).unwrap();
            figures(block, &detail).unwrap();
            as_the_steps_give(block, &detail).unwrap();
        });
    }
}

#[test]
fn records_are_seen_from_the_first_piece_on() {
    with_block(&mut Random::new(2), |block| {
        let records = records(&Library, block).unwrap();
        let (n, p) = (usize::from(block.before.n), usize::from(block.before.p));
        let seen: Vec<usize> = (0..=n).filter(|&at| records[at].is_some()).collect();
        let wanted: Vec<usize> = [0].into_iter().chain(1.max(p - 1)..=n).collect();
        assert_eq!(seen, wanted);
        assert_eq!(records[n], Some(block.after));
    });
}

/// A change of one number, and the figure that must refuse it.
type Change = (&'static str, fn(&mut BlockDetail, usize));

const CHANGES: [Change; 16] = [
    ("too far from the exact step", |d, at| {
        toward_zero(&mut d.samples[at], 0);
    }),
    ("too far from the exact step", |d, at| {
        let last = d.samples[at].weights_after.len() - 1;
        toward_zero(&mut d.samples[at], last);
    }),
    ("|W| above 16383", |d, at| {
        d.samples[at].weights_after[0] = 16384
    }),
    ("|W| above 16383", |d, at| {
        d.samples[at].weights_before[0] = -16384
    }),
    ("a new |W| of 2^15", |d, at| {
        d.samples[at].weights_new[0] = -32768
    }),
    ("|F| of 2^28", |d, at| d.samples[at].f = 1 << 28),
    ("|H| of 2^28", |d, at| d.samples[at].h = -(1 << 28)),
    ("|Y| of 2^29", |d, at| d.samples[at].y = 1 << 29),
    ("|Z| of 2^30", |d, at| d.samples[at].z = -(1 << 30)),
    ("y is a unit off", |d, at| d.samples[at].y += 2),
    ("y is a unit off", |d, at| {
        d.samples[at].xi += y_exponent(d, at)
    }),
    ("ψ goes elsewhere", |d, at| d.samples[at].psi_after += 2),
    ("ψ goes elsewhere", |d, at| d.samples[at].psi_after -= 2),
    ("a stored sample is a unit off", |d, at| d.stored[at] += 2),
    ("a stored sample is a unit off", |d, at| d.x[at] += 1 << 40),
    ("stored samples are missing", |d, _| d.stored.truncate(1)),
];

/// Three units toward 0; where the weights were doubled five, which are two and
/// a half of the unit before.
fn toward_zero(d: &mut SampleDetail, place: usize) {
    let units = if doubled(d) { 5 } else { 3 };
    let weight = &mut d.weights_after[place];
    *weight += if *weight > 0 { -units } else { units };
}

fn doubled(d: &SampleDetail) -> bool {
    d.psi_after < d.psi_before
}

/// One place more, where that changes y by more than a unit.
fn y_exponent(d: &BlockDetail, at: usize) -> i32 {
    if d.samples[at].y.abs() > 4 {
        1
    } else {
        40
    }
}

#[test]
fn each_wrong_number_is_refused_by_its_figure() {
    let mut random = Random::new(3);
    for (figure, change) in CHANGES {
        let mut refused = 0;
        for _ in 0..20 {
            with_block(&mut random, |block| {
                let mut detail = detail(&Library, block).unwrap();
                let at = block.lists.m.len() - 1;
                if detail.samples[at].y == 0 {
                    return;
                }
                change(&mut detail, at);
                let wrong = figures(block, &detail).expect_err(figure);
                assert!(wrong.contains(figure), "{wrong} for {figure}");
                refused += 1;
            });
        }
        assert!(refused >= 5, "{figure}");
    }
}

/// A wrong doubling at the first sample of a block that doubles, and the figure
/// that must refuse it.
const WRONG_DOUBLINGS: [Change; 4] = [
    ("of a weight changes in step 7", |d, at| {
        d.samples[at].weights_after[0] ^= 1
    }),
    ("a weight", |d, at| {
        let d = &mut d.samples[at];
        let place = d.weights_new.iter().position(|&w| w != 0).unwrap();
        d.weights_after[place] = d.weights_new[place];
    }),
    ("ψ goes elsewhere", |d, at| {
        let d = &mut d.samples[at];
        d.weights_after.iter_mut().for_each(|w| *w *= 2);
        d.psi_after -= 1;
    }),
    ("a weight", |d, at| d.samples[at].psi_after += 1),
];

#[test]
fn each_wrong_doubling_is_refused_by_its_figure() {
    let mut random = Random::new(6);
    for (figure, change) in WRONG_DOUBLINGS {
        let mut refused = 0;
        for _ in 0..100 {
            with_falling_block(&mut random, |block| {
                let mut detail = detail(&Library, block).unwrap();
                figures(block, &detail).unwrap();
                let weights = |w: &[i128]| w.iter().any(|&w| w != 0);
                let mut samples = detail.samples.iter();
                let found = samples.position(|d| doubled(d) && weights(&d.weights_new));
                let Some(at) = found else { return };
                change(&mut detail, at);
                let wrong = figures(block, &detail).expect_err(figure);
                refused += u32::from(wrong.contains(figure));
            });
        }
        assert!(refused >= 20, "{figure}: {refused}");
    }
}

#[test]
fn one_unit_off_is_refused_by_the_steps() {
    let changes: [fn(&mut BlockDetail, usize); 9] = [
        |d, at| d.samples[at].y ^= 1,
        |d, at| d.samples[at].xi ^= 1,
        |d, at| d.samples[at].decision *= -1,
        |d, at| d.samples[at].z ^= 1,
        |d, at| d.samples[at].theta ^= 1,
        |d, at| d.samples[at].weights_after[0] ^= 1,
        |d, at| d.samples[at].psi_after += 1,
        |d, at| d.stored[at] ^= 1,
        |d, _| d.b -= 1,
    ];
    let mut random = Random::new(4);
    for (which, change) in changes.into_iter().enumerate() {
        for _ in 0..10 {
            with_block(&mut random, |block| {
                let mut detail = detail(&Library, block).unwrap();
                change(&mut detail, block.lists.m.len() - 1);
                as_the_steps_give(block, &detail).expect_err(&format!("change {which}"));
            });
        }
    }
}

#[test]
fn a_past_sample_that_is_a_unit_off_is_refused() {
    let mut random = Random::new(5);
    let mut refused = 0;
    for _ in 0..20 {
        with_block(&mut random, |block| {
            let mut checker = Checker::new();
            let settings = settings_of(&block.before);
            let first = detail(&Library, block).unwrap();
            checker.figures(&settings, &first).unwrap();
            let mut after: Equaliser = block.after;
            let outcome = perform(
                &Library,
                &Call::Block(block.lists.clone(), None),
                &mut after,
            );
            if outcome.number != 0 {
                return;
            }
            let (before, lists) = (block.after, block.lists);
            let next = Accepted {
                before,
                lists,
                outcome: &outcome,
                after,
            };
            let mut wrong = detail(&Library, &next).unwrap();
            checker.clone().figures(&settings, &wrong).unwrap();
            wrong.past[0] += 2 << (first.gamma - wrong.gamma);
            let figure = checker.figures(&settings, &wrong).unwrap_err();
            assert!(figure.contains("a past sample is a unit off"), "{figure}");
            refused += 1;
        });
    }
    assert!(refused >= 5);
}
