//! The checker of demand 3 and the steps refuse a wrong number of a block.

use harness::calls::{Call, Lists};
use harness::perform::perform;
use harness::sides::{record_of, Library};
use reference::block::{BlockDetail, SampleDetail};
use reference::demand3::Checker;
use reference::random::{Aim, Loudness, Random};
use soak::figures::{as_the_steps_give, detail};
use soak::pieces::{records, Accepted};

/// Calls `check` on an accepted block of the library, from any sound record.
fn with_block<T>(random: &mut Random, check: impl FnOnce(&Accepted) -> T) -> T {
    loop {
        let mut settings = random.settings();
        settings.p = settings.p.max(2);
        settings.n = random.byte(settings.p, 24);
        let settings = settings.with_m(settings.greatest_m() / 2);
        let before = record_of(&random.sound_state(settings));
        let loudness = random.pick(&[Loudness::Any, Loudness::Even, Loudness::LoudRandom]);
        let (m, gains) = random.samples(&settings, loudness);
        let entries = random.training(&settings, Aim::Mixed);
        let lists = Lists { m, gains, entries, rooms: [usize::from(settings.n); 5] };
        let mut after = before;
        let outcome = perform(&Library, &Call::Block(lists.clone(), None), &mut after);
        if outcome.number == 0 {
            return check(&Accepted { before, lists: &lists, outcome: &outcome, after });
        }
    }
}

fn figures(block: &Accepted, detail: &BlockDetail) -> Result<(), String> {
    Checker::new().figures(&block.before.settings(), detail)
}

/// The numbers of a block of the library, which pass, after a change of its last sample.
fn changed(block: &Accepted, change: fn(&mut BlockDetail, usize)) -> BlockDetail {
    let mut detail = detail(&Library, block).unwrap();
    figures(block, &detail).unwrap();
    as_the_steps_give(block, &detail).unwrap();
    change(&mut detail, block.lists.m.len() - 1);
    detail
}

#[test]
fn records_are_seen_from_the_first_piece_on() {
    with_block(&mut Random::new(2), |block| {
        let records = records(&Library, block).unwrap();
        let (n, p) = (usize::from(block.before.n), usize::from(block.before.p));
        let seen: Vec<usize> = (0..=n).filter(|&at| records[at].is_some()).collect();
        let wanted: Vec<usize> = [0].into_iter().chain(1.max(p - 1)..=n).collect();
        assert_eq!(seen, wanted);
        assert_eq!(records[n], Some(block.after));
    });
}

/// A change of one number, and the figure that must refuse it.
type Change = (&'static str, fn(&mut BlockDetail, usize));

const CHANGES: [Change; 16] = [
    ("too far from the exact step", |d, at| toward_zero(&mut d.samples[at], 0)),
    ("too far from the exact step", |d, at| {
        let last = d.samples[at].weights_after.len() - 1;
        toward_zero(&mut d.samples[at], last);
    }),
    ("|W| above 16383", |d, at| d.samples[at].weights_after[0] = 16384),
    ("|W| above 16383", |d, at| d.samples[at].weights_before[0] = -16384),
    ("a new |W| of 2^15", |d, at| d.samples[at].weights_new[0] = -32768),
    ("|F| of 2^28", |d, at| d.samples[at].f = 1 << 28),
    ("|H| of 2^28", |d, at| d.samples[at].h = -(1 << 28)),
    ("|Y| of 2^29", |d, at| d.samples[at].y = 1 << 29),
    ("|Z| of 2^30", |d, at| d.samples[at].z = -(1 << 30)),
    ("y is a unit off", |d, at| d.samples[at].y += 2),
    // One place more, where that changes y by more than a unit.
    ("y is a unit off", |d, at| d.samples[at].xi += if d.samples[at].y.abs() > 4 { 1 } else { 40 }),
    ("ψ goes elsewhere", |d, at| d.samples[at].psi_after += 2),
    ("ψ goes elsewhere", |d, at| d.samples[at].psi_after -= 2),
    ("a stored sample is a unit off", |d, at| d.stored[at] += 2),
    ("a stored sample is a unit off", |d, at| d.x[at] += 1 << 40),
    ("stored samples are missing", |d, _| d.stored.truncate(1)),
];

/// Three units toward 0; where the weights were doubled five, which are two and a half of the unit before.
fn toward_zero(d: &mut SampleDetail, place: usize) {
    let units = if d.psi_after < d.psi_before { 5 } else { 3 };
    let weight = &mut d.weights_after[place];
    *weight += if *weight > 0 { -units } else { units };
}

#[test]
fn each_wrong_number_is_refused_by_its_figure() {
    let mut random = Random::new(3);
    for (figure, change) in CHANGES {
        for _ in 0..20 {
            with_block(&mut random, |block| {
                let wrong = figures(block, &changed(block, change)).expect_err(figure);
                assert!(wrong.contains(figure), "{wrong} for {figure}");
            });
        }
    }
}

#[test]
fn one_unit_off_is_refused_by_the_steps() {
    let changes: [fn(&mut BlockDetail, usize); 9] = [
        |d, at| d.samples[at].y ^= 1,
        |d, at| d.samples[at].xi ^= 1,
        |d, at| d.samples[at].decision *= -1,
        |d, at| d.samples[at].z ^= 1,
        |d, at| d.samples[at].theta ^= 1,
        |d, at| d.samples[at].weights_after[0] ^= 1,
        |d, at| d.samples[at].psi_after += 1,
        |d, at| d.stored[at] ^= 1,
        |d, _| d.b -= 1,
    ];
    let mut random = Random::new(4);
    for (which, change) in changes.into_iter().enumerate() {
        for _ in 0..10 {
            with_block(&mut random, |block| {
                as_the_steps_give(block, &changed(block, change)).expect_err(&format!("change {which}"));
            });
        }
    }
}

#[test]
fn a_past_sample_that_is_a_unit_off_is_refused() {
    let mut random = Random::new(5);
    let mut refused = 0;
    for _ in 0..20 {
        with_block(&mut random, |block| {
            let mut checker = Checker::new();
            let settings = block.before.settings();
            let first = detail(&Library, block).unwrap();
            checker.figures(&settings, &first).unwrap();
            let mut after = block.after;
            let outcome = perform(&Library, &Call::Block(block.lists.clone(), None), &mut after);
            if outcome.number != 0 {
                return;
            }
            let next = Accepted { before: block.after, lists: block.lists, outcome: &outcome, after };
            let mut wrong = detail(&Library, &next).unwrap();
            checker.clone().figures(&settings, &wrong).unwrap();
            wrong.past[0] += 2 << (first.gamma - wrong.gamma);
            let figure = checker.figures(&settings, &wrong).unwrap_err();
            assert!(figure.contains("a past sample is a unit off"), "{figure}");
            refused += 1;
        });
    }
    assert!(refused >= 5);
}
