//! What the lists and cables cover, what alone finds what, and shrinking.

use harness::calls::{raw_image, Call, Lists};
use harness::compare::difference;
use harness::perform::perform;
use harness::sides::{record_of, Library, Second};
use reference::cable::{sum_at, Cause};
use reference::settings::Rules;
use reference::vectors::gathering::gathering;
use reference::State;
use soak::bench::{Bench, Step};
use soak::cables::cables;
use soak::kinds::{with_sides, Kind, Sides, RIGHT};
use soak::lists::{corner, CORNERS};
use soak::readings::changes::CHANGES;
use soak::report::names;
use std::collections::{BTreeMap, HashSet};

/// Lists that are made on the second implementation alone.
fn lists(seed: u64, count: u64) -> Vec<Vec<Step>> {
    let sides = Sides { station: [&Second, &Second], laboratory: [&Second, &Second] };
    let mut bench = Bench::new(sides);
    (0..count).map(|list| bench.made(seed, list, &mut |_| true).0).collect()
}

/// What is counted at least so often in 900 lists and the cables after them.
const LEAST: &[(u64, &[&str])] = &[
    (10, &["trial raised to 15", "trial lowered by more"]),
    (25, &["block lowered from 15", "trial lowered"]),
    (50, &["block raised to 15", "from 15 to 0", "fell and rose", "others", "followed after a load"]),
    (100, &["block left at 15", "block lowered", "block larger B", "block smaller B", "trial larger B"]),
    (100, &["trial smaller B", "saved earlier", "followed at once", "followed after calls", "cable at L"]),
    (300, &["fell", "pair raised", "pair lowered"]),
    (1000, &["means", "floors", "read zeros", "pairs", "pair lowest", "cable blocks"]),
];

/// Each call gives these answers, as often as is said, and no other.
const ANSWERS: [(&str, &[usize], u64); 7] = [
    ("set-up", &[0, 1, 2], 10),
    ("block", &[0, 1, 2, 3, 4, 5, 6, 9], 10),
    ("trial", &[0, 1, 2, 3, 4, 5, 6, 9], 10),
    ("save", &[0, 1, 2, 7, 9], 10),
    ("load", &[0, 1, 2, 8, 9], 10),
    ("pair", &[0, 3, 4, 5, 6], 100),
    ("cable", &[0, 1, 2, 10], 30),
];

#[test]
fn the_lists_and_cables_cover_everything() {
    let mut bench = Bench::new(RIGHT);
    for list in 0..900 {
        assert_eq!(bench.made(2026, list, &mut |_| true).1, None);
        bench.counts.add("lists", true);
        for lent in cables(2026, list) {
            assert_eq!(bench.list(&[Step::Cable(lent)]), Ok(()));
        }
    }
    let counts = &bench.counts;
    for (least, names) in LEAST {
        assert_eq!(counts.seldom(*least, names), [""; 0]);
    }
    for (kind, numbers, least) in ANSWERS {
        let given = counts.by_number(&format!("{kind} answer"));
        assert_eq!(given.iter().map(|(number, _)| *number).collect::<Vec<usize>>(), numbers, "{kind}");
        assert!(given.iter().all(|(_, count)| *count >= least), "{kind}: {given:?}");
    }
    assert_eq!(counts.seldom(1, &names().collect::<Vec<&str>>()), ["cable exponents"]);
    let gains = counts.by_number("gain");
    assert!(gains.len() == 16 && gains.iter().all(|(_, count)| *count >= 100), "{gains:?}");
    assert!(bench.checker.worst.doublings >= 2000);
    sums_agree(&bench);
}

/// Every call but the trials is made again; what each accepted block and trial handed out is read, and read again with
/// each change; every block on a sound record is run by a swapped pair too.
fn sums_agree(bench: &Bench) {
    let of = |name: &str| bench.counts.of(name);
    assert_eq!(of("again"), of("calls") - of("trial"));
    assert!(of("copies") == of("trial") && of("trial") >= of("calls") / 8);
    let accepted = of("block answer 0") + of("trial answer 0");
    assert_eq!(of("means") + of("floors"), accepted);
    assert_eq!(of("read samples"), bench.checker.worst.samples);
    let refused = CHANGES.iter().filter(|change| !change.accepted).count() as u64;
    assert_eq!(of("changed refused"), refused * accepted);
    assert_eq!(of("changed means") + of("changed floors"), (CHANGES.len() as u64 - refused) * accepted);
    let sound = [0, 3, 4, 5, 6].map(|number| of(&format!("block answer {number}")));
    assert_eq!(of("pair blocks"), sound.iter().sum());
}

/// Each part of an outcome with one of its numbers changed by one bit is told apart, at the changed place.
#[test]
fn each_changed_part_is_told_apart() {
    let mut told: BTreeMap<&str, usize> = BTreeMap::new();
    for steps in lists(2026, 45) {
        let mut record = record_of(&State::fresh());
        for (turn, step) in steps.iter().enumerate() {
            let Step::Call(call) = step else { continue };
            let outcome = perform(&Library, call, &mut record);
            for at in 0..outcome.parts.len() {
                let mut parts = outcome.parts.clone();
                let place = turn * 7 % parts[at].numbers.len();
                parts[at].numbers[place] ^= 1;
                let (name, lent) = (parts[at].name, place as i64 - parts[at].front as i64);
                let found = difference(&parts, &outcome.parts).expect(name);
                assert_eq!((found.part, found.place), (name, lent));
                *told.entry(name).or_default() += 1;
            }
        }
    }
    let around = ["memory after the record", "memory before the record"];
    let given = ["Y", "Z", "answer", "buffer", "bytes", "decision", "entries", "gains", "length", "m"];
    let names = [&given[..], &around, &["record", "state", "theta", "xi"]].concat();
    assert_eq!(told.keys().copied().collect::<Vec<&str>>(), names);
    assert!(told.values().all(|&count| count >= 100), "{told:?}");
}

/// The checks that fail in swapped pairs along lists, with a fault.
fn failing_in_pairs(lists: &[Vec<Step>], name: &str) -> HashSet<String> {
    let failing = lists.iter().filter_map(|steps| {
        let mut record = record_of(&State::fresh());
        with_sides(Kind::named(name), |sides| {
            let mut bench = Bench::new(sides);
            steps.iter().find_map(|step| {
                let Step::Call(call) = step else { return None };
                let failing = bench.swapped(call, &record).err();
                perform(&Second, call, &mut record);
                failing
            })
        })
    });
    failing.map(|failing| failing.check).collect()
}

#[test]
fn swapped_pairs_alone_find_what_sets_their_stations_apart() {
    let found = [
        ("weight", "feed forward weights"),
        ("weight-in-both", "feed forward weights"),
        ("sample", "past samples"),
        ("spare-in-both", "soundness"),
        ("refused-output-4", "output lists"),
        ("swapped-number-in-both", "answer"),
        ("swapped-lent-in-both", "Z"),
        // The same in both stations: only the second implementation shows it.
        ("output", "difference"),
        ("decision", "difference"),
        ("halving", "difference"),
    ];
    let lists = lists(5, 60);
    for (name, part) in found {
        let failing = failing_in_pairs(&lists, name);
        assert!(failing.contains(&format!("swapped pair, {part}")), "{name}: {failing:?}");
    }
    // The same in both stations and on both sides.
    for name in ["doubled-forward-in-both", "output-in-both"] {
        assert_eq!(failing_in_pairs(&lists, name), HashSet::new(), "{name}");
    }
}

/// A trial is checked as a block is, without the second implementation.
#[test]
fn a_trial_is_checked_as_a_block_is() {
    for (name, check) in [("weight", "figure"), ("output", "figure"), ("doubled-forward", "figure"), ("spare", "state")]
    {
        let kind = Kind::named(&format!("{name}-in-both"));
        let failures = with_sides(kind, |sides| {
            let mut bench = Bench::new(sides);
            (0..200).filter_map(|list| bench.made(11, list, &mut |_| true).1).collect::<Vec<_>>()
        });
        for kind in ["block", "trial"] {
            assert!(failures.iter().any(|f| f.kind == kind && f.check == check), "{name} in a {kind}");
        }
    }
}

/// A block in which ψ falls from 15, comes up again and is turned down with 6.
#[test]
fn a_rise_after_a_fall_is_turned_down() {
    let mut bench = Bench::new(RIGHT);
    for (size, number) in [(3800, 0), (3850, 6)] {
        let block = gathering(size, 0);
        let lists = Lists { rooms: [128; 5], m: block.samples, gains: block.gains, entries: block.training };
        let load = Call::Load(raw_image(&record_of(&block.state)));
        bench.list(&[load, Call::Block(lists, None)].map(Step::Call)).unwrap();
        assert_eq!(bench.counts.of(&format!("block answer {number}")), 1);
    }
    assert_eq!(bench.counts.of("fell and rose"), 1);
}

#[test]
fn every_corner_is_one_of_its_own() {
    let corners: HashSet<String> = (0..CORNERS).map(|at| format!("{:?}", corner(at))).collect();
    assert_eq!(corners.len(), CORNERS);
    assert!((0..CORNERS).all(|place| corner(place).examine() == 0));
    let largest = |at: usize| corner(at).m == corner(at).greatest_m();
    assert_eq!((0..CORNERS).filter(|&at| largest(at)).count(), CORNERS / 3);
}

#[test]
fn gains_lie_on_both_sides_of_where_they_change() {
    let (mut below, mut at) = (0, 0);
    for lent in (0..1000).flat_map(|list| cables(1, list)) {
        let r = u32::from(lent.settings.r.min(3));
        if !matches!(lent.cause(), None | Some(Cause::Gain)) {
            continue;
        }
        for place in 0..lent.symbols.len().min(200) {
            let s = sum_at(&lent.response, &lent.symbols, place).unsigned_abs();
            below += u32::from((s + 1).is_power_of_two() && s >= 1 << r);
            at += u32::from(s.is_power_of_two() && s >= 1 << r);
        }
    }
    assert!(below >= 300 && at >= 300, "{below} and {at}");
}
