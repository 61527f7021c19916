//! What the lists cover, their text, and shrinking.

use reference::numbers::bit_length;
use reference::vectors::gathering::gathering;
use reference::State;
use soak::bench::{Bench, Failure};
use soak::faults::Fault;
use soak::format::{parse, text, Saved};
use soak::lists::{corner, Lister, CORNERS};
use soak::readings::changes::CHANGES;
use soak::shrink::shrink;
use soak::soak::{failure_of, shrunk, with_sides};
use soak::swapped::SwappedBench;
use std::collections::HashSet;
use tigbulode::calls::{raw_image, Call, Lists};
use tigbulode::perform::perform;
use tigbulode::sides::{record_of, Library, Second};

/// The calls of a list, made on a bench, up to a failure.
fn list(bench: &mut Bench, seed: u64, place: u64) -> (Vec<Call>, Option<Failure>) {
    let mut lister = Lister::new(seed, place);
    let mut calls: Vec<Call> = Vec::new();
    bench.start_list();
    while let Some(call) = lister.next(bench.record()) {
        calls.push(call.clone());
        match bench.call(&call) {
            Ok(image) => image.iter().for_each(|image| lister.keep(image)),
            Err(failure) => return (calls, Some(failure)),
        }
    }
    let failure = bench.end_list().err();
    (calls, failure)
}

/// 900 lists made on a bench.
fn lists_made() -> Bench<'static> {
    let mut bench = Bench::new(&Library, &Second);
    for place in 0..900 {
        let (_, failure) = list(&mut bench, 2026, place);
        assert_eq!(failure, None);
    }
    bench
}

#[test]
fn the_lists_cover_every_answer() {
    let bench = lists_made();
    every_answer(&bench);
    every_kind_of_block(&bench);
    every_way_of_following(&bench);
    every_sort_of_readings(&bench);
    every_answer_of_swapped_pairs(&bench);
}

/// Each call gives the answers that it can, and no other.
fn every_answer(bench: &Bench) {
    let given = [
        vec![0, 1, 2],
        vec![0, 1, 2, 3, 4, 5, 6, 9],
        vec![0, 1, 2, 3, 4, 5, 6, 9],
        vec![0, 1, 2, 7, 9],
        vec![0, 1, 2, 8, 9],
    ];
    let tally = &bench.tally;
    for (answers, given) in tally.answers.iter().zip(given) {
        for (number, &count) in answers.iter().enumerate() {
            assert_eq!(count >= 10, given.contains(&number), "{tally}");
        }
    }
    let calls: u64 = tally.answers.iter().flatten().sum();
    assert!(tally.on_copies >= calls / 8, "{tally}");
    assert_eq!(tally.again, calls - tally.on_copies);
}

fn every_kind_of_block(bench: &Bench) {
    let tally = &bench.tally;
    for (blocks, least) in [(&tally.blocks, 50), (&tally.trials, 10)] {
        assert!(blocks.rises_to_15 >= least, "{tally}");
        assert!(blocks.left_at_15 >= 2 * least, "{tally}");
        assert!(blocks.falls >= 2 * least && blocks.falls_from_15 >= least / 2);
        assert!(blocks.larger >= 2 * least && blocks.smaller >= 2 * least);
        assert!(blocks.wrong_lengths.iter().all(|&count| count >= least / 4));
    }
    let m = bench.moves;
    assert!(
        m.fell >= 400 && m.from_15_to_0 >= 50 && m.fell_and_rose >= 50,
        "{m:?}"
    );
    assert!(bench.checker.worst.doublings >= 2000);
}

fn every_way_of_following(bench: &Bench) {
    assert!(bench.others >= 50);
    let f = bench.followed;
    assert!(
        f.at_once >= 100 && f.after_calls >= 100 && f.loaded_back >= 50,
        "{f:?}"
    );
}

/// What each accepted block and trial handed out is read, and read again with
/// each change.
fn every_sort_of_readings(bench: &Bench) {
    let (tally, readings) = (&bench.tally, bench.readings.tally);
    let accepted = tally.answers[1][0] + tally.answers[2][0];
    assert_eq!(readings.means + readings.floors, accepted);
    assert_eq!(readings.samples, bench.checker.worst.samples);
    assert!(readings.means >= 1000 && readings.floors >= 1000);
    assert!(readings.zeros >= 1000, "{readings}");
    let refused = CHANGES.iter().filter(|change| !change.accepted).count() as u64;
    assert_eq!(readings.refused, refused * accepted);
    let changed = readings.changed_means + readings.changed_floors + readings.refused;
    assert_eq!(changed, CHANGES.len() as u64 * accepted);
}

/// Every block on a sound record is run by a swapped pair too.
fn every_answer_of_swapped_pairs(bench: &Bench) {
    let (blocks, tally) = (bench.tally.answers[1], bench.swapped.tally);
    for (number, &count) in tally.answers.iter().enumerate() {
        assert_eq!(count >= 100, [0, 3, 4, 5, 6].contains(&number), "{tally}");
    }
    let on_sound: u64 = [0, 3, 4, 5, 6]
        .map(|number: usize| blocks[number])
        .iter()
        .sum();
    assert_eq!(tally.answers.iter().sum::<u64>(), on_sound);
    assert!(tally.pairs >= 2000 && tally.lowest >= 1000, "{tally}");
    assert!(tally.raised >= 300 && tally.lowered >= 300, "{tally}");
}

/// The checks that fail in swapped pairs along some lists, with a fault.
fn failing_in_pairs(fault: Fault) -> HashSet<String> {
    let mut made = Bench::new(&Second, &Second);
    let failing = (0..60).filter_map(|place| {
        let (calls, _) = list(&mut made, 5, place);
        let mut record = record_of(&State::fresh());
        with_sides(Some(fault), |library, second| {
            let mut bench = SwappedBench::new(library, second);
            calls.iter().find_map(|call| {
                let failing = bench.call(call, &record).err();
                perform(&Second, call, &mut record);
                failing
            })
        })
    });
    failing.map(|failing| failing.check).collect()
}

/// A fault, and what of a swapped pair it fails in.
const IN_PAIRS: [(Fault, &str); 10] = [
    (Fault::Weight, "feed forward weights"),
    (Fault::WeightInBoth, "feed forward weights"),
    (Fault::Sample, "past samples"),
    (Fault::SpareInBoth, "soundness"),
    (Fault::RefusedOutput, "output lists"),
    (Fault::SwappedNumberInBoth, "answer"),
    (Fault::SwappedLentInBoth, "Z"),
    // the same in both stations: only the second implementation shows it
    (Fault::Output, "difference"),
    (Fault::Decision, "difference"),
    (Fault::Halving, "difference"),
];

#[test]
fn swapped_pairs_alone_find_what_sets_their_stations_apart() {
    for (fault, part) in IN_PAIRS {
        let failing = failing_in_pairs(fault);
        let wanted = format!("swapped pair, {part}");
        assert!(failing.contains(&wanted), "{fault:?}: {failing:?}");
    }
    // the same in both stations and on both sides
    for fault in [Fault::DoublingInBoth, Fault::OutputInBoth] {
        assert_eq!(failing_in_pairs(fault), HashSet::new(), "{fault:?}");
    }
}

/// A block in which ψ falls from 15, comes up again and is turned down with 6.
#[test]
fn a_rise_after_a_fall_is_turned_down() {
    let mut bench = Bench::new(&Library, &Second);
    for (size, number) in [(3800, 0), (3850, 6)] {
        let block = gathering(size, 0);
        let lists = Lists {
            rooms: [128; 5],
            m: block.samples,
            gains: block.gains,
            entries: block.training,
        };
        bench.start_list();
        let load = Call::Load(raw_image(&record_of(&block.state)));
        bench.call(&load).unwrap();
        let before = bench.tally.answers[1][number];
        bench.call(&Call::Block(lists, None)).unwrap();
        assert_eq!(bench.tally.answers[1][number], before + 1);
    }
    assert_eq!(bench.moves.fell_and_rose, 1);
}

#[test]
fn every_corner_is_one_of_its_own() {
    let corners: HashSet<String> = (0..CORNERS).map(|at| format!("{:?}", corner(at))).collect();
    assert_eq!(corners.len(), CORNERS);
    assert!((0..CORNERS).all(|place| corner(place).examine() == 0));
    let largest = |at: usize| corner(at).m == corner(at).largest_m();
    assert_eq!((0..CORNERS).filter(|&at| largest(at)).count(), CORNERS / 3);
}

#[test]
fn a_list_is_the_same_after_its_text() {
    let mut bench = Bench::new(&Second, &Second);
    let faults = Fault::ALL.map(|(_, fault)| Some(fault));
    let mut lent = 0;
    for place in 0..150 {
        let (calls, _) = list(&mut bench, 9, place);
        lent += calls.iter().filter(|call| call.other().is_some()).count();
        let fault = *faults.get(place as usize).unwrap_or(&None);
        let saved = Saved { fault, calls };
        assert_eq!(parse(&text(&saved, "one\ntwo")).unwrap(), saved);
    }
    assert!(lent >= 50);
}

#[test]
fn a_list_that_is_cut_off_is_turned_down() {
    let (calls, _) = list(&mut Bench::new(&Second, &Second), 1, 2);
    let text = text(&Saved { fault: None, calls }, "");
    for end in 0..text.len() - 4 {
        assert!(parse(&text[..end]).is_err());
    }
}

/// Whether a list has an accepted block with a loud sample after a save.
fn loud_after_save(calls: &[Call]) -> bool {
    let saved = calls.iter().position(|call| matches!(call, Call::Save(..)));
    let loud = |call: &Call| match call {
        Call::Block(lists, None) => lists.m.iter().any(|&m| bit_length(m.into()) >= 15),
        _ => false,
    };
    saved.is_some_and(|at| calls[at..].iter().any(loud))
}

#[test]
fn shrinking_keeps_what_it_is_asked_to_keep() {
    let mut bench = Bench::new(&Second, &Second);
    let mut shrunk_lists = 0;
    for place in 0..40 {
        let (calls, _) = list(&mut bench, 4, place);
        if !loud_after_save(&calls) {
            continue;
        }
        let calls = shrink(calls, &mut loud_after_save);
        assert!(loud_after_save(&calls));
        assert_eq!(calls.len(), 2, "{calls:?}");
        let Call::Block(lists, None) = &calls[1] else {
            panic!("{calls:?}");
        };
        assert_eq!(lists.m.iter().filter(|&&m| m != 0).count(), 1);
        shrunk_lists += 1;
    }
    assert!(shrunk_lists >= 10);
}

/// A list with a fault, up to a failure.
fn faulty_list(fault: Fault, place: u64) -> (Vec<Call>, Option<Failure>) {
    with_sides(Some(fault), |library, second| {
        list(&mut Bench::new(library, second), 11, place)
    })
}

#[test]
fn a_trial_is_checked_as_a_block_is() {
    let faults = [
        (Fault::WeightInBoth, "figure"),
        (Fault::OutputInBoth, "figure"),
        (Fault::DoublingInBoth, "figure"),
        (Fault::SpareInBoth, "state"),
    ];
    for (fault, check) in faults {
        for kind in ["block", "trial"] {
            let mut failures = (0..200).filter_map(|place| faulty_list(fault, place).1);
            let found = failures.any(|f| f.kind == kind && f.failing.check == check);
            assert!(found, "{fault:?} in a {kind}");
        }
    }
}

#[test]
fn a_shrunk_list_fails_in_the_same_check() {
    for (name, fault) in Fault::ALL
        .into_iter()
        .filter(|(_, fault)| !fault.of_cable())
    {
        let found = (0..400).map(|place| faulty_list(fault, place));
        let mut failing = found.filter_map(|(calls, failure)| Some((calls, failure?)));
        for _ in 0..3 {
            let (calls, failure) = failing.next().expect(name);
            let before = calls.len();
            let calls = shrunk(Some(fault), calls, &failure);
            let again = failure_of(Some(fault), &calls).expect(name);
            assert_eq!(again.failing.check, failure.failing.check, "{name}");
            assert!(calls.len() <= before.min(4), "{name}: {calls:?}");
        }
    }
}
