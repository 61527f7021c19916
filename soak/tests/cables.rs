//! What the cables cover, their text, and shrinking.

use reference::cable::Cause;
use reference::Settings;
use soak::cables::bench::{CableBench, CableTally};
use soak::cables::format::{is_cable, parse, text, SavedCable};
use soak::cables::shrink::shrink;
use soak::cables::{CableInputs, CableMaker, PER_LIST};
use soak::faults::Fault;
use soak::soak::{failing_of, shrunk_cable, with_sides};
use tigbulode::sides::{Library, Second};

/// The cables after some lists.
fn cables(seed: u64, lists: u64) -> Vec<CableInputs> {
    let of_list = |list: u64| {
        let mut maker = CableMaker::new(seed, list);
        (0..PER_LIST).map(move |_| maker.cable())
    };
    (0..lists).flat_map(of_list).collect()
}

fn tally(seed: u64, lists: u64) -> CableTally {
    let mut bench = CableBench::new(&Library, &Second);
    for lent in cables(seed, lists) {
        assert_eq!(bench.cable(&lent), Ok(()));
    }
    bench.tally
}

#[test]
fn the_cables_cover_every_answer_and_cause() {
    let tally = tally(2026, 1000);
    for (number, &count) in tally.answers.iter().enumerate() {
        assert_eq!(count >= 30, [0, 1, 2, 10].contains(&number), "{tally}");
    }
    for (cause, count) in Cause::ALL.into_iter().zip(tally.causes) {
        assert!(count >= 10, "{cause:?}: {tally}");
    }
    assert!(tally.gains.iter().all(|&count| count >= 100), "{tally}");
    assert!(tally.at_least >= 100 && tally.blocks >= 1000, "{tally}");
    assert_eq!(tally.exponents, 0, "{tally}");
}

#[test]
fn gains_lie_on_both_sides_of_where_they_change() {
    let (mut below, mut at) = (0, 0);
    for lent in cables(1, 1000) {
        let (cable, r) = (lent.second(), u32::from(lent.settings.r.min(3)));
        if !matches!(cable.cause(lent.room), None | Some(Cause::Gain)) {
            continue;
        }
        for place in 0..lent.symbols.len().min(200) {
            let s = reference::cable::sum_at(&lent.response, &lent.symbols, place);
            let s = s.unsigned_abs();
            below += u32::from((s + 1).is_power_of_two() && s >= 1 << r);
            at += u32::from(s.is_power_of_two() && s >= 1 << r);
        }
    }
    assert!(below >= 300 && at >= 300, "{below} and {at}");
}

#[test]
fn a_cable_is_the_same_after_its_text() {
    let faults = Fault::ALL.map(|(_, fault)| Some(fault));
    for (at, lent) in cables(9, 60).into_iter().enumerate() {
        let fault = *faults.get(at).unwrap_or(&None);
        let saved = SavedCable { fault, lent };
        let text = text(&saved, "one\ntwo");
        assert!(is_cable(&text));
        assert_eq!(parse(&text).unwrap(), saved);
    }
}

#[test]
fn a_cable_that_is_cut_off_is_turned_down() {
    let lent = cables(1, 1).remove(0);
    let text = text(&SavedCable { fault: None, lent }, "");
    for end in 0..text.len() - 4 {
        assert!(parse(&text[..end]).is_err());
    }
}

/// Whether a cable has a loud value and a negative symbol.
fn loud(lent: &CableInputs) -> bool {
    let loud = lent.response.iter().any(|h| h.unsigned_abs() >= 100);
    loud && lent.symbols.iter().any(|&v| v < 0)
}

#[test]
fn shrinking_keeps_what_it_is_asked_to_keep() {
    let mut shrunk = 0;
    for lent in cables(4, 40).into_iter().filter(loud) {
        let more = lent.room as i64 - (12 + 4 * lent.symbols.len() as i64);
        let n = usize::from(lent.settings.n);
        let lent = shrink(lent, &mut loud);
        assert!(loud(&lent));
        assert_eq!(lent.response.len(), 1, "{lent:?}");
        assert!(lent.symbols.len() <= n.max(1) || n == 0, "{lent:?}");
        let negative = lent.symbols.iter().filter(|&&v| v != 1).count();
        assert_eq!(negative, 1, "{lent:?}");
        let room = 12 + 4 * lent.symbols.len() as i64 + more;
        assert_eq!(lent.room as i64, room.max(0));
        shrunk += 1;
    }
    assert!(shrunk >= 20);
}

#[test]
fn a_shrunk_cable_fails_in_the_same_check() {
    for (name, fault) in Fault::ALL.into_iter().filter(|(_, fault)| fault.of_cable()) {
        let fault = Some(fault);
        let mut failing = cables(11, 400).into_iter().filter_map(|lent| {
            let failing = failing_of(fault, &lent)?;
            Some((lent, failing))
        });
        for _ in 0..3 {
            let (lent, first) = failing.next().expect(name);
            let lent = shrunk_cable(fault, lent, &first);
            let again = failing_of(fault, &lent).expect(name);
            assert_eq!(again.check, first.check, "{name}");
            assert!(
                lent.symbols.len() <= 16 && lent.response.len() <= 8,
                "{name}: {lent:?}"
            );
        }
    }
}

#[test]
fn faults_of_lists_leave_a_cable_as_it_is() {
    let settings = Settings {
        p: 1,
        q: 1,
        n: 1,
        r: 0,
        l: 0,
        m: 0,
    };
    let lent = CableInputs {
        settings,
        response: vec![100],
        symbols: vec![1, -1],
        training: 1,
        room: 20,
    };
    for (name, fault) in Fault::ALL
        .into_iter()
        .filter(|(_, fault)| !fault.of_cable())
    {
        let checked = with_sides(Some(fault), |library, second| {
            CableBench::new(library, second).cable(&lent)
        });
        assert_eq!(checked, Ok(()), "{name}");
    }
}
