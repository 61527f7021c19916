//! The changes of lists that a block handed out.

use reference::readings::{readings, Reading};
use reference::vectors::{worked_lists, Lists};
use soak::readings::changes::CHANGES;
use std::collections::HashSet;

/// Lists of several lengths, none of which is as a change makes it.
fn some_lists() -> Vec<Lists> {
    let [one, two, three] = worked_lists();
    let long: Vec<_> = [two, three].into_iter().cycle().take(128).collect();
    let several: [&[_]; 5] = [&[two], &[one, two], &[one, two, three], &long[..127], &long];
    several.into_iter().map(Lists::of).collect()
}

fn is_accepted(lists: &Lists) -> bool {
    let mut lent = vec![Reading::default(); lists.readings];
    readings(&lists.inputs(), &mut lent).is_ok()
}

#[test]
fn each_change_is_answered_as_it_says() {
    for lists in some_lists() {
        assert!(is_accepted(&lists));
        for place in [0, lists.readings / 2, lists.readings - 1] {
            for change in &CHANGES {
                let mut changed = lists.clone();
                (change.make)(&mut changed, place);
                assert_eq!(is_accepted(&changed), change.accepted, "{}", change.about);
            }
        }
    }
}

#[test]
fn the_readme_has_the_count_of_changes() {
    let refused = CHANGES.iter().filter(|change| !change.accepted).count();
    let said = format!(
        "each of {} changes (`src/readings/changes.rs`; {refused} of them are turned down",
        CHANGES.len()
    );
    assert!(include_str!("../README.md").contains(&said), "{said}");
}

#[test]
fn each_change_is_one_of_its_own() {
    let names: HashSet<&str> = CHANGES.iter().map(|change| change.about).collect();
    assert_eq!(names.len(), CHANGES.len());
    let lists = Lists::of(&worked_lists());
    for place in 0..3 {
        let mut made = HashSet::new();
        for change in &CHANGES {
            let mut changed = lists.clone();
            (change.make)(&mut changed, place);
            assert!(changed != lists || change.accepted, "{}", change.about);
            made.insert(format!("{changed:?}"));
        }
        assert_eq!(made.len(), CHANGES.len(), "{place}");
    }
}
