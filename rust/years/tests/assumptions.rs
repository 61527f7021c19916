//! Assumptions that are taken, those that are turned down, and what is noted of them.

mod common;

use common::given;
use tigbulode::Settings;
use years::assumptions::{read, DEFAULT};

/// What is told of the default with these changes.
fn problems(changes: &[&str]) -> Vec<String> {
    let changes: Vec<String> = changes.iter().map(|change| change.to_string()).collect();
    let problems = read("", &changes).err().unwrap_or_default();
    problems.iter().map(|problem| problem.told("")).collect()
}

#[test]
fn a_missing_key_has_its_default_and_the_copy_has_all() {
    assert_eq!(given(&[]), read(DEFAULT, &[]).expect("the default").0);
    assert_eq!(given(&[]).changes.len(), 0);
    let few = read("seed = 9\nheadroom = 1.10\n", &["years=1".to_string()]).expect("in order").0;
    assert_eq!((few.seed, few.years, few.headroom, few.settings), (9, 1, 1.1, given(&[]).settings));
    assert_eq!(few.changes, ["seed = 9", "years = 1"]);
    let again = read(&few.text, &[]).expect("the copy").0;
    assert_eq!(again, few);
    assert!(
        few.text.starts_with("seed = 9\nheadroom = 1.10\nyears = 1\nreadings_a_day = 2\n")
            && few.text.lines().count() == 51
    );
}

/// Above each key of the default text stands its range.
#[test]
fn the_default_text_says_the_range_of_each_key() {
    let mut comment = String::new();
    let mut keys = 0;
    for line in DEFAULT.lines() {
        if let Some((key, _)) = line.split_once(" = ").filter(|_| !line.starts_with('#')) {
            let told = problems(&[&format!("{key}=x")]).remove(0);
            let (_, range) = told.split_once(" from ").expect("a range");
            let range = range.trim_end_matches(" is wanted");
            assert!(comment.contains(range), "{key}: {range}");
            (comment, keys) = (String::new(), keys + 1);
        } else {
            comment += line;
        }
    }
    assert_eq!(keys, 51);
}

#[test]
fn a_size_is_taken_exactly_where_set_up_takes_it() {
    for (place, key) in ["p", "q", "N", "r", "L"].into_iter().enumerate() {
        for value in 0..=130u8 {
            let mut s = [1, 1, 64, 0, 0];
            s[place] = value;
            let [p, q, n, r, l] = s;
            let number = tigbulode::set_up(Settings { p, q, n, r, l, m: 0 }).number;
            let sizes = [format!("p={p}"), format!("q={q}"), format!("N={n}"), format!("r={r}"), format!("L={l}")];
            let mut changes = vec!["M=0", "delay=0", "payload_blocks=32"];
            changes.extend(sizes.iter().map(String::as_str));
            assert_eq!(problems(&changes).is_empty(), number == 0, "{key} = {value}");
        }
    }
}

#[test]
fn values_that_disagree_are_told_where_they_are_given() {
    let cases: [(&[&str], &str); 10] = [
        (&["M=5592406"], "M = 5592406, but with p = 6, q = 4, r = 1, L = 0 at most 5592405 is admitted"),
        (&["cable_old=0.1 0.2"], "cable_old has 2 taps, but cable_new has 5"),
        (&["payload_blocks=1", "N=8"], "the payload has 8 symbols, but a pressure takes 16"),
        (&["delay=10"], "delay = 10, but with p = 6 and 5 taps of the cable no tap meets the symbol after 9"),
        (&["season_loss=0.9", "day_loss=0.2"], "season_loss = 0.9 and day_loss = 0.2 take more than the whole level"),
        (
            &["shut_in_days=14", "shut_in_day=352"],
            "a shut-in of 14 days from day 352 goes beyond its year: at most 13 days are wanted",
        ),
        (
            &["power_loss_days=0.4"],
            "power_loss_days = 0.4 is less than the time between readings: 0 or at least 0.5 is wanted",
        ),
        (&["pressure_first=25"], "the pressure falls to -5.0710 bar on day 7305, but none below 0 can be sent"),
        (
            &["pressure_first=10000", "pressure_unit=0.0001"],
            "the pressure comes to 10003.3981 bar on day 214, but a 16-bit number of 0.0001 bar holds at most 6.5535 bar: \
             a unit of at least 0.1527 bar is wanted",
        ),
        (&["payload_blocks=1", "r=0", "N=31", "M=0"], "the payload has 31 symbols, but a pressure takes 32"),
    ];
    for (changes, sentence) in cases {
        let sentence = format!("--set: {sentence}");
        assert_eq!(problems(changes), [&sentence[..]]);
        let unrelated = problems(&[changes, &["headroom=x", "anything=1"]].concat());
        assert_eq!((unrelated.len(), unrelated.last()), (3, Some(&sentence)));
    }
    for good in ["M=5592405", "delay=9", "shut_in_day=351", "power_loss_days=0.5", "N=16"] {
        assert_eq!(problems(&[good]), Vec::<String>::new());
    }
    let told = problems(&["p=16"]);
    let words = "the default: M = 4194304, but with p = 16, q = 4, r = 1, L = 0 at most ";
    assert!(told[0].starts_with(words), "{told:?}");
    let told = read("seed = 1\n\ndelay = 10\n", &[]).expect_err("turned down")[0].told("a.txt");
    assert!(told.starts_with("a.txt: line 3: delay = 10, but "), "{told}");
}

#[test]
fn a_value_that_is_wrong_by_itself_disagrees_with_none() {
    let cases = [
        ("M=4294967295", "q=x"),
        ("cable_old=0.1 0.2", "cable_new=x"),
        ("payload_blocks=1", "N=x"),
        ("delay=10", "cable_new=x"),
        ("power_loss_days=0.4", "readings_a_day=x"),
        ("pressure_first=1", "pressure_half_years=x"),
        ("pressure_unit=x", "pressure_first=10000"),
    ];
    for (other, wrong) in cases {
        assert_eq!(problems(&[other, wrong]).len(), 1, "{other}, {wrong}");
    }
}

#[test]
fn a_spell_beyond_the_years_is_noted() {
    let cases = [
        ("loud spell", "loud_first_day", "loud_days"),
        ("faint spell", "faint_first_day", "faint_days"),
        ("noisy joint", "joint_first_day", "joint_days"),
        ("swapped joint", "swap_day", "swap_readings"),
    ];
    for (name, key, length) in cases {
        let noted = |first: &str| {
            let others = cases.iter().filter(|case| case.2 != length).map(|case| format!("{}=0", case.2));
            let more = ["years=1".to_string(), format!("{length}=20"), format!("{key}={first}")];
            let (_, notes) = read("", &others.chain(more).collect::<Vec<_>>()).expect("taken");
            notes.iter().map(|note| note.told("")).collect::<Vec<_>>()
        };
        assert_eq!(noted("364.75"), Vec::<String>::new());
        let told = format!("--set: the {name} from day 364.9 on is not in these years: the last is day 364.75");
        assert_eq!(noted("364.9"), [told]);
    }
}
