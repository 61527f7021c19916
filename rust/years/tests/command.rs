//! The program itself: its files, messages and exit statuses.

#[path = "../../plots/tests/shared/mod.rs"]
mod shared;

use shared::{files, folder, names, path_with_gnuplot};
use std::path::Path;
use std::process::{Command, Output};

/// Runs the program. Where there is no gnuplot one stands in for it.
fn years(words: &[&str], outdir: &Path) -> Output {
    let path = path_with_gnuplot(&outdir.file_name().expect("a name").to_string_lossy());
    let mut program = Command::new(env!("CARGO_BIN_EXE_years"));
    program.args(words).arg("--out").arg(outdir).env("PATH", path).output().expect("the program runs")
}

fn told(output: &Output) -> String {
    String::from_utf8_lossy(&output.stderr).into_owned()
}

#[test]
fn a_run_replaces_an_earlier_one_and_can_be_repeated_from_its_copy() {
    let (one, two) = (folder("one"), folder("two"));
    let spell = ["--set", "years=1", "--set", "loud_first_day=100", "--set", "swap_day=200"];
    assert!(years(&spell, &one).status.success());
    let more = ["assumptions.txt", "loud-spell.gnuplot", "loud-spell.png", "summary.txt", "swapped-joint.csv"];
    let more = [&more[..], &["swapped-joint.gnuplot", "swapped-joint.png", "years.csv", "years.gnuplot", "years.png"]];
    assert_eq!(names(&one), more.concat());
    assert!(years(&["--set", "years=1"], &one).status.success());
    let written = ["assumptions.txt", "summary.txt", "years.csv", "years.gnuplot", "years.png"];
    assert_eq!(names(&one), written);
    let copy = one.join("assumptions.txt");
    let output = years(&[&copy.to_string_lossy()], &two);
    assert_eq!(files(&one), files(&two));
    let summary = std::fs::read_to_string(two.join("summary.txt")).expect("read");
    assert!(String::from_utf8_lossy(&output.stdout).starts_with(&summary));
    assert!(summary.contains("\nother than the default: years = 1\n"));
    assert!(years(&[&copy.to_string_lossy(), "--set", "seed=36"], &two).status.success());
    assert_ne!(files(&one), files(&two));
}

#[test]
fn what_is_wrong_ends_with_2_and_writes_nothing() {
    let outdir = folder("wrong").join("unmade");
    let bad = folder("bad").join("bad.txt");
    std::fs::write(&bad, "seed = 7\np = none\n").expect("written");
    let bad = bad.to_string_lossy();
    let cases: [(&[&str], &str); 7] = [
        (&[&bad], "bad.txt: line 2: p = none, but a whole number from 1 to 16 is wanted\n"),
        (&["absent.txt"], "absent.txt: can't be read: "),
        (&["--set", "sead=7"], "--set: sead is no key; is seed meant?\n"),
        (&["--set"], "--set wants a value\nusage: "),
        (&["--bogus"], "no such option: --bogus\nusage: ./tigbulode years"),
        (&["one", "two"], "more than one FILE\nusage: ./tigbulode years"),
        (&[""], "the name of FILE is empty\nusage: "),
    ];
    for (words, sentence) in cases {
        let output = years(words, &outdir);
        assert_eq!(output.status.code(), Some(2), "{words:?}");
        assert!(told(&output).contains(sentence), "{}", told(&output));
        assert!(!outdir.exists() && output.stdout.is_empty());
    }
    let output = years(&["--help"], &outdir);
    assert!(output.status.success() && output.stdout.starts_with(b"usage: ./tigbulode years ") && !outdir.exists());
}

#[test]
fn a_folder_that_cannot_be_one_is_told_before_the_run() {
    let file = folder("no-folder").join("file");
    std::fs::write(&file, "").expect("written");
    let output = years(&[], &file);
    assert!(output.status.code() == Some(1) && output.stdout.is_empty());
    assert!(told(&output).ends_with("file: is not a folder\n") && told(&output).lines().count() == 1);
}

/// All kinds of data. What gnuplot has to say of them would be seen.
#[test]
fn every_history_is_drawn_without_a_word() {
    let cases: [(&str, usize); 15] = [
        ("", 5),
        ("years=2 M=0 loud_days=0 swap_day=300", 3),
        ("years=2 pressure_first=10000 pressure_unit=0.2 faint_days=0", 2),
        ("years=1 pressure_first=0 pressure_fall=0 pressure_season=0 shut_in_rise=0", 1),
        ("years=1 readings_a_day=24", 1),
        ("years=2 cable_new=0 cable_old=0 delay=0 swap_day=300", 4),
        ("years=1 noise_new=0.001 noise_old=0.001 power_loss_days=0 joint_first_day=0", 2),
        ("years=2 check_sum=0 damaged_images=1 power_loss_days=2 readings_a_day=4 save_every_days=1", 3),
        ("years=2 p=16 q=16 M=1000000 swap_day=300", 4),
        ("years=2 p=1 q=1 delay=1 swap_day=300", 4),
        ("years=2 r=0", 3),
        ("years=2 r=3 M=200000", 3),
        ("years=2 L=15 swap_day=300", 4),
        ("years=1 readings_a_day=1 loud_first_day=0 loud_days=3 joint_first_day=300 swap_day=0 swap_readings=1", 4),
        ("years=2 loud_first_day=0 loud_days=999 faint_first_day=0 faint_days=999 swap_day=729 headroom=0.6", 4),
    ];
    for (place, (changes, pictures)) in cases.into_iter().enumerate() {
        let outdir = folder(&format!("drawn-{place}"));
        let words: Vec<&str> = changes.split_whitespace().flat_map(|change| ["--set", change]).collect();
        let output = years(&words, &outdir);
        assert!(output.status.success(), "{changes}: {}", told(&output));
        let expected = |line: &str| line.starts_with("reading ") || line.starts_with("drawing ");
        let other = told(&output).lines().filter(|line| !expected(line) && !line.contains("is not in these")).count();
        assert_eq!(other, 0, "{changes}: {}", told(&output));
        let drawn = names(&outdir).iter().filter(|name| name.ends_with(".png")).count();
        assert_eq!(drawn, pictures, "{changes}: {:?}", names(&outdir));
        assert!(names(&outdir).iter().all(|name| !name.ends_with(".part")));
    }
}
