//! What the pages show of the programs is theirs: code, printed lines, and the numbers with their texts.

use std::path::{Path, PathBuf};
use tigbulode::number_text;

const PAGES: [&str; 3] = ["README.md", "docs/FIRMWARE.md", "docs/LABORATORY.md"];

fn root() -> PathBuf {
    Path::new(env!("CARGO_MANIFEST_DIR")).join("../..")
}

fn page(name: &str) -> String {
    std::fs::read_to_string(root().join(name)).unwrap()
}

/// The lines of each file of a folder with this extension.
fn files(folder: &str, extension: &str) -> Vec<Vec<String>> {
    let paths = std::fs::read_dir(root().join(folder)).unwrap().map(|file| file.unwrap().path());
    let files = paths.filter(|path| path.extension().is_some_and(|other| other == extension));
    files.map(|path| std::fs::read_to_string(path).unwrap().lines().map(String::from).collect()).collect()
}

/// Whether lines stand in one of the files, one after the other.
fn are_in(lines: &[&str], files: &[Vec<String>]) -> bool {
    !lines.is_empty() && files.iter().any(|file| file.windows(lines.len()).any(|some| some == lines))
}

/// What a page shows between a fence with this language and the next fence.
fn fenced<'a>(page: &'a str, language: &str) -> Vec<Vec<&'a str>> {
    let lines: Vec<&str> = page.lines().collect();
    let begins = |line: &&str| line.strip_prefix("```") == Some(language);
    let starts = (0..lines.len()).filter(|&at| begins(&lines[at]));
    starts.map(|at| lines[at + 1..].iter().copied().take_while(|line| !line.starts_with("```")).collect()).collect()
}

/// The indented parts of a page that begin as the programs' lines do.
fn printed(page: &str) -> Vec<Vec<&str>> {
    let indented = page
        .split("\n\n")
        .filter_map(|part| part.lines().map(|line| line.strip_prefix("    ")).collect::<Option<Vec<&str>>>());
    let begins = |part: &Vec<&str>| ["accepted: ", "tried ", "bent "].iter().any(|begin| part[0].starts_with(begin));
    indented.filter(begins).collect()
}

/// Each part that is shown stands in a file, and with another last line it doesn't.
fn held(shown: Vec<Vec<&str>>, files: &[Vec<String>], about: &str) -> usize {
    for mut part in shown.clone() {
        assert!(are_in(&part, files), "{about}: {part:#?}");
        *part.last_mut().unwrap() = "another line";
        assert!(!are_in(&part, files));
    }
    shown.len()
}

#[test]
fn code_is_that_of_the_examples_and_printed_lines_are_those_that_are_stored() {
    let [c, rust, out] = [("examples", "c"), ("examples", "rs"), ("tests", "out")].map(|(at, kind)| files(at, kind));
    let mut counts = [0; 3];
    for name in PAGES {
        let page = page(name);
        counts[0] += held(fenced(&page, "c"), &c, name);
        counts[1] += held(fenced(&page, "rust"), &rust, name);
        counts[2] += held(printed(&page), &out, name);
    }
    assert!(counts.iter().all(|&count| count >= 2), "{counts:?}");
    let first = &files("tests", "out").concat();
    assert!(first.iter().any(|line| page("docs/FIRMWARE.md").contains(&format!("`{line}`"))));
}

#[test]
fn tables_have_the_texts_of_the_numbers() {
    let (station, laboratory) = (page("docs/FIRMWARE.md"), page("docs/LABORATORY.md"));
    let row = |number: u8, text: u8| format!("\n| {number} | {} |", number_text(text));
    assert!((0..=9).all(|number| station.contains(&row(number, number))));
    assert!([0, 1, 2, 10, 11].iter().all(|&number| laboratory.contains(&row(number, number))));
    assert!(!station.contains(&row(1, 2)) && !laboratory.contains(&row(11, 10)));
    assert!(station.contains(&format!("interface is {}.", tigbulode::VERSION)));
    assert!(laboratory.contains(&format!("interface {}.", tigbulode_laboratory::VERSION)));
}
