//! What the tests of all tools with pictures share.
#![allow(dead_code)]

use plots::curve::Curve;
use plots::page::{Page, Panel};
use std::os::unix::fs::PermissionsExt;
use std::path::{Path, PathBuf};

/// An empty folder for one test.
pub fn folder(name: &str) -> PathBuf {
    let path = Path::new(env!("CARGO_TARGET_TMPDIR")).join(name);
    let _ = std::fs::remove_dir_all(&path);
    std::fs::create_dir_all(&path).expect("a folder");
    path
}

/// The files of a folder with their bytes.
pub fn files(folder: &Path) -> Vec<(String, Vec<u8>)> {
    let paths = std::fs::read_dir(folder).expect("the folder").map(|entry| entry.expect("an entry").path());
    let name = |path: &Path| path.file_name().expect("a name").to_string_lossy().into_owned();
    let mut files: Vec<_> = paths.map(|path| (name(&path), std::fs::read(&path).unwrap_or_default())).collect();
    files.sort();
    files
}

pub fn names(folder: &Path) -> Vec<String> {
    files(folder).into_iter().map(|(name, _)| name).collect()
}

/// What writes the end of a whole picture.
pub const WHOLE: &str = r"printf 'picture IEND\256\102\140\202'";

/// A folder of this name with a gnuplot that does this.
pub fn gnuplot(name: &str, commands: &str) -> PathBuf {
    let programs = folder(name);
    let program = programs.join("gnuplot");
    std::fs::write(&program, format!("#!/bin/sh\n{commands}\n")).expect("written");
    std::fs::set_permissions(&program, std::fs::Permissions::from_mode(0o755)).expect("allowed");
    programs
}

/// The path of programs, at its end a gnuplot that stands in where there is none.
pub fn path_with_gnuplot(name: &str) -> String {
    let programs = gnuplot(&format!("{name}-programs"), WHOLE);
    format!("{}:{}", std::env::var("PATH").unwrap_or_default(), programs.display())
}

/// The panel whose name starts so.
pub fn panel<'a>(page: &'a Page, name: &str) -> &'a Panel {
    let found = page.panels.iter().find(|panel| panel.name.starts_with(name));
    found.unwrap_or_else(|| panic!("no panel {name}"))
}

/// The rows of a curve; an empty one is where its line breaks.
pub fn numbers(curve: &Curve) -> Vec<Vec<f64>> {
    let number = |word: &str| word.parse().expect("a number");
    curve.rows.lines().map(|row| row.split_whitespace().map(number).collect()).collect()
}
