//! The files of a run: whole or not there, whatever becomes of gnuplot or of the folder.

mod shared;

use plots::files::{Files, Folder};
use plots::page::{Page, Panel};
use shared::{files, folder, gnuplot, names, WHOLE};
use std::path::Path;

fn write(outdir: &Path, table: &str) -> Result<String, String> {
    let page =
        || Page { title: "A page".to_string(), lines: Vec::new(), shades: Vec::new(), panels: vec![Panel::default()] };
    let files = Files {
        texts: vec![("table.csv", table.to_string()), ("summary.txt", "all".to_string())],
        pages: vec![("one", page()), ("two", page())],
        earlier: &["one", "two", "three"],
    };
    files.write(&Folder::make(Some(outdir.into()), "")?)
}

/// Writes with a gnuplot that does this, ahead of all else on the path; without one where that is none.
fn write_by(outdir: &Path, commands: Option<&str>) -> Result<String, String> {
    let programs = commands.map_or_else(|| folder("programs"), |commands| gnuplot("programs", commands));
    std::env::set_var("PATH", programs);
    write(outdir, "new")
}

const TEXTS: [&str; 4] = ["one.gnuplot", "summary.txt", "table.csv", "two.gnuplot"];

/// One after the other, since all set the path.
#[test]
fn a_picture_is_whole_or_not_there() {
    let bad = [
        (None, "there is no gnuplot, Debian package gnuplot-nox"),
        (Some("exit 0".to_string()), "can't be drawn in full"),
        (Some(r"printf 'picture IEND\256\102\140'".to_string()), "can't be drawn in full"),
        (Some(format!("{WHOLE}; exit 1")), "can't be drawn in full"),
    ];
    for (gnuplot, words) in bad {
        let outdir = folder("bad-gnuplot");
        std::fs::write(outdir.join("one.png"), "earlier").expect("written");
        std::fs::write(outdir.join("three.png"), "earlier").expect("written");
        let told = write_by(&outdir, gnuplot.as_deref()).expect_err("no picture");
        let there = "all tables, texts and .gnuplot files are there";
        assert!(told.ends_with(&format!("one.png: {words}; {there}")), "{told}");
        assert_eq!(names(&outdir), TEXTS);
    }
    let outdir = folder("second-fails");
    let second = format!("case $1 in *two*) exit 0 ;; esac; {WHOLE}");
    assert!(write_by(&outdir, Some(&second)).expect_err("no picture").contains("two.png: "));
    assert!(names(&outdir).contains(&"one.png".to_string()) && !names(&outdir).contains(&"two.png".to_string()));
    let told = write_by(&outdir, Some(WHOLE)).expect("both pictures");
    assert!(told.ends_with(": table.csv, summary.txt, one.png, two.png\n"), "{told}");
    assert_eq!(names(&outdir).len(), 6);
    what_cannot_be_written_leaves_the_earlier_run_whole();
}

fn what_cannot_be_written_leaves_the_earlier_run_whole() {
    let outdir = folder("in-the-way");
    write_by(&outdir, Some(WHOLE)).expect("written");
    let before = files(&outdir);
    std::fs::create_dir(outdir.join("two.gnuplot.part")).expect("a folder in the way");
    let told = write(&outdir, "newer").expect_err("not written");
    assert!(told.contains("two.gnuplot: can't be written: "), "{told}");
    std::fs::remove_dir(outdir.join("two.gnuplot.part")).expect("removed");
    assert_eq!(files(&outdir), before);
    let full = folder("full");
    std::os::unix::fs::symlink("/dev/full", full.join("summary.txt.part")).expect("a link");
    assert!(write(&full, "new").expect_err("not written").contains("summary.txt: can't be written: No space left"));
    assert_eq!(names(&full), Vec::<String>::new());
}

#[test]
fn a_folder_that_cannot_be_one_is_told() {
    let file = folder("no-folder").join("file");
    std::fs::write(&file, "").expect("written");
    assert!(write(&file, "").expect_err("a file").ends_with("file: is not a folder"));
    assert!(write(&file.join("below"), "").expect_err("below a file").contains("below: can't be made: "));
    assert!(write(Path::new("/proc"), "").expect_err("no file there").starts_with("/proc/: can't be written: "));
    let taken = folder("taken");
    std::fs::create_dir(taken.join("table.csv")).expect("a folder in the way");
    assert!(write(&taken, "").expect_err("a folder").contains("table.csv: can't be put in place: "));
    assert_eq!(names(&taken), ["table.csv"]);
}
