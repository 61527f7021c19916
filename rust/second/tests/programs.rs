//! What the C programs print with the second implementation in place of the proved libraries is what is stored.

use reference::vectors::{block_vectors, cable_vectors, image_vectors, readings_vectors};
use reference::vectors::{BlockVector, CableVector, ImageVector, ReadingsVector};
use std::path::{Path, PathBuf};
use std::process::Command;

/// The programs, and whether they run blocks with training entries.
const PROGRAMS: [(&str, bool); 11] = [
    ("examples/first", true),
    ("examples/plot", true),
    ("examples/cable", false),
    ("examples/cable_station", true),
    ("examples/station", true),
    ("tests/station_interface", false),
    ("tests/laboratory_interface", false),
    ("tests/blocks", true),
    ("tests/images", false),
    ("tests/cables", false),
    ("tests/readings", false),
];

fn root() -> PathBuf {
    Path::new(env!("CARGO_MANIFEST_DIR")).join("../..")
}

/// The static library, the newest of that name beside this program.
fn library() -> PathBuf {
    let program = std::env::current_exe().unwrap();
    let files = std::fs::read_dir(program.parent().unwrap()).unwrap().map(|file| file.unwrap().path());
    let is_library = |file: &PathBuf| {
        let name = file.file_name().unwrap().to_string_lossy();
        name.starts_with("libsecond") && name.ends_with(".a")
    };
    files.filter(is_library).max_by_key(|file| file.metadata().unwrap().modified().unwrap()).unwrap()
}

/// A program in C over the second implementation.
fn built(source: &str) -> PathBuf {
    let program = Path::new(env!("CARGO_TARGET_TMPDIR")).join(source.replace('/', "-"));
    let mut compiler = Command::new("cc");
    compiler.current_dir(root()).args(["-std=c99", "-O2", "-Iinclude", "-Itests", "-o"]).arg(&program);
    compiler.arg(format!("{source}.c")).arg(library()).args(["-lpthread", "-ldl", "-lm"]);
    assert!(compiler.status().expect("there is a C compiler, cc").success(), "{source}");
    program
}

/// The vectors that a program goes through.
fn vectors(name: &str) -> Option<Vec<u8>> {
    match name {
        "blocks" => Some(block_vectors().iter().flat_map(BlockVector::bytes).collect()),
        "images" => Some(image_vectors().iter().flat_map(ImageVector::bytes).collect()),
        "cables" => Some(cable_vectors().iter().flat_map(CableVector::bytes).collect()),
        "readings" => Some(readings_vectors().iter().flat_map(ReadingsVector::bytes).collect()),
        _ => None,
    }
}

/// Whether a program ends well and prints what is stored, without a fault and with one.
fn prints_what_is_stored(source: &str) -> [bool; 2] {
    let name = source.rsplit('/').next().unwrap();
    let stored = std::fs::read(root().join(format!("tests/{name}.out"))).unwrap();
    let mut program = Command::new(built(source));
    if let Some(vectors) = vectors(name) {
        let file = Path::new(env!("CARGO_TARGET_TMPDIR")).join(name);
        std::fs::write(&file, vectors).unwrap();
        program.arg(file);
    }
    let prints = |program: &mut Command| {
        let ended = program.output().unwrap();
        ended.status.success() && ended.stdout == stored
    };
    [prints(&mut program), prints(program.env("TIGBULODE_FAULT", ""))]
}

#[test]
fn the_stored_outputs_are_the_second_implementations_and_a_fault_is_found() {
    for (source, runs_blocks) in PROGRAMS {
        assert_eq!(prints_what_is_stored(source), [true, !runs_blocks], "{source}");
    }
}
