// Links a static library: that of the environment's variable, or the one that `./tigbulode library` names, which is not
// older than the sources. The build scripts of the packages tigbulode and tigbulode_laboratory include this file.

use std::path::{Path, PathBuf};
use std::process::{exit, Command, Stdio};

/// The path that the command prints; what it tells goes to the error stream.
fn library(root: &Path, name: &str, variable: &str) -> PathBuf {
    let crates = std::fs::read_dir(root.join("crates")).into_iter().flatten().flatten();
    // What rt keeps in a crate's out/ is no source.
    let parts = crates.flat_map(|each| ["src", "specs", "proofs"].map(|part| each.path().join(part)));
    for path in parts.filter(|part| part.is_dir()).chain([root.join("crates.txt")]) {
        println!("cargo:rerun-if-changed={}", path.display());
    }
    let mut command = Command::new(root.join("tigbulode"));
    match command.args(["library", name]).stderr(Stdio::inherit()).output() {
        Ok(output) if output.status.success() => String::from_utf8_lossy(&output.stdout).trim_end().into(),
        Ok(_) => exit(1),
        Err(error) => {
            eprintln!("./tigbulode library {name} can't be run: {error}; name a library in {variable}");
            exit(1)
        }
    }
}

/// Links the library for a package two folders below the root.
fn link(name: &str, variable: &str) {
    println!("cargo:rerun-if-env-changed={variable}");
    let package = std::env::var("CARGO_MANIFEST_DIR").expect("cargo names the package's folder");
    let root = Path::new(&package).join("../..");
    let given = std::env::var_os(variable).filter(|path| !path.is_empty());
    let archive = given.map_or_else(|| library(&root, name, variable), PathBuf::from);
    let Ok(archive) = archive.canonicalize() else {
        eprintln!("no static library at {}; {variable} takes a whole path", archive.display());
        exit(1);
    };
    println!("cargo:rerun-if-changed={}", archive.display());
    let (folder, file) = (archive.parent().expect("in a folder"), archive.file_name().expect("with a name"));
    println!("cargo:rustc-link-search=native={}", folder.display());
    println!("cargo:rustc-link-lib=static:+verbatim={}", file.display());
}
