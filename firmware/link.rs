// Links a static library: that of the environment's variable, or the one that
// the script names, which is not older than the sources. The build scripts of
// the packages in firmware/rust and laboratory/rust include it.

use std::path::{Path, PathBuf};
use std::process::{exit, Command, Stdio};

/// The path that the script prints; what it tells goes to the error stream.
fn library(root: &Path, script: &str, variable: &str) -> PathBuf {
    let crates = root.join("crates");
    println!("cargo:rerun-if-changed={}", crates.display());
    println!("cargo:rerun-if-changed={}.txt", crates.display());
    let mut command = Command::new(root.join(script));
    match command.stderr(Stdio::inherit()).output() {
        Ok(output) if output.status.success() => {
            PathBuf::from(String::from_utf8_lossy(&output.stdout).trim_end())
        }
        Ok(_) => exit(1),
        Err(error) => {
            eprintln!("{script} can't be run: {error}; name a library in {variable}");
            exit(1)
        }
    }
}

/// Links the library for a package two folders below the root.
fn link(script: &str, variable: &str) {
    println!("cargo:rerun-if-env-changed={variable}");
    let package = std::env::var("CARGO_MANIFEST_DIR").expect("cargo names the package's folder");
    let root = Path::new(&package).join("../..");
    let given = std::env::var_os(variable).map(PathBuf::from);
    let archive = given.unwrap_or_else(|| library(&root, script, variable));
    let Ok(archive) = archive.canonicalize() else {
        eprintln!("no static library at {}", archive.display());
        exit(1);
    };
    println!("cargo:rerun-if-changed={}", archive.display());
    let folder = archive.parent().expect("a file is in a folder").display();
    let name = archive.file_name().expect("a file has a name");
    println!("cargo:rustc-link-search=native={folder}");
    println!(
        "cargo:rustc-link-lib=static:+verbatim={}",
        name.to_string_lossy()
    );
}
