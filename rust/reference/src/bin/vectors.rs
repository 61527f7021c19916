//! Writes the files of test vectors and tells their counts.

use reference::vectors::files;
use std::path::Path;
use std::process::ExitCode;

fn main() -> ExitCode {
    let words: Vec<String> = std::env::args().skip(1).collect();
    let folder = match &words[..] {
        [folder] if !folder.starts_with('-') => folder,
        _ => {
            eprintln!("usage: vectors OUTDIR");
            return ExitCode::from(2);
        }
    };
    if let Err(error) = write_all(Path::new(folder)) {
        eprintln!("{folder}: {error}");
        return ExitCode::FAILURE;
    }
    ExitCode::SUCCESS
}

/// Writes each file whole or not at all.
fn write_all(folder: &Path) -> std::io::Result<()> {
    std::fs::create_dir_all(folder)?;
    for file in files() {
        println!("{}", file.line());
        let part = folder.join(format!("{}.part", file.name));
        std::fs::write(&part, file.bytes)?;
        std::fs::rename(part, folder.join(file.name))?;
    }
    Ok(())
}
