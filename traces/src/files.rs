//! Reading and writing; - is standard input or output.

use std::fs::File;
use std::io::{Read, Write};
use std::path::{Path, PathBuf};

/// The name for messages.
pub fn named(input: &str) -> &str {
    match input {
        "-" => "standard input",
        name => name,
    }
}

/// At most this many bytes of an input.
pub fn read(input: &str, most: u64) -> Result<Vec<u8>, String> {
    let mut bytes = Vec::new();
    let read = match input {
        "-" => std::io::stdin().take(most).read_to_end(&mut bytes),
        name => File::open(name).and_then(|file| file.take(most).read_to_end(&mut bytes)),
    };
    match read {
        Ok(_) => Ok(bytes),
        Err(error) => Err(format!("{}: {error}", named(input))),
    }
}

/// Writes an output whole; a file appears under its name only when complete.
pub fn write(output: &str, bytes: &[u8]) -> Result<(), String> {
    let written = match output {
        "-" => written(&mut std::io::stdout().lock(), bytes),
        name => write_file(Path::new(name), bytes),
    };
    let name = match output {
        "-" => "standard output",
        name => name,
    };
    written.map_err(|error| format!("{name}: {error}"))
}

fn written(stream: &mut dyn Write, bytes: &[u8]) -> std::io::Result<()> {
    stream.write_all(bytes)?;
    stream.flush()
}

fn write_file(path: &Path, bytes: &[u8]) -> std::io::Result<()> {
    // a device or a pipe is written to as it is, a link's own file is replaced
    let path = match std::fs::metadata(path) {
        Ok(found) if !found.is_file() => return written(&mut File::create(path)?, bytes),
        Ok(_) => path.canonicalize()?,
        Err(_) => path.to_path_buf(),
    };
    let part = part_of(&path);
    let whole = File::create(&part)
        .and_then(|mut file| written(&mut file, bytes).and_then(|()| file.sync_all()))
        .and_then(|()| std::fs::rename(&part, &path));
    whole.inspect_err(|_| {
        let _ = std::fs::remove_file(&part);
    })
}

fn part_of(path: &Path) -> PathBuf {
    let mut name = path.file_name().unwrap_or_default().to_os_string();
    name.push(format!(".{}.part", std::process::id()));
    path.with_file_name(name)
}

/// Whether two names are of the same file.
pub fn same(input: &str, output: &str) -> bool {
    let file = |name: &str| match name {
        "-" => None,
        name => Path::new(name).canonicalize().ok(),
    };
    let own = file(input);
    own.is_some_and(|own| own.is_file() && file(output) == Some(own))
}
