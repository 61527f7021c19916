//! Writes the test vectors: `vectors OUTDIR` makes `traces.bin`, `blocks.bin`,
//! `images.bin`, `cables.bin`, `descriptions.bin` and `readings.bin` there.

use reference::vectors::{
    block_vectors, cable_vectors, description_vectors, image_vectors, readings_vectors,
    trace_vectors,
};
use reference::vectors::{
    BlockVector, CableVector, DescriptionVector, ImageVector, ReadingsVector, TraceVector,
};
use std::path::Path;
use std::process::ExitCode;

const USAGE: &str = "usage: vectors OUTDIR";

fn main() -> ExitCode {
    let words: Vec<String> = std::env::args().skip(1).collect();
    let folder = match &words[..] {
        [word] if word == "--help" || word == "-h" => {
            println!("{USAGE}");
            return ExitCode::SUCCESS;
        }
        [folder] if !folder.starts_with('-') => folder,
        _ => {
            eprintln!("{USAGE}");
            return ExitCode::from(2);
        }
    };
    match write_all(Path::new(folder)) {
        Ok(()) => ExitCode::SUCCESS,
        Err(error) => {
            eprintln!("{folder}: {error}");
            ExitCode::FAILURE
        }
    }
}

fn write_all(folder: &Path) -> std::io::Result<()> {
    std::fs::create_dir_all(folder)?;
    let traces = trace_vectors();
    let blocks = block_vectors();
    let images = image_vectors();
    let cables = cable_vectors();
    let descriptions = description_vectors();
    let readings = readings_vectors();
    write(folder, "traces.bin", &traces, TraceVector::bytes)?;
    write(folder, "blocks.bin", &blocks, BlockVector::bytes)?;
    write(folder, "images.bin", &images, ImageVector::bytes)?;
    write(folder, "cables.bin", &cables, CableVector::bytes)?;
    write(
        folder,
        "descriptions.bin",
        &descriptions,
        DescriptionVector::bytes,
    )?;
    write(folder, "readings.bin", &readings, ReadingsVector::bytes)
}

/// Writes one file, whole or not at all.
fn write<V>(
    folder: &Path,
    name: &str,
    list: &[V],
    bytes: fn(&V) -> Vec<u8>,
) -> std::io::Result<()> {
    let all: Vec<u8> = list.iter().flat_map(bytes).collect();
    println!("{name}: {} vectors, {} bytes", list.len(), all.len());
    let part = folder.join(format!("{name}.part"));
    std::fs::write(&part, all)?;
    std::fs::rename(part, folder.join(name))
}
