//! Files that appear under their names only when they are complete.

use std::ffi::OsString;
use std::fs::{remove_file, rename, File};
use std::io::{BufWriter, Result, Write};
use std::path::{Path, PathBuf};

/// A file that is written and not yet under its name. It goes where it is not
/// put in place.
pub struct Part {
    part: PathBuf,
    name: PathBuf,
}

impl Part {
    pub fn write(
        name: PathBuf,
        write: impl FnOnce(&mut BufWriter<File>) -> Result<()>,
    ) -> std::result::Result<Part, String> {
        let mut part: OsString = name.clone().into();
        part.push(".part");
        let file = Part {
            part: part.into(),
            name,
        };
        file.fill(write).map_err(|e| file.problem("written", &e))?;
        Ok(file)
    }

    fn fill(&self, write: impl FnOnce(&mut BufWriter<File>) -> Result<()>) -> Result<()> {
        let mut out = BufWriter::new(File::create(&self.part)?);
        write(&mut out)?;
        out.flush()?;
        out.get_ref().sync_all()
    }

    fn problem(&self, what: &str, error: &std::io::Error) -> String {
        format!("{}: can't be {what}: {error}", self.name.display())
    }

    pub fn put_in_place(self) -> std::result::Result<(), String> {
        rename(&self.part, &self.name).map_err(|e| self.problem("put in place", &e))
    }
}

impl Drop for Part {
    fn drop(&mut self) {
        let _ = remove_file(&self.part);
    }
}

/// Whether two paths lead to one file.
pub fn is_same(one: &Path, other: &Path) -> bool {
    let (one, other) = (one.canonicalize(), other.canonicalize());
    one.is_ok_and(|one| other.is_ok_and(|other| one == other))
}

/// Removes a file where it is there with another text.
pub fn remove_unlike(path: &Path, text: &str) -> std::result::Result<(), String> {
    match std::fs::read(path) {
        Ok(bytes) if bytes == text.as_bytes() => Ok(()),
        _ => remove(path),
    }
}

/// Removes a file where it is there.
pub fn remove(path: &Path) -> std::result::Result<(), String> {
    match remove_file(path) {
        Err(e) if e.kind() != std::io::ErrorKind::NotFound => {
            Err(format!("{}: can't be removed: {e}", path.display()))
        }
        _ => Ok(()),
    }
}
