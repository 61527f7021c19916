//! The files of a run. Each appears under its name only when it is complete.

use crate::page::Page;
use crate::script::script;
use std::fs::{remove_file, rename, File};
use std::io::{ErrorKind, Write};
use std::path::{Path, PathBuf};
use std::process::{Command, Stdio};

/// The signals of an interruption, HUP, INT and TERM, as a set of C's first 64.
const INTERRUPTIONS: u64 = 1 << 0 | 1 << 1 | 1 << 14;
/// What C's `sigprocmask` does with a set, on Linux.
const BLOCK: i32 = 0;
const PUT_BACK: i32 = 2;

extern "C" {
    fn sigprocmask(how: i32, set: *const [u64; 16], old: *mut [u64; 16]) -> i32;
}

/// Does something that an interruption waits for.
fn undisturbed<T>(work: impl FnOnce() -> T) -> T {
    let (mut set, mut old) = ([0; 16], [0; 16]);
    set[0] = INTERRUPTIONS;
    // SAFETY: both sets are as long as C's and live through the calls.
    unsafe { sigprocmask(BLOCK, &set, &mut old) };
    let done = work();
    // SAFETY: as above.
    unsafe { sigprocmask(PUT_BACK, &old, &mut set) };
    done
}

/// A file that is written and not yet under its name. It goes where it is not put in place.
struct Part {
    part: PathBuf,
    name: PathBuf,
}

impl Part {
    fn write(name: PathBuf, bytes: &[u8]) -> Result<Part, String> {
        let mut part = name.clone().into_os_string();
        part.push(".part");
        let file = Part { part: part.into(), name };
        let written = File::create(&file.part).and_then(|mut out| out.write_all(bytes).and_then(|()| out.sync_all()));
        written.map_err(|error| file.problem("written", &error))?;
        Ok(file)
    }

    fn problem(&self, what: &str, error: &std::io::Error) -> String {
        format!("{}: can't be {what}: {error}", self.name.display())
    }

    fn put_in_place(self) -> Result<(), String> {
        rename(&self.part, &self.name).map_err(|error| self.problem("put in place", &error))
    }
}

impl Drop for Part {
    fn drop(&mut self) {
        let _ = remove_file(&self.part);
    }
}

/// Removes a file where it is there.
fn remove(path: &Path) -> Result<(), String> {
    match remove_file(path) {
        Err(error) if error.kind() != ErrorKind::NotFound => {
            Err(format!("{}: can't be removed: {error}", path.display()))
        }
        _ => Ok(()),
    }
}

/// A folder that is there and can be written to, as far as an empty file tells.
pub struct Folder(PathBuf);

impl Folder {
    /// The folder that is asked for, made where it is not there; one of the workspace's target where none is.
    pub fn make(asked: Option<PathBuf>, target: &str) -> Result<Folder, String> {
        let path = asked.unwrap_or(Path::new(concat!(env!("CARGO_MANIFEST_DIR"), "/../../target")).join(target));
        if path.exists() && !path.is_dir() {
            return Err(format!("{}: is not a folder", path.display()));
        }
        std::fs::create_dir_all(&path).map_err(|error| format!("{}: can't be made: {error}", path.display()))?;
        undisturbed(|| Part::write(path.join(""), &[]).map(drop))?;
        Ok(Folder(path.canonicalize().unwrap_or(path)))
    }
}

/// What a run writes: texts by their files' names, and pages by their names without an end.
pub struct Files<'a> {
    pub texts: Vec<(&'a str, String)>,
    pub pages: Vec<(&'a str, Page)>,
    /// All pages that a run may have: an earlier one's go, each with its picture and table.
    pub earlier: &'a [&'a str],
}

impl Files<'_> {
    /// Writes all texts in full first. Then what an earlier run left goes, so that no picture stands beside a table that
    /// it doesn't belong to, and the new files take their names. Pictures come last. Gives a line with the names of all.
    pub fn write(&self, Folder(outdir): &Folder) -> Result<String, String> {
        undisturbed(|| self.write_texts(outdir))?;
        for (place, (name, _)) in self.pages.iter().enumerate() {
            eprintln!("drawing {name}.png, {} of {}", place + 1, self.pages.len());
            let there = |why| format!("{why}; all tables, texts and .gnuplot files are there");
            let picture = draw(outdir, name).map_err(there)?;
            undisturbed(|| Part::write(outdir.join(format!("{name}.png")), &picture)?.put_in_place())?;
        }
        let texts = self.texts.iter().map(|(name, _)| name.to_string());
        let pictures = self.pages.iter().map(|(name, _)| format!("{name}.png"));
        let names = texts.chain(pictures).collect::<Vec<_>>().join(", ");
        Ok(format!("in {}: {names}\n", outdir.display()))
    }

    fn write_texts(&self, outdir: &Path) -> Result<(), String> {
        let texts = self.texts.iter().map(|(name, text)| Part::write(outdir.join(name), text.as_bytes()));
        let scripts = self.pages.iter().map(|(name, page)| {
            let script = script(page);
            Part::write(outdir.join(format!("{name}.gnuplot")), script.as_bytes())
        });
        let parts = texts.chain(scripts).collect::<Result<Vec<Part>, String>>()?;
        let earlier = self.earlier.iter().flat_map(|name| ["png", "gnuplot", "csv"].map(|end| format!("{name}.{end}")));
        earlier.map(|name| outdir.join(name)).try_for_each(|path| remove(&path))?;
        parts.into_iter().try_for_each(Part::put_in_place)
    }
}

/// The end of every whole PNG: the chunk IEND. gnuplot's exit status is 0 too where its picture is cut off.
const END: &[u8] = b"IEND\xAE\x42\x60\x82";

/// The picture of a page's script.
fn draw(outdir: &Path, name: &str) -> Result<Vec<u8>, String> {
    let script = outdir.join(format!("{name}.gnuplot"));
    let picture = outdir.join(format!("{name}.png"));
    match Command::new("gnuplot").arg(script).stderr(Stdio::inherit()).output() {
        Ok(output) if output.status.success() && output.stdout.ends_with(END) => Ok(output.stdout),
        Err(error) if error.kind() == ErrorKind::NotFound => {
            Err(format!("{}: there is no gnuplot, Debian package gnuplot-nox", picture.display()))
        }
        _ => Err(format!("{}: can't be drawn in full", picture.display())),
    }
}
