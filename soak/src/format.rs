//! A list of calls as text: one line a call, as `soak/README.md` has it.

use crate::faults::Fault;
use reference::Settings;
use std::fmt::Write as _;
use std::io::{Read, Write as _};
use std::path::Path;
use std::str::FromStr;
use tigbulode::calls::{Call, CallOfLists, Lists};
use tigbulode::{Equaliser, SLOTS};

/// The first line of every file.
pub const HEADING: &str = "tigbulode calls 1";
/// The longest list or buffer that a file may ask for, and the longest file.
pub const MOST_ROOM: usize = 65_536;
pub const MOST_BYTES: u64 = 16 << 20;

/// A list, and the fault that it was found with.
#[derive(Clone, Debug, PartialEq, Eq)]
pub struct Saved {
    pub fault: Option<Fault>,
    pub calls: Vec<Call>,
}

fn hex(bytes: &[u8]) -> String {
    bytes.iter().map(|byte| format!("{byte:02x}")).collect()
}

pub fn words<T: ToString>(list: &[T]) -> String {
    list.iter().map(|a| format!(" {}", a.to_string())).collect()
}

/// The bytes of a record as the library has it in memory.
fn record_bytes(e: &Equaliser) -> Vec<u8> {
    let mut bytes = vec![e.p, e.q, e.n, e.r, e.l, e.psi, e.b, e.bmax];
    bytes.extend(e.step.to_le_bytes());
    for place in e.weights.iter().chain(&e.past) {
        bytes.extend(place.to_le_bytes());
    }
    bytes
}

fn line(call: &Call) -> String {
    let kind = Call::KINDS[call.kind()];
    let given = match call {
        Call::SetUp(s) => format!("{} {} {} {} {} {}", s.p, s.q, s.n, s.r, s.l, s.m),
        Call::Block(lists, _) | Call::Trial(lists, _) => format!(
            "m{} gains{} entries{} rooms{}",
            words(&lists.m),
            words(&lists.gains),
            words(&lists.entries),
            words(&lists.rooms)
        ),
        Call::Save(room, _) => room.to_string(),
        Call::Load(bytes) => hex(bytes),
    };
    let other = call.other().map(record_bytes);
    let on = other.map(|bytes| format!(" on {}", hex(&bytes)));
    let line = format!("{kind} {given}{}", on.unwrap_or_default());
    line.trim_end().to_string()
}

/// A remark for each line.
pub fn remarks(about: &str) -> String {
    about.lines().map(|line| format!("# {line}\n")).collect()
}

/// The text of a list; `about` becomes remarks.
pub fn text(saved: &Saved, about: &str) -> String {
    let mut text = format!("{HEADING}\n{}", remarks(about));
    if let Some(fault) = saved.fault {
        let _ = writeln!(text, "fault {}", fault.name());
    }
    for call in &saved.calls {
        let _ = writeln!(text, "{}", line(call));
    }
    text + "end\n"
}

pub fn number<T: FromStr>(word: &str) -> Result<T, String> {
    let number = word.parse();
    number.map_err(|_| format!("{word:?} is no number that fits here"))
}

pub fn numbers<T: FromStr>(words: &[&str]) -> Result<Vec<T>, String> {
    if words.len() > MOST_ROOM {
        return Err(format!("a list of more than {MOST_ROOM}"));
    }
    words.iter().map(|word| number(word)).collect()
}

fn room(word: &str) -> Result<usize, String> {
    match number(word)? {
        room if room <= MOST_ROOM => Ok(room),
        room => Err(format!("room for {room}, at most {MOST_ROOM} is taken")),
    }
}

fn bytes(word: &str) -> Result<Vec<u8>, String> {
    let digits = word.as_bytes();
    if !digits.len().is_multiple_of(2) || !digits.iter().all(u8::is_ascii_hexdigit) {
        return Err(format!("{word:?} is no row of hexadecimal bytes"));
    }
    let pairs = (0..word.len()).step_by(2);
    let bytes: Result<Vec<u8>, _> = pairs
        .map(|at| u8::from_str_radix(&word[at..at + 2], 16))
        .collect();
    bytes.map_err(|_| format!("{word:?} is no row of hexadecimal bytes"))
}

fn record(word: &str) -> Result<Equaliser, String> {
    let bytes = bytes(word)?;
    if bytes.len() != 12 + 4 * SLOTS {
        return Err(format!("a record of {} bytes", bytes.len()));
    }
    let place = |at: usize| i16::from_le_bytes([bytes[at], bytes[at + 1]]);
    Ok(Equaliser {
        p: bytes[0],
        q: bytes[1],
        n: bytes[2],
        r: bytes[3],
        l: bytes[4],
        psi: bytes[5],
        b: bytes[6],
        bmax: bytes[7],
        step: u32::from_le_bytes([bytes[8], bytes[9], bytes[10], bytes[11]]),
        weights: std::array::from_fn(|i| place(12 + 2 * i)),
        past: std::array::from_fn(|i| place(12 + 2 * (SLOTS + i))),
    })
}

/// The words up to the next keyword, which must be there.
fn until<'a, 'b>(words: &'a [&'b str], keyword: &str) -> Result<[&'a [&'b str]; 2], String> {
    let at = words.iter().position(|&word| word == keyword);
    let at = at.ok_or_else(|| format!("no {keyword:?} in a block"))?;
    Ok([&words[..at], &words[at + 1..]])
}

/// A block or a trial, which `made` makes.
fn block(words: &[&str], made: CallOfLists) -> Result<Call, String> {
    let (words, lent) = match words {
        [words @ .., "on", hex] => (words, Some(record(hex)?)),
        words => (words, None),
    };
    let [none, words] = until(words, "m")?;
    let [m, words] = until(words, "gains")?;
    let [gains, words] = until(words, "entries")?;
    let [entries, rooms] = until(words, "rooms")?;
    if !none.is_empty() {
        return Err("a block starts with its m".to_string());
    }
    let rooms: Result<Vec<usize>, String> = rooms.iter().map(|word| room(word)).collect();
    let rooms = rooms?.try_into();
    let lists = Lists {
        m: numbers(m)?,
        gains: numbers(gains)?,
        entries: numbers(entries)?,
        rooms: rooms.map_err(|_| "a block has five rooms".to_string())?,
    };
    Ok(made(lists, lent))
}

fn set_up(words: &[&str]) -> Result<Call, String> {
    let [p, q, n, r, l, m] = words else {
        return Err("a set-up has six numbers: p q N r L M".to_string());
    };
    Ok(Call::SetUp(Settings {
        p: number(p)?,
        q: number(q)?,
        n: number(n)?,
        r: number(r)?,
        l: number(l)?,
        m: number(m)?,
    }))
}

fn read_line(line: &str, saved: &mut Saved) -> Result<(), String> {
    let words: Vec<&str> = line.split_whitespace().collect();
    let call = match words[..] {
        [] => return Ok(()),
        [word, ..] if word.starts_with('#') => return Ok(()),
        ["fault", name] => {
            let fault = Fault::named(name).ok_or(format!("no fault {name:?}"))?;
            saved.fault = Some(fault);
            return Ok(());
        }
        ["set-up", ..] => set_up(&words[1..])?,
        ["block", ..] => block(&words[1..], Call::Block)?,
        ["trial", ..] => block(&words[1..], Call::Trial)?,
        ["save", word] => Call::Save(room(word)?, None),
        ["save", word, "on", hex] => Call::Save(room(word)?, Some(record(hex)?)),
        ["load"] => Call::Load(Vec::new()),
        ["load", hex] => Call::Load(bytes(hex)?),
        _ => return Err(format!("no call: {:?}", words[0])),
    };
    saved.calls.push(call);
    Ok(())
}

/// The list of a text, or what is wrong with it and where.
pub fn parse(text: &str) -> Result<Saved, String> {
    let mut lines = text.lines();
    if lines.next().map(str::trim_end) != Some(HEADING) {
        return Err(format!("the first line is not {HEADING:?}"));
    }
    let mut saved = Saved {
        fault: None,
        calls: Vec::new(),
    };
    for (at, line) in lines.enumerate() {
        if line.trim() == "end" {
            return Ok(saved);
        }
        read_line(line, &mut saved).map_err(|wrong| format!("line {}: {wrong}", at + 2))?;
    }
    Err("no line \"end\": a part is missing".to_string())
}

/// What is read of a file: `parse` makes it from the text.
pub fn read<T>(path: &Path, parse: impl FnOnce(&str) -> Result<T, String>) -> Result<T, String> {
    let in_file = |wrong: String| format!("{}: {wrong}", path.display());
    let mut bytes = Vec::new();
    std::fs::File::open(path)
        .and_then(|file| file.take(MOST_BYTES + 1).read_to_end(&mut bytes))
        .map_err(|error| in_file(error.to_string()))?;
    if bytes.len() as u64 > MOST_BYTES {
        return Err(in_file(format!("longer than {MOST_BYTES} bytes")));
    }
    let text = String::from_utf8(bytes).map_err(|_| in_file("no text".to_string()))?;
    parse(&text).map_err(in_file)
}

/// Writes a file whole or not at all.
pub fn write(path: &Path, text: &str) -> Result<(), String> {
    let mut name = path.file_name().unwrap_or_default().to_os_string();
    name.push(format!(".{}.part", std::process::id()));
    let part = path.with_file_name(name);
    let written = std::fs::File::create(&part)
        .and_then(|mut file| {
            file.write_all(text.as_bytes())
                .and_then(|()| file.sync_all())
        })
        .and_then(|()| std::fs::rename(&part, path));
    written.map_err(|error| {
        let _ = std::fs::remove_file(&part);
        format!("{}: {error}", path.display())
    })
}
