//! A list of calls, or a cable, as text:
//!
//! ```text
//! tigbulode calls 1
//! # a remark
//! fault KIND
//! set-up P Q N R L M
//! block m M.. gains G.. entries E.. rooms Y XI DECISION Z THETA
//! trial m M.. gains G.. entries E.. rooms Y XI DECISION Z THETA
//! save LENGTH
//! load BYTES..
//! cable P Q N R L M response H.. symbols V.. training COUNT room BYTES
//! end
//! ```
//!
//! One line a call. `rooms` has the lengths of the five lists that a block or a trial hands out, `room` that of the
//! trace. A block, a trial or a save may end with `on P Q N R L PSI B BMAX M weights W.. past A..`: another record,
//! which the list then forgets. Readings and swapped pairs have no line: they follow from what a block or a trial hands
//! out. `fault` is there only where a built-in fault was asked for; without that line the list passes.

use crate::bench::Step;
use crate::cables::CableInputs;
use crate::kinds::Kind;
use harness::calls::{Call, Lists};
use reference::Settings;
use std::io::{Read, Write};
use std::iter::Peekable;
use std::path::Path;
use std::str::{FromStr, SplitWhitespace};
use tigbulode::Equaliser;

/// The first line of every file.
pub const HEADING: &str = "tigbulode calls 1";
/// The longest list or buffer that a file may ask for, and the longest file.
pub const MOST_ROOM: usize = 1 << 20;
pub const MOST_BYTES: u64 = 16 << 20;

/// A list, and the fault that it was found with.
#[derive(Clone, Debug, PartialEq, Eq)]
pub struct Saved {
    pub kind: Option<Kind>,
    pub steps: Vec<Step>,
}

fn words<T: ToString>(list: &[T]) -> String {
    list.iter().map(|a| format!(" {}", a.to_string())).collect()
}

fn settings(&Settings { p, q, n, r, l, m }: &Settings) -> String {
    words(&[p.into(), q.into(), n.into(), r.into(), l.into(), m])
}

fn on(e: &Equaliser) -> String {
    let bytes = words(&[e.p, e.q, e.n, e.r, e.l, e.psi, e.b, e.bmax]);
    format!(" on{bytes} {} weights{} past{}", e.step, words(&e.weights), words(&e.past))
}

fn line(step: &Step) -> String {
    let given = match step {
        Step::Call(Call::SetUp(s)) => settings(s),
        Step::Call(Call::Block(lists, _) | Call::Trial(lists, _)) => {
            let (m, gains, entries) = (words(&lists.m), words(&lists.gains), words(&lists.entries));
            format!(" m{m} gains{gains} entries{entries} rooms{}", words(&lists.rooms))
        }
        Step::Call(Call::Save(room, _)) => words(&[*room]),
        Step::Call(Call::Load(bytes)) => words(bytes),
        Step::Cable(lent) => {
            let (settings, response, symbols) = (settings(&lent.settings), words(&lent.response), words(&lent.symbols));
            let CableInputs { training, room, .. } = lent;
            format!("{settings} response{response} symbols{symbols} training {training} room {room}")
        }
    };
    let other = match step {
        Step::Call(call) => call.other().map(on).unwrap_or_default(),
        Step::Cable(_) => String::new(),
    };
    format!("{}{given}{other}\n", step.kind())
}

/// The text of a list; `about` becomes remarks.
pub fn text(saved: &Saved, about: &str) -> String {
    let remarks: String = about.lines().map(|line| format!("# {line}\n")).collect();
    let fault = saved.kind.map(|kind| format!("fault {}\n", kind.name())).unwrap_or_default();
    let lines: String = saved.steps.iter().map(line).collect();
    format!("{HEADING}\n{remarks}{fault}{lines}end\n")
}

/// The words of a line that are still to be read.
struct Words<'a>(Peekable<SplitWhitespace<'a>>);

fn number<T: FromStr>(word: &str) -> Result<T, String> {
    word.parse().map_err(|_| format!("{word:?} is no number that fits here"))
}

/// As many numbers as are wanted.
fn exactly<T, const COUNT: usize>(numbers: Vec<T>) -> Result<[T; COUNT], String> {
    let wrong = |numbers: Vec<T>| format!("{} numbers in place of {COUNT}", numbers.len());
    numbers.try_into().map_err(wrong)
}

fn byte(number: u32) -> Result<u8, String> {
    u8::try_from(number).map_err(|_| format!("{number} is above 255"))
}

impl Words<'_> {
    /// The numbers up to the next other word.
    fn numbers<T: FromStr>(&mut self) -> Result<Vec<T>, String> {
        let mut numbers = Vec::new();
        while let Some(word) = self.0.next_if(|word| word.starts_with(|c: char| c == '-' || c.is_ascii_digit())) {
            numbers.push(number(word)?);
        }
        match numbers.len() {
            0..=MOST_ROOM => Ok(numbers),
            _ => Err(format!("a list of more than {MOST_ROOM}")),
        }
    }

    /// The numbers behind a word, which must come next.
    fn list<T: FromStr>(&mut self, name: &str) -> Result<Vec<T>, String> {
        match self.0.next() {
            Some(word) if word == name => self.numbers(),
            _ => Err(format!("no {name:?} where it belongs")),
        }
    }

    fn settings(&mut self) -> Result<Settings, String> {
        let [p, q, n, r, l, m] = exactly(self.numbers()?)?;
        Ok(Settings { p: byte(p)?, q: byte(q)?, n: byte(n)?, r: byte(r)?, l: byte(l)?, m })
    }

    /// The record at the end of a line, if there is one.
    fn other(&mut self) -> Result<Option<Equaliser>, String> {
        if self.0.peek().is_none() {
            return Ok(None);
        }
        let [p, q, n, r, l, psi, b, bmax, step] = exactly(self.list("on")?)?;
        let (weights, past) = (exactly(self.list("weights")?)?, exactly(self.list("past")?)?);
        let [p, q, n, r] = [byte(p)?, byte(q)?, byte(n)?, byte(r)?];
        let [l, psi, b, bmax] = [byte(l)?, byte(psi)?, byte(b)?, byte(bmax)?];
        Ok(Some(Equaliser { p, q, n, r, l, psi, b, bmax, step, weights, past }))
    }

    fn lists(&mut self) -> Result<Lists, String> {
        let (m, gains, entries) = (self.list("m")?, self.list("gains")?, self.list("entries")?);
        let rooms: [usize; 5] = exactly(self.list("rooms")?)?;
        rooms.into_iter().try_for_each(within)?;
        Ok(Lists { m, gains, entries, rooms })
    }

    fn cable(&mut self) -> Result<CableInputs, String> {
        let (settings, response, symbols) = (self.settings()?, self.list("response")?, self.list("symbols")?);
        let ([training], [room]) = (exactly(self.list("training")?)?, exactly(self.list("room")?)?);
        within(room)?;
        Ok(CableInputs { settings, response, symbols, training, room })
    }

    /// The step of a kind.
    fn step(&mut self, kind: &str) -> Result<Step, String> {
        let call = match kind {
            "set-up" => Call::SetUp(self.settings()?),
            "block" => Call::Block(self.lists()?, self.other()?),
            "trial" => Call::Trial(self.lists()?, self.other()?),
            "save" => {
                let [room] = exactly(self.numbers()?)?;
                within(room)?;
                Call::Save(room, self.other()?)
            }
            "load" => Call::Load(self.numbers()?),
            "cable" => return self.cable().map(Step::Cable),
            _ => return Err(format!("no call: {kind:?}")),
        };
        Ok(Step::Call(call))
    }
}

/// Whether there is that much room.
fn within(room: usize) -> Result<(), String> {
    match room {
        0..=MOST_ROOM => Ok(()),
        _ => Err(format!("room for {room}, at most {MOST_ROOM} is taken")),
    }
}

fn read_line(line: &str, saved: &mut Saved) -> Result<(), String> {
    let mut words = Words(line.split_whitespace().peekable());
    let Some(first) = words.0.next().filter(|word| !word.starts_with('#')) else {
        return Ok(());
    };
    if first == "fault" {
        let name = words.0.next().unwrap_or_default();
        saved.kind = Some(Kind::named(name).ok_or(format!("no fault {name:?}"))?);
    } else {
        saved.steps.push(words.step(first)?);
    }
    match words.0.next() {
        None => Ok(()),
        Some(more) => Err(format!("{more:?} is too much")),
    }
}

/// The list of a text, or what is wrong with it and where.
pub fn parse(text: &str) -> Result<Saved, String> {
    let mut lines = text.lines();
    if lines.next().map(str::trim_end) != Some(HEADING) {
        return Err(format!("the first line is not {HEADING:?}"));
    }
    let mut saved = Saved { kind: None, steps: Vec::new() };
    for (at, line) in lines.enumerate() {
        if line.trim() == "end" {
            return Ok(saved);
        }
        read_line(line, &mut saved).map_err(|wrong| format!("line {}: {wrong}", at + 2))?;
    }
    Err("no line \"end\": a part is missing".to_string())
}

/// The list of a file.
pub fn read(path: &Path) -> Result<Saved, String> {
    let in_file = |wrong: String| format!("{}: {wrong}", path.display());
    let mut bytes = Vec::new();
    std::fs::File::open(path)
        .and_then(|file| file.take(MOST_BYTES + 1).read_to_end(&mut bytes))
        .map_err(|error| in_file(error.to_string()))?;
    if bytes.len() as u64 > MOST_BYTES {
        return Err(in_file(format!("longer than {MOST_BYTES} bytes")));
    }
    let text = String::from_utf8(bytes).map_err(|_| in_file("no text".to_string()))?;
    parse(&text).map_err(in_file)
}

/// Writes a file whole or not at all.
pub fn write(path: &Path, text: &str) -> Result<(), String> {
    let mut name = path.file_name().unwrap_or_default().to_os_string();
    name.push(format!(".{}.part", std::process::id()));
    let part = path.with_file_name(name);
    let written = std::fs::File::create(&part)
        .and_then(|mut file| file.write_all(text.as_bytes()).and_then(|()| file.sync_all()))
        .and_then(|()| std::fs::rename(&part, path));
    written.map_err(|error| {
        let _ = std::fs::remove_file(&part);
        format!("{}: {error}", path.display())
    })
}
