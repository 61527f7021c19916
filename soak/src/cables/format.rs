//! A cable as text, as `soak/README.md` has it.

use super::CableInputs;
use crate::faults::Fault;
use crate::format::{number, numbers, remarks, words};
use reference::Settings;

/// The first line of every file.
pub const HEADING: &str = "tigbulode cable 1";
/// The most bytes that a file may ask for.
pub const MOST_ROOM: usize = 1 << 20;

/// A cable, and the fault that it was found with.
#[derive(Clone, Debug, PartialEq, Eq)]
pub struct SavedCable {
    pub fault: Option<Fault>,
    pub lent: CableInputs,
}

/// The text of a cable; `about` becomes remarks.
pub fn text(saved: &SavedCable, about: &str) -> String {
    let lent = &saved.lent;
    let Settings { p, q, n, r, l, m } = lent.settings;
    let fault = saved.fault.map(|fault| format!("fault {}\n", fault.name()));
    [
        format!("{HEADING}\n{}", remarks(about)),
        fault.unwrap_or_default(),
        format!("settings {p} {q} {n} {r} {l} {m}\n"),
        format!("response{}\n", words(&lent.response)),
        format!("symbols{}\n", words(&lent.symbols)),
        format!("training {}\n", lent.training),
        format!("room {}\nend\n", lent.room),
    ]
    .concat()
}

/// The parts of a cable that have been read.
#[derive(Default)]
struct Parts {
    fault: Option<Fault>,
    settings: Option<Settings>,
    response: Option<Vec<i16>>,
    symbols: Option<Vec<i8>>,
    training: Option<usize>,
    room: Option<usize>,
}

/// Fills a part that is not there yet.
fn fill<T>(part: &mut Option<T>, value: T, name: &str) -> Result<(), String> {
    match part.replace(value) {
        None => Ok(()),
        Some(_) => Err(format!("a second {name:?}")),
    }
}

fn settings(words: &[&str]) -> Result<Settings, String> {
    let [p, q, n, r, l, m] = words else {
        return Err("settings have six numbers: p q N r L M".to_string());
    };
    Ok(Settings {
        p: number(p)?,
        q: number(q)?,
        n: number(n)?,
        r: number(r)?,
        l: number(l)?,
        m: number(m)?,
    })
}

fn room(word: &str) -> Result<usize, String> {
    match number(word)? {
        room if room <= MOST_ROOM => Ok(room),
        room => Err(format!("room for {room}, at most {MOST_ROOM} is taken")),
    }
}

impl Parts {
    fn read_line(&mut self, line: &str) -> Result<(), String> {
        let words: Vec<&str> = line.split_whitespace().collect();
        match words[..] {
            [] => Ok(()),
            [word, ..] if word.starts_with('#') => Ok(()),
            ["fault", name] => {
                let fault = Fault::named(name).ok_or(format!("no fault {name:?}"))?;
                fill(&mut self.fault, fault, "fault")
            }
            ["settings", ref words @ ..] => fill(&mut self.settings, settings(words)?, "settings"),
            ["response", ref words @ ..] => fill(&mut self.response, numbers(words)?, "response"),
            ["symbols", ref words @ ..] => fill(&mut self.symbols, numbers(words)?, "symbols"),
            ["training", word] => fill(&mut self.training, number(word)?, "training"),
            ["room", word] => fill(&mut self.room, room(word)?, "room"),
            _ => Err(format!("no part of a cable: {:?}", words[0])),
        }
    }

    fn cable(self) -> Result<SavedCable, String> {
        let missing = |name: &str| format!("no {name:?}");
        Ok(SavedCable {
            fault: self.fault,
            lent: CableInputs {
                settings: self.settings.ok_or_else(|| missing("settings"))?,
                response: self.response.ok_or_else(|| missing("response"))?,
                symbols: self.symbols.ok_or_else(|| missing("symbols"))?,
                training: self.training.ok_or_else(|| missing("training"))?,
                room: self.room.ok_or_else(|| missing("room"))?,
            },
        })
    }
}

/// Whether a text is that of a cable.
pub fn is_cable(text: &str) -> bool {
    text.lines().next().map(str::trim_end) == Some(HEADING)
}

/// The cable of a text, or what is wrong with it and where.
pub fn parse(text: &str) -> Result<SavedCable, String> {
    let mut parts = Parts::default();
    for (at, line) in text.lines().enumerate().skip(1) {
        if line.trim() == "end" {
            return parts.cable();
        }
        parts
            .read_line(line)
            .map_err(|wrong| format!("line {}: {wrong}", at + 1))?;
    }
    Err("no line \"end\": a part is missing".to_string())
}
