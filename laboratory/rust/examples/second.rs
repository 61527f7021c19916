//! The second implementation in place of the two programs: `cable` or `trace`,
//! by the name that it is called by; or a faulty one. `faulty` is a cable whose
//! last byte is wrong, `silent` a trace without text. The others answer a line
//! of text rightly and are wrong about traces alone.

use reference::description::description;
use std::io::{Read, Write};
use std::path::Path;

/// A cable whose last byte is wrong.
fn faulty(input: &[u8]) -> Vec<u8> {
    let mut written = description(input);
    written.last_mut().into_iter().for_each(|byte| *byte ^= 1);
    written
}

/// The text of a trace, by a program of this name.
fn text(name: &str, input: &[u8]) -> String {
    let mut text = reference::trace(input);
    match name {
        "silent" => text.clear(),
        _ if text == "stop 8 0\n" => (),
        "silent-for-traces" => text.clear(),
        "stopping" => text = "stop 300 0\n".to_string(),
        "stopping-late" => text += "stop 6 1\n",
        "breaking-off" => text.truncate(text.trim_end().rfind('\n').map_or(0, |end| end + 1)),
        "deciding-wrongly" => text = text.replace(" 1\n", " -1\n"),
        _ => (),
    }
    text
}

fn main() {
    let called = std::env::args().next().unwrap_or_default();
    let name = Path::new(&called).file_name().unwrap_or_default();
    let mut input = Vec::new();
    std::io::stdin().read_to_end(&mut input).unwrap();
    let written = match name.to_str().unwrap_or_default() {
        "cable" => description(&input),
        "faulty" => faulty(&input),
        name => text(name, &input).into(),
    };
    std::io::stdout().write_all(&written).unwrap();
}
