//! Every described cable of the vectors through the proved programs `cable` and `trace` of target/bin, byte for byte.

use reference::description::description;
use reference::vectors::description_vectors;
use std::io::{Read, Write};
use std::path::Path;
use std::process::{Command, Stdio};

/// What a program of target/bin writes for an input. It may end without reading it all.
fn piped(name: &str, input: &[u8]) -> Vec<u8> {
    let program = Path::new(env!("CARGO_MANIFEST_DIR")).join("../../target/bin").join(name);
    assert!(program.is_file(), "there is no target/bin/{name}: ./tigbulode check programs makes it");
    let mut child = Command::new(program).stdin(Stdio::piped()).stdout(Stdio::piped()).spawn().unwrap();
    let (mut stdin, mut stdout) = (child.stdin.take().unwrap(), child.stdout.take().unwrap());
    let mut written = Vec::new();
    std::thread::scope(|scope| {
        scope.spawn(move || stdin.write_all(input));
        stdout.read_to_end(&mut written).unwrap();
    });
    assert!(child.wait().unwrap().success(), "{name}");
    written
}

/// How many descriptions give a trace and how many a line, or the first that differs.
fn compare(cable: impl Fn(&[u8]) -> Vec<u8>, trace: impl Fn(&[u8]) -> Vec<u8>) -> Result<[usize; 2], String> {
    let mut counts = [0; 2];
    for (place, vector) in description_vectors().iter().enumerate() {
        let written = cable(&vector.input);
        if written != vector.written {
            return Err(format!("description {place}: cable writes something else"));
        }
        if trace(&written) != vector.text.as_bytes() {
            return Err(format!("description {place}: trace writes something else"));
        }
        counts[usize::from(written.starts_with(b"cable: "))] += 1;
    }
    Ok(counts)
}

#[test]
fn the_proved_programs_write_what_the_second_implementation_has() {
    assert_eq!(compare(|input| piped("cable", input), |input| piped("trace", input)), Ok([9, 114]));
}

/// The text of a trace; that of a line of text stays.
fn of_traces(fault: fn(&str) -> String) -> impl Fn(&[u8]) -> Vec<u8> {
    move |input| {
        let text = reference::trace(input);
        if text == "stop 8 0\n" { text } else { fault(&text) }.into_bytes()
    }
}

#[test]
fn faulty_programs_are_found() {
    let trace = |input: &[u8]| reference::trace(input).into_bytes();
    assert_eq!(compare(description, trace), Ok([9, 114]));
    let last_byte = |input: &[u8]| {
        let mut written = description(input);
        written.last_mut().into_iter().for_each(|byte| *byte ^= 1);
        written
    };
    for cable in [last_byte, |input: &[u8]| input.to_vec(), |_: &[u8]| Vec::new()] {
        assert!(compare(cable, trace).unwrap_err().ends_with("cable writes something else"));
    }
    assert!(compare(description, |_| Vec::new()).is_err());
    let faults: [fn(&str) -> String; 5] = [
        |_| String::new(),
        |_| "stop 300 0\n".to_string(),
        |text| format!("{text}stop 6 1\n"),
        |text| text.trim_end().rsplit_once('\n').map_or(String::new(), |(before, _)| format!("{before}\n")),
        |text| text.replace(" 1\n", " -1\n"),
    ];
    for fault in faults {
        assert!(compare(description, of_traces(fault)).unwrap_err().ends_with("trace writes something else"));
    }
}
