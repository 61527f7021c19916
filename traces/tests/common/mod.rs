//! Any trace of the right length, the traces that the second implementation
//! made, and programs that are run on an input.
#![allow(dead_code)]

use reference::random::Random;
use std::io::Write;
use std::process::{Command, Stdio};
use traces::trace::{Sample, Settings, Trace};

/// The specification's worked example.
pub const WORKED: [u8; 20] = [
    0x01, 0x01, 0x01, 0x00, 0x00, 0x00, 0x02, 0x00, 0x00, 0x00, 0x00, 0x04, 0x00, 0x40, 0x00, 0x00,
    0x40, 0x00, 0x01, 0x00,
];

/// Any settings and samples; one in `one_in` gains and entries and one setting in
/// some traces are any bytes.
pub fn any_trace(random: &mut Random, one_in: u64) -> Trace {
    let odd = |random: &mut Random| random.chance(1, one_in);
    let s = random.settings();
    let mut settings = Settings {
        p: s.p,
        q: s.q,
        n: s.n,
        r: s.r,
        l: s.l,
        m: s.m,
    };
    if random.chance(1, 8) {
        bend(random, &mut settings);
    }
    let most = 2000 / (usize::from(settings.n) + 1);
    let blocks = random.below(most as u64 + 1).min(6) as u16;
    let count = usize::from(settings.n) * usize::from(blocks);
    let samples = (0..count).map(|_| Sample {
        m: random.between(-32768, 32767) as i16,
        g: match odd(random) {
            true => random.byte(0, 255),
            false => random.byte(settings.l.min(15), 15),
        },
        entry: match odd(random) {
            true => random.between(-128, 127) as i8,
            false => random.symbol(settings.r.min(3)) * random.pick(&[0, 1]),
        },
    });
    let samples = samples.collect();
    Trace {
        settings,
        blocks,
        samples,
    }
}

/// One of the settings is any number, or beside its limit.
fn bend(random: &mut Random, s: &mut Settings) {
    let any = random.byte(0, 255);
    let beside = random.pick(&[0, 1, 2, 3, 4, 14, 15, 16, 17, 127, 128, 129]);
    let byte = random.pick(&[any, beside]);
    match random.below(6) {
        0 => s.p = byte,
        1 => s.q = byte,
        2 => s.n = byte,
        3 => s.r = byte,
        4 => s.l = byte,
        _ => s.m = random.pick(&[s.m.wrapping_add(1), random.clone().next() as u32]),
    }
}

/// The second implementation's traces with their texts.
pub fn stored() -> Vec<(Vec<u8>, String)> {
    let path = concat!(env!("CARGO_MANIFEST_DIR"), "/traces.bin");
    let bytes = std::fs::read(path).unwrap_or_else(|e| panic!("traces/traces.bin: {e}"));
    let mut rest = &bytes[..];
    let mut take = || {
        let broken = "traces/traces.bin breaks off";
        let (length, after) = rest.split_at_checked(4).expect(broken);
        let length = u32::from_le_bytes(length.try_into().unwrap());
        let (own, after) = after.split_at_checked(length as usize).expect(broken);
        rest = after;
        (own.to_vec(), rest.is_empty())
    };
    let mut stored = Vec::new();
    loop {
        let (trace, _) = take();
        let (text, ended) = take();
        stored.push((trace, String::from_utf8(text).unwrap()));
        if ended {
            return stored;
        }
    }
}

/// What a program ended with and wrote.
pub struct Ended {
    pub status: Option<i32>,
    pub out: Vec<u8>,
    pub err: String,
}

impl Ended {
    pub fn on(command: &mut Command, input: &[u8]) -> Ended {
        let mut child = command
            .stdin(Stdio::piped())
            .stdout(Stdio::piped())
            .stderr(Stdio::piped())
            .spawn()
            .unwrap();
        // a program that turns its words down reads nothing
        let _ = child.stdin.take().unwrap().write_all(input);
        let ended = child.wait_with_output().unwrap();
        Ended {
            status: ended.status.code(),
            out: ended.stdout,
            err: String::from_utf8(ended.stderr).unwrap(),
        }
    }
}
