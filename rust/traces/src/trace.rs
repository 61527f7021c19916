//! A trace, its bytes, and a text that makes it again.

pub use tigbulode_common::Settings;

/// The most bytes of a trace.
pub const MOST_BYTES: usize = 65_536;
/// The bytes before the samples.
const HEADER: usize = 12;
/// The bytes of a sample with its training entry.
const SAMPLE: usize = 4;
/// The most samples of a trace.
pub const MOST_SAMPLES: usize = (MOST_BYTES - HEADER) / SAMPLE;

/// A sample with its gain and its training entry.
#[derive(Clone, Copy, Debug, Default, PartialEq, Eq)]
pub struct Sample {
    pub m: i16,
    pub g: u8,
    pub entry: i8,
}

/// A trace of the right length: N samples for each block.
#[derive(Clone, Debug, PartialEq, Eq)]
pub struct Trace {
    pub settings: Settings,
    pub blocks: u16,
    pub samples: Vec<Sample>,
}

impl Trace {
    /// The samples first, then all training entries.
    pub fn bytes(&self) -> Vec<u8> {
        let s = &self.settings;
        let mut bytes = vec![s.p, s.q, s.n, s.r, s.l, 0];
        bytes.extend(self.blocks.to_le_bytes());
        bytes.extend(s.m.to_le_bytes());
        for sample in &self.samples {
            bytes.extend(sample.m.to_le_bytes());
            bytes.push(sample.g);
        }
        bytes.extend(self.samples.iter().map(|sample| sample.entry as u8));
        bytes
    }

    /// The trace of these bytes, or all that is wrong with them.
    pub fn of_bytes(bytes: &[u8]) -> Result<Trace, Vec<String>> {
        let wrong = wrong(bytes);
        if !wrong.is_empty() {
            return Err(wrong);
        }
        let (header, rest) = bytes.split_at(HEADER);
        let (samples, entries) = rest.split_at(rest.len() / SAMPLE * 3);
        let sample = |(s, &entry): (&[u8], &u8)| {
            let m = i16::from_le_bytes([s[0], s[1]]);
            Sample { m, g: s[2], entry: entry as i8 }
        };
        let m = u32::from_le_bytes([header[8], header[9], header[10], header[11]]);
        Ok(Trace {
            settings: Settings { p: header[0], q: header[1], n: header[2], r: header[3], l: header[4], m },
            blocks: blocks(header),
            samples: samples.chunks(3).zip(entries).map(sample).collect(),
        })
    }

    /// A text that makes this trace, with a remark where each block begins.
    pub fn text(&self) -> String {
        let s = &self.settings;
        let bytes = HEADER + SAMPLE * self.samples.len();
        let heading = format!("# blocks: {}, N: {}, bytes: {bytes}", self.blocks, s.n);
        let settings = format!("p = {}\nq = {}\nN = {}\nr = {}\nL = {}\nM = {}\n", s.p, s.q, s.n, s.r, s.l, s.m);
        // elsewhere the samples tell the count
        let count = match (s.n, self.blocks) {
            (0, 1..) => format!("blocks = {}\n", self.blocks),
            _ => String::new(),
        };
        let columns = if self.samples.is_empty() { "" } else { "\n# m g entry\n" };
        let blocks = self.samples.chunks(usize::from(s.n).max(1)).enumerate();
        let blocks: String = blocks.map(|(at, samples)| block_text(at, samples)).collect();
        format!("{heading}\n{settings}{count}{columns}{blocks}")
    }
}

fn block_text(at: usize, samples: &[Sample]) -> String {
    let first = at * samples.len();
    let places = match samples {
        [_] => format!("sample {first}"),
        _ => format!("samples {first} to {}", first + samples.len() - 1),
    };
    let line = |sample: &Sample| format!("{} {} {}\n", sample.m, sample.g, sample.entry);
    let lines: String = samples.iter().map(line).collect();
    format!("\n# block {at}, {places}\n{lines}")
}

fn blocks(header: &[u8]) -> u16 {
    u16::from_le_bytes([header[6], header[7]])
}

/// What the trace program turns down with 8, in words.
fn wrong(bytes: &[u8]) -> Vec<String> {
    let found = bytes.len();
    if found < HEADER {
        return vec![format!("{found} bytes, but a trace begins with 12: p, q, N, r, L, 0, the block count, M")];
    }
    let mut wrong = Vec::new();
    if bytes[5] != 0 {
        wrong.push(format!("byte 5 is {}, but 0 is wanted", bytes[5]));
    }
    let (n, blocks) = (bytes[2], blocks(bytes));
    let wanted = HEADER + SAMPLE * usize::from(n) * usize::from(blocks);
    let asked = format!("N = {n} and a block count of {blocks} ask for");
    if found > MOST_BYTES {
        wrong.push(format!("more than {MOST_BYTES} bytes, the most of a trace; {asked} {wanted}"));
    } else if found != wanted {
        wrong.push(format!("{found} bytes, but {asked} 12 + 4·{n}·{blocks} = {wanted}"));
    }
    wrong
}
