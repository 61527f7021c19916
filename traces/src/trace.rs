//! A trace and its bytes.

/// The most bytes of a trace.
pub const MOST_BYTES: usize = 65_536;
/// The bytes before the samples.
pub const HEADER: usize = 12;
/// The bytes of a sample with its training entry.
pub const SAMPLE: usize = 4;
/// The most samples of a trace.
pub const MOST_SAMPLES: usize = (MOST_BYTES - HEADER) / SAMPLE;

/// The settings of a trace, within their limits or not.
#[derive(Clone, Copy, Debug, PartialEq, Eq)]
pub struct Settings {
    pub p: u8,
    pub q: u8,
    pub n: u8,
    pub r: u8,
    pub l: u8,
    pub m: u32,
}

/// A sample with its gain and its training entry.
#[derive(Clone, Copy, Debug, Default, PartialEq, Eq)]
pub struct Sample {
    pub m: i16,
    pub g: u8,
    pub entry: i8,
}

/// A trace of the right length: N samples for each block.
#[derive(Clone, Debug, PartialEq, Eq)]
pub struct Trace {
    pub settings: Settings,
    pub blocks: u16,
    pub samples: Vec<Sample>,
}

/// The length that N and the block count ask for.
fn length(n: u8, blocks: u16) -> usize {
    HEADER + SAMPLE * usize::from(n) * usize::from(blocks)
}

impl Trace {
    /// The samples first, then all training entries.
    pub fn bytes(&self) -> Vec<u8> {
        let s = &self.settings;
        let mut bytes = vec![s.p, s.q, s.n, s.r, s.l, 0];
        bytes.extend(self.blocks.to_le_bytes());
        bytes.extend(s.m.to_le_bytes());
        let samples = self.samples.iter();
        bytes.extend(samples.flat_map(|sample| {
            let [low, high] = sample.m.to_le_bytes();
            [low, high, sample.g]
        }));
        let entries = self.samples.iter();
        bytes.extend(entries.map(|sample| sample.entry as u8));
        bytes
    }

    /// The trace of these bytes, or all that is wrong with them.
    pub fn of_bytes(bytes: &[u8]) -> Result<Trace, Vec<String>> {
        let wrong = wrong(bytes);
        if !wrong.is_empty() {
            return Err(wrong);
        }
        let (header, rest) = bytes.split_at(HEADER);
        let (samples, entries) = rest.split_at(rest.len() / SAMPLE * 3);
        let samples = samples.chunks(3).zip(entries);
        Ok(Trace {
            settings: Settings {
                p: header[0],
                q: header[1],
                n: header[2],
                r: header[3],
                l: header[4],
                m: u32::from_le_bytes([header[8], header[9], header[10], header[11]]),
            },
            blocks: blocks(header),
            samples: samples
                .map(|(sample, &entry)| Sample {
                    m: i16::from_le_bytes([sample[0], sample[1]]),
                    g: sample[2],
                    entry: entry as i8,
                })
                .collect(),
        })
    }
}

fn blocks(header: &[u8]) -> u16 {
    u16::from_le_bytes([header[6], header[7]])
}

/// What the trace program turns down with 8, in words.
fn wrong(bytes: &[u8]) -> Vec<String> {
    let found = bytes.len();
    if found < HEADER {
        let wanted = "but a trace begins with 12: p, q, N, r, L, 0, the block count, M";
        return vec![format!("{found} bytes, {wanted}")];
    }
    let mut wrong = Vec::new();
    if bytes[5] != 0 {
        wrong.push(format!("byte 5 is {}, but 0 is wanted", bytes[5]));
    }
    let (n, blocks) = (bytes[2], blocks(bytes));
    let wanted = length(n, blocks);
    if found > MOST_BYTES {
        wrong.push(format!(
            "more than {MOST_BYTES} bytes, the most of a trace; N = {n} and a block count of {blocks} ask for {wanted}"
        ));
    } else if found != wanted {
        wrong.push(format!(
            "{found} bytes, but N = {n} and a block count of {blocks} ask for 12 + 4·{n}·{blocks} = {wanted}"
        ));
    }
    wrong
}
