//! The test vectors: the same every time, each kind present, and replayed
//! from their bytes.

mod reader;
mod wrong_trial;

use reader::Reader;
use reference::block::{work, Inputs, Outputs};
use reference::trace::read;
use reference::vectors::{block_vectors, image_vectors, trace_vectors, BlockVector, TraceVector};
use reference::{image_length, load, run, run_by, save, set_up, trace, Rule, Settings, State};
use std::collections::BTreeSet;
use std::sync::OnceLock;
use wrong_trial::{wrong_trial, FAULTS};

/// The traces, made once.
fn traces() -> &'static [TraceVector] {
    static TRACES: OnceLock<Vec<TraceVector>> = OnceLock::new();
    TRACES.get_or_init(trace_vectors)
}

impl Reader<'_> {
    fn record(&mut self) -> State {
        let h = self.take(8);
        let m = self.long();
        let mut places = || (0..32).map(|_| self.short() as i16).collect();
        State {
            settings: Settings {
                p: h[0],
                q: h[1],
                n: h[2],
                r: h[3],
                l: h[4],
                m,
            },
            psi: h[5],
            b: h[6],
            bmax: h[7],
            weights: places(),
            data: places(),
        }
    }

    fn same_outputs(&mut self, outputs: &Outputs) {
        for i in 0..outputs.y.len() {
            assert_eq!(outputs.y[i], self.long() as i32);
            assert_eq!(outputs.xi[i], self.byte());
            assert_eq!(outputs.decision[i], self.byte() as i8);
            assert_eq!(outputs.z[i], self.long() as i32);
            assert_eq!(outputs.theta[i], self.byte());
        }
    }
}

#[test]
fn traces_replay() {
    let vectors = traces();
    let bytes: Vec<u8> = vectors.iter().flat_map(|vector| vector.bytes()).collect();
    assert!(bytes.len() < 3_000_000);
    let mut reader = Reader(&bytes);
    let mut count = 0;
    while !reader.0.is_empty() {
        let length = reader.long() as usize;
        let input = reader.take(length);
        let length = reader.long() as usize;
        let text = reader.take(length);
        assert_eq!(trace(input).as_bytes(), text);
        count += 1;
    }
    assert_eq!(count, vectors.len());
    assert!(count >= 220);
}

#[test]
fn traces_have_every_kind() {
    let vectors = traces();
    let mut stops = BTreeSet::new();
    let mut rs = BTreeSet::new();
    let mut ls = BTreeSet::new();
    let mut taps = BTreeSet::new();
    let mut lengths = BTreeSet::new();
    let mut frozen = 0;
    let mut largest = 0;
    for vector in vectors {
        let input = &vector.input;
        let last = vector.text.lines().last().unwrap_or("");
        if let Some(stop) = last.strip_prefix("stop ") {
            stops.insert(stop.split(' ').next().unwrap().to_string());
        }
        lengths.insert(input.len());
        if input.len() < 12 || vector.text.starts_with("stop") || vector.text.is_empty() {
            continue;
        }
        let m = u32::from_le_bytes(input[8..12].try_into().unwrap());
        let settings = Settings {
            p: input[0],
            q: input[1],
            n: input[2],
            r: input[3],
            l: input[4],
            m,
        };
        rs.insert(settings.r);
        ls.insert((settings.r, settings.l));
        taps.insert((settings.p, settings.q, settings.n));
        frozen += u32::from(m == 0);
        largest += u32::from(m == settings.largest_m());
    }
    let expected = ["1", "2", "4", "5", "8"].map(str::to_string);
    assert_eq!(stops, BTreeSet::from(expected));
    assert_eq!(rs.len(), 4);
    assert_eq!(ls.len(), 64);
    for (p, q) in [(1, 1), (1, 16), (16, 1), (16, 16)] {
        let least = 1.max(p - 1);
        assert!(taps.contains(&(p, q, least)) && taps.contains(&(p, q, 128)));
    }
    assert!(frozen > 3 && largest > 100);
    for length in [0, 11, 12, 65_535, 65_536, 65_537, 65_540, 65_548] {
        assert!(lengths.contains(&length), "{length}");
    }
    let longest = vectors
        .iter()
        .filter(|vector| vector.input.len() == 65_536)
        .map(|vector| vector.text.lines().count())
        .max();
    assert_eq!(longest, Some(16_381));
}

/// The blocks, made once.
fn blocks() -> &'static [BlockVector] {
    static BLOCKS: OnceLock<Vec<BlockVector>> = OnceLock::new();
    BLOCKS.get_or_init(block_vectors)
}

/// ψ before the first and after each sample, up to a refusal.
fn exponents_of(state: &mut State, inputs: Inputs<'_>) -> Vec<i32> {
    let Ok((detail, after)) = work(state, inputs) else {
        return Vec::new();
    };
    let before = i32::from(state.psi);
    *state = after;
    let samples = detail.samples.iter().map(|d| d.psi_after);
    [before].into_iter().chain(samples).collect()
}

/// How often ψ rises and falls.
fn moves(exponents: &[i32]) -> [usize; 2] {
    let count = |by: i32| {
        let pairs = exponents.windows(2);
        pairs.filter(|two| two[1] - two[0] == by).count()
    };
    [count(1), count(-1)]
}

/// ψ from the set-up of a good trace on.
fn exponents_of_trace(input: &[u8]) -> Vec<i32> {
    let trace = read(input).unwrap_or_else(|number| panic!("answer {number}"));
    let (_, mut state) = set_up(trace.settings);
    let blocks = trace.blocks.iter();
    blocks
        .flat_map(|block| exponents_of(&mut state, block.inputs()))
        .collect()
}

#[test]
fn traces_go_up_and_down() {
    let (mut both, mut highest) = (0, 0);
    let good = |vector: &&TraceVector| !vector.text.is_empty() && !vector.text.contains("stop");
    for vector in traces().iter().filter(good) {
        let exponents = exponents_of_trace(&vector.input);
        let [up, down] = moves(&exponents);
        both += u32::from(up > 0 && down > 0);
        highest = highest.max(*exponents.iter().max().unwrap());
        if vector.about == "up and down" {
            assert!(up >= 3 && down >= 1, "{up} {down}");
        }
    }
    assert!(both >= 8 && highest >= 3, "{both} {highest}");
}

fn inputs_of(vector: &BlockVector) -> Inputs<'_> {
    Inputs {
        samples: &vector.samples,
        gains: &vector.gains,
        training: &vector.training,
    }
}

#[test]
fn blocks_go_up_and_down() {
    let accepted = blocks().iter().filter(|vector| vector.number == 0);
    let (mut falls, mut both, mut whole, mut to_8190, mut frozen) = (0, 0, 0, 0, 0);
    let mut ends = BTreeSet::new();
    for vector in accepted {
        let exponents = exponents_of(&mut vector.before.clone(), inputs_of(vector));
        let [up, down] = moves(&exponents);
        let (first, last) = (exponents[0], exponents[exponents.len() - 1]);
        falls += u32::from(down > 0);
        both += u32::from(up > 0 && down > 0);
        whole += u32::from(first == 15 && last == 0);
        to_8190 += u32::from(first == 1 && last == 0 && vector.after.weights.contains(&8190));
        frozen += u32::from(down > 0 && vector.before.settings.m == 0);
        if down > 0 {
            ends.insert((first, last));
        }
    }
    assert!(falls >= 100 && both >= 12, "{falls} {both}");
    assert!(whole >= 6 && to_8190 >= 2 && frozen >= 15);
    let from: BTreeSet<i32> = ends.iter().map(|(first, _)| *first).collect();
    assert!((1..=15).all(|psi| from.contains(&psi)), "{from:?}");
}

/// 6 by the amended rule and by the one that ψ only rises.
#[test]
fn falls_decide_about_six_in_blocks() {
    let answer = |vector: &BlockVector| {
        let mut outputs = Outputs::zeros(vector.before.settings.n.into());
        let mut state = vector.before.clone();
        run_by(Rule::RisesOnly, &mut state, inputs_of(vector), &mut outputs)
    };
    let count = |number: u8, without: u8| {
        let own = blocks().iter().filter(|vector| vector.number == number);
        own.filter(|vector| answer(vector) == without).count()
    };
    assert!(count(0, 6) >= 2);
    assert!(count(6, 0) >= 2);
}

/// Lists of these lengths, with marks in them.
fn marked([y, xi, decision, z, theta]: [usize; 5]) -> Outputs {
    Outputs {
        y: vec![-9; y],
        xi: vec![99; xi],
        decision: vec![99; decision],
        z: vec![-9; z],
        theta: vec![99; theta],
    }
}

/// Whether a trial of the block with a fault shows that fault.
fn shows(vector: &BlockVector, fault: &str) -> bool {
    let marked = marked(vector.output_lengths);
    let (mut given, mut outputs) = (vector.before.clone(), marked.clone());
    let (number, back) = wrong_trial(&mut given, inputs_of(vector), &mut outputs, fault);
    let handed_out = match vector.number {
        0 => &vector.outputs,
        _ => &marked,
    };
    let right = (vector.number, &vector.after, handed_out);
    (number, &back, &outputs) != right || given != vector.before
}

#[test]
fn blocks_show_every_fault_of_a_trial() {
    assert!(!blocks().iter().any(|vector| shows(vector, "")));
    for (fault, _) in FAULTS {
        let found = blocks().iter().filter(|vector| shows(vector, fault));
        let doubling = fault.contains("doubled");
        let least = if doubling { 20 } else { 1 };
        assert!(found.count() >= least, "{fault}");
    }
}

#[test]
fn blocks_replay() {
    let vectors = blocks();
    let bytes: Vec<u8> = vectors.iter().flat_map(|vector| vector.bytes()).collect();
    assert!(bytes.len() < 300_000);
    let mut reader = Reader(&bytes);
    let mut count = 0;
    while !reader.0.is_empty() {
        let before = reader.record();
        let lengths: Vec<usize> = (0..8).map(|_| usize::from(reader.short())).collect();
        let samples: Vec<i16> = (0..lengths[0]).map(|_| reader.short() as i16).collect();
        let gains = reader.take(lengths[1]);
        let training: Vec<i8> = reader.take(lengths[2]).iter().map(|&t| t as i8).collect();
        let untouched = marked(lengths[3..].try_into().unwrap());
        let mut outputs = untouched.clone();
        let mut state = before.clone();
        let inputs = Inputs {
            samples: &samples,
            gains,
            training: &training,
        };
        let number = run(&mut state, inputs, &mut outputs);
        assert_eq!(number, reader.byte());
        if number == 0 {
            reader.same_outputs(&outputs);
            assert_eq!(state, reader.record());
        } else {
            assert_eq!(state, before);
            assert_eq!(outputs, untouched);
        }
        count += 1;
    }
    assert_eq!(count, vectors.len());
    assert!(count >= 300);
}

#[test]
fn blocks_have_every_kind() {
    let mut numbers = [0; 10];
    let mut exponents = BTreeSet::new();
    let mut rises = 0;
    for vector in blocks() {
        numbers[usize::from(vector.number)] += 1;
        if vector.number == 0 {
            exponents.insert(vector.before.psi);
            rises += u32::from(vector.after.psi > vector.before.psi);
        }
    }
    for number in [1, 2, 3, 4, 5, 6, 9] {
        assert!(numbers[number] >= 10, "{number}");
    }
    assert_eq!((numbers[7], numbers[8]), (0, 0));
    assert!(numbers[0] >= 200);
    assert_eq!(exponents.len(), 16);
    assert!(rises > 20);
}

#[test]
fn images_replay() {
    let vectors = image_vectors();
    let bytes: Vec<u8> = vectors.iter().flat_map(|vector| vector.bytes()).collect();
    let mut reader = Reader(&bytes);
    let mut numbers = [0; 10];
    while !reader.0.is_empty() {
        let length = usize::from(reader.short());
        let image = reader.take(length);
        let (number, state) = load(image);
        assert_eq!(number, reader.byte());
        if number == 0 {
            let mut again = vec![0; image_length(&state.settings)];
            assert_eq!(save(&state, &mut again), (0, image.len()));
            assert_eq!(again, image);
        } else {
            assert_eq!(state, State::fresh());
        }
        numbers[usize::from(number)] += 1;
    }
    assert!(numbers[0] >= 60);
    assert!(numbers[1] + numbers[2] + numbers[8] + numbers[9] >= 320);
    for number in [1, 2, 8, 9] {
        assert!(numbers[number] >= 20, "{number}");
    }
    assert_eq!(numbers.iter().sum::<usize>(), vectors.len());
}

/// The reasons why an image of the right length is unsound, read from its
/// bytes.
fn reasons(image: &[u8]) -> Vec<&'static str> {
    let byte = |place: usize| i32::from(image[place]);
    let (p, r, l, psi, b, bmax) = (byte(0), byte(3), byte(4), byte(5), byte(6), byte(7));
    let numbers: Vec<i32> = image[12..]
        .chunks(2)
        .map(|two| i32::from(i16::from_le_bytes([two[0], two[1]])))
        .collect();
    let (weights, data) = numbers.split_at(numbers.len() / 2);
    let (samples, rest) = data.split_at(p as usize - 1);
    let (filler, symbols) = rest.split_at(1);
    let s = (1..).find(|&s| 1 << s >= 2 * p).unwrap();
    let room = (15 + b - bmax - s).clamp(0, 62);
    let even = |v: &i32| *v != 0 && v % 2 == 0;
    let large = |v: &i32| v % 2 != 0 && v.abs() >= 2 << r;
    let other = |w: &i32| w.abs() > 16384 && *w != -32768;
    let found = [
        (psi > 15, "psi"),
        (b > bmax, "b above B"),
        (bmax + l > 31, "B + L above 31"),
        (weights.contains(&16384), "weight 16384"),
        (weights.contains(&-16384), "weight -16384"),
        (weights.contains(&-32768), "weight -32768"),
        (weights.iter().any(other), "another weight"),
        (
            samples.iter().any(|a| i64::from(a.abs()) >> room != 0),
            "a sample",
        ),
        (filler[0] != 0, "the filler"),
        (symbols.iter().any(even), "an even symbol"),
        (symbols.iter().any(large), "a large symbol"),
    ];
    let kept = found.iter().filter(|(found, _)| *found);
    kept.map(|(_, reason)| *reason).collect()
}

#[test]
fn unsound_images_have_every_reason_alone() {
    let mut alone = std::collections::BTreeMap::new();
    for vector in image_vectors() {
        if vector.number == 0 {
            assert!(reasons(&vector.image).is_empty());
        } else if vector.number == 9 {
            let reasons = reasons(&vector.image);
            assert!(!reasons.is_empty(), "{vector:?}");
            if reasons.len() == 1 {
                *alone.entry(reasons[0]).or_insert(0) += 1;
            }
        }
    }
    assert_eq!(alone.len(), 11, "{alone:?}");
    assert!(alone.values().all(|&count| count >= 4), "{alone:?}");
}

#[test]
fn damaged_images_have_every_length_and_size() {
    let vectors = image_vectors();
    let with = |number: u8| vectors.iter().filter(move |v| v.number == number);
    for length in 0..12 {
        assert!(with(8).any(|v| v.image.len() == length));
    }
    let missing = |v: &&reference::vectors::ImageVector, bytes: usize| {
        let image = &v.image;
        image.len() >= 12
            && image.len() + bytes == 12 + 1 + 4 * (usize::from(image[0]) + usize::from(image[1]))
    };
    assert!(with(8).filter(|v| missing(v, 2)).count() >= 8);
    assert!(with(8).filter(|v| missing(v, 0)).count() >= 8);
    for (place, value) in [
        (0, 0),
        (0, 17),
        (1, 0),
        (1, 17),
        (2, 0),
        (2, 129),
        (3, 4),
        (4, 16),
    ] {
        assert!(with(1).any(|v| v.image[place] == value));
    }
}

#[test]
fn damaged_images_have_every_step() {
    let mut seen = BTreeSet::new();
    for vector in image_vectors().iter().filter(|v| v.number == 2) {
        let image = &vector.image;
        let settings = Settings {
            p: image[0],
            q: image[1],
            n: image[2],
            r: image[3],
            l: image[4],
            m: u32::from_le_bytes(image[8..12].try_into().unwrap()),
        };
        if settings.m == settings.largest_m() + 1 {
            seen.insert((settings.r, settings.l));
        }
    }
    assert_eq!(seen.len(), 64);
}

fn stored(name: &str) -> Vec<u8> {
    let path = format!("{}/../{name}", env!("CARGO_MANIFEST_DIR"));
    std::fs::read(&path).unwrap_or_else(|error| panic!("{name}: {error}"))
}

#[test]
fn the_stored_vectors_are_these() {
    let images: Vec<u8> = image_vectors().iter().flat_map(|v| v.bytes()).collect();
    let blocks: Vec<u8> = blocks().iter().flat_map(|v| v.bytes()).collect();
    let traces: Vec<u8> = traces().iter().flat_map(|v| v.bytes()).collect();
    for (name, made) in [
        ("firmware/images.bin", images),
        ("firmware/blocks.bin", blocks),
        ("traces/traces.bin", traces),
    ] {
        assert!(stored(name) == made, "{name}: run reference/regenerate");
    }
}

#[test]
fn the_vectors_are_the_same_every_time() {
    let bytes = |list: &[TraceVector]| -> Vec<u8> { list.iter().flat_map(|v| v.bytes()).collect() };
    let joined =
        |list: &[BlockVector]| -> Vec<u8> { list.iter().flat_map(|v| v.bytes()).collect() };
    let images = || -> Vec<u8> { image_vectors().iter().flat_map(|v| v.bytes()).collect() };
    assert!(bytes(traces()) == bytes(&trace_vectors()));
    assert!(joined(blocks()) == joined(&block_vectors()));
    assert!(images() == images());
}
