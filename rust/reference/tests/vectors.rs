//! The vectors of traces, blocks and images: replayed from their bytes, what they have and how often, and every fault
//! of a trial found by the blocks.

mod reader;

use faults::{Faulty, Implementation, FAULTS};
use reader::{among, distinct, hold_counts, holds, part, settings, Reader};
use reference::block::{work, Inputs, Outputs};
use reference::image::header;
use reference::trace::read;
use reference::vectors::{block_vectors, files, image_vectors, trace_vectors, BlockVector, ImageVector, TraceVector};
use reference::{image_length, load, run, save, set_up, trace, Settings, State};
use std::sync::OnceLock;

#[test]
fn the_program_prints_what_is_stored() {
    let lines: String = files().iter().map(|file| file.line() + "\n").collect();
    assert_eq!(lines, include_str!("../../../tests/vectors.out"));
}

#[test]
fn traces_replay() {
    let vectors: Vec<Vec<u8>> = trace_vectors().iter().map(TraceVector::bytes).collect();
    holds(&vectors, |reader| part(trace(reader.part()).as_bytes()));
}

#[test]
fn traces_have_every_size_and_length() {
    let traces = trace_vectors();
    let runs = |vector: &&TraceVector| !vector.text.is_empty() && !vector.text.starts_with("stop");
    let running: Vec<Settings> = traces.iter().filter(runs).map(|vector| settings(&vector.input)).collect();
    let count = |is: fn(&&Settings) -> bool| running.iter().filter(is).count();
    let shortest = [(1, 1, 1), (1, 16, 1), (16, 1, 15), (16, 16, 15)];
    let ends = shortest.into_iter().flat_map(|(p, q, n)| [(p, q, n), (p, q, 128)]);
    let limits = [0, 11, 12, 65_535, 65_536, 65_537, 65_540, 65_548];
    let longest = traces.iter().filter(|vector| vector.input.len() == 65_536);
    hold_counts(&[
        ("r and L", 64, distinct(running.iter().map(|s| (s.r, s.l)))),
        ("ends of p and q, in short and long blocks", 8, among(ends, running.iter().map(|s| (s.p, s.q, s.n)))),
        ("frozen", 7, count(|s| s.m == 0)),
        ("the greatest M", 255, count(|s| s.m == s.greatest_m())),
        ("lengths beside limits", 8, among(limits, traces.iter().map(|vector| vector.input.len()))),
        ("lines of the longest", 16_381, longest.map(|vector| vector.text.lines().count()).max().unwrap()),
    ]);
}

/// ψ before the first and after each sample; none where the block is refused.
fn exponents_of(state: &mut State, inputs: Inputs<'_>) -> Vec<i32> {
    let Ok((detail, after)) = work(state, inputs) else { return Vec::new() };
    let before = i32::from(state.psi);
    *state = after;
    [before].into_iter().chain(detail.samples.iter().map(|d| d.psi_after)).collect()
}

/// How often ψ rises and falls.
fn moves(exponents: &[i32]) -> [usize; 2] {
    [1, -1].map(|by| exponents.windows(2).filter(|two| two[1] - two[0] == by).count())
}

#[test]
fn traces_go_up_and_down() {
    let (mut both, mut often, mut highest) = (0, 0, 0);
    for vector in trace_vectors().iter().filter(|vector| !vector.text.contains("stop")) {
        let trace = read(&vector.input).unwrap_or_else(|number| panic!("answer {number}"));
        let (_, mut state) = set_up(trace.settings);
        let exponents = trace.blocks.iter().flat_map(|block| exponents_of(&mut state, block.inputs()));
        let exponents: Vec<i32> = exponents.collect();
        let [up, down] = moves(&exponents);
        both += usize::from(up > 0 && down > 0);
        often += usize::from(up > 2 && down > 0 && vector.about == "up and down");
        highest = highest.max(exponents.into_iter().max().unwrap_or(0));
    }
    hold_counts(&[("up and down", 9, both), ("up three times", 4, often), ("the highest", 3, highest as usize)]);
}

/// The blocks, made once.
fn blocks() -> &'static [BlockVector] {
    static BLOCKS: OnceLock<Vec<BlockVector>> = OnceLock::new();
    BLOCKS.get_or_init(block_vectors)
}

/// Lists of these lengths, with marks in them.
fn marked([y, xi, decision, z, theta]: [usize; 5]) -> Outputs {
    Outputs { y: vec![-9; y], xi: vec![99; xi], decision: vec![99; decision], z: vec![-9; z], theta: vec![99; theta] }
}

fn read_record(reader: &mut Reader<'_>) -> State {
    let h = reader.take(12);
    let mut places = || (0..32).map(|_| reader.short() as i16).collect();
    State { settings: settings(h), psi: h[5], b: h[6], bmax: h[7], weights: places(), data: places() }
}

/// Runs the block at the front of a file and gives the bytes of its answer.
fn block_answer(reader: &mut Reader<'_>) -> Vec<u8> {
    let before = read_record(reader);
    let lengths = [0; 8].map(|_| usize::from(reader.short()));
    let samples: Vec<i16> = (0..lengths[0]).map(|_| reader.short() as i16).collect();
    let gains = reader.take(lengths[1]);
    let training: Vec<i8> = reader.take(lengths[2]).iter().map(|&t| t as i8).collect();
    let untouched = marked(lengths[3..].try_into().unwrap());
    let (mut state, mut out) = (before.clone(), untouched.clone());
    let number = run(&mut state, Inputs { samples: &samples, gains, training: &training }, &mut out);
    if number != 0 {
        assert!(state == before && out == untouched);
        return vec![number];
    }
    let sample = |n: usize| {
        let (y, z) = (out.y[n].to_le_bytes(), out.z[n].to_le_bytes());
        [&y[..], &[out.xi[n], out.decision[n] as u8], &z, &[out.theta[n]]].concat()
    };
    let places = state.weights.iter().chain(&state.data).flat_map(|a| a.to_le_bytes());
    let record = header(&state).into_iter().chain(places);
    [0].into_iter().chain((0..samples.len()).flat_map(sample)).chain(record).collect()
}

#[test]
fn blocks_replay() {
    let vectors: Vec<Vec<u8>> = blocks().iter().map(BlockVector::bytes).collect();
    holds(&vectors, block_answer);
}

/// Whether a trial of the block with a fault shows that fault.
fn shows(vector: &BlockVector, fault: &'static str) -> bool {
    let marked = marked(vector.output_lengths);
    let (mut given, mut outputs) = (vector.before.clone(), marked.clone());
    let (number, back) = Faulty::new(fault).trial(&mut given, vector.inputs(), &mut outputs);
    let handed_out = match vector.number {
        0 => &vector.outputs,
        _ => &marked,
    };
    let right = (vector.number, &vector.after, handed_out);
    (number, &back, &outputs) != right || given != vector.before
}

#[test]
fn blocks_show_every_fault_of_a_trial() {
    assert!(!blocks().iter().any(|vector| shows(vector, "")));
    for fault in FAULTS {
        let found = blocks().iter().filter(|vector| shows(vector, fault.name)).count();
        let least = if fault.name.contains("doubled") { 20 } else { 1 };
        assert_eq!(found >= least, fault.found.contains('v'), "{}: {found}", fault.name);
    }
}

/// What the block would answer if ψ only rose.
fn without_falls(vector: &BlockVector) -> u8 {
    let mut outputs = marked(vector.output_lengths);
    Faulty::new("never-doubled").trial(&mut vector.before.clone(), vector.inputs(), &mut outputs).0
}

#[test]
fn blocks_have_every_rise_and_fall() {
    let accepted: Vec<&BlockVector> = blocks().iter().filter(|vector| vector.number == 0).collect();
    let path = |vector: &&BlockVector| exponents_of(&mut vector.before.clone(), vector.inputs());
    let paths: Vec<Vec<i32>> = accepted.iter().map(path).collect();
    let falling = paths.iter().filter(|path| moves(path)[1] > 0);
    let count = |is: fn(&[i32], &BlockVector) -> bool| {
        let both = paths.iter().zip(&accepted);
        both.filter(|(path, vector)| is(path, vector)).count()
    };
    let six = |number, without| blocks().iter().filter(|v| v.number == number && without_falls(v) == without).count();
    hold_counts(&[
        ("ψ before a block", 16, distinct(paths.iter().map(|path| path[0]))),
        ("a greater ψ after it", 188, count(|path, v| i32::from(v.after.psi) > path[0])),
        ("ψ falls", 108, falling.clone().count()),
        ("ψ that falls", 15, among(1..=15, falling.map(|path| path[0]))),
        ("ψ rises and falls", 16, count(|path, _| !moves(path).contains(&0))),
        ("ψ from 15 to 0", 6, count(|path, v| (path[0], v.after.psi) == (15, 0))),
        ("4095 doubled", 4, count(|path, v| (path[0], v.after.psi) == (1, 0) && v.after.weights.contains(&8190))),
        ("ψ falls with M = 0", 26, count(|path, v| moves(path)[1] > 0 && v.before.settings.m == 0)),
        ("accepted only because ψ fell", 2, six(0, 6)),
        ("6 only because ψ fell", 2, six(6, 0)),
    ]);
}

#[test]
fn images_replay() {
    let vectors: Vec<Vec<u8>> = image_vectors().iter().map(ImageVector::bytes).collect();
    holds(&vectors, |reader| {
        let length = reader.short().into();
        let image = reader.take(length);
        let (number, state) = load(image);
        let mut again = vec![0; image_length(&state.settings)];
        match number {
            0 => assert!(save(&state, &mut again) == (0, length) && again == image),
            _ => assert_eq!(state, State::fresh()),
        }
        vec![number]
    });
}

/// The reasons why an image of the right length is unsound, by their places in a list, read from its bytes.
fn reasons(image: &[u8]) -> Vec<usize> {
    let [p, r, l, psi, b, bmax] = [0, 3, 4, 5, 6, 7].map(|place| i32::from(image[place]));
    let numbers: Vec<i32> = image[12..].chunks(2).map(|two| i32::from(i16::from_le_bytes([two[0], two[1]]))).collect();
    let (weights, data) = numbers.split_at(numbers.len() / 2);
    let (samples, symbols) = data.split_at(p as usize - 1);
    let s = (1..).find(|&s| 1 << s >= 2 * p).unwrap();
    let room = (15 + b - bmax - s).clamp(0, 62);
    let holds = [
        psi > 15,
        b > bmax,
        bmax + l > 31,
        weights.contains(&16384),
        weights.contains(&-16384),
        weights.contains(&-32768),
        weights.iter().any(|&w| w.abs() > 16384 && w != -32768),
        samples.iter().any(|a| i64::from(a.abs()) >> room != 0),
        symbols[0] != 0,
        symbols[1..].iter().any(|&v| v != 0 && v % 2 == 0),
        symbols[1..].iter().any(|&v| v % 2 != 0 && v.abs() >= 2 << r),
    ];
    (0..holds.len()).filter(|&reason| holds[reason]).collect()
}

#[test]
fn damaged_images_have_every_reason_alone() {
    let vectors = image_vectors();
    let with = |number: u8| vectors.iter().filter(move |v| v.number == number).map(|v| &v.image[..]);
    assert!(with(0).all(|image| reasons(image).is_empty()) && !with(9).any(|image| reasons(image).is_empty()));
    let alone = |reason: usize| with(9).filter(|image| reasons(image) == [reason]).count();
    assert_eq!(std::array::from_fn(alone), [15, 25, 27, 40, 41, 10, 9, 69, 13, 56, 70]);
    let more_bytes = |image: &[u8]| image.len() as i64 - image_length(&settings(image)) as i64;
    let off = |by: i64| with(8).filter(|image| image.len() >= 12 && more_bytes(image) == by).count();
    let sizes = [(0, 0), (0, 17), (1, 0), (1, 17), (2, 0), (2, 129), (3, 4), (4, 16)];
    let steps = with(2).map(settings).filter(|s| s.m == s.greatest_m() + 1);
    hold_counts(&[
        ("lengths below 12", 12, among(0..12, with(8).map(<[u8]>::len))),
        ("a byte short", 8, off(-1)),
        ("a byte long", 9, off(1)),
        ("sizes beside their limits", 8, among(sizes, with(1).flat_map(|image| (0..5).map(|at| (at, image[at]))))),
        ("r and L with M one too large", 64, distinct(steps.map(|s| (s.r, s.l)))),
    ]);
}
