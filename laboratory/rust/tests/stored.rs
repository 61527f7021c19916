//! The stored outputs are the second implementation's, and the README shows
//! what is stored.

use reference::cable::{cable, Cable};
use reference::readings::{readings, Power, Reading, ReadingInputs};
use reference::vectors::{cable_vectors, description_vectors, readings_vectors, ReadingsVector};
use reference::{run, set_up, Inputs, Outputs, Settings};
use tigbulode_laboratory::{number_text, trace_length, MOST_RESPONSE, MOST_SYMBOLS, VERSION};
use tigbulode_laboratory::{MOST_READINGS, MOST_Y, MOST_Z};

/// The trace of the second implementation, with its number.
fn simulated(cable_: &Cable) -> (u8, Vec<u8>) {
    let mut trace = vec![0; trace_length(cable_.symbols.len())];
    (cable(cable_, &mut trace), trace)
}

#[test]
fn the_cables() {
    let cables = cable_vectors();
    let count = |number: u8| cables.iter().filter(|c| c.number == number).count();
    let (all, good) = (cables.len(), count(0));
    let mut text = format!(
        "cables {all}: accepted {good}, turned down {}\n",
        all - good
    );
    for number in [0, 1, 2, 10] {
        text += &format!("answer {number}: {}\n", count(number));
    }
    // Three other answers and a byte before and after the trace of each cable,
    // and a byte of each list that has one.
    let lengths = cables.iter().flat_map(|c| {
        let lists = &c.description;
        [c.output, lists.response.len(), lists.symbols.len()]
    });
    let changes = 5 * all + lengths.filter(|&length| length > 0).count();
    text += &format!("changed expectations told apart: {changes} of {changes}\n");
    text += "no difference\n";
    assert_eq!(text, include_str!("../../cables.out"));
}

/// How many changed expectations readings.c has for a vector: another number,
/// another sort of power, two other powers, a bit on either side of the
/// readings, three in them, and a bit of each list that has one.
fn changes_of_readings(vector: &ReadingsVector) -> usize {
    let lists = &vector.lists;
    let three = 3 * usize::from(lists.readings > 0);
    let lengths = [
        lists.y.len(),
        lists.xi.len(),
        lists.z.len(),
        lists.theta.len(),
    ];
    6 + three + lengths.iter().filter(|&&length| length > 0).count()
}

#[test]
fn the_readings() {
    let blocks = readings_vectors();
    let (good, other): (Vec<_>, Vec<_>) = blocks.iter().partition(|block| block.number == 0);
    let floors = good.iter().filter(|block| block.is_floor).count();
    let read: Vec<_> = good.iter().flat_map(|block| &block.readings).collect();
    let zero = |part: usize| read.iter().filter(|bits| bits[part] == 0).count();
    let (all, accepted) = (blocks.len(), good.len());
    let nans: usize = other.iter().map(|block| 2 * block.lists.readings).sum();
    let changes: usize = blocks.iter().map(changes_of_readings).sum();
    let text = format!(
        "blocks {all}: accepted {accepted}, turned down {}\nmeans {}, floors {floors}\n\
         readings {}: zero in y {}, in the error {}\n\
         NaNs lent to blocks that were turned down: {nans}, every bit as it was\n\
         changed expectations told apart: {changes} of {changes}\nno difference\n",
        all - accepted,
        accepted - floors,
        read.len(),
        zero(0),
        zero(1)
    );
    assert_eq!(text, include_str!("../../readings.out"));
}

#[test]
fn the_descriptions() {
    let all = description_vectors();
    let line = |text: &[u8]| text.starts_with(b"cable: ");
    let lines = all.iter().filter(|one| line(&one.written)).count();
    let (count, traces) = (all.len(), all.len() - lines);
    let mut text = format!("descriptions {count}: traces {traces}, lines {lines}\n");
    // Four other outputs of cable and five other texts of trace.
    let changes = 9 * count;
    text += &format!("changed expectations told apart: {changes} of {changes}\n");
    text += "no difference\n";
    assert_eq!(text, include_str!("../../descriptions.out"));
}

/// What the first program prints.
fn first_program() -> String {
    let settings = Settings {
        p: 2,
        q: 1,
        n: 2,
        r: 1,
        l: 0,
        m: 1 << 20,
    };
    let (number, trace) = simulated(&Cable {
        settings,
        response: &[16384, -4096],
        symbols: &[1, -3, 3, 1, -1, 3],
        training: 3,
    });
    let about = number_text(number);
    let mut text = format!("{about}: m, gain and entry of each sample\n");
    for (sample, &entry) in trace[12..30].chunks(3).zip(&trace[30..]) {
        let m = i16::from_le_bytes([sample[0], sample[1]]);
        text += &format!("{m} {} {}\n", sample[2], entry as i8);
    }
    text
}

/// The readings and the error power of what a block handed out.
fn read(outputs: &Outputs) -> (Vec<Reading>, Power) {
    let mut lent = vec![Reading::default(); outputs.y.len()];
    let handed = ReadingInputs {
        y: &outputs.y,
        xi: &outputs.xi,
        z: &outputs.z,
        theta: &outputs.theta,
    };
    let power = readings(&handed, &mut lent).unwrap();
    (lent, power)
}

fn sort(power: Power) -> &'static str {
    match power {
        Power::Mean(_) => "mean",
        Power::Floor(_) => "floor",
    }
}

/// What the program with readings prints.
fn plot_program() -> String {
    let settings = Settings {
        p: 1,
        q: 1,
        n: 2,
        r: 0,
        l: 0,
        m: 0,
    };
    let (_, mut state) = set_up(settings.with_m(settings.largest_m()));
    let block = Inputs {
        samples: &[0x4000, 0x4000],
        gains: &[0, 0],
        training: &[1, 0],
    };
    let mut outputs = Outputs::zeros(2);
    assert_eq!(run(&mut state, block, &mut outputs), 0);
    let (lent, power) = read(&outputs);
    let (value, sort) = (power.value(), sort(power));
    let mut text = format!("accepted: error power {value}, a {sort}\n");
    for reading in lent {
        text += &format!("{} {}\n", reading.y, reading.error);
    }
    text
}

#[test]
fn the_first_programs() {
    let in_c_and_cpp_and_rust = [first_program(), plot_program()].map(|text| text.repeat(3));
    assert_eq!(
        in_c_and_cpp_and_rust.concat(),
        include_str!("../../first.out")
    );
}

/// The generator of the C programs.
struct Numbers(u32);

impl Numbers {
    fn next(&mut self) -> u32 {
        self.0 = self.0.wrapping_mul(1_664_525).wrapping_add(1_013_904_223);
        self.0
    }

    fn below(&mut self, end: u32) -> u32 {
        (self.next() >> 8) % end
    }
}

/// What each block of a trace hands out.
fn run_blocks(settings: Settings, trace: &[u8]) -> Vec<Outputs> {
    let n = usize::from(settings.n);
    let (_, mut state) = set_up(settings);
    let (samples, entries) = trace[12..].split_at((trace.len() - 12) / 4 * 3);
    let blocks = samples.chunks(3 * n).zip(entries.chunks(n));
    let outputs = blocks.map(|(samples, entries)| {
        let samples = samples.chunks(3);
        let (m, gains): (Vec<i16>, Vec<u8>) = samples
            .map(|s| (i16::from_le_bytes([s[0], s[1]]), s[2]))
            .unzip();
        let entries: Vec<i8> = entries.iter().map(|&entry| entry as i8).collect();
        let block = Inputs {
            samples: &m,
            gains: &gains,
            training: &entries,
        };
        let mut outputs = Outputs::zeros(n);
        assert_eq!(run(&mut state, block, &mut outputs), 0);
        outputs
    });
    outputs.collect()
}

/// What both.c prints of a part of the run, with the symbols that were sent.
fn part_of_run(name: &str, blocks: &[Outputs], symbols: &[i8]) -> String {
    let decisions = blocks.iter().flat_map(|block| &block.decision);
    let pairs = decisions.zip(symbols);
    let wrong = pairs.filter(|(decision, symbol)| decision != symbol);
    let mut text = format!(
        "{name}: {} symbols, accepted; wrong decisions {}\n",
        symbols.len(),
        wrong.count()
    );
    for (place, block) in [("first", 0), ("last", blocks.len() - 1)] {
        let (_, power) = read(&blocks[block]);
        let (value, sort) = (power.value(), sort(power));
        text += &format!("  error power of the {place} block: accepted, {sort} {value:.12}\n");
    }
    text
}

#[test]
fn a_cable_a_station_and_its_error_power() {
    const SYMBOLS: usize = 16 * 256;
    let mut numbers = Numbers(2026);
    let symbol = |_| 2 * (numbers.next() >> 30) as i8 - 3;
    let symbols: Vec<i8> = (0..SYMBOLS).map(symbol).collect();
    let settings = Settings {
        p: 4,
        q: 3,
        n: 16,
        r: 1,
        l: 0,
        m: 0,
    };
    let settings = settings.with_m(settings.largest_m() / 2);
    let (number, trace) = simulated(&Cable {
        settings,
        response: &[16000, -3500, 1700, -600],
        symbols: &symbols,
        training: SYMBOLS / 2,
    });
    let blocks = run_blocks(settings, &trace);
    let (trained, decided) = blocks.split_at(blocks.len() / 2);
    let (known, unknown) = symbols.split_at(SYMBOLS / 2);
    let text = format!(
        "cable: {}\n{}{}",
        number_text(number),
        part_of_run("trained", trained, known),
        part_of_run("decided", decided, unknown)
    );
    assert_eq!(text, include_str!("../../both.out"));
}

/// Whether a random cable of interface.c is accepted, and whether its p and q
/// differ.
fn any_cable(numbers: &mut Numbers) -> (bool, bool) {
    let (p, q) = (1 + numbers.below(4) as u8, 1 + numbers.below(16) as u8);
    let (n, r) = (3 + numbers.below(8) as u8, numbers.below(4) as u8);
    let (l, m) = (numbers.below(3) as u8, numbers.below(2_000_000));
    let settings = Settings { p, q, n, r, l, m };
    let values = 1 + numbers.below(MOST_RESPONSE as u32);
    let symbols = u32::from(n) * (1 + numbers.below(8));
    let training = numbers.below(symbols) as usize;
    let value = |numbers: &mut Numbers| numbers.below(2048) as i16 - 1024;
    let response: Vec<i16> = (0..values).map(|_| value(numbers)).collect();
    let symbol = |numbers: &mut Numbers| 2 * numbers.below(2 << r) as i8 - ((2 << r) - 1);
    let symbols: Vec<i8> = (0..symbols).map(|_| symbol(numbers)).collect();
    let (number, _) = simulated(&Cable {
        settings,
        response: &response,
        symbols: &symbols,
        training,
    });
    (number == 0, p != q)
}

/// Whether random outputs of interface.c are accepted.
fn any_outputs(numbers: &mut Numbers) -> bool {
    let length = 1 + numbers.below(MOST_READINGS as u32) as usize;
    let mut outputs = Outputs::zeros(length);
    for n in 0..length {
        outputs.y[n] = (numbers.below(16_777_215) as i32 - 8_388_607) * 64;
        outputs.xi[n] = 1 + numbers.below(24) as u8;
        outputs.z[n] = (numbers.below(16_777_215) as i32 - 8_388_607) * 128;
        outputs.theta[n] = 1 + numbers.below(24) as u8;
    }
    let spoiled = numbers.below(4) == 0;
    if spoiled {
        outputs.theta[numbers.below(length as u32) as usize] = 25;
    } else {
        read(&outputs);
    }
    !spoiled
}

/// The lines of interface.c about readings, and how many blocks are accepted.
fn about_readings() -> (String, usize) {
    let mut numbers = Numbers(2026);
    let blocks = (0..500).filter(|_| any_outputs(&mut numbers));
    let accepted = blocks.count();
    let (most, more) = (MOST_READINGS, MOST_READINGS + 1);
    let text = format!(
        "xi and theta: 1 to 24 accepted, the others to 255 turned down\n\
         magnitudes: Y to {MOST_Y}, Z to {MOST_Z}\n\
         lengths of readings: 1 to {most} accepted, 0 and {more} turned down\n\
         blocks: 500 by both calls, {accepted} accepted\n\
         lists of readings left out: 5, each turned down with 11\n"
    );
    (text, accepted)
}

#[test]
fn the_interface() {
    let mut text = format!("version {VERSION}\n");
    for number in 0..=12 {
        text += &format!("number {number}: {}\n", number_text(number));
    }
    text += &format!("trace lengths: 1 to 200 symbols, and {MOST_SYMBOLS}\n");
    let (most, more) = (MOST_RESPONSE, MOST_RESPONSE + 1);
    text += &format!("response lengths: 1 to {most} accepted, 0 and {more} turned down\n");
    let mut numbers = Numbers(2026);
    let cables: Vec<(bool, bool)> = (0..500).map(|_| any_cable(&mut numbers)).collect();
    let accepted = cables.iter().filter(|(accepted, _)| *accepted).count();
    text += &format!("cables: 500 by both calls, {accepted} accepted\n");
    text += "lists left out: 3, each turned down with 10\n";
    let (lines, blocks) = about_readings();
    text += &lines;
    // A byte more and a byte less for each trace length, one symbol too many;
    // another training count, and p and q exchanged where they differ; four
    // mantissas that are too large, and of each block one sample less and Y and
    // Z exchanged.
    let exchanged = cables
        .iter()
        .filter(|(accepted, other)| *accepted && *other);
    let changes = 2 * 201 + 1 + accepted + exchanged.count() + 4 + 2 * blocks;
    text += &format!("changed expectations told apart: {changes} of {changes}\n");
    text += "differences: 0\n";
    assert_eq!(text, include_str!("../../interface.out"));
}

#[test]
fn the_readme() {
    let readme = include_str!("../../README.md");
    let shown = |text: &str| assert!(readme.contains(text), "the README lacks {text}");
    for in_c in [include_str!("../../first.c"), include_str!("../../plot.c")] {
        shown(&format!("\n```c\n{in_c}```\n"));
    }
    let first = include_str!("../examples/first.rs");
    for in_rust in [first, include_str!("../examples/plot.rs")] {
        shown(&format!("\n```rust\n{in_rust}```\n"));
    }
    for program in [first_program(), plot_program()] {
        shown(&format!(
            "\n    {}\n",
            program.trim_end().replace('\n', "\n    ")
        ));
    }
    for number in [0, 1, 2, 10, 11] {
        shown(&format!("\n| {number} | {} | ", number_text(number)));
    }
}
