//! The cable: each cause of 10 at its edge, and its traces held to what
//! defines them, by other ways than those of the implementation.

use reference::cable::{cable, Cable};
use reference::description::{description, Description};
use reference::random::Random;
use reference::{trace, Settings};

fn sizes(p: u8, q: u8, n: u8, r: u8, l: u8, m: u32) -> Settings {
    Settings { p, q, n, r, l, m }
}

/// One tap each, one symbol a block.
fn plain(r: u8, l: u8) -> Settings {
    sizes(1, 1, 1, r, l, 0)
}

fn sent<'a>(settings: Settings, response: &'a [i16], symbols: &'a [i8]) -> Cable<'a> {
    Cable {
        settings,
        response,
        symbols,
        training: 0,
    }
}

type Operation = fn(&Cable<'_>, &mut [u8]) -> u8;

/// The answer with a lent output, or nothing where a refusal touched it.
fn answer_of(operation: Operation, c: &Cable<'_>, output: usize) -> Option<u8> {
    let before: Vec<u8> = (0..output).map(|at| at as u8 ^ 0x5A).collect();
    let mut lent = before.clone();
    let number = operation(c, &mut lent);
    (number == 0 || lent == before).then_some(number)
}

/// The answer with an output of so many bytes.
fn answer(c: &Cable<'_>, output: usize) -> u8 {
    answer_of(cable, c, output).expect("a refusal leaves the output as it was")
}

/// The answer with an output as long as the trace.
fn number(c: &Cable<'_>) -> u8 {
    answer(c, 12 + 4 * c.symbols.len())
}

#[test]
fn the_response_has_1_to_32_values() {
    for values in 0..=300 {
        let response = vec![1; values];
        let expected = if values == 0 || values > 32 { 10 } else { 0 };
        let c = sent(plain(0, 0), &response, &[1, -1]);
        assert_eq!(number(&c), expected, "{values}");
    }
}

#[test]
fn the_symbols_are_whole_blocks() {
    for n in [1, 2, 3, 7, 127, 128] {
        for count in 0..=260 {
            let symbols = vec![1; count];
            let whole = count > 0 && (1..=260).any(|blocks| blocks * usize::from(n) == count);
            let c = sent(sizes(1, 1, n, 0, 0, 0), &[1], &symbols);
            assert_eq!(number(&c) == 0, whole, "{count} symbols, N = {n}");
        }
    }
}

#[test]
fn the_training_count_is_at_most_the_symbols() {
    for training in (0..=9).chain([65_536, usize::MAX]) {
        let mut c = sent(plain(0, 0), &[1], &[1; 6]);
        c.training = training;
        assert_eq!(number(&c), if training <= 6 { 0 } else { 10 });
    }
}

#[test]
fn the_trace_has_at_most_65536_bytes() {
    let symbols = vec![1; 65_537];
    for (n, count, expected) in [
        (1, 16_380, 0),
        (1, 16_381, 0),
        (1, 16_382, 10),
        (2, 16_380, 0),
        (2, 16_382, 10),
        (128, 127 * 128, 0),
        (128, 128 * 128, 10),
        (1, 65_535, 10),
        (1, 65_536, 10),
        (1, 65_537, 10),
    ] {
        let c = sent(sizes(1, 1, n, 0, 0, 0), &[1], &symbols[..count]);
        assert_eq!(number(&c), expected, "{count} symbols, N = {n}");
    }
}

#[test]
fn every_entry_is_a_symbol() {
    for r in 0..=3 {
        let symbols: Vec<i8> = (0..2 << r).map(|at| 2 * at + 1 - (2 << r)).collect();
        assert_eq!(symbols.len(), 2 << r);
        for (place, training) in [(0, 0), (0, 5), (2, 1), (2, 5), (4, 0), (4, 5)] {
            for entry in i8::MIN..=i8::MAX {
                let mut list = [1, -1, 1, -1, 1];
                list[place] = entry;
                let mut c = sent(plain(r, 0), &[100], &list);
                c.training = training;
                let expected = if symbols.contains(&entry) { 0 } else { 10 };
                assert_eq!(number(&c), expected, "{entry} at {place}, r = {r}");
            }
        }
    }
}

#[test]
fn the_output_is_as_long_as_the_trace() {
    for count in 1..=9 {
        let symbols = vec![1; count];
        let c = sent(plain(0, 0), &[7, -9], &symbols);
        for output in (0..=80).chain([65_536, 65_536 + 12 + 4 * count]) {
            let expected = if output == 12 + 4 * count { 0 } else { 10 };
            assert_eq!(answer(&c, output), expected, "{count} symbols, {output}");
        }
    }
}

/// One value h and the symbol 1 or −1: |s| = |h| needs |h|·2^L < 2^(15+r).
#[test]
fn no_gain_is_below_the_least() {
    for r in 0..=3 {
        for l in 0..=15 {
            for h in i16::MIN..=i16::MAX {
                let fits = i64::from(h).abs() << l < 1 << (15 + r);
                let symbols = [[1], [-1]][usize::from(h % 3 == 0)];
                let response = [h];
                let c = sent(plain(r, l), &response, &symbols);
                assert_eq!(number(&c) == 0, fits, "h = {h}, r = {r}, L = {l}");
            }
        }
    }
}

/// The one loud sample stands at each place in turn.
#[test]
fn no_gain_is_missing_at_any_place() {
    for place in 0..8 {
        for (r, loud) in [(0, 1), (1, 3), (2, 5), (3, 9)] {
            let mut response = vec![0; place];
            response.push(-32768);
            let mut symbols = [1; 8];
            symbols[0] = loud;
            let at_rest = sent(plain(r, 0), &[1], &symbols);
            assert_eq!(number(&at_rest), 0);
            let c = sent(plain(r, 0), &response, &symbols);
            assert_eq!(number(&c), 10, "place {place}, r = {r}");
        }
    }
}

#[test]
fn the_checks_of_set_up_go_first() {
    let refused: [(Settings, u8); 5] = [
        (sizes(0, 1, 1, 0, 0, u32::MAX), 1),
        (sizes(4, 1, 2, 0, 0, 0), 1),
        (sizes(1, 1, 0, 9, 99, 0), 1),
        (sizes(1, 1, 1, 0, 0, 67_108_865), 2),
        (sizes(1, 1, 1, 0, 0, 67_108_864), 10),
    ];
    for (settings, expected) in refused {
        let none = sent(settings, &[], &[]);
        assert_eq!(answer(&none, 0), expected);
        let wrong = sent(settings, &[-32768], &[0, 2, 127]);
        assert_eq!(number(&wrong), expected);
    }
}

/// s of each place, the other way round: each symbol adds its own echoes.
fn sums(c: &Cable<'_>) -> Vec<i64> {
    let mut sums = vec![0; c.symbols.len() + c.response.len()];
    for (place, &v) in c.symbols.iter().enumerate() {
        for (delay, &h) in c.response.iter().enumerate() {
            sums[place + delay] += i64::from(v) * i64::from(h);
        }
    }
    sums.truncate(c.symbols.len());
    sums
}

/// Whether g and m are those of s, by what defines them: g passes, and no
/// greater one does; m is nearest to s·2^(g−r) from the side of 0.
fn is_sample(s: i64, m: i64, g: u8, settings: &Settings) -> bool {
    let r = settings.r;
    let passes = |g: u8| s.abs() << g < 1 << (15 + r);
    let largest = g <= 15 && passes(g) && (g == 15 || !passes(g + 1));
    let side = m == 0 || (m > 0) == (s > 0);
    largest && {
        let exact = s.abs() << g;
        let near = m.abs() << r <= exact && exact < (m.abs() + 1) << r;
        side && near && g >= settings.l
    }
}

/// What is wrong with a trace, if anything.
fn wrong(c: &Cable<'_>, trace: &[u8]) -> Option<&'static str> {
    let s = &c.settings;
    let count = c.symbols.len();
    if trace.len() != 12 + 4 * count {
        return Some("the length");
    }
    let blocks = count / usize::from(s.n);
    let header = [
        s.p,
        s.q,
        s.n,
        s.r,
        s.l,
        0,
        blocks as u8,
        (blocks >> 8) as u8,
    ];
    if trace[..8] != header || trace[8..12] != s.m.to_le_bytes() {
        return Some("the header");
    }
    let (samples, entries) = trace[12..].split_at(3 * count);
    for (sample, sum) in samples.chunks(3).zip(sums(c)) {
        let m = i64::from(i16::from_le_bytes([sample[0], sample[1]]));
        if !is_sample(sum, m, sample[2], s) {
            return Some("a sample");
        }
    }
    let entries: Vec<i8> = entries.iter().map(|&entry| entry as i8).collect();
    let (trained, decided) = entries.split_at(c.training);
    if trained != &c.symbols[..c.training] || decided.iter().any(|&entry| entry != 0) {
        return Some("an entry");
    }
    None
}

/// A cable that owns its lists.
struct Owned {
    settings: Settings,
    response: Vec<i16>,
    symbols: Vec<i8>,
    training: usize,
}

impl Owned {
    fn any(random: &mut Random) -> Owned {
        let mut settings = random.settings();
        settings.n = settings.n.min(20);
        settings.l = random.pick(&[0, 0, 0, settings.l]);
        settings.m = random.admitted_m(&settings);
        let symbols = usize::from(settings.n) * random.between(1, 4) as usize;
        let bits = random.between(1, 15);
        let end = (1 << bits) - 1;
        let value = |random: &mut Random| random.between(-end - 1, end) as i16;
        Owned {
            settings,
            response: (0..random.between(1, 32)).map(|_| value(random)).collect(),
            symbols: (0..symbols).map(|_| random.symbol(settings.r)).collect(),
            training: random.below(symbols as u64 + 1) as usize,
        }
    }

    fn cable(&self) -> Cable<'_> {
        Cable {
            settings: self.settings,
            response: &self.response,
            symbols: &self.symbols,
            training: self.training,
        }
    }
}

/// Any cables with their traces.
fn accepted(start: u64, count: usize) -> Vec<(Owned, Vec<u8>)> {
    let mut random = Random::new(start);
    let mut list = Vec::new();
    while list.len() < count {
        let owned = Owned::any(&mut random);
        let mut trace = vec![0; 12 + 4 * owned.symbols.len()];
        if cable(&owned.cable(), &mut trace) == 0 {
            list.push((owned, trace));
        }
    }
    list
}

#[test]
fn any_cable_is_turned_down_exactly_for_its_gains() {
    let mut random = Random::new(31);
    let mut seen = [0; 2];
    for _ in 0..4000 {
        let owned = Owned::any(&mut random);
        let c = owned.cable();
        let greatest = sums(&c).iter().map(|s| s.abs()).max().unwrap();
        let fits = greatest << c.settings.l < 1 << (15 + c.settings.r);
        assert_eq!(number(&c), if fits { 0 } else { 10 });
        seen[usize::from(fits)] += 1;
    }
    assert!(seen[0] > 500 && seen[1] > 500, "{seen:?}");
}

#[test]
fn the_traces_of_any_cables_are_right() {
    for (owned, trace) in accepted(32, 2500) {
        assert_eq!(wrong(&owned.cable(), &trace), None);
    }
}

#[test]
fn every_other_byte_of_a_trace_is_wrong() {
    for (owned, trace) in accepted(33, 12) {
        for place in 0..trace.len() {
            let mut other = trace.clone();
            for _ in 0..255 {
                other[place] = other[place].wrapping_add(1);
                assert!(wrong(&owned.cable(), &other).is_some(), "byte {place}");
            }
        }
        assert!(wrong(&owned.cable(), &trace[1..]).is_some());
    }
}

/// Whether the trace program runs a trace to its end, or to a weight exponent
/// of 16, which is no matter of the cable.
fn is_run(bytes: &[u8]) -> bool {
    let text = trace(bytes);
    let stop = text.lines().find(|line| line.starts_with("stop"));
    match stop {
        None => text.lines().count() == (bytes.len() - 12) / 4,
        Some(stop) => stop.starts_with("stop 6 "),
    }
}

#[test]
fn the_trace_program_takes_the_traces() {
    for (owned, trace) in accepted(34, 400) {
        assert!(is_run(&trace));
        let count = owned.symbols.len();
        let damage: [(usize, u8); 6] = [
            (5, 1),
            (0, 0),
            (11, 255),
            (12 + 3 * count - 1, 16),
            (12 + 3 * count, 2),
            (12 + 4 * count - 1, 128),
        ];
        for (place, byte) in damage {
            let mut other = trace.clone();
            other[place] = byte;
            assert!(!is_run(&other), "byte {place}");
        }
        assert!(!is_run(&trace[..trace.len() - 1]));
    }
}

#[test]
fn an_output_that_a_refusal_touches_is_found() {
    let touching: Operation = |c, output| {
        let number = cable(c, output);
        if let Some(first) = output.first_mut() {
            *first = c.settings.p;
        }
        number
    };
    let c = sent(plain(0, 0), &[], &[1]);
    assert_eq!(answer_of(cable, &c, 16), Some(10));
    assert_eq!(answer_of(touching, &c, 16), None);
}

#[test]
fn the_worked_example() {
    let c = Cable {
        settings: sizes(1, 1, 2, 1, 0, 16_777_216),
        response: &[16_390, -32_768, 16_384, -5],
        symbols: &[1, 1, 1, -1, -3, -1],
        training: 3,
    };
    let rows: [(i64, u8, i16); 6] = [
        (16_390, 1, 16_390),
        (-16_378, 2, -32_756),
        (6, 13, 24_576),
        (-32_779, 0, -16_389),
        (-23, 11, -23_552),
        (65_525, 0, 32_762),
    ];
    assert_eq!(sums(&c), rows.map(|(s, _, _)| s));
    let mut expected = vec![1, 1, 2, 1, 0, 0, 3, 0, 0, 0, 0, 1];
    for (_, g, m) in rows {
        expected.extend(m.to_le_bytes());
        expected.push(g);
    }
    expected.extend([1, 1, 1, 0, 0, 0]);
    let mut output = [0; 36];
    assert_eq!(cable(&c, &mut output), 0);
    assert_eq!(output[..], expected);
    assert!(is_run(&output));
}

/// The example's bytes and what the program writes where one is changed.
#[test]
fn the_worked_example_in_bytes() {
    let good = [
        0x01, 0x01, 0x02, 0x01, 0x00, 0x00, 0x04, 0x00, 0x00, 0x00, 0x00, 0x01, 0x06, 0x00, 0x00,
        0x00, 0x03, 0x00, 0x00, 0x00, 0x06, 0x40, 0x00, 0x80, 0x00, 0x40, 0xFB, 0xFF, 0x01, 0x01,
        0x01, 0xFF, 0xFD, 0xFF,
    ];
    let described = Description::read(&good).expect("a description");
    assert_eq!(described.bytes(), good);
    assert_eq!(description(&good), described.cable().trace());
    let lines = [
        (
            5,
            1,
            "8, the description has a wrong length or its byte 5 is not 0",
        ),
        (
            6,
            5,
            "8, the description has a wrong length or its byte 5 is not 0",
        ),
        (2, 0, "1, a size is outside its limits"),
        (8, 1, "2, M is not admitted with these sizes"),
        (2, 4, "10, the symbols are not 1 to 65535 whole blocks of N"),
        (16, 7, "10, there are more training entries than symbols"),
        (3, 0, "10, an entry is not a symbol"),
        (4, 1, "10, some gain would be below L or does not exist"),
        (33, 3, "10, some gain would be below L or does not exist"),
    ];
    for (place, byte, line) in lines {
        let mut other = good;
        other[place] = byte;
        let written = String::from_utf8(description(&other)).expect("a line");
        assert_eq!(written, format!("cable: {line}\n"));
    }
    let mut other = good.to_vec();
    other.drain(20..28);
    other[6] = 0;
    let empty = b"cable: 10, the response is empty or longer than 32\n";
    assert_eq!(description(&other), empty);
}
