//! The bytes and numbers of the specification, made anew: those of `docs/EQUALISER.md`, `docs/LABORATORY.md` and
//! `docs/SWAPPED.md`.

use reference::block::{decide, work, BlockDetail, SampleDetail};
use reference::cable::{gain, mantissa, sum_at};
use reference::description::{description, Description};
use reference::numbers::{bit_length, is_symbol, scale_count, Dyadic};
use reference::readings::{magnitude, readings, Power, Reading};
use reference::settings::Rules;
use reference::swapped::{partner, swapped_trace, unpaired};
use reference::trace::{read, trace_with_state, Trace};
use reference::vectors::spoiled::worked_example;
use reference::vectors::{worked_lists, Lists};
use reference::{load, save, set_up, trace, Inputs, Settings, State};
use std::fmt::Display;
use tigbulode_common::number_text;

// ---- the pages

fn file(name: &str) -> Vec<u8> {
    let path = format!("{}/../../{name}", env!("CARGO_MANIFEST_DIR"));
    std::fs::read(&path).unwrap_or_else(|error| panic!("{name}: {error}"))
}

/// Whether a line stands by itself: empty, a heading, a row of a table or a line of an example.
fn stands_apart(line: &str) -> bool {
    line.is_empty() || ["#", "|", "    ", "```"].iter().any(|begin| line.starts_with(begin))
}

/// Whether a line begins an entry of a list: with a dash, or a number and a dot.
fn begins_entry(line: &str) -> bool {
    line.starts_with("- ") || line.split_once(". ").is_some_and(|(number, _)| number.parse::<u8>().is_ok())
}

/// A page, each paragraph, list entry, row of a table and line of an example on one line.
fn page(name: &str) -> String {
    let text = String::from_utf8(file(&format!("docs/{name}.md"))).expect("the page is UTF-8");
    let mut page = String::new();
    let mut before = "";
    for line in text.lines() {
        if !(stands_apart(before) || stands_apart(line) || begins_entry(line)) {
            page.pop();
            page += " ";
        }
        page += if line.starts_with("    ") { line } else { line.trim_start() };
        page += "\n";
        before = line;
    }
    page
}

fn equaliser() -> String {
    page("EQUALISER")
}

/// The part of a page below a heading.
fn part(name: &str, heading: &str) -> String {
    let page = page(name);
    let (_, rest) = page.split_once(&format!("\n## {heading}\n")).expect(heading);
    rest.split("\n## ").next().unwrap_or(rest).to_string()
}

/// The rows of the table with these two heads.
fn rows<'a>(part: &'a str, heads: &str) -> Vec<(&'a str, &'a str)> {
    let (_, table) = part.split_once(&format!("\n| {heads} |\n|---|---|\n")).expect(heads);
    let cells = |row: &'a str| row.strip_prefix("| ")?.strip_suffix(" |")?.split_once(" | ");
    table.lines().map_while(cells).collect()
}

/// The part has this text, its numbers with the minus sign of the page.
fn says(part: &str, text: &str) {
    let text = text.replace('-', "−").replace("\n− ", "\n- ");
    assert!(part.contains(&text), "{text}");
}

fn say_all<const COUNT: usize>(part: &str, texts: [String; COUNT]) {
    texts.iter().for_each(|text| says(part, text));
}

// ---- numbers and bytes as the pages write them

fn joined(numbers: impl IntoIterator<Item = impl Display>, between: &str) -> String {
    let words: Vec<String> = numbers.into_iter().map(|n| n.to_string()).collect();
    words.join(between)
}

fn words(numbers: impl IntoIterator<Item = impl Display>) -> String {
    joined(numbers, " ")
}

fn both(numbers: impl IntoIterator<Item = impl Display>) -> String {
    joined(numbers, " and ")
}

fn hexadecimal(bytes: &[u8]) -> String {
    words(bytes.iter().map(|byte| format!("{byte:02X}")))
}

/// The bytes in groups of these lengths.
fn in_groups(mut bytes: &[u8], lengths: &[usize]) -> String {
    let group = |&length: &usize| {
        let (group, rest) = bytes.split_at(length);
        bytes = rest;
        hexadecimal(group)
    };
    joined(lengths.iter().map(group).collect::<Vec<_>>(), "  ")
}

fn byte_of(word: &str) -> u8 {
    u8::from_str_radix(word, 16).expect("a byte")
}

fn bytes_of(text: &str) -> Vec<u8> {
    text.split(' ').map(byte_of).collect()
}

/// Whether the page has these bytes, perhaps over several lines.
fn has_bytes(page: &str, bytes: &[u8]) -> bool {
    let digits = |c: char| c.is_ascii_digit() || ('A'..='F').contains(&c);
    let is_byte = |word: &&str| word.len() == 2 && word.chars().all(digits);
    let kept = page.lines().map(|line| words(line.split_whitespace().take_while(is_byte)));
    words(kept).contains(&hexadecimal(bytes))
}

fn has_text(page: &str, text: &str) -> bool {
    let lines: String = text.lines().map(|line| format!("    {line}\n")).collect();
    page.contains(&lines)
}

/// A number with a comma before every three digits.
fn grouped(number: u32) -> String {
    match number {
        0..=999 => number.to_string(),
        _ => format!("{},{:03}", grouped(number / 1000), number % 1000),
    }
}

/// A power of two as such, another number in decimal.
fn power(number: i128) -> String {
    match number.count_ones() {
        1 => format!("2^{}", number.ilog2()),
        _ => number.to_string(),
    }
}

fn sizes(s: &Settings) -> String {
    let Settings { p, q, n, r, l, .. } = s;
    format!("p = {p}, q = {q}, N = {n}, r = {r}, L = {l}")
}

/// The terms of a sum and, where there are several, the sum.
fn summed(terms: &[i128]) -> String {
    let sum: i128 = terms.iter().sum();
    let later: String = terms[1..].iter().map(|term| format!("{term:+}")).collect();
    let later = later.replace('+', " + ").replace('-', " - ");
    match later.is_empty() {
        true => sum.to_string(),
        false => format!("{}{later} = {sum}", terms[0]),
    }
}

// ---- states and blocks

fn image(state: &State) -> Vec<u8> {
    let mut buffer = vec![0; 140];
    let (number, length) = save(state, &mut buffer);
    assert_eq!(number, 0);
    buffer.truncate(length);
    buffer
}

/// The bytes of a trace of the examples.
fn example_bytes(name: &str) -> Vec<u8> {
    file(&format!("examples/traces/{name}.trace"))
}

/// A trace of the examples and its blocks, worked out.
fn example(name: &str) -> (Trace, Vec<BlockDetail>) {
    let trace = read(&example_bytes(name)).expect("a trace");
    let (_, mut state) = set_up(trace.settings);
    let mut details = Vec::new();
    for block in &trace.blocks {
        let (detail, next) = work(&state, block.inputs()).expect("an accepted block");
        details.push(detail);
        state = next;
    }
    (trace, details)
}

/// The state that a trace of the examples leaves.
fn state_after(name: &str) -> State {
    trace_with_state(&example_bytes(name)).1
}

/// A block of one sample with one tap each.
fn block_of(state: &State, (sample, gain, entry): (i16, u8, i8)) -> (BlockDetail, State) {
    let inputs = Inputs { samples: &[sample], gains: &[gain], training: &[entry] };
    work(state, inputs).expect("an accepted block")
}

/// A first block of one sample with the settings of the worked example, and the state after it.
fn first_block(sample: i16) -> (BlockDetail, State) {
    block_of(&State::zeros(state_after("worked").settings), (sample, 0, 1))
}

/// Settings with p = q and M = 0.
fn settings_of(p: u8, n: u8, r: u8, l: u8) -> Settings {
    let (q, m) = (p, 0);
    Settings { p, q, n, r, l, m }
}

/// ψ and the weights after blocks of one 0 each, with one tap each and M = 0, so that new weights are those of before.
fn after_zeros(psi: u8, weights: [i16; 2], blocks: usize) -> (u8, [i16; 2]) {
    let mut state = State::zeros(settings_of(1, 1, 0, 0));
    state.psi = psi;
    state.weights = weights.to_vec();
    for _ in 0..blocks {
        (_, state) = block_of(&state, (0, 0, 1));
    }
    (state.psi, [state.weights[0], state.weights[1]])
}

/// The image of a state with what is written beside its lines.
fn image_is_told(part: &str, state: &State) {
    assert!(has_bytes(part, &image(state)));
    let (forward, feedback) = state.weights.split_at(state.settings.p.into());
    let [samples, symbols] = [state.past_samples(), state.past_symbols()].map(words);
    let weights = format!("     weights {}, {}\n", words(forward), words(feedback));
    say_all(part, [weights, format!("     samples {samples}, the 0, symbols {symbols}\n")]);
}

// ---- the worked examples

#[test]
fn the_examples_have_these_bytes() {
    let shown = |page: &str, heading: &str, bytes: &[u8], lengths: &[usize], beside: &str| {
        let line = format!("\n    {}{beside}\n", in_groups(bytes, lengths));
        says(&part(page, heading), &line);
    };
    let (text, state) = trace_with_state(&example_bytes("worked"));
    assert!(has_text(&part("EQUALISER", "The trace"), &text));
    shown("EQUALISER", "The trace", &example_bytes("worked"), &[5, 1, 2, 4, 3, 3, 1, 1], "");
    let weights = format!("     weights {}", joined(&state.weights, ", "));
    shown("EQUALISER", "The saved image", &image(&state), &[8, 4, 4, 4], &weights);
    let cable = worked_example().bytes();
    let (counts, values) = cable.split_at(20);
    shown("LABORATORY", "A cable on paper", counts, &[5, 1, 2, 4, 4, 4], "");
    shown("LABORATORY", "A cable on paper", values, &[2; 4], "");
    let (longer, mut state) = (part("EQUALISER", "A longer example"), state_after("blocks"));
    assert!(has_bytes(&longer, &example_bytes("blocks")));
    image_is_told(&longer, &state);
    state.psi ^= 1;
    assert!(!has_bytes(&longer, &image(&state)));
}

/// A row of the longer example.
fn row(place: usize, given: (i16, u8, i8), block: &BlockDetail, d: &SampleDetail) -> String {
    let (m, g, entry) = given;
    let BlockDetail { b, bmax, gamma, .. } = block;
    let SampleDetail { nu, f, h, y, xi, decision, v, z, theta, j_forward, j_feedback, .. } = d;
    let (forward, feedback) = d.weights_after.split_at(d.a.len());
    let [a, held, forward, feedback] = [&d.a, &d.held, forward, feedback].map(words);
    format!(
        "| {place} | {m}, {g}, {entry} | {b}, {bmax}, {gamma} | {a} | {nu}, {held} | {f}, {h} | {y}, {xi} \
         | {decision}, {v} | {z}, {theta} | {j_forward}, {j_feedback} | {forward}, {feedback} |\n"
    )
}

#[test]
fn the_longer_example_has_these_rows() {
    let part = part("EQUALISER", "A longer example");
    let (trace, details) = example("blocks");
    for (at, (given, detail)) in trace.blocks.iter().zip(&details).enumerate() {
        for (i, sample) in detail.samples.iter().enumerate() {
            let entry = (given.samples[i], given.gains[i], given.training[i]);
            says(&part, &row(2 * at + i, entry, detail, sample));
        }
    }
    let s = trace.settings;
    let (settings, m) = (sizes(&s), grouped(s.greatest_m()));
    let (scale, scale_back) = (scale_count(s.p), scale_count(s.q));
    let psi = details[3].samples[1].psi_after;
    let [b0, b1, b3] = [0, 1, 3].map(|block: usize| details[block].bmax);
    let newest = |block: usize| (details[block].stored[1], details[block + 1].past[0]);
    let [cut, raised] = [newest(0), newest(2)].map(|(old, new)| format!("{old} to {new}"));
    let said = format!(
        "{settings} and M = {m}, the greatest admitted; S = {scale}, S′ = {scale_back}, ψ stays {psi}. Four blocks, \
         of which two are trained; B rises from {b0} to {b1} and falls to {b3}, so that old samples are cut in the \
         second block ({cut}) and multiplied in the fourth ({raised})."
    );
    assert_eq!(s.m, s.greatest_m());
    says(&part, &said);
}

/// A column of the worked example's table.
fn column(s: &Settings, entry: i8, block: &BlockDetail) -> [String; 12] {
    let d = &block.samples[0];
    let (x, a, f, past) = (power(block.x[0]), d.a[0], d.f, d.symbols[0]);
    let SampleDetail { nu, h, y, xi, decision, v, theta, .. } = d;
    let k = scale_count(s.q) + bit_length(*v);
    let by = if entry == 0 { "decision" } else { "entry" };
    let told = |text: String, result: String| match f {
        0 => result,
        _ => format!("{text} = {result}"),
    };
    let product = told(format!("{}·{a}", d.weights_before[0]), power(f));
    let cut = told(format!("T({}·2^({}−{nu}))", power(f), block.gamma), y.to_string());
    let error = told(format!("{} − {}", power(v << (30 - k)), power(*y)), power(d.z));
    let output = match y {
        0 => "0".to_string(),
        y => format!("1/{}", (1 << (30 - xi)) / y),
    };
    let gain = |place: usize| d.weights_new[place] - d.weights_before[place];
    [
        format!("{x}, {}, {}", block.b, block.bmax),
        block.gamma.to_string(),
        a.to_string(),
        format!("{past}, {}, {nu}, {}", bit_length(past), d.held[0]),
        format!("{product}, {h}"),
        format!("{cut}, {xi}"),
        format!("{output}, {decision}"),
        format!("{v} ({by}), {k}"),
        format!("{error}, {theta}"),
        format!("{}, {}", power(d.j_forward), gain(0)),
        format!("{}, {}", power(d.j_feedback), gain(1)),
        joined(&d.weights_after, ", "),
    ]
}

#[test]
fn the_worked_example_has_this_table() {
    let part = part("EQUALISER", "Worked example");
    let (trace, details) = example("worked");
    let (s, given) = (trace.settings, &trace.blocks);
    let (scale, psi) = (scale_count(s.p), details[1].samples[0].psi_after);
    let (m, power_m, of) = (grouped(s.m), power(s.m.into()), (1 << 30) / s.m);
    let (sample, g, entry) = (given[0].samples[0], given[0].gains[0], given[0].training[0]);
    let said = format!(
        "p = q = N = {}, r = L = {}, M = {m} = {power_m}, so μ = 1/{of}; S = S′ = {scale}. Two blocks of one sample, \
         both m = {sample} with gain {g}; the first is trained with {entry}, the second decided. ψ stays {psi}.",
        s.p, s.r
    );
    says(&part, &said);
    let heads = format!(
        "X, b, B; γ = {} − 30 + B + {scale}; A = T(X·2^(15−{})); past symbol, c, ν, held; F, H; \
         Y, ξ (γ is not above ν); y, decision; v, k; Z, θ; J feed forward, its gain; J feedback, its gain; weights after",
        s.r,
        details[0].bmax + scale
    );
    let [one, two] = [0, 1].map(|at| column(&s, given[at].training[0], &details[at]));
    for ((head, one), two) in heads.split("; ").zip(one).zip(two) {
        says(&part, &format!("\n| {head} | {one} | {two} |\n"));
    }
}

// ---- a halving and a doubling

/// A block of one sample that the page works out: the image before it, the sample with its gain and entry, and what
/// step 7 does.
struct Worked {
    image: &'static str,
    given: (i16, u8, i8),
    done: &'static str,
}

const HALVING: Worked = Worked {
    image: "01 01 01 01 02 03 1C 1C B1 13 3B 01 FC 3F D7 DC 00 00 01 00",
    given: (30001, 2, 3),
    done: "the first has reached 16384, so both are halved",
};

const DOUBLING: Worked = Worked {
    image: "01 01 01 01 02 03 1C 1C B1 13 3B 01 18 10 17 FC 00 00 01 00",
    given: (20001, 2, -1),
    done: "both are below 4096 and ψ is not 0, so both are doubled",
};

impl Worked {
    fn state(&self) -> State {
        let (number, state) = load(&bytes_of(self.image));
        assert_eq!((number, state.settings.m), (0, state.settings.greatest_m()));
        state
    }

    /// What the page says of the block, up to the new weights.
    fn said(&self, s: &Settings, block: &BlockDetail) -> String {
        let ((m, g, entry), d) = (self.given, &block.samples[0]);
        let BlockDetail { b, gamma, .. } = block;
        let SampleDetail { nu, f, h, y, xi, decision, v, z, theta, .. } = d;
        let (x, a, held) = (block.x[0], d.a[0], d.held[0]);
        let (over, k) = (1 << (nu - gamma), scale_count(s.q) + bit_length(*v));
        let raised = format!("{v}·2^{}", 30 - xi).replace("-1·", "-");
        format!(
            "A block of the sample m = {m} with gain {g} and the entry {entry} gives X = {x}, b = B = {b}, \
             γ = {gamma}, A = {a}, ν = {nu}, held {held}; F = {f}, H = {h}; Y = H + T(F/{over}) = {y}, ξ = {xi}; \
             decision {decision}; v = {v}, k = {k}, Z = {raised} − Y = {z}, θ = {theta}; J = {} and {}. ",
            d.j_forward, d.j_feedback
        )
    }
}

/// The block and both images stand below the heading.
fn stands_on_the_page(worked: &Worked, heading: &str) {
    let state = worked.state();
    let (block, next) = block_of(&state, worked.given);
    assert_eq!((state.b, next.b), (state.bmax, next.bmax));
    let d = &block.samples[0];
    let gain = |at: usize| d.weights_new[at] - d.weights_before[at];
    let [one, two] = [0, 1].map(|at| summed(&[d.weights_before[at], gain(at)]));
    let begins = format!(
        ", ψ = {}, b = B = {}, weights {}, the past symbol {}: the image\n\n    {}\n",
        state.psi,
        state.b,
        both(&state.weights),
        state.data[1],
        worked.image
    );
    let ends = format!(
        "{}The new weights are {one} and {two}; {}, to {}, and ψ becomes {}:\n\n    {}\n",
        worked.said(&state.settings, &block),
        worked.done,
        both(&next.weights),
        next.psi,
        hexadecimal(&image(&next))
    );
    say_all(&part("EQUALISER", heading), [begins, ends]);
}

#[test]
fn the_halving_is_on_the_page() {
    stands_on_the_page(&HALVING, "A halving");
    let s = HALVING.state().settings;
    let (sizes, m) = (sizes(&s).replace("1, q = 1, N", "q = N"), grouped(s.m));
    says(&equaliser(), &format!("\n{sizes}, M = {m} (the greatest admitted), ψ"));
}

#[test]
fn the_doubling_is_on_the_page() {
    stands_on_the_page(&DOUBLING, "A doubling");
    let mut state = DOUBLING.state();
    let d = &block_of(&state, DOUBLING.given).0.samples[0];
    let same = format!(
        "\n{}·2^({}−15) is {}·2^({}−15): no value has changed",
        d.weights_new[0], d.psi_before, d.weights_after[0], d.psi_after
    );
    // One more, and nothing is doubled.
    state.weights[0] += 1;
    let (block, next) = block_of(&state, DOUBLING.given);
    let d = &block.samples[0];
    assert_eq!(d.weights_new, d.weights_after);
    let stays = format!(
        "With a first weight of {} the new ones would be {}, and ψ would stay {}.",
        state.weights[0],
        both(&d.weights_new),
        next.psi
    );
    let blocks = (0..).find(|&blocks| after_zeros(15, [0, 0], blocks).0 == 0);
    let zeros = format!(" from ψ = 15 to 0 in {} samples.", blocks.expect("an end"));
    say_all(&equaliser(), [same, stays, zeros]);
}

// ---- what is turned down

#[test]
fn the_numbers_have_these_texts() {
    let station: Vec<u8> = (0..10).collect();
    for (name, numbers) in [("EQUALISER", &station[..]), ("FIRMWARE", &station), ("LABORATORY", &[0, 1, 2, 10, 11])] {
        let page = page(name);
        for &number in numbers {
            let row = format!("\n| {number} | {} | ", number_text(number));
            assert!(page.contains(&row), "{name}: {row}");
        }
    }
}

/// The bytes with the change that a row of a page tells before its colon.
fn changed(row: &str, bytes: &[u8]) -> Vec<u8> {
    let mut other = bytes.to_vec();
    let change = row.split(':').next().unwrap_or(row);
    for step in change.split(" and ") {
        let words: Vec<&str> = step.split(' ').collect();
        let place = |at: usize| words[at].parse::<usize>().unwrap_or_else(|_| panic!("{row}"));
        match words[..] {
            ["byte", _, "is", "gone"] => drop(other.remove(place(1))),
            ["byte", _, "is", value] => other[place(1)] = byte_of(value),
            ["bytes", _, "to", _, "are", "gone"] => drop(other.drain(place(1)..=place(3))),
            ["bytes", _, "to", _, "are", ref count @ .., "with", "as", "many", "symbols", "of", symbol] => {
                let count = bytes_of(&count.join(" ").replace(',', ""));
                let symbols = u32::from_le_bytes(count.clone().try_into().expect("a count"));
                other.splice(place(1)..=place(3), count);
                other.truncate(other.len() - worked_example().symbols.len());
                other.resize(other.len() + symbols as usize, byte_of(symbol));
            }
            _ => panic!("{row}"),
        }
    }
    assert_ne!(other, bytes, "{row}");
    other
}

#[test]
fn the_changed_traces_stop_as_the_page_says() {
    let (part, bytes) = (part("EQUALISER", "The trace"), example_bytes("worked"));
    let rows = rows(&part, "change | text");
    assert_eq!(rows.len(), 6);
    for (change, said) in rows {
        let text = trace(&changed(change, &bytes));
        let lines = joined(text.lines().map(|line| format!("`{line}`")), ", then ");
        let lines = if lines.is_empty() { "nothing" } else { &lines };
        assert_eq!(said, lines, "{change}");
    }
}

#[test]
fn the_changed_cables_are_turned_down_as_the_page_says() {
    let (part, bytes) = (part("LABORATORY", "A cable on paper"), worked_example().bytes());
    let rows = rows(&part, "change | written");
    assert_eq!(rows.len(), 10);
    for (change, line) in rows {
        let written = String::from_utf8(description(&changed(change, &bytes))).expect("a line");
        assert_eq!(format!("`{}`", written.trim_end()), line, "{change}");
        assert_eq!(trace(written.as_bytes()), "stop 8 0\n", "{change}");
    }
}

// ---- a cable on paper

/// s, g and m at a place.
fn received(cable: &Description, n: usize) -> (i128, u8, i16) {
    let s = sum_at(&cable.response, &cable.symbols, n);
    let g = gain(s, cable.settings.r).expect("a gain");
    (s, g, mantissa(s, g, cable.settings.r))
}

/// The row of the worked cable's table at a place.
fn cable_row(cable: &Description, n: usize) -> String {
    let (s, g, m) = received(cable, n);
    let factors = cable.response.iter().zip(cable.symbols[..=n].iter().rev());
    let products = factors.map(|(&h, &v)| i128::from(h) * i128::from(v));
    let sum = summed(&products.collect::<Vec<_>>());
    let scaled = match s % 2 != 0 && g < cable.settings.r {
        true => format!("T({m}.5) = {m}"),
        false => m.to_string(),
    };
    let symbol = cable.symbols[n];
    let entry = if n < cable.training as usize { symbol } else { 0 };
    format!("\n| {n} | {symbol} | {sum} | {g} | {scaled} | {entry} |\n")
}

#[test]
fn the_cable_is_on_the_page() {
    let page = page("LABORATORY");
    let example = worked_example();
    let (bytes, count) = (example.bytes(), example.symbols.len());
    let written = description(&bytes);
    assert!(has_bytes(&page, &bytes) && has_bytes(&page, &written));
    assert!(has_text(&page, &trace(&written)));
    for n in 0..count {
        says(&page, &cable_row(&example, n));
    }
    let s = example.settings;
    assert_eq!(s.m, s.greatest_m());
    let (m, power_m) = (grouped(s.m), power(s.m.into()));
    let sizes = sizes(&s).replace("1, q", "q");
    let response = joined(&example.response, ", ");
    let (symbols, values, length) = (words(&example.symbols), example.response.len(), bytes.len());
    let said = format!(
        "\n{sizes} and M = {m} = {power_m}, the greatest admitted. The response is {response} (in units of 1/32768: \
         about a half, −1, a half, and next to nothing). Six symbols are sent, {symbols}, of which the first three are \
         training entries. The description, 20 + 2·{values} + {count} = {length} bytes:\n"
    );
    let (length, blocks) = (written.len(), count / usize::from(s.n));
    let traced = format!(" 12 + 4·{count} = {length} bytes, with a count of {blocks} blocks:\n");
    say_all(&page, [said, traced]);
}

#[test]
fn the_gains_of_the_cable_are_as_the_page_says() {
    let (example, r) = (worked_example(), worked_example().settings.r);
    let [g0, g1, g3] = [0, 1, 3].map(|n| received(&example, n).1);
    let places = [(0, g0), (0, g0 + 1), (1, g1), (3, g3 + 1)];
    let [below, not, still, passed] = places.map(|(n, g)| {
        let s = received(&example, n).0.abs();
        format!("{s}·{} = {}", 1 << g, s << g)
    });
    let bound = (0..).find(|&s| gain(s, r).is_none()).expect("an end");
    let (power, most) = (power(bound), bound - 1);
    let said = format!(
        "The bound for |s|·2^g is {power} = {bound}. At n = 0, {below} is below it and {not} is not, so g = {g0}; at \
         n = 1, {still} is still below it, so g = {g1}. At n = 3, {passed} has passed it, so g = {g3}, and with g \
         below r the last bit of s is cut, toward zero. {most} is the greatest |s| that has a gain with r = {r}.\n"
    );
    let without = both((0..6).filter(|&n| received(&example, n).1 == 0));
    let none = example.symbols.iter().find(|&&v| !is_symbol(v.into(), 0)).expect("no symbol");
    let s = sum_at(&example.response, &[1, 1, 1, -1, -3, 3], 5);
    let notes = [
        said,
        format!("3 is 00: {none} is no symbol for r = 0 |"),
        format!("4 is 01: the gains at n = {without} are 0, below L |"),
        format!("33 is 03: s at n = 5 would be {s} |"),
    ];
    say_all(&page("LABORATORY"), notes);
}

// ---- readings for plots

/// A mantissa over a power of two, or the whole number that this is.
fn quotient(mantissa: i32, places: i32) -> String {
    let value = Dyadic::new(mantissa.into(), -places);
    match value.is_whole() {
        true => value.exactly().to_string(),
        false => format!("{mantissa} / 2^{places}"),
    }
}

/// The same with its first decimal place.
fn with_decimal(mantissa: i32, places: i32) -> String {
    let tenths = (10 * i128::from(mantissa)) >> places;
    match quotient(mantissa, places) {
        whole if !whole.contains('/') => whole,
        text => format!("{text} = {}.{}…", tenths / 10, tenths % 10),
    }
}

/// What is answered for lists, with the readings.
fn answer_of(lists: &Lists) -> (String, Vec<Reading>) {
    let mut lent = vec![Reading::default(); lists.readings];
    let answer = match readings(&lists.inputs(), &mut lent) {
        Ok(Power::Mean(power)) => format!("a mean, {:016X}", power.to_bits()),
        Ok(Power::Floor(power)) => format!("a floor, {:016X}", power.to_bits()),
        Err(number) => number.to_string(),
    };
    (answer, lent)
}

#[test]
fn the_readings_are_on_the_page() {
    let part = part("LABORATORY", "Readings for plots");
    let (lists, (_, longer)) = (Lists::of(&worked_lists()), example("blocks"));
    let (answer, lent) = answer_of(&lists);
    for (n, sample) in [0, 1, 7].into_iter().enumerate() {
        let (y, xi, z, theta) = (lists.y[n], i32::from(lists.xi[n]), lists.z[n], i32::from(lists.theta[n]));
        let d = &longer[sample / 2].samples[sample % 2];
        assert_eq!((y.into(), xi, z.into(), theta), (d.y, d.xi, d.z, d.theta));
        let [y_bits, error_bits] = lent[n].bits();
        let [output, error] = [(y, xi), (z, theta)].map(|(mantissa, exponent)| quotient(mantissa, 30 - exponent));
        let (times, a) = (with_decimal(z.abs(), 22 - theta), magnitude(z, lists.theta[n]));
        let row = format!(
            "| {sample} | {y}, {xi} | {output} | {y_bits:016X} | {z}, {theta} | {error} | {error_bits:016X} \
             | {times} | {a} | {} |\n",
            a * a
        );
        says(&part, &row);
    }
    let sum: i128 = lists.inputs().magnitudes().iter().map(|a| a * a).sum();
    let bits = answer.strip_prefix("a mean, ").expect("a mean");
    let over = 65_536 * 3;
    let (whole, rest) = (sum / over, 10i128.pow(17) * (sum % over) / over);
    let said = format!(
        "The sum of a² is {sum}, and 65536·3 = {over}. The quotient {whole}.{rest:017}… has no end; the nearest f64 \
         is {bits}, a"
    );
    says(&part, &said);
}

/// What the page changes in the worked lists: its words, and the change.
type Change = (&'static str, fn(&mut Lists));

#[rustfmt::skip]
const CHANGES: [Change; 10] = [
    ("Z, θ of sample 7 are −65535, 22: 256 times the magnitude is 65535", |l| (l.z[2], l.theta[2]) = (-65_535, 22)),
    ("Z, θ of sample 7 are −65536, 22: 65536 is cut", |l| (l.z[2], l.theta[2]) = (-65_536, 22)),
    ("Z, θ of sample 7 are −1073741823, 24: an error of nearly −2^24, cut",
        |l| (l.z[2], l.theta[2]) = (-1_073_741_823, 24)),
    ("every Z is 0", |l| l.z.fill(0)),
    ("ξ of sample 0 is 0, though its Y is 0", |l| l.xi[0] = 0),
    ("θ of sample 7 is 25", |l| l.theta[2] = 25),
    ("Y of sample 1 is −536870912", |l| l.y[1] = -536_870_912),
    ("Z of sample 1 is 1073741824", |l| l.z[1] = 1_073_741_824),
    ("two readings are lent", |l| l.readings = 2),
    ("all five lists are empty", |l| *l = Lists::default()),
];

#[test]
fn the_changed_lists_are_answered_as_the_page_says() {
    let part = part("LABORATORY", "Readings for plots");
    let rows = rows(&part, "change | answer");
    assert_eq!(rows.len(), CHANGES.len());
    for ((change, apply), (told, said)) in CHANGES.iter().zip(rows) {
        let mut lists = Lists::of(&worked_lists());
        apply(&mut lists);
        let (answer, _) = answer_of(&lists);
        let bits = answer.rsplit(' ').next().map(|word| u64::from_str_radix(word, 16));
        let power = f64::from_bits(bits.expect("a word").expect("bits"));
        let rounded = format!("{answer} (about {power:.2})");
        assert!(told == *change && [&answer, &rounded].contains(&&said.to_string()), "{change}: {answer}");
    }
}

// ---- the two conductors swapped

#[test]
fn the_swapped_example_is_on_the_page() {
    let part = part("SWAPPED", "What is proved");
    for name in ["worked", "blocks"] {
        let (text, state) = trace_with_state(&example_bytes(name));
        let swapped = swapped_trace(&example_bytes(name)).expect("no sample is −32768");
        let (same, other) = trace_with_state(&swapped);
        assert_eq!((unpaired(&state, &other), text), (None, same), "{name}");
        assert!(!has_bytes(&part, &image(&state)), "{name}: image");
        assert_eq!(has_bytes(&part, &image(&other)), name == "blocks");
    }
    image_is_told(&part, &partner(&state_after("blocks")));
}

#[test]
fn the_lowest_sample_is_on_both_pages() {
    let [(low, after_low), (high, after_high), (_, after)] = [-32768, 32767, -32767].map(first_block);
    assert!(unpaired(&after_low, &after_high).is_some());
    assert_eq!(unpaired(&after, &after_high), None);
    let (b, gamma, a) = (low.b, low.gamma, low.stored[0]);
    let [xi, xi_high] = [&low, &high].map(|block| block.samples[0].xi);
    assert!(b != high.b && xi != xi_high);
    let firsts = [&after_low, &after_high, &after].map(|state| state.weights[0]);
    let said = format!(
        "the two part in b, ξ and the weights that they leave, {} and {}; -32767 leaves {}, as it has to.",
        firsts[0], firsts[1], firsts[2]
    );
    says(&part("SWAPPED", "What is proved"), &said);
    let weights = [after_low, after_high].map(|after| both(after.weights));
    let case = format!(
        "\n- m = -32768, g = 0, p = 1, r = 0 in the first block: b = {b}, stored {a}, γ = {gamma} (\\*). With the \
         worked example's settings and the entry 1 it has ξ = {xi} and leaves the weights {} (\\*); m = 32767 has \
         b = {}, ξ = {xi_high} and leaves {} (\\*): no [swapped pair](SWAPPED.md).\n",
        weights[0], high.b, weights[1]
    );
    says(&equaliser(), &case);
}

#[test]
fn the_kept_weights_are_on_the_page() {
    let kept = state_after("worked");
    let swapped = partner(&kept);
    let y = |state: &State, sample: i16| block_of(state, (sample, 0, 0)).0.samples[0].y;
    let said = format!(
        "weights {}, a block of m = 16384 with gain 0 and no entry gives Y = {}, and one of m = -16384 gives Y = {}; \
         on its partner, weights {}, m = -16384 gives {} again.",
        both(&kept.weights),
        y(&kept, 16384),
        y(&kept, -16384),
        both(&swapped.weights),
        y(&swapped, -16384),
    );
    says(&part("SWAPPED", "What is proved"), &said);
}

// ---- cases beside the limits

/// The scale count that every k of the range has.
fn common_scale_count(mut range: std::ops::RangeInclusive<u8>) -> i32 {
    let s = scale_count(*range.start());
    assert!(range.all(|k| scale_count(k) == s));
    s
}

#[test]
fn the_scale_counts_are_on_the_page() {
    let (page, later) = (equaliser(), [common_scale_count(17..=32), common_scale_count(33..=64)]);
    let counts: Vec<i32> = (1..=16).map(scale_count).chain(later).collect();
    let line = |counts: &[i32]| {
        let (sixteen, to_32, to_64) = (words(&counts[..16]), counts[16], counts[17]);
        format!(
            "\n- S(k) for k = 1 to 16: {sixteen} (\\*); {to_32} for k = 17 to 32 (\\*); {to_64} for k = 33 to 64 (\\*).\n"
        )
    };
    assert!(page.contains(&line(&counts)));
    for place in 0..counts.len() {
        let mut other = counts.clone();
        other[place] += 1;
        assert!(!page.contains(&line(&other)), "{place}");
    }
}

#[test]
fn the_exponents_have_these_limits() {
    let [least, most] = [1, 16].map(scale_count);
    let (gamma, nu) = ((least - 30, 3 - 30 + 31 + most), (least, most + bit_length(15)));
    let xi = (nu.0, 15 + nu.1.max(gamma.1));
    let said = format!(
        "γ is {} to {}, ν is {} to {}, and ξ and θ are within {} to {}",
        gamma.0, gamma.1, nu.0, nu.1, xi.0, xi.1
    );
    says(&part("EQUALISER", "One sample"), &said);
}

#[test]
fn the_cases_beside_the_doubling_are_as_the_page_says() {
    let line = "- At ψ = 1 new weights of 4095 become 8190, and ψ becomes 0; \
        one of 4096 or −4096, in either filter, and all stay. At ψ = 0 weights of 4095 stay. \
        Where 16384 halves all, 4095 becomes 2047 and nothing is doubled. \
        At ψ = 3 weights of 0 bring ψ to 2, to 1, then to 0, where it stays.\n";
    assert!(equaliser().replace(" (\\*)", "").contains(line));
    assert_eq!(after_zeros(1, [4095, 4095], 1), (0, [8190, 8190]));
    for one in [4096, -4096] {
        for weights in [[one, 4095], [4095, one]] {
            assert_eq!(after_zeros(1, weights, 1), (1, weights));
        }
    }
    assert_eq!(after_zeros(0, [4095, 4095], 1), (0, [4095, 4095]));
    assert_eq!(after_zeros(5, [16384, 4095], 1), (6, [8192, 2047]));
    for (blocks, psi) in [(1, 2), (2, 1), (3, 0), (4, 0)] {
        assert_eq!(after_zeros(3, [0, 0], blocks), (psi, [0, 0]));
    }
}

/// What the page says of the greatest M with these sizes.
fn admitted(p: u8, r: u8, l: u8) -> String {
    let s = settings_of(p, p, r, l);
    let (m, next, d) = (s.greatest_m(), s.greatest_m() + 1, s.d().exactly());
    let [0, number] = [m, next].map(|m| s.with_m(m).examine()) else {
        panic!("{m} is turned down");
    };
    let starred = format!(" D = {d} (\\*),").repeat(usize::from(p != 1));
    format!("\n- p = q = {p}, r = {r}, L = {l}:{starred} M {m} is admitted (\\*), {next} gives {number} (\\*).\n")
}

#[test]
fn the_cases_beside_the_limits_are_on_the_page() {
    let [up, down] = [3, -3].map(|a| Dyadic::new(a, -1).cut());
    let [none, one, three] = [0, 1, -4].map(bit_length);
    let [two, less] = [2, -2].map(|y| decide(Dyadic::whole(y), &settings_of(1, 1, 1, 0)));
    let halved = |w: i16| after_zeros(0, [w, 0], 1);
    let least = (0..).find(|&w| halved(w).0 == 1).expect("a weight");
    let (stays, below) = (least - 1, -least - 1);
    let becomes = halved(below).1[0];
    let worked = example("worked").1;
    let [first, second] = [0, 1].map(|at| both(&worked[at].samples[0].weights_after));
    let number = |n: u8| settings_of(4, n, 0, 0).examine();
    let n = (1..).find(|&n| number(n + 1) == 0).expect("an N");
    let (answer, passes, b) = (number(n), n + 1, first_block(0).0.b);
    let refused = image(&State::fresh());
    assert_eq!(refused[3..], [0; 17]);
    let ones = hexadecimal(&refused[..3]);
    let cases = [
        admitted(1, 0, 0),
        admitted(3, 2, 1),
        format!("that of 0 is {none}, of 1 is {one}, of ±4 is {three}.\n"),
        format!("\n- T(3/2) = {up}, T(-3/2) = {down} (\\*). r = 1: "),
        format!(" r = 1: y = 2 decides {two} (\\*), y = -2 decides {less} (\\*).\n"),
        format!(
            "\n- A new weight of {stays} stays (\\*), {least} halves all (\\*), {below} becomes {becomes} (\\*).\n"
        ),
        format!("\n- The worked example's weights: {first} (\\*), then {second} (\\*).\n"),
        format!("\n- p = 4: N = {n} gives {answer}, N = {passes} passes. A block of zeros: b = {b}.\n"),
        format!(": {ones} and seventeen bytes of 0.\n"),
    ];
    say_all(&equaliser(), cases);
}

// ---- the definitions that the pages name

/// The text of a file below `crates/`, or of every file of a folder there.
fn source(name: &str) -> String {
    let path = format!("{}/../../crates/{name}", env!("CARGO_MANIFEST_DIR"));
    if !name.ends_with('/') {
        return std::fs::read_to_string(&path).unwrap_or_else(|error| panic!("{name}: {error}"));
    }
    let files = std::fs::read_dir(&path).unwrap_or_else(|error| panic!("{name}: {error}"));
    let text = |file: std::fs::DirEntry| std::fs::read_to_string(file.path()).expect("a text");
    files.map(|file| text(file.expect("a file"))).collect()
}

#[test]
fn each_definition_stands_in_a_file_that_the_page_names_beside_it() {
    for (name, count) in [("EQUALISER", 12), ("LABORATORY", 4), ("SWAPPED", 1)] {
        let page = page(name);
        let formal: Vec<&str> = page.split("*Formally*: ").skip(1).collect();
        assert_eq!(formal.len(), count, "{name}");
        for part in formal {
            let part = part.split("\n\n").next().unwrap_or(part);
            let quoted: Vec<&str> = part.split('`').skip(1).step_by(2).collect();
            let (files, names): (Vec<&str>, Vec<&str>) = quoted.into_iter().partition(|word| word.contains('/'));
            let sources: String = files.into_iter().map(source).collect();
            for name in names {
                let separators = |c: char| c.is_whitespace() || "(){};,.".contains(c);
                assert!(sources.split(separators).any(|word| word == name), "{name} in: {part}");
            }
        }
    }
}
