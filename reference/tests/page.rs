//! The bytes and numbers of `docs/EQUALISER.md`, made anew.

use reference::block::{decide, step7, work, BlockDetail, Rule, SampleDetail};
use reference::cable::{gain, mantissa, sum_at};
use reference::description::{description, Description};
use reference::numbers::{bit_length, is_symbol, scale_count, Dyadic};
use reference::readings::{magnitude, readings, Power, Reading};
use reference::swapped::{partner, swapped_trace, unpaired};
use reference::trace::{read, trace_with_state, Trace};
use reference::vectors::spoiled::worked_example;
use reference::vectors::{worked_lists, Lists};
use reference::{load, save, set_up, trace, Inputs, Settings, State};
use std::fmt::Display;
use std::ops::RangeInclusive;

fn file(name: &str) -> Vec<u8> {
    let path = format!("{}/../{name}", env!("CARGO_MANIFEST_DIR"));
    std::fs::read(&path).unwrap_or_else(|error| panic!("{name}: {error}"))
}

/// The number of a list entry that begins with this line, 0 for one without.
fn entry_number(line: &str) -> Option<u8> {
    let word = line.trim_start().split(' ').next()?;
    match word {
        "-" => Some(0),
        _ => word.strip_suffix('.')?.parse().ok().filter(|&n| n > 0),
    }
}

/// Whether a line stands by itself: empty, a heading, a row of a table or a
/// line of an example.
fn stands_apart(line: &str) -> bool {
    let begins = ["# ", "## ", "### ", "| ", "|-", "    "];
    line.is_empty() || begins.iter().any(|begin| line.starts_with(begin))
}

/// The page, each paragraph, list entry, row of a table and line of an example
/// on one line. An entry with a number is the first or follows the one before.
fn page() -> String {
    let text = String::from_utf8(file("reference/EQUALISER.md")).expect("the page is UTF-8");
    let mut page = String::new();
    let (mut before, mut number) = ("", 0);
    for line in text.lines() {
        let entry = entry_number(line).filter(|&n| n <= 1 || n == number + 1);
        if stands_apart(before) || stands_apart(line) || entry.is_some() {
            page += line;
        } else {
            page.pop();
            page += " ";
            page += line.trim_start();
        }
        page += "\n";
        number = entry.unwrap_or(number);
        before = line;
    }
    page
}

fn hexadecimal(bytes: &[u8]) -> String {
    let bytes: Vec<String> = bytes.iter().map(|byte| format!("{byte:02X}")).collect();
    bytes.join(" ")
}

fn bytes_of(text: &str) -> Vec<u8> {
    let byte = |word: &str| u8::from_str_radix(word, 16).expect("a byte");
    text.split(' ').map(byte).collect()
}

/// Whether the page has these bytes, perhaps over several lines.
fn has_bytes(page: &str, bytes: &[u8]) -> bool {
    let digits = |c: char| c.is_ascii_digit() || ('A'..='F').contains(&c);
    let is_byte = |word: &&str| word.len() == 2 && word.chars().all(digits);
    let kept: Vec<String> = page
        .lines()
        .map(|line| {
            line.split_whitespace()
                .take_while(is_byte)
                .collect::<Vec<_>>()
                .join(" ")
        })
        .collect();
    let wanted = hexadecimal(bytes);
    kept.join(" ").contains(&wanted) || page.contains(&wanted)
}

fn has_text(page: &str, text: &str) -> bool {
    let lines: String = text.lines().map(|line| format!("    {line}\n")).collect();
    page.contains(&lines)
}

/// The part has this text, its numbers with the minus sign of the page.
fn says(part: &str, text: &str) {
    let text = text.replace('-', "−").replace("\n− ", "\n- ");
    assert!(part.contains(&text), "{text}");
}

fn say_all<const COUNT: usize>(part: &str, texts: [String; COUNT]) {
    texts.iter().for_each(|text| says(part, text));
}

/// A number with a comma before every three digits.
fn grouped(number: u32) -> String {
    match number {
        0..=999 => number.to_string(),
        _ => format!("{},{:03}", grouped(number / 1000), number % 1000),
    }
}

/// A power of two as such, another number in decimal.
fn power(number: i128) -> String {
    match number.count_ones() {
        1 => format!("2^{}", number.ilog2()),
        _ => number.to_string(),
    }
}

fn sizes(s: &Settings) -> String {
    let Settings { p, q, n, r, l, .. } = s;
    format!("p = {p}, q = {q}, N = {n}, r = {r}, L = {l}")
}

/// The terms of a sum and, where there are several, the sum.
fn summed(terms: &[i128]) -> String {
    let sum: i128 = terms.iter().sum();
    let later: String = terms[1..].iter().map(|term| format!("{term:+}")).collect();
    let later = later.replace('+', " + ").replace('-', " - ");
    match later.is_empty() {
        true => sum.to_string(),
        false => format!("{}{later} = {sum}", terms[0]),
    }
}

fn image(state: &State) -> Vec<u8> {
    let mut buffer = vec![0; 140];
    let (number, length) = save(state, &mut buffer);
    assert_eq!(number, 0);
    buffer.truncate(length);
    buffer
}

/// Numbers with a minus sign as a page has it.
fn words(numbers: impl IntoIterator<Item = impl Display>) -> String {
    let words: Vec<String> = numbers.into_iter().map(|n| n.to_string()).collect();
    words.join(" ").replace('-', "−")
}

fn both(numbers: impl IntoIterator<Item = impl Display>) -> String {
    words(numbers).replace(' ', " and ")
}

fn pair(one: impl Display, two: impl Display) -> String {
    format!("{one}, {two}").replace('-', "−")
}

fn row(place: usize, entry: (i16, u8, i8), block: &BlockDetail, d: &SampleDetail) -> String {
    let given = format!("{}, {}, {}", entry.0, entry.1, entry.2).replace('-', "−");
    let (forward, feedback) = d.weights_after.split_at(d.a.len());
    let cells = [
        place.to_string(),
        given,
        format!("{}, {}, {}", block.b, block.bmax, block.gamma),
        words(&d.a),
        format!("{}, {}", d.nu, words(&d.held)),
        pair(d.f, d.h),
        pair(d.y, d.xi),
        pair(d.decision, d.v),
        pair(d.z, d.theta),
        pair(d.j_forward, d.j_feedback),
        format!("{}, {}", words(forward), words(feedback)),
    ];
    format!("| {} |\n", cells.join(" | "))
}

/// The scale count that every k of the range has.
fn common_scale_count(range: RangeInclusive<u8>) -> i32 {
    let s = scale_count(*range.start());
    for k in range {
        assert_eq!(scale_count(k), s, "{k}");
    }
    s
}

/// The scale counts of 1 to 16, then that of 17 to 32 and that of 33 to 64.
fn scale_counts() -> Vec<i32> {
    let later = [common_scale_count(17..=32), common_scale_count(33..=64)];
    (1..=16).map(scale_count).chain(later).collect()
}

/// What the page has of these counts: among the numbers, and a line among the
/// cases beside the limits.
fn texts_of_scale_counts(counts: &[i32]) -> [String; 2] {
    let (sixteen, later) = counts.split_at(16);
    let sixteen = words(sixteen);
    let (to_32, to_64) = (later[0], later[1]);
    [
        format!(
            "For k = 1 to 16: {sixteen}; \
             for k = 17 to 32 it is {to_32}, for k = 33 to 64 it is {to_64}."
        ),
        format!(
            "\n- S(k) for k = 1 to 16: {sixteen} (\\*); \
             {to_32} for k = 17 to 32 (\\*); {to_64} for k = 33 to 64 (\\*).\n"
        ),
    ]
}

#[test]
fn the_scale_counts_are_on_the_page() {
    let page = page();
    let counts = scale_counts();
    for text in texts_of_scale_counts(&counts) {
        assert!(page.contains(&text), "{text}");
    }
    for place in 0..counts.len() {
        let mut other = counts.clone();
        other[place] += 1;
        for text in texts_of_scale_counts(&other) {
            assert!(!page.contains(&text), "{text}");
        }
    }
}

#[test]
fn the_traces_texts_and_images_are_on_the_page() {
    let page = page();
    for name in ["worked", "blocks"] {
        let bytes = file(&format!("examples/traces/{name}.trace"));
        let (text, state) = trace_with_state(&bytes);
        assert!(has_bytes(&page, &bytes), "{name}: trace");
        assert!(has_text(&page, &text), "{name}: text");
        assert!(has_bytes(&page, &image(&state)), "{name}: image");
        let mut other = image(&state);
        other[5] ^= 1;
        assert!(!has_bytes(&page, &other), "{name}: another image");
    }
}

/// A trace of the examples and its blocks, worked out.
fn example(name: &str) -> (Trace, Vec<BlockDetail>) {
    let trace = read(&file(&format!("examples/traces/{name}.trace"))).expect("a trace");
    let (_, mut state) = set_up(trace.settings);
    let mut details = Vec::new();
    for block in &trace.blocks {
        let (detail, next) = work(&state, block.inputs()).expect("an accepted block");
        details.push(detail);
        state = next;
    }
    (trace, details)
}

#[test]
fn the_longer_example_has_these_rows() {
    let part = part(&page(), "A longer example");
    let (trace, details) = example("blocks");
    for (at, (given, detail)) in trace.blocks.iter().zip(&details).enumerate() {
        for (i, sample) in detail.samples.iter().enumerate() {
            let entry = (given.samples[i], given.gains[i], given.training[i]);
            says(&part, &row(2 * at + i, entry, detail, sample));
        }
    }
    let s = trace.settings;
    let (settings, m) = (sizes(&s), grouped(s.largest_m()));
    let (scale, scale_back) = (scale_count(s.p), scale_count(s.q));
    let psi = details[3].samples[1].psi_after;
    let [b0, b1, b3] = [0, 1, 3].map(|block: usize| details[block].bmax);
    let newest = |block: usize| (details[block].stored[1], details[block + 1].past[0]);
    let [cut, raised] = [newest(0), newest(2)].map(|(old, new)| format!("{old} to {new}"));
    let said = format!(
        "{settings} and M = {m}, the greatest admitted; S = {scale}, S′ = {scale_back}, \
         ψ stays {psi}. Four blocks, of which two are trained; B rises from {b0} to {b1} and falls \
         to {b3}, so that old samples are cut in the second block ({cut}) and multiplied in the \
         fourth ({raised})."
    );
    assert_eq!(s.m, s.largest_m());
    says(&part, &said);
}

/// A column of the worked example's table.
fn column(s: &Settings, entry: i8, block: &BlockDetail) -> [String; 12] {
    let d = &block.samples[0];
    let (x, a, f, past) = (block.x[0], d.a[0], d.f, d.symbols[0]);
    let k = scale_count(s.q) + bit_length(d.v);
    let by = if entry == 0 { "decision" } else { "entry" };
    let told = |text: String, result: String| match f {
        0 => result,
        _ => format!("{text} = {result}"),
    };
    let product = told(format!("{}·{a}", d.weights_before[0]), power(f));
    let cut = format!("T({}·2^({}−{}))", power(f), block.gamma, d.nu);
    let difference = format!("{} − {}", power(d.v << (30 - k)), power(d.y));
    let output = match d.y {
        0 => "0".to_string(),
        y => format!("1/{}", (1 << (30 - d.xi)) / y),
    };
    let gain = |place: usize| d.weights_new[place] - d.weights_before[place];
    [
        format!("{}, {}, {}", power(x), block.b, block.bmax),
        block.gamma.to_string(),
        a.to_string(),
        format!("{past}, {}, {}, {}", bit_length(past), d.nu, d.held[0]),
        pair(product, d.h),
        pair(told(cut, d.y.to_string()), d.xi),
        pair(output, d.decision),
        format!("{} ({by}), {k}", d.v),
        pair(told(difference, power(d.z)), d.theta),
        pair(power(d.j_forward), gain(0)),
        pair(power(d.j_feedback), gain(1)),
        pair(d.weights_after[0], d.weights_after[1]),
    ]
}

#[test]
fn the_worked_example_has_this_table() {
    let part = part(&page(), "Worked example");
    let (trace, details) = example("worked");
    let (s, given) = (trace.settings, &trace.blocks);
    let scale = scale_count(s.p);
    let (m, power_m, of) = (grouped(s.m), power(s.m.into()), (1 << 30) / s.m);
    let (sample, g, entry) = (given[0].samples[0], given[0].gains[0], given[0].training[0]);
    let said = format!(
        "p = q = N = {}, r = L = {}, M = {m} = {power_m}, so μ = 1/{of}; S = S′ = {scale}. \
         Two blocks of one sample, both m = {sample} with gain {g}; \
         the first is trained with {entry}, the second decided. ψ stays {}.",
        s.p, s.r, details[1].samples[0].psi_after
    );
    says(&part, &said);
    let heads = format!(
        "X, b, B; γ = {} − 30 + B + {scale}; A = T(X·2^(15−{})); past symbol, c, ν, held; F, H; \
         Y, ξ (γ is not above ν); y, decision; v, k; Z, θ; J feed forward, its gain; \
         J feedback, its gain; weights after",
        s.r,
        details[0].bmax + scale
    );
    let [one, two] = [0, 1].map(|at| column(&s, given[at].training[0], &details[at]));
    for ((head, one), two) in heads.split("; ").zip(one).zip(two) {
        says(&part, &format!("\n| {head} | {one} | {two} |\n"));
    }
}

/// The last column of the table of a layout, on one line.
fn example_column(part: &str) -> String {
    let table = part.split(" | in the example").nth(1).expect("a table");
    let rows = table.lines().skip(2).take_while(|row| !row.is_empty());
    let last = |row: &str| row.rsplit(" | ").next().unwrap_or(row).to_string();
    let cells: Vec<String> = rows.map(last).collect();
    cells.join(", ").replace(" |", "")
}

#[test]
fn the_layouts_have_these_examples() {
    let page = page();
    let column = |heading: &str| example_column(&part(&page, heading));
    let trace = file("examples/traces/worked.trace");
    assert_eq!(column("The trace").replace(',', ""), hexadecimal(&trace));
    let cable = hexadecimal(&worked_example().bytes());
    assert_eq!(column("A cable on paper").replace(',', ""), cable);
    let (_, state) = trace_with_state(&trace);
    let image = image(&state);
    let word = |at: usize| hexadecimal(&image[at..at + 2]);
    let cells = [
        hexadecimal(&image[..8]),
        hexadecimal(&image[8..12]),
        format!("{} ({})", word(12), state.weights[0]),
        format!("{} ({})", word(14), state.weights[1]),
        format!("{} (the {})", word(16), state.filler()),
        format!("{} (the symbol {})", word(18), state.past_symbols()[0]),
    ];
    assert_eq!(column("The saved image"), cells.join(", "));
}

/// The image of a state with what is written beside its lines.
fn image_is_told(part: &str, state: &State) {
    assert!(has_bytes(part, &image(state)));
    let (forward, feedback) = state.weights.split_at(state.settings.p.into());
    let weights = format!("     weights {}, {}\n", words(forward), words(feedback));
    says(part, &weights);
    let samples = words(state.past_samples());
    let symbols = words(state.past_symbols());
    let data = format!("     samples {samples}, the 0, symbols {symbols}\n");
    assert_eq!(part.contains(&data), !samples.is_empty(), "{data}");
}

#[test]
fn the_images_are_told_on_the_page() {
    let page = page();
    let (_, longer) = trace_with_state(&file("examples/traces/blocks.trace"));
    image_is_told(&part(&page, "A longer example"), &longer);
    let station = String::from_utf8(file("firmware/station.out")).expect("a text");
    let mut images = station
        .lines()
        .filter_map(|line| line.strip_prefix("image "));
    let (number, state) = load(&bytes_of(images.nth(1).expect("a second image")));
    assert_eq!(number, 0);
    let part = part(&page, "The saved image");
    let (settings, m) = (sizes(&state.settings), grouped(state.settings.m));
    let said = format!(
        "\nOne with {settings}, ψ = {}, b = B = {} and M = {m}:\n",
        state.psi, state.b
    );
    says(&part, &said);
    image_is_told(&part, &state);
}

/// A block of one sample with one tap each.
fn block_of(state: &State, (sample, gain, entry): (i16, u8, i8)) -> (BlockDetail, State) {
    let inputs = Inputs {
        samples: &[sample],
        gains: &[gain],
        training: &[entry],
    };
    work(state, inputs).expect("an accepted block")
}

/// Such a block that the page works out: the image before it, the sample with
/// its gain and entry, and what step 7 does.
struct Worked {
    image: &'static str,
    given: (i16, u8, i8),
    done: &'static str,
}

const HALVING: Worked = Worked {
    image: "01 01 01 01 02 03 1C 1C B1 13 3B 01 FC 3F D7 DC 00 00 01 00",
    given: (30001, 2, 3),
    done: "the first has reached 16384, so both are halved",
};

const DOUBLING: Worked = Worked {
    image: "01 01 01 01 02 03 1C 1C B1 13 3B 01 18 10 17 FC 00 00 01 00",
    given: (20001, 2, -1),
    done: "both are below 4096 and ψ is not 0, so both are doubled",
};

impl Worked {
    fn state(&self) -> State {
        let (number, state) = load(&bytes_of(self.image));
        assert_eq!((number, state.settings.m), (0, state.settings.largest_m()));
        state
    }

    /// What the page says of the block, up to the new weights.
    fn said(&self, s: &Settings, block: &BlockDetail) -> String {
        let (given, d) = (self.given, &block.samples[0]);
        let (x, b, gamma) = (block.x[0], block.b, block.gamma);
        let (a, nu, held, f, h) = (d.a[0], d.nu, d.held[0], d.f, d.h);
        let (y, xi, v, z, theta) = (d.y, d.xi, d.v, d.z, d.theta);
        let (over, k) = (1 << (nu - gamma), scale_count(s.q) + bit_length(v));
        let raised = format!("{v}·2^{}", 30 - xi).replace("-1·", "-");
        format!(
            "A block of the sample m = {} with gain {} and the entry {} \
             gives X = {x}, b = B = {b}, γ = {gamma}, A = {a}, ν = {nu}, held {held}; \
             F = {f}, H = {h}; Y = H + T(F/{over}) = {y}, ξ = {xi}; decision {}; \
             v = {v}, k = {k}, Z = {raised} − Y = {z}, θ = {theta}; J = {} and {}. ",
            given.0, given.1, given.2, d.decision, d.j_forward, d.j_feedback
        )
    }
}

/// The part of the page below a heading.
fn part(page: &str, heading: &str) -> String {
    let (_, rest) = page
        .split_once(&format!("\n## {heading}\n"))
        .expect(heading);
    rest.split("\n## ").next().unwrap_or(rest).to_string()
}

/// The block and both images stand below the heading.
fn stands_on_the_page(worked: &Worked, heading: &str) {
    let state = worked.state();
    let (block, next) = block_of(&state, worked.given);
    let part = part(&page(), heading);
    let told = |state: &State| {
        assert_eq!(state.b, state.bmax);
        (both(&state.weights), hexadecimal(&image(state)))
    };
    let ((weights, bytes), (after, bytes_after)) = (told(&state), told(&next));
    let said = format!(
        ", ψ = {}, b = B = {}, weights {weights}, the past symbol {}: the image\n\n    {bytes}\n",
        state.psi, state.b, state.data[1]
    );
    says(&part, &said);
    let d = &block.samples[0];
    let gain = |at: usize| d.weights_new[at] - d.weights_before[at];
    let [one, two] = [0, 1].map(|at| summed(&[d.weights_before[at], gain(at)]));
    let said = format!(
        "{}The new weights are {one} and {two}; {}, to {after}, and ψ becomes {}:\n\n    \
         {bytes_after}\n",
        worked.said(&state.settings, &block),
        worked.done,
        next.psi
    );
    says(&part, &said);
}

#[test]
fn the_halving_is_on_the_page() {
    stands_on_the_page(&HALVING, "A halving");
    let s = HALVING.state().settings;
    let (sizes, m) = (sizes(&s).replace("1, q = 1, N", "q = N"), grouped(s.m));
    let said = format!("\n{sizes}, M = {m} (the greatest admitted), ψ");
    says(&page(), &said);
}

#[test]
fn the_doubling_is_on_the_page() {
    stands_on_the_page(&DOUBLING, "A doubling");
    let page = page();
    assert!(page.contains("[a doubling](#a-doubling)"));
    let mut state = DOUBLING.state();
    let d = &block_of(&state, DOUBLING.given).0.samples[0];
    let same = format!(
        "\n{}·2^({}−15) is {}·2^({}−15): no value has changed",
        d.weights_new[0], d.psi_before, d.weights_after[0], d.psi_after
    );
    // One more, and nothing is doubled.
    state.weights[0] += 1;
    let (block, next) = block_of(&state, DOUBLING.given);
    let d = &block.samples[0];
    assert_eq!(d.weights_new, d.weights_after);
    let stays = format!(
        "With a first weight of {} the new ones would be {} and {}, and ψ would stay {}.",
        state.weights[0], d.weights_new[0], d.weights_new[1], next.psi
    );
    let blocks = (0..).find(|&blocks| after_zeros(15, [0, 0], blocks).0 == 0);
    let blocks = blocks.expect("an end");
    let zeros = format!(" from ψ = 15 to 0 in {blocks} samples.");
    say_all(&page, [same, stays, zeros]);
}

/// Settings with p = q and M = 0.
fn settings_of(p: u8, n: u8, r: u8, l: u8) -> Settings {
    let (q, m) = (p, 0);
    Settings { p, q, n, r, l, m }
}

/// ψ and the weights after blocks of one 0 each, with one tap each and M = 0.
fn after_zeros(psi: u8, weights: [i16; 2], blocks: usize) -> (u8, Vec<i16>) {
    let mut state = State::zeros(settings_of(1, 1, 0, 0));
    state.psi = psi;
    state.weights = weights.to_vec();
    for _ in 0..blocks {
        (_, state) = block_of(&state, (0, 0, 1));
    }
    (state.psi, state.weights)
}

#[test]
fn the_cases_beside_the_doubling_are_as_the_page_says() {
    let line = "- At ψ = 1 new weights of 4095 become 8190, and ψ becomes 0; \
        one of 4096 or −4096, in either filter, and all stay. At ψ = 0 weights of 4095 stay. \
        Where 16384 halves all, 4095 becomes 2047 and nothing is doubled. \
        At ψ = 3 weights of 0 bring ψ to 2, to 1, then to 0, where it stays.\n";
    assert!(page().replace(" (\\*)", "").contains(line));
    assert_eq!(after_zeros(1, [4095, 4095], 1), (0, vec![8190, 8190]));
    for one in [4096, -4096] {
        for weights in [[one, 4095], [4095, one]] {
            assert_eq!(after_zeros(1, weights, 1), (1, weights.to_vec()));
        }
    }
    assert_eq!(after_zeros(0, [4095, 4095], 1), (0, vec![4095, 4095]));
    let halved = step7(Rule::Amended, 5, &[16384, 4095]);
    assert_eq!(halved, (6, vec![8192, 2047]));
    for (blocks, psi) in [(1, 2), (2, 1), (3, 0), (4, 0)] {
        assert_eq!(after_zeros(3, [0, 0], blocks), (psi, vec![0, 0]));
    }
}

#[test]
fn the_refused_traces_stop_as_the_page_says() {
    let rows = [
        (
            "01 01 01 00 00 00 01 00 01 00 00 04 00 40 00 01",
            "stop 2 0\n",
        ),
        (
            "01 01 01 00 00 00 02 00 00 00 00 04 00 40 00 00 40 10 01 00",
            "0 0 1 1\nstop 4 1\n",
        ),
        (
            "01 01 01 00 00 00 02 00 00 00 00 04 00 40 00 00 40 00 01 03",
            "0 0 1 1\nstop 5 1\n",
        ),
        (
            "01 01 01 00 00 00 02 00 00 00 00 04 00 40 00 00 40 00 01",
            "stop 8 0\n",
        ),
        ("04 01 02 00 00 00 00 00 00 00 00 00", "stop 1 0\n"),
        ("01 01 01 00 00 00 00 00 00 00 00 00", ""),
    ];
    let page = page();
    for (bytes, text) in rows {
        let row = page
            .lines()
            .find(|line| line.starts_with(&format!("| {bytes} (")));
        let row = row.unwrap_or_else(|| panic!("no row of {bytes}"));
        assert_eq!(trace(&bytes_of(bytes)), text);
        let said: Vec<&str> = text.lines().collect();
        let said = said.join("`, then `");
        let said = if said.is_empty() {
            "nothing".to_string()
        } else {
            format!("`{said}`")
        };
        assert!(row.ends_with(&format!(" | {said} |")), "{row}");
    }
}

/// s, g and m at a place.
fn received(cable: &Description, n: usize) -> (i128, u8, i16) {
    let s = sum_at(&cable.response, &cable.symbols, n);
    let g = gain(s, cable.settings.r).expect("a gain");
    (s, g, mantissa(s, g, cable.settings.r))
}

/// The row of the worked cable's table at a place.
fn cable_row(cable: &Description, n: usize) -> String {
    let (s, g, m) = received(cable, n);
    let factors = cable.response.iter().zip(cable.symbols[..=n].iter().rev());
    let products = factors.map(|(&h, &v)| i128::from(h) * i128::from(v));
    let sum = summed(&products.collect::<Vec<_>>());
    let scaled = match s % 2 != 0 && g < cable.settings.r {
        true => format!("T({m}.5) = {m}"),
        false => m.to_string(),
    };
    let symbol = cable.symbols[n];
    let trained = n < cable.training as usize;
    let entry = if trained { symbol } else { 0 };
    format!("\n| {n} | {symbol} | {sum} | {g} | {scaled} | {entry} |\n")
}

#[test]
fn the_cable_is_on_the_page() {
    let page = page();
    let example = worked_example();
    let (bytes, count) = (example.bytes(), example.symbols.len());
    let written = description(&bytes);
    assert!(has_bytes(&page, &bytes) && has_bytes(&page, &written));
    assert!(has_text(&page, &trace(&written)));
    for n in 0..count {
        says(&page, &cable_row(&example, n));
    }
    let s = example.settings;
    assert_eq!(s.m, s.largest_m());
    let (m, power_m) = (grouped(s.m), power(s.m.into()));
    let sizes = sizes(&s).replace("1, q", "q");
    let response = words(&example.response).replace(' ', ", ");
    let (symbols, values, length) = (words(&example.symbols), example.response.len(), bytes.len());
    let said = format!(
        "\n{sizes} and M = {m} = {power_m}, the greatest admitted. The response is {response} \
         (in units of 1/32768: about a half, −1, a half, and next to nothing). Six symbols \
         are sent, {symbols}, of which the first three are training entries. \
         The description, 20 + 2·{values} + {count} = {length} bytes:\n"
    );
    let (length, blocks) = (written.len(), count / usize::from(s.n));
    let traced = format!(" 12 + 4·{count} = {length} bytes, with a count of {blocks} blocks:\n");
    say_all(&page, [said, traced]);
}

#[test]
fn the_gains_of_the_cable_are_as_the_page_says() {
    let (example, r) = (worked_example(), worked_example().settings.r);
    let [g0, g1, g3] = [0, 1, 3].map(|n| received(&example, n).1);
    let places = [(0, g0), (0, g0 + 1), (1, g1), (3, g3 + 1)];
    let [below, not, still, passed] = places.map(|(n, g)| {
        let s = received(&example, n).0.abs();
        format!("{s}·{} = {}", 1 << g, s << g)
    });
    let bound = (0..).find(|&s| gain(s, r).is_none()).expect("an end");
    let (power, most) = (power(bound), bound - 1);
    let said = format!(
        "The bound for |s|·2^g is {power} = {bound}. At n = 0, {below} is below it and {not} is \
         not, so g = {g0}; at n = 1, {still} is still below it, so g = {g1}. At n = 3, {passed} \
         has passed it, so g = {g3}, and with g below r the last bit of s is cut, toward zero. \
         At n = 5 s is close to the end: {most} is the greatest |s| that has a gain with r = {r}.\n"
    );
    let without = both((0..6).filter(|&n| received(&example, n).1 == 0));
    let none = example.symbols.iter().find(|&&v| !is_symbol(v.into(), 0));
    let none = none.expect("no symbol");
    let s = sum_at(&example.response, &[1, 1, 1, -1, -3, 3], 5);
    let notes = [
        said,
        format!("(r) is 00: {none} is no symbol then |"),
        format!("(L) is 01: the gains at n = {without} are 0 |"),
        format!("33 is 03: s at n = 5 would be {s} |"),
    ];
    say_all(&page(), notes);
}

/// A change of the cable's description as the page tells it: where, and to what.
fn changed(text: &str, bytes: &[u8]) -> Option<Vec<u8>> {
    let mut other = bytes.to_vec();
    if text.starts_with("byte 6 is 00 and bytes 20 to 27 are gone") {
        other.drain(20..28);
        other[6] = 0;
        return Some(other);
    }
    if text.starts_with("bytes 12 to 15 are FE 3F 00 00, with as many symbols of 01") {
        other.truncate(28);
        other[12..16].copy_from_slice(&0x3FFEu32.to_le_bytes());
        other.resize(28 + 0x3FFE, 1);
        return Some(other);
    }
    let words: Vec<&str> = text.split([' ', ':', ',']).collect();
    let place: usize = words.get(1)?.parse().ok()?;
    let at = words.iter().position(|word| *word == "is")?;
    other[place] = u8::from_str_radix(words.get(at + 1)?, 16).ok()?;
    Some(other)
}

#[test]
fn the_changed_cables_are_turned_down_as_the_page_says() {
    let page = page();
    let bytes = worked_example().bytes();
    let rows: Vec<(&str, &str)> = page
        .lines()
        .filter(|line| line.starts_with("| byte") && line.contains("`cable: "))
        .filter_map(|line| line.trim_matches(['|', ' ']).split_once(" | "))
        .collect();
    assert_eq!(rows.len(), 10);
    for (change, line) in rows {
        let other = changed(change, &bytes).unwrap_or_else(|| panic!("{change}"));
        let written = String::from_utf8(description(&other)).expect("a line");
        assert_eq!(format!("`{}`", written.trim_end()), line, "{change}");
        assert_eq!(trace(written.as_bytes()), "stop 8 0\n", "{change}");
    }
}

/// A mantissa over a power of two, or the whole number that this is.
fn quotient(mantissa: i32, places: i32) -> String {
    let value = Dyadic::new(mantissa.into(), -places);
    match value.is_whole() {
        true => words([value.exactly()]),
        false => format!("{} / 2^{places}", words([mantissa])),
    }
}

/// The same with its first decimal place.
fn with_decimal(mantissa: i32, places: i32) -> String {
    let tenths = (10 * i128::from(mantissa)) >> places;
    match quotient(mantissa, places) {
        whole if !whole.contains('/') => whole,
        text => format!("{text} = {}.{}…", tenths / 10, tenths % 10),
    }
}

/// What is answered for lists, with the readings.
fn answer_of(lists: &Lists) -> (String, Vec<Reading>) {
    let mut lent = vec![Reading::default(); lists.readings];
    let answer = match readings(&lists.inputs(), &mut lent) {
        Ok(Power::Mean(power)) => format!("a mean, {:016X}", power.to_bits()),
        Ok(Power::Floor(power)) => format!("a floor, {:016X}", power.to_bits()),
        Err(number) => number.to_string(),
    };
    (answer, lent)
}

#[test]
fn the_readings_are_on_the_page() {
    let part = part(&page(), "Readings for plots");
    let lists = Lists::of(&worked_lists());
    let (answer, lent) = answer_of(&lists);
    let (_, longer) = example("blocks");
    for (n, sample) in [0, 1, 7].into_iter().enumerate() {
        let (y, xi) = (lists.y[n], lists.xi[n]);
        let (z, theta) = (lists.z[n], lists.theta[n]);
        let d = &longer[sample / 2].samples[sample % 2];
        assert_eq!((y.into(), xi.into()), (d.y, d.xi));
        assert_eq!((z.into(), theta.into()), (d.z, d.theta));
        let [y_bits, error_bits] = lent[n].bits();
        let a = magnitude(z, theta);
        let cells = [
            sample.to_string(),
            pair(y, xi),
            quotient(y, 30 - i32::from(xi)),
            format!("{y_bits:016X}"),
            pair(z, theta),
            quotient(z, 30 - i32::from(theta)),
            format!("{error_bits:016X}"),
            with_decimal(z.abs(), 22 - i32::from(theta)),
            a.to_string(),
            (a * a).to_string(),
        ];
        let row = format!("| {} |\n", cells.join(" | "));
        assert!(part.contains(&row), "{row}");
    }
    let sum: i128 = lists.inputs().magnitudes().iter().map(|a| a * a).sum();
    assert!(part.contains(&format!(
        "The sum of a² is {sum}, and 65536·3 = {}.",
        65_536 * 3
    )));
    let bits = answer.strip_prefix("a mean, ").expect("a mean");
    let (whole, rest) = (sum / 196_608, 10i128.pow(17) * (sum % 196_608) / 196_608);
    let said = format!("The quotient {whole}.{rest:017}… has no end; the nearest f64 is {bits}, a");
    says(&part, &said);
}

#[test]
fn the_digits_of_a_reading_are_as_the_page_says() {
    let y = i64::from(worked_lists()[1].0);
    assert_eq!((y << 34).ilog2(), 52);
    let top = y.ilog2();
    let digits = format!("{:013X}", (y << 34) - (1 << 52));
    let field = 1023 + top - 26;
    let said = format!(
        "{y}, say, has {} binary digits, so y of sample 1 is 2^({top}−26) \
         and a fraction times that: its exponent field is 1023 − 8 = {field}, {field:X}, and behind the leading one \
         come the digits of {y}·2^34 − 2^52, {digits}.",
        top + 1
    );
    assert!(page().contains(&said), "{said}");
    let (_, lent) = answer_of(&Lists::of(&worked_lists()));
    let bits = format!("{:016X}", lent[1].y.to_bits());
    assert_eq!(bits, format!("{field:X}{digits}"));
}

/// What the page changes in the worked lists: its words, and the change.
type Change = (&'static str, fn(&mut Lists));

const CHANGES: [Change; 10] = [
    (
        "Z, θ of sample 7 are −65535, 22: 256 times the magnitude is 65535",
        |lists| (lists.z[2], lists.theta[2]) = (-65_535, 22),
    ),
    ("Z, θ of sample 7 are −65536, 22: 65536 is cut", |lists| {
        (lists.z[2], lists.theta[2]) = (-65_536, 22)
    }),
    (
        "Z, θ of sample 7 are −1073741823, 24: an error of nearly −2^24, cut",
        |lists| (lists.z[2], lists.theta[2]) = (-1_073_741_823, 24),
    ),
    ("every Z is 0", |lists| lists.z.fill(0)),
    ("ξ of sample 0 is 0, though its Y is 0", |lists| {
        lists.xi[0] = 0;
    }),
    ("θ of sample 7 is 25", |lists| lists.theta[2] = 25),
    ("Y of sample 1 is −536870912", |lists| {
        lists.y[1] = -536_870_912;
    }),
    ("Z of sample 1 is 1073741824", |lists| {
        lists.z[1] = 1_073_741_824;
    }),
    ("two readings are lent", |lists| lists.readings = 2),
    ("all five lists are empty", |lists| {
        *lists = Lists::default();
    }),
];

#[test]
fn the_changed_lists_are_answered_as_the_page_says() {
    let part = part(&page(), "Readings for plots");
    let rows = part.split("| change | answer |").nth(1).expect("a table");
    assert_eq!(
        rows.lines().filter(|line| line.starts_with("| ")).count(),
        10
    );
    for (change, apply) in CHANGES {
        let mut lists = Lists::of(&worked_lists());
        apply(&mut lists);
        let (answer, _) = answer_of(&lists);
        let row = format!("| {change} | {answer}");
        let bits = answer
            .rsplit(' ')
            .next()
            .map(|word| u64::from_str_radix(word, 16));
        let power = f64::from_bits(bits.expect("a word").expect("bits"));
        let rounded = format!("{row} (about {power:.2}) |\n");
        let found = rows.contains(&format!("{row} |\n")) || rows.contains(&rounded);
        assert!(found, "{row}");
    }
}

/// The heading of the part about swapped pairs.
const SWAPPED: &str = "The two conductors swapped";

#[test]
fn the_swapped_examples_are_on_the_page() {
    let part = part(&page(), SWAPPED);
    for name in ["worked", "blocks"] {
        let bytes = file(&format!("examples/traces/{name}.trace"));
        let (text, state) = trace_with_state(&bytes);
        let swapped = swapped_trace(&bytes).expect("no sample is −32768");
        let (same, other) = trace_with_state(&swapped);
        assert_eq!((unpaired(&state, &other), text), (None, same), "{name}");
        image_is_told(&part, &other);
        assert!(!has_bytes(&part, &image(&state)), "{name}: image");
        let on_page = has_bytes(&part, &swapped) && !has_bytes(&part, &bytes);
        assert_eq!(on_page, name == "worked");
    }
}

/// A first block of one sample with the settings of the worked example, and the
/// state after it.
fn first_block(sample: i16) -> (BlockDetail, State) {
    let (_, worked) = trace_with_state(&file("examples/traces/worked.trace"));
    block_of(&State::zeros(worked.settings), (sample, 0, 1))
}

/// The row of such a block, and the state after it.
fn lowest_row(sample: i16) -> (String, State) {
    let (block, after) = first_block(sample);
    let d = &block.samples[0];
    let cells = [
        words([sample]),
        words([block.x[0]]),
        format!("{}, {}, {}", block.b, block.bmax, block.gamma),
        words([d.a[0]]),
        pair(d.y, d.xi),
        words([d.decision]),
        pair(d.z, d.theta),
        pair(d.j_forward, d.j_feedback),
        pair(after.weights[0], after.weights[1]),
    ];
    (format!("| {} |\n", cells.join(" | ")), after)
}

#[test]
fn the_lowest_sample_is_on_the_page() {
    let part = part(&page(), SWAPPED);
    let [lowest, highest, negative] = [-32768, 32767, -32767].map(|sample| {
        let (row, after) = lowest_row(sample);
        assert!(part.contains(&row), "{row}");
        after
    });
    assert!(unpaired(&lowest, &highest).is_some());
    assert_eq!(unpaired(&negative, &highest), None);
    assert!(!part.contains(&lowest_row(-32766).0));
}

#[test]
fn the_kept_weights_are_on_the_page() {
    let (_, kept) = trace_with_state(&file("examples/traces/worked.trace"));
    let swapped = partner(&kept);
    let y = |state: &State, sample: i16| block_of(state, (sample, 0, 0)).0.samples[0].y;
    let said = format!(
        "weights {} and {}, a block of m = 16384 with gain 0 and no entry gives Y = {}, \
         and one of m = −16384 gives Y = {}; on its partner, weights {} and {}, \
         m = −16384 gives {} again.",
        kept.weights[0],
        kept.weights[1],
        y(&kept, 16384),
        y(&kept, -16384),
        words([swapped.weights[0]]),
        swapped.weights[1],
        y(&swapped, -16384),
    );
    assert!(part(&page(), SWAPPED).contains(&said), "{said}");
}

#[test]
fn the_lowest_sample_is_among_the_cases() {
    let [(low, after_low), (high, after_high)] = [-32768, 32767].map(first_block);
    let (x, b, gamma, a) = (power(-low.x[0]), low.b, low.gamma, low.stored[0]);
    let (bmax, xi, xi_high) = (low.bmax, low.samples[0].xi, high.samples[0].xi);
    let weights = [after_low, after_high].map(|after| both(after.weights));
    let begins = "\n- m = -32768, g = 0, p = 1, r = 0 in the first block:";
    let cases = [
        format!(
            "{begins} X = -{x}, b = {b}, B = {bmax}, γ = 0 − 30 + {bmax} + 1 = {gamma}, \
             stored T(-{x}·2^(15−{})) = {a}.\n",
            bmax + 1
        ),
        format!(
            "{begins} b = {b}, stored {a}, γ = {gamma} (\\*). With the worked example's settings \
             and the entry 1 it has ξ = {xi} and leaves the weights {} (\\*); m = 32767 \
             has b = {}, ξ = {xi_high} and leaves {} (\\*): no swapped pair.\n",
            weights[0], high.b, weights[1]
        ),
    ];
    say_all(&page(), cases);
}

/// What the page says of the greatest M with these sizes.
fn admitted(p: u8, r: u8, l: u8) -> [String; 2] {
    let s = settings_of(p, p, r, l);
    let (m, next, d) = (s.largest_m(), s.largest_m() + 1, s.d().exactly());
    let [greatest, too_great] = [m, next].map(grouped);
    let [0, number] = [m, next].map(|m| s.with_m(m).examine()) else {
        panic!("{m} is turned down");
    };
    let begins = format!("\n- p = q = {p}, r = {r}, L = {l}:");
    let starred = format!(" D = {d} (\\*),").repeat(usize::from(p != 1));
    [
        format!("{begins} D = {d}, so {greatest} is admitted and {too_great} is not.\n"),
        format!("{begins}{starred} M {m} is admitted (\\*), {next} gives {number} (\\*).\n"),
    ]
}

#[test]
fn the_cases_beside_the_limits_are_on_the_page() {
    let page = page();
    say_all(&page, admitted(1, 0, 0));
    say_all(&page, admitted(3, 2, 1));
    let [up, down] = [3, -3].map(|a| Dyadic::new(a, -1).cut());
    let [none, one, three] = [0, 1, -4].map(bit_length);
    let [two, less] = [2, -2].map(|y| decide(Dyadic::whole(y), &settings_of(1, 1, 1, 0)));
    let halved = |w: i128| step7(Rule::Amended, 0, &[w]);
    let least = (0..).find(|&w| halved(w).0 == 1).expect("a weight");
    let (stays, below) = (least - 1, -least - 1);
    let becomes = halved(below).1[0];
    let worked = example("worked").1;
    let [first, second] = [0, 1].map(|at| both(&worked[at].samples[0].weights_after));
    let number = |n: u8| settings_of(4, n, 0, 0).examine();
    let n = (1..).find(|&n| number(n + 1) == 0).expect("an N");
    let (answer, passes, b) = (number(n), n + 1, first_block(0).0.b);
    let refused = image(&State::fresh());
    assert_eq!(refused[3..], [0; 17]);
    let ones = hexadecimal(&refused[..3]);
    let decides = format!("r = 1: y = 2 decides {two} (\\*), y = -2 decides {less} (\\*)");
    let halves = format!("A new weight of {stays} stays (\\*), {least} halves all (\\*)");
    let cases = [
        format!("T(3/2) = {up}, T(-3/2) = {down}. "),
        format!("that of 0 is {none}, of 1 is {one}, of ±4 is {three}.\n"),
        format!("So y = 2 decides {two} and y = -2 decides {less} (with r ≥ 1)"),
        format!("\n- T(-3/2) = {down} (\\*). {decides}.\n"),
        format!("\n- {halves}, {below} becomes {becomes} (\\*).\n"),
        format!("\n- The worked example's weights: {first} (\\*), then {second} (\\*).\n"),
        format!(
            "\n- p = 4: N = {n} gives {answer}, N = {passes} passes. A block of zeros: b = {b}.\n"
        ),
        format!(": {ones} and seventeen bytes of 0.\n"),
    ];
    say_all(&page, cases);
}

/// The text of a file below `crates/`, or of every file of a folder there.
fn source(name: &str) -> String {
    let path = format!("{}/../crates/{name}", env!("CARGO_MANIFEST_DIR"));
    if !name.ends_with('/') {
        return std::fs::read_to_string(&path).unwrap_or_else(|error| panic!("{name}: {error}"));
    }
    let files = std::fs::read_dir(&path).unwrap_or_else(|error| panic!("{name}: {error}"));
    let text = |file: std::fs::DirEntry| std::fs::read_to_string(file.path()).expect("a text");
    files.map(|file| text(file.expect("a file"))).collect()
}

#[test]
fn each_definition_stands_in_a_file_that_the_page_names_beside_it() {
    let page = page();
    let formal: Vec<&str> = page.split("*Formally*: ").skip(1).collect();
    assert!(formal.len() >= 10);
    for part in formal {
        let part = part.split("\n\n").next().unwrap_or(part);
        let quoted: Vec<&str> = part.split('`').skip(1).step_by(2).collect();
        let is_file = |word: &&&str| word.contains('/') && !word.starts_with("docs/");
        let sources: String = quoted
            .iter()
            .filter(is_file)
            .map(|name| source(name))
            .collect();
        for name in quoted.iter().filter(|word| !word.contains('/')) {
            let separators = |c: char| c.is_whitespace() || "(){};,.".contains(c);
            assert!(
                sources.split(separators).any(|word| word == *name),
                "{name} in: {part}"
            );
        }
    }
}
