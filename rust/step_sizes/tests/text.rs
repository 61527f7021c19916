//! The text form: what is taken, what the library would turn down, and each bad line with its number.

mod common;

use common::{given, runs, with_line, EXAMPLE, WORKED};
use plots::random::{Purpose, Random};
use step_sizes::level::{gain_of, level};
use step_sizes::run::trace;
use step_sizes::share::Share;
use step_sizes::text::{draw, read};
use tigbulode::Settings;
use tigbulode_laboratory::{cable, trace_length, Cable};

/// Every problem as the program tells it.
fn problems(text: &str) -> Vec<String> {
    let problems = read(text, &[]).err().unwrap_or_default();
    problems.iter().map(|problem| problem.told("a").replacen("a: ", "", 1)).collect()
}

/// The worked text with lines replaced.
fn with_lines(lines: &[(usize, &str)]) -> String {
    lines.iter().fold(WORKED.to_string(), |text, (number, line)| with_line(&text, *number, line))
}

#[test]
fn the_example_and_the_worked_text_are_taken() {
    let example = given(EXAMPLE);
    assert_eq!((example.symbols.len(), example.steps.len(), example.training), (9600, 3, 3200));
    assert_eq!(example.response[..2], [13107, -2294]);
    let worked = given(WORKED);
    assert_eq!((worked.symbols, worked.steps[0].m), (vec![1, 1], 67_108_864));
    let changed = read(WORKED, &["training=2".to_string(), "M=5 6".to_string()]).expect("in order");
    assert_eq!((changed.training, changed.steps.len()), (2, 2));
}

#[test]
fn every_problem_is_told_in_one_pass_in_the_order_of_lines() {
    let text = "p = 0\nq = 17\nN = 129\nr = 4\nL = -1\nresponse = 5 32768\nsymbols = 1 x\ntraining = 16382\nM = 1 -1\n";
    let whole = "but a whole number from";
    let units = format!("{whole} -32768 to 32767, in units of 1/32768, is wanted");
    let wanted = [
        format!("line 1: p = 0, {whole} 1 to 16 is wanted"),
        format!("line 2: q = 17, {whole} 1 to 16 is wanted"),
        format!("line 3: N = 129, {whole} 1 to 128 is wanted"),
        format!("line 4: r = 4, {whole} 0 to 3 is wanted"),
        format!("line 5: L = -1, {whole} 0 to 15 is wanted"),
        format!("line 6: response: 32768, {units}"),
        "line 7: symbols: x, but an odd number of magnitude at most 2^(r+1) - 1 is wanted".to_string(),
        format!("line 8: training = 16382, {whole} 0 to 16381 is wanted"),
        format!("line 9: M: -1, {whole} 0 to 4294967295 is wanted"),
    ];
    assert_eq!(problems(text), wanted);
    let all = "p, q, N, r, L, response or response_fractions, symbols or random_symbols, training, M or shares";
    assert_eq!(problems(""), [format!("line 1: the text ends, but these are not given: {all}")]);
    let text =
        "p = 4\nq = 1\nN = 2\nr = 0\nL = 2\nresponse = 9000\nsymbols = 1 3\n1\ntraining = 4\nM = 1 67108865\n1\n";
    let wanted = [
        "line 3: N = 2, but with p = 4 at least p - 1 = 3 is wanted",
        "line 7: symbol 1 (from 0) is 3, but an odd number from -1 to 1 is wanted",
        "line 9: training = 4, but there are 3 symbols",
        "line 10: M = 67108865, but with p = 4, q = 1, r = 0, L = 2 at most 67108864 is admitted",
        "line 11: M = 1 comes to M = 1, and so does M = 1: each is wanted once",
    ];
    assert_eq!(problems(text), wanted);
}

#[test]
fn each_cause_is_told_at_its_line_alone() {
    let share = "but a share from 0 to 1 of the greatest admitted M, such as 1/8 or 0.125, is wanted";
    let seven = "M = 1 2 3\n4\nshares = 1 1/2 1/3";
    let cases: [(&[(usize, &str)], &str); 15] = [
        (&[(6, "response =")], "line 6: response has 0 values, but 1 to 32 are wanted"),
        (&[(6, &format!("response ={}", " 1".repeat(33)))], "line 6: response has 33 values, but 1 to 32 are wanted"),
        (&[(9, "M = 1\nresponse_fractions = 0.5")], "line 10: response_fractions, but line 6 gives the same already"),
        (&[(9, "M = 1\nseed = 1")], "line 10: seed, but no line gives random_symbols"),
        (&[(7, "random_symbols = 10")], "line 9: the text ends, but these are not given: seed"),
        (&[(9, "M = 1\nseed = 1\nrandom_symbols = 9")], "line 11: random_symbols, but line 7 gives the same already"),
        (
            &[(3, "N = 3"), (7, "symbols = 1 1\n1 1")],
            "line 8: 4 symbols, but 1 to 5460 whole blocks of N = 3 are wanted",
        ),
        (
            &[(7, "seed = 1\nrandom_symbols = 16382")],
            "line 8: random_symbols = 16382, but a whole number from 1 to 16381 is wanted",
        ),
        (
            &[(3, "N = 128"), (7, "seed = 1\nrandom_symbols = 16300")],
            "line 8: 16300 symbols, but 1 to 127 whole blocks of N = 128 are wanted",
        ),
        (&[(9, "shares = 1/2 1/0")], &format!("line 9: shares: 1/0, {share}")),
        (&[(9, seven)], "line 11: more than 6 step sizes, the most of a page"),
        (&[(9, "M =")], "line 9: M has 0 values, but 1 to 6 are wanted"),
        (
            &[(9, "M = 67108864 1\nshares = 1")],
            "line 10: share 1 comes to M = 67108864, and so does M = 67108864: each is wanted once",
        ),
        (&[(8, "training = 3")], "line 8: training = 3, but there are 2 symbols"),
        (&[(7, "symbols = 1 1\n1 3 1")], "line 8: symbol 3 (from 0) is 3, but an odd number from -1 to 1 is wanted"),
    ];
    for (lines, sentence) in cases {
        assert_eq!(problems(&with_lines(lines)), [sentence]);
    }
}

#[test]
fn a_level_without_a_gain_is_told_with_what_always_fits() {
    let always = "magnitudes of the response that sum to at most";
    let too_loud = with_lines(&[(6, "response = 20000 -20000"), (7, "symbols = 1 1 -1")]);
    let told = format!(
        "line 6: symbol 2 (from 0) has s = -40000, but only |s| below 2^(15+r) = 32768 has a gain \
         ({always} 32767 units of 1/32768, about 0.999, always fit)"
    );
    assert_eq!(problems(&too_loud), [told]);
    let told = format!(
        "line 5: L = 2, but symbol 0 (from 0) has s = 16384, so a gain of 0 \
         ({always} 8191 units of 1/32768, about 0.249, always fit)"
    );
    assert_eq!(problems(&with_lines(&[(5, "L = 2"), (9, "M = 1")])), [told]);
    for (r, l, sum) in [(1, 0, 21845), (2, 0, 18724), (3, 0, 17476), (3, 5, 546), (3, 15, 0)] {
        let text = |response: &str| {
            let sizes =
                [(4, format!("r = {r}")), (5, format!("L = {l}")), (7, format!("symbols = {0} {0}", (2 << r) - 1))];
            let lines = sizes.iter().map(|(number, line)| (*number, line.as_str()));
            with_lines(&lines.chain([(6, &*format!("response = {response}")), (9, "M = 0")]).collect::<Vec<_>>())
        };
        assert!(problems(&text("32767 32767"))[0].contains(&format!("{always} {sum} units of 1/32768, ")), "{r} {l}");
        assert!(problems(&text(&sum.to_string())).is_empty() && problems(&text(&(sum + 1).to_string())).len() == 1);
    }
    let good: [&[(usize, &str)]; 4] = [
        &[(5, "L = 2"), (6, "response = 8191"), (9, "M = 1")],
        &[(9, "M = 1 2 3\nshares = 1 1/2 1/3")],
        &[(7, "seed = 1\nrandom_symbols = 16381")],
        &[(3, "N = 128"), (7, "seed = 1\nrandom_symbols = 16256")],
    ];
    assert!(good.iter().all(|lines| problems(&with_lines(lines)).is_empty()));
}

#[test]
fn fractions_go_to_the_nearest_unit_and_a_minus_sign_counts_as_a_hyphen() {
    let text = with_lines(&[(6, "response_fractions = 0.25 −0.5 0.00003 0.0999 -0.00002 1e-3"), (7, "symbols = 1 −1")]);
    assert_eq!((given(&text).response, given(&text).symbols), (vec![8192, -16384, 1, 3274, -1, 33], vec![1, -1]));
    let wanted = "but a decimal fraction from -1 to 32767/32768 is wanted";
    for word in ["1", "0.99999", "-1.1", "nan", "inf", "1/2", "half"] {
        let line = format!("response_fractions = 0.5 {word}");
        assert_eq!(problems(&with_lines(&[(6, &line)])), [format!("line 6: response_fractions: {word}, {wanted}")]);
    }
}

#[test]
fn random_symbols_are_those_of_their_seed() {
    assert_eq!(draw(12, 1, 1), [1, -1, -3, 1, -3, 3, -1, -3, -1, -3, 3, 1]);
    assert_eq!(draw(9600, 7, 2)[..50], draw(50, 7, 2));
    assert_ne!(draw(50, 8, 2), draw(50, 7, 2));
    for r in 0..=3u8 {
        let (most, drawn) = ((2i8 << r) - 1, draw(20_000, 3, r));
        let count = |symbol: i8| drawn.iter().filter(|v| **v == symbol).count();
        let counts: Vec<usize> = (-most..=most).step_by(2).map(count).collect();
        let each = 20_000 / counts.len();
        assert!(counts.iter().all(|count| count.abs_diff(each) < each / 6), "{counts:?}");
        assert_eq!(counts.iter().sum::<usize>(), 20_000);
    }
}

#[test]
fn a_share_is_exact_and_rounds_down() {
    let of = |word: &str, number: u32| Share::of_word(word).expect(word).of(number);
    for (word, wanted) in [("1/8", 699_050), ("0.125", 699_050), ("1", 5_592_405), ("1.0", 5_592_405), ("0", 0)] {
        assert_eq!(of(word, 5_592_405), wanted, "{word}");
    }
    assert_eq!([".5", "1/3", "2/3"].map(|word| of(word, 10)), [5, 3, 6]);
    assert_eq!(of("0.99999999999999999", 89_478_485), 89_478_484);
    for word in ["", "1/", "/8", "1/0", "9/8", "1.1", "-1/8", "1e-3", "5.", "1/8/2", "0.1.2", "+1", "12 %"] {
        assert_eq!(Share::of_word(word), None, "{word}");
    }
}

#[test]
fn step_sizes_come_in_the_order_of_the_text() {
    let text = with_line(WORKED, 9, "shares = 1/2 1/4\nM = 5 6");
    let steps: Vec<(String, u32)> = runs(&given(&text)).into_iter().map(|run| (run.step.name, run.step.m)).collect();
    let wanted = [("share 1/2", 33_554_432), ("share 1/4", 16_777_216), ("M = 5", 5), ("M = 6", 6)];
    assert_eq!(steps, wanted.map(|(name, m)| (name.to_string(), m)));
}

/// The explanation's sums and gains are those of the library's trace.
#[test]
fn levels_and_gains_are_those_of_the_trace() {
    let given = given(EXAMPLE);
    let trace = trace(&given, 1).expect("it is accepted");
    for (place, sample) in trace.samples.iter().enumerate() {
        let s = level(&given.response, &given.symbols, place);
        assert_eq!(gain_of(s, 2), Some(sample.g));
        assert_eq!((s << sample.g) / 4, i32::from(sample.m));
    }
    assert_eq!([0, 32767, -32768].map(|level| gain_of(level, 0)), [Some(15), Some(0), None]);
}

/// A number mostly within 0 and `most`, at times beyond it.
fn near(random: &mut Random, most: u32) -> u32 {
    match random.below(16) {
        0 => most + random.below(2),
        1 => 0,
        _ => random.below(most + 1),
    }
}

/// Texts around every limit are turned down exactly where the library turns their cable down.
#[test]
fn a_text_is_taken_exactly_where_the_library_takes_its_cable() {
    let mut random = Random::new(1, Purpose::Filler);
    let mut accepted = 0;
    for _ in 0..4000 {
        let [p, q, n, r, l] = [16, 16, 24, 3, 6].map(|most| near(&mut random, most) as u8);
        let settings = Settings { p, q, n, r, l, m: 0 };
        let settings = settings.with_m(near(&mut random, settings.greatest_m().max(1)));
        let response: Vec<i16> = (0..near(&mut random, 4)).map(|_| (random.draw() as i16) >> random.below(9)).collect();
        let count = usize::from(n.max(1)) * random.below(3) as usize + usize::from(random.happens(0.1));
        let symbol = |random: &mut Random| random.symbol(r.min(3)) + i8::from(random.happens(0.003));
        let symbols: Vec<i8> = (0..count).map(|_| symbol(&mut random)).collect();
        let training = near(&mut random, count as u32) as usize;
        let mut bytes = vec![0; trace_length(count)];
        let described = Cable { settings, response: &response, symbols: &symbols, training };
        let number = cable(&described, &mut bytes);
        let list = |numbers: &[i32]| numbers.iter().map(i32::to_string).collect::<Vec<_>>().join(" ");
        let text = format!(
            "p = {p}\nq = {q}\nN = {n}\nr = {r}\nL = {l}\nM = {}\ntraining = {training}\nresponse = {}\nsymbols = {}\n",
            settings.m,
            list(&response.iter().map(|h| i32::from(*h)).collect::<Vec<_>>()),
            list(&symbols.iter().map(|v| i32::from(*v)).collect::<Vec<_>>())
        );
        assert_eq!(problems(&text).is_empty(), number == 0, "{number}: {:?}\n{text}", problems(&text));
        accepted += u32::from(number == 0);
    }
    assert!((200..3000).contains(&accepted), "{accepted}");
}
