//! The lines that the product's program of limit cases has to print, made
//! here anew.

use reference::block::{run, Inputs, Outputs};
use reference::image::save;
use reference::numbers::scale_count;
use reference::settings::Settings;
use reference::state::{set_up, State};

fn sizes(p: u8, q: u8, n: u8, r: u8, l: u8, m: u32) -> Settings {
    Settings { p, q, n, r, l, m }
}

fn scale_counts_line() -> String {
    let counts: String = (1..=64).map(|k| format!(" {}", scale_count(k))).collect();
    format!("scale counts of 1 to 64:{counts}\n")
}

fn set_up_line(s: Settings) -> String {
    let (answer, _) = set_up(s);
    format!(
        "set-up p {} q {} N {} r {} L {} M {}: answer {}\n",
        s.p, s.q, s.n, s.r, s.l, s.m, answer
    )
}

/// A state of one tap each, with its weights and its past symbol.
fn state(r: u8, psi: u8, m: u32, forward: i16, back: i16, symbol: i16) -> State {
    let mut s = State::zeros(sizes(1, 1, 1, r, 0, m));
    s.psi = psi;
    s.weights = vec![forward, back];
    s.data = vec![0, symbol];
    s
}

/// A block of one sample with the gain 0.
fn block(about: &str, s: &mut State, sample: i16, entry: i8) -> String {
    let mut out = Outputs::zeros(1);
    let inputs = Inputs {
        samples: &[sample],
        gains: &[0],
        training: &[entry],
    };
    let answer = run(s, inputs, &mut out);
    let mut image = [0u8; 20];
    let (saved, _) = save(s, &mut image);
    format!(
        "{about}: answer {answer}, Y {}, xi {}, decision {}, save {saved}, psi {}, b {}, B {}, weights {} {}\n",
        out.y[0], out.xi[0], out.decision[0], image[5], image[6], image[7], s.weights[0], s.weights[1]
    )
}

/// Weights beside the doubling, with M = 0.
fn doublings() -> String {
    let mut text = String::new();
    for (about, psi, forward, back) in [
        ("weights 4095 at psi 1", 1, 4095, 4095),
        ("a weight of 4096", 1, 4096, 4095),
        ("a weight of -4096", 1, 4095, -4096),
        ("weights 4095 at psi 0", 0, 4095, 4095),
    ] {
        text += &block(about, &mut state(0, psi, 0, forward, back, 0), 0, 1);
    }
    let mut s = state(0, 2, 0, 0, 0, 0);
    for about in [
        "weights 0 at psi 2",
        "the same once more",
        "the same at psi 0",
    ] {
        text += &block(about, &mut s, 0, 1);
    }
    text
}

/// Settings beside their limits.
fn set_ups() -> String {
    let beside = [
        sizes(1, 1, 1, 0, 0, 67108864),
        sizes(1, 1, 1, 0, 0, 67108865),
        sizes(3, 3, 2, 2, 1, 2581110),
        sizes(3, 3, 2, 2, 1, 2581111),
        sizes(4, 1, 2, 0, 0, 0),
        sizes(4, 1, 3, 0, 0, 0),
    ];
    beside.into_iter().map(set_up_line).collect()
}

/// New weights beside the halving.
fn halvings() -> String {
    let mut text = String::new();
    for (about, m, forward, entry) in [
        ("new weight 16383", 131072, 16382, 1),
        ("new weight 16384", 131072, 16383, 1),
        ("new weight -16385", 196608, -16383, -1),
    ] {
        text += &block(about, &mut state(0, 0, m, forward, -3, 0), 16384, entry);
    }
    text
}

#[test]
fn the_program_has_these_lines() {
    let mut text = scale_counts_line() + &set_ups();
    text += &block(
        "highest sample",
        &mut state(0, 0, 67108864, 0, 0, 0),
        32767,
        1,
    );
    let mut s = state(0, 0, 67108864, 0, 0, 0);
    text += &block("lowest sample", &mut s, -32768, 1);
    text += &block("zeros after it", &mut s, 0, 0);
    text += &block("zeros after those", &mut s, 0, 0);
    text += &block("zeros first", &mut state(0, 0, 67108864, 0, 0, 0), 0, 0);
    text += &block("y 2", &mut state(1, 3, 0, 0, 8192, 1), 0, 0);
    text += &block("y -2", &mut state(1, 3, 0, 0, 8192, -1), 0, 0);
    text += &halvings();
    text += &doublings();
    let mut s = state(0, 0, 67108864, 0, 0, 0);
    text += &block("first sample", &mut s, 16384, 1);
    text += &block("second sample", &mut s, 16384, 0);
    assert_eq!(text, include_str!("../../crates/limit_cases/stdout"));
}
