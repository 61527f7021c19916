//! The lines that the product's program of limit cases has to print, made
//! here anew.

use reference::numbers::scale_count;
use reference::{run, save, set_up, Inputs, Outputs, Settings, State};

/// p, q, N, r, L and M beside their limits.
const SET_UPS: [(u8, u8, u8, u8, u8, u32); 6] = [
    (1, 1, 1, 0, 0, 67108864),
    (1, 1, 1, 0, 0, 67108865),
    (3, 3, 2, 2, 1, 2581110),
    (3, 3, 2, 2, 1, 2581111),
    (4, 1, 2, 0, 0, 0),
    (4, 1, 3, 0, 0, 0),
];

/// r, ψ, M, both weights and the past symbol of a state of one tap each.
type Start = (u8, u8, u32, [i16; 2], i16);

const GREATEST: Option<Start> = Some((0, 0, 67108864, [0, 0], 0));

/// A start with M = 0 and r = 0, where nothing but step 7 changes the weights.
const fn frozen(psi: u8, weights: [i16; 2]) -> Option<Start> {
    Some((0, psi, 0, weights, 0))
}

/// Blocks of one sample with gain 0: what is printed before them, the state, or
/// none where it is the one before, the sample and its entry.
const BLOCKS: [(&str, Option<Start>, i16, i8); 19] = [
    ("highest sample", GREATEST, 32767, 1),
    ("lowest sample", GREATEST, -32768, 1),
    ("zeros after it", None, 0, 0),
    ("zeros after those", None, 0, 0),
    ("zeros first", GREATEST, 0, 0),
    ("y 2", Some((1, 3, 0, [0, 8192], 1)), 0, 0),
    ("y -2", Some((1, 3, 0, [0, 8192], -1)), 0, 0),
    ("new weight 16383", Some((0, 0, 131072, [16382, -3], 0)), 16384, 1),
    ("new weight 16384", Some((0, 0, 131072, [16383, -3], 0)), 16384, 1),
    ("new weight -16385", Some((0, 0, 196608, [-16383, -3], 0)), 16384, -1),
    ("weights 4095 at psi 1", frozen(1, [4095, 4095]), 0, 1),
    ("a weight of 4096", frozen(1, [4096, 4095]), 0, 1),
    ("a weight of -4096", frozen(1, [4095, -4096]), 0, 1),
    ("weights 4095 at psi 0", frozen(0, [4095, 4095]), 0, 1),
    ("weights 0 at psi 2", frozen(2, [0, 0]), 0, 1),
    ("the same once more", None, 0, 1),
    ("the same at psi 0", None, 0, 1),
    ("first sample", GREATEST, 16384, 1),
    ("second sample", None, 16384, 0),
];

fn block(about: &str, s: &mut State, sample: i16, entry: i8) -> String {
    let mut out = Outputs::zeros(1);
    let inputs = Inputs { samples: &[sample], gains: &[0], training: &[entry] };
    let answer = run(s, inputs, &mut out);
    let mut image = [0u8; 20];
    let (saved, _) = save(s, &mut image);
    format!(
        "{about}: answer {answer}, Y {}, xi {}, decision {}, save {saved}, psi {}, b {}, B {}, weights {} {}\n",
        out.y[0], out.xi[0], out.decision[0], image[5], image[6], image[7], s.weights[0], s.weights[1]
    )
}

#[test]
fn the_program_has_these_lines() {
    let counts: String = (1..=64).map(|k| format!(" {}", scale_count(k))).collect();
    let mut text = format!("scale counts of 1 to 64:{counts}\n");
    for (p, q, n, r, l, m) in SET_UPS {
        let (answer, _) = set_up(Settings { p, q, n, r, l, m });
        text += &format!("set-up p {p} q {q} N {n} r {r} L {l} M {m}: answer {answer}\n");
    }
    let mut state = State::fresh();
    for (about, start, sample, entry) in BLOCKS {
        if let Some((r, psi, m, weights, symbol)) = start {
            let (settings, weights) = (Settings { r, m, ..State::fresh().settings }, weights.to_vec());
            state = State { settings, psi, b: 0, bmax: 0, weights, data: vec![0, symbol] };
        }
        text += &block(about, &mut state, sample, entry);
    }
    assert_eq!(text, include_str!("../../../crates/limit_cases/stdout"));
}
