//! The worked example and the cases beside the limits.

use reference::block::{decide, step7, work, Rule};
use reference::numbers::Dyadic;
use reference::trace::trace_with_state;
use reference::{run, save, set_up, trace, Inputs, Outputs, Settings, State};

fn sizes(p: u8, q: u8, n: u8, r: u8, l: u8, m: u32) -> Settings {
    Settings { p, q, n, r, l, m }
}

const EXAMPLE: [u8; 20] = [
    0x01, 0x01, 0x01, 0x00, 0x00, 0x00, 0x02, 0x00, 0x00, 0x00, 0x00, 0x04, 0x00, 0x40, 0x00, 0x00,
    0x40, 0x00, 0x01, 0x00,
];

const EXAMPLE_IMAGE: [u8; 20] = [
    0x01, 0x01, 0x01, 0x00, 0x00, 0x00, 0x1E, 0x1E, 0x00, 0x00, 0x00, 0x04, 0xF0, 0x07, 0xE0, 0x07,
    0x00, 0x00, 0x01, 0x00,
];

#[test]
fn the_worked_example_prints_its_text() {
    assert_eq!(trace(&EXAMPLE), "0 0 1 1\n1 4194304 2 1\n");
}

#[test]
fn the_worked_example_saves_its_image() {
    let (_, state) = trace_with_state(&EXAMPLE);
    let mut buffer = [0xAA; 24];
    assert_eq!(save(&state, &mut buffer), (0, 20));
    assert_eq!(buffer[..20], EXAMPLE_IMAGE);
    assert_eq!(buffer[20..], [0xAA; 4]);
}

#[test]
fn the_worked_example_has_its_weights() {
    let (number, mut state) = set_up(sizes(1, 1, 1, 0, 0, 67_108_864));
    assert_eq!(number, 0);
    let mut outputs = Outputs::zeros(1);
    for (training, weights) in [([1i8], [1024, 0]), ([0], [2032, 2016])] {
        let inputs = Inputs {
            samples: &[0x4000],
            gains: &[0],
            training: &training,
        };
        assert_eq!(run(&mut state, inputs, &mut outputs), 0);
        assert_eq!(state.weights, weights);
    }
}

#[test]
fn the_largest_step_for_one_tap_each() {
    assert_eq!(set_up(sizes(1, 1, 1, 0, 0, 67_108_864)).0, 0);
    assert_eq!(
        set_up(sizes(1, 1, 1, 0, 0, 67_108_865)),
        (2, State::fresh())
    );
    assert_eq!(sizes(1, 1, 1, 0, 0, 0).largest_m(), 67_108_864);
}

#[test]
fn the_largest_step_for_three_taps_each() {
    let three = sizes(3, 3, 2, 2, 1, 0);
    assert_eq!(three.d().exactly(), 416);
    assert_eq!(2_581_110, (1 << 30) / 416);
    assert_eq!(set_up(three.with_m(2_581_110)).0, 0);
    assert_eq!(set_up(three.with_m(2_581_111)).0, 2);
    assert_eq!(three.largest_m(), 2_581_110);
}

#[test]
fn a_fraction_in_d_counts() {
    // p = q = 1, r = 0, L = 15: D = 8 + 2^-13 + 4, and 2^30 / D is a little
    // below 2^30 / 12 = 89478485.33.
    let small = sizes(1, 1, 1, 0, 15, 0);
    assert_eq!(small.d().scaled(13).exactly(), (12 << 13) + 1);
    let exact = (1u128 << 43) / ((12 << 13) + 1);
    assert_eq!(u128::from(small.largest_m()), exact);
    assert!(exact < 89_478_485);
    assert_eq!(set_up(small.with_m(89_478_485)).0, 2);
}

#[test]
fn the_lowest_sample() {
    let (_, state) = set_up(sizes(1, 1, 1, 0, 0, 0));
    let inputs = Inputs {
        samples: &[-32768],
        gains: &[0],
        training: &[0],
    };
    let (detail, after) = work(&state, inputs).unwrap();
    assert_eq!(detail.b, 31);
    assert_eq!(detail.bmax, 31);
    assert_eq!(detail.stored, [-8192]);
    assert_eq!(detail.gamma, 2);
    assert_eq!((after.b, after.bmax), (31, 31));
}

#[test]
fn the_cut_of_minus_three_halves() {
    assert_eq!(Dyadic::new(-3, -1).cut(), -1);
}

#[test]
fn ties_go_to_the_greater_symbol() {
    let one = sizes(1, 1, 1, 1, 0, 0);
    assert_eq!(decide(Dyadic::whole(2), &one), 3);
    assert_eq!(decide(Dyadic::whole(-2), &one), -1);
    assert_eq!(decide(Dyadic::whole(0), &one), 1);
    assert_eq!(decide(Dyadic::new(-1, -60), &one), -1);
    assert_eq!(decide(Dyadic::whole(400), &one), 3);
    assert_eq!(decide(Dyadic::whole(-400), &one), -3);
}

/// Decisions on the outputs of a block: a feedback weight of 2 on the symbols
/// 1 and −1.
#[test]
fn ties_in_a_block() {
    for (symbol, decision) in [(1, 3), (-1, -1)] {
        let (_, mut state) = set_up(sizes(1, 1, 1, 1, 0, 0));
        state.psi = 3;
        state.weights[1] = 8192;
        state.data[1] = symbol;
        let mut outputs = Outputs::zeros(1);
        let inputs = Inputs {
            samples: &[0],
            gains: &[0],
            training: &[0],
        };
        assert_eq!(run(&mut state, inputs, &mut outputs), 0);
        let y = Dyadic::new(i128::from(outputs.y[0]), i32::from(outputs.xi[0]) - 30);
        assert_eq!(y.exactly(), 2 * i128::from(symbol));
        assert_eq!(outputs.decision, [decision]);
    }
}

#[test]
fn halving_at_the_limit() {
    for rule in [Rule::Amended, Rule::RisesOnly] {
        let after = |new: &[i128]| step7(rule, 3, new);
        assert_eq!(after(&[16383, -16383, 7]), (3, vec![16383, -16383, 7]));
        assert_eq!(after(&[16384, 9, -9]), (4, vec![8192, 4, -4]));
        assert_eq!(after(&[1, -16385]), (4, vec![0, -8192]));
        assert_eq!(after(&[1, -16384]), (4, vec![0, -8192]));
    }
}

/// The same within a block. The feedback weight makes the output far too low,
/// so the feed forward weight gains from a positive sample, more with each M.
#[test]
fn halving_at_the_limit_in_a_block() {
    let start = |m: u32| {
        let (_, mut state) = set_up(sizes(1, 1, 1, 0, 0, m));
        state.psi = 2;
        state.weights = vec![16382, -16383];
        state.data[1] = 1;
        state
    };
    let mut seen = Vec::new();
    for m in 0..400u32 {
        let state = start(m * 4096);
        let inputs = Inputs {
            samples: &[0x2000],
            gains: &[0],
            training: &[1],
        };
        let (detail, after) = work(&state, inputs).unwrap();
        let new = detail.samples[0].weights_new[0];
        seen.push(new);
        if new <= 16383 {
            assert_eq!(after.psi, 2);
            assert_eq!(i128::from(after.weights[0]), new);
        } else {
            assert_eq!(after.psi, 3);
            assert_eq!(i128::from(after.weights[0]), new / 2);
            let other = detail.samples[0].weights_new[1];
            assert_eq!(i128::from(after.weights[1]), other / 2);
        }
    }
    assert!(seen.contains(&16382));
    assert!(seen.contains(&16383));
    assert!(seen.contains(&16384));
    assert!(seen.contains(&16385));
}

#[test]
fn doubling_at_the_limit() {
    let after = |psi: i32, new: &[i128]| step7(Rule::Amended, psi, new);
    assert_eq!(after(1, &[4095, -4095, 7]), (0, vec![8190, -8190, 14]));
    assert_eq!(after(15, &[0, 0]), (14, vec![0, 0]));
    for place in 0..3 {
        for weight in [4096, -4096, 8191, 16383, -16383] {
            let mut new = vec![4095, -1, 0];
            new[place] = weight;
            assert_eq!(after(9, &new), (9, new.clone()));
        }
    }
    assert_eq!(after(0, &[4095, -4095]), (0, vec![4095, -4095]));
    // A halving leaves one of 8192 at least: no doubling can follow it.
    assert_eq!(after(3, &[16384, 0]), (4, vec![8192, 0]));
    let old = |new: &[i128]| step7(Rule::RisesOnly, 5, new);
    assert_eq!(old(&[4095, 0]), (5, vec![4095, 0]));
}

/// A state of one tap each with M = 0, with its weights, and its exponent.
fn frozen(psi: u8, weights: [i16; 2]) -> State {
    let (_, mut state) = set_up(sizes(1, 1, 1, 0, 0, 0));
    state.psi = psi;
    state.weights = weights.to_vec();
    state
}

/// ψ and the weights after a block of a 0.
fn after_a_zero(state: &State) -> (u8, Vec<i16>) {
    let inputs = Inputs {
        samples: &[0],
        gains: &[0],
        training: &[1],
    };
    let (_, after) = work(state, inputs).unwrap();
    (after.psi, after.weights)
}

#[test]
fn doubling_at_the_limit_in_a_block() {
    let after = |psi, weights| after_a_zero(&frozen(psi, weights));
    for (w, doubled) in [(4095, 8190), (-4095, -8190), (1, 2), (0, 0)] {
        assert_eq!(after(1, [w, 4095]), (0, vec![doubled, 8190]));
        assert_eq!(after(15, [-4095, w]), (14, vec![-8190, doubled]));
    }
    for w in [4096, -4096, 8190, 16383] {
        assert_eq!(after(1, [w, 4095]), (1, vec![w, 4095]));
        assert_eq!(after(15, [-4095, w]), (15, vec![-4095, w]));
    }
    assert_eq!(after(0, [4095, -4095]), (0, vec![4095, -4095]));
    assert_eq!(after(0, [0, 0]), (0, vec![0, 0]));
}

/// The new weights decide: a step takes one to 4096 or from it.
#[test]
fn the_weights_after_the_step_decide() {
    let (_, mut state) = set_up(sizes(1, 1, 1, 0, 0, 1 << 20));
    state.psi = 1;
    let mut seen = Vec::new();
    for start in 4000..4200 {
        for symbol in [1, -1] {
            state.weights = vec![start, 100];
            let inputs = Inputs {
                samples: &[0x4000],
                gains: &[0],
                training: &[symbol],
            };
            let (detail, after) = work(&state, inputs).unwrap();
            let new = detail.samples[0].weights_new[0];
            let (psi, w) = if new < 4096 { (0, 2 * new) } else { (1, new) };
            assert_eq!((after.psi, i128::from(after.weights[0])), (psi, w));
            seen.push((start < 4096, new < 4096));
        }
    }
    for both in [(true, false), (false, true), (true, true), (false, false)] {
        assert!(seen.contains(&both), "{both:?}");
    }
}

/// A sample that halves does not double, small as the other weight is.
#[test]
fn a_halving_is_no_doubling() {
    let (_, mut state) = set_up(sizes(1, 1, 1, 0, 0, 1 << 21));
    state.psi = 2;
    for small in [0, 1, -4095] {
        state.weights = vec![16383, small];
        let inputs = Inputs {
            samples: &[0x2000],
            gains: &[0],
            training: &[1],
        };
        let (detail, after) = work(&state, inputs).unwrap();
        let new = &detail.samples[0].weights_new;
        assert_eq!(*new, [16385, small.into()]);
        assert_eq!((after.psi, after.weights), (3, vec![8192, small / 2]));
    }
}

#[test]
fn weights_of_zero_come_down_to_the_end() {
    let mut state = frozen(15, [0, 0]);
    let mut seen = Vec::new();
    for _ in 0..20 {
        let weights;
        (state.psi, weights) = after_a_zero(&state);
        assert_eq!(weights, [0, 0]);
        seen.push(state.psi);
    }
    let wanted: Vec<u8> = (0..15).rev().chain([0; 5]).collect();
    assert_eq!(seen, wanted);
}

/// The same within one block of 20 samples.
#[test]
fn once_a_sample() {
    let (_, mut state) = set_up(sizes(2, 3, 20, 1, 0, 0));
    state.psi = 15;
    let inputs = Inputs {
        samples: &[0x2000; 20],
        gains: &[3; 20],
        training: &[1; 20],
    };
    let exponents = |state: &State| -> Vec<i32> {
        let (detail, _) = work(state, inputs).unwrap();
        detail.samples.iter().map(|d| d.psi_after).collect()
    };
    let zeros: Vec<i32> = (0..15).rev().chain([0; 5]).collect();
    assert_eq!(exponents(&state), zeros);
    // One weight of 1 stays at 4096, twelve doublings later.
    state.weights[4] = 1;
    let one: Vec<i32> = (3..15).rev().chain([3; 8]).collect();
    assert_eq!(exponents(&state), one);
}

#[test]
fn block_length_beside_the_taps() {
    assert_eq!(set_up(sizes(4, 1, 2, 0, 0, 0)), (1, State::fresh()));
    assert_eq!(set_up(sizes(4, 1, 3, 0, 0, 0)).0, 0);
}

#[test]
fn an_all_zero_block() {
    for p in [1, 2, 16] {
        let n = 16;
        let (_, state) = set_up(sizes(p, 3, n, 1, 2, 0));
        let inputs = Inputs {
            samples: &[0; 16],
            gains: &[9; 16],
            training: &[0; 16],
        };
        let (detail, after) = work(&state, inputs).unwrap();
        assert_eq!(detail.b, 0);
        assert_eq!(detail.bmax, 0);
        let s = reference::numbers::scale_count(p);
        assert_eq!(detail.gamma, 1 - 30 + s);
        assert_eq!((after.b, after.bmax), (0, 0));
        assert!(detail.samples.iter().all(|d| d.y == 0 && d.decision == 1));
    }
}

#[test]
fn the_previous_b_holds_b_up_for_one_block() {
    let (_, mut state) = set_up(sizes(2, 1, 1, 0, 0, 0));
    let mut outputs = Outputs::zeros(1);
    let mut block = |state: &mut State, m: i16| {
        let inputs = Inputs {
            samples: &[m],
            gains: &[15],
            training: &[0],
        };
        assert_eq!(run(state, inputs, &mut outputs), 0);
        (state.b, state.bmax, state.data[0])
    };
    // S(2) = 2. X = m with gain 15.
    assert_eq!(block(&mut state, 0x4000), (15, 15, 0x1000));
    assert_eq!(block(&mut state, -3), (2, 15, 0));
    assert_eq!(block(&mut state, -3), (2, 2, -3 << 11));
    assert_eq!(block(&mut state, 1), (1, 2, 1 << 11));
    assert_eq!(block(&mut state, 0), (0, 1, 0));
    assert_eq!(block(&mut state, 0), (0, 0, 0));
    assert_eq!(block(&mut state, 1), (1, 1, 1 << 12));
}

/// Rescaling the past: down with a cut toward zero, up exactly.
#[test]
fn the_past_is_rescaled_from_what_was_stored() {
    let (_, mut state) = set_up(sizes(3, 1, 2, 0, 0, 0));
    // S(3) = 3.
    let inputs = |samples: &'static [i16; 2], gains: &'static [u8; 2]| Inputs {
        samples,
        gains,
        training: &[0, 0],
    };
    let (first, after) = work(&state, inputs(&[-7, 5], &[15, 15])).unwrap();
    // b = 3, so X is stored times 2^9.
    assert_eq!(first.stored, [-7 << 9, 5 << 9]);
    state = after;
    // X = 2^14·1: b = 15, stored times 2^-3.
    let (second, _) = work(&state, inputs(&[0x4000, 1], &[15, 15])).unwrap();
    assert_eq!(second.past, [0, 0]);
    assert_eq!(second.stored, [0x800, 0]);
    // X = 2^6: b = 7, stored times 2^5; −7 and 5 times 2^5.
    let (second, after) = work(&state, inputs(&[64, -65], &[15, 15])).unwrap();
    assert_eq!(second.past, [5 << 5, -7 << 5]);
    assert_eq!(second.stored, [64 << 5, -65 << 5]);
    state = after;
    // The previous b is 7: no change; then down to the quiet block's own b.
    let (third, after) = work(&state, inputs(&[1, -1], &[15, 15])).unwrap();
    assert_eq!(third.past, [-65 << 5, 64 << 5]);
    let (fourth, _) = work(&after, inputs(&[1, -1], &[15, 15])).unwrap();
    assert_eq!((fourth.b, fourth.bmax), (1, 1));
    assert_eq!(third.stored, [1 << 5, -1 << 5]);
    assert_eq!(fourth.past, [-1 << 11, 1 << 11]);
}

/// A lost bit does not come back.
#[test]
fn cut_bits_stay_lost() {
    let (_, state) = set_up(sizes(2, 1, 1, 0, 0, 0));
    let block = |state: &State, m: i16| {
        let inputs = Inputs {
            samples: &[m],
            gains: &[15],
            training: &[0],
        };
        work(state, inputs).unwrap()
    };
    // S(2) = 2. Loud with b = 15: X is stored times 2^-2.
    let (_, state) = block(&state, 0x4000);
    let (quiet, state) = block(&state, -7);
    assert_eq!(quiet.stored, [-1]);
    let (next, _) = block(&state, 1);
    // B falls from 15 to 3, so −1 becomes −2^12, not −7·2^10.
    assert_eq!(next.bmax, 3);
    assert_eq!(next.past, [-1 << 12]);
}
