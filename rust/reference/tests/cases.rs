//! Cases by hand that neither the page nor the program of limit cases has.

use reference::block::work;
use reference::{set_up, Inputs, Settings, State};

/// M is admitted exactly up to the greatest by the quotient of the specification, also where D is a fraction.
#[test]
fn the_greatest_step_is_admitted_with_all_sizes() {
    let taps = (1..=16).flat_map(|p| (1..=16).map(move |q| (p, q)));
    for (p, q) in taps {
        for (r, l) in (0..=3).flat_map(|r| (0..=15).map(move |l| (r, l))) {
            let settings = Settings { p, q, n: 128, r, l, m: 0 };
            let greatest = settings.greatest_m();
            assert_eq!(set_up(settings.with_m(greatest)), (0, State::zeros(settings.with_m(greatest))));
            assert_eq!(set_up(settings.with_m(greatest + 1)), (2, State::fresh()), "{settings:?}");
        }
    }
}

/// Samples and past samples of blocks one after another, with gain 15 and S = 3: X is m, stored times 2^(12−B).
#[test]
fn the_past_is_rescaled_from_what_was_stored() {
    let mut state = State::zeros(Settings { p: 3, q: 1, n: 2, r: 0, l: 0, m: 0 });
    for (samples, b, bmax, past, stored) in [
        ([-7, 5], 3, 3, [0, 0], [-7 << 9, 5 << 9]),
        ([64, -65], 7, 7, [5 << 5, -7 << 5], [64 << 5, -65 << 5]),
        // The b before holds B up for one block.
        ([1, -1], 1, 7, [-65 << 5, 64 << 5], [1 << 5, -1 << 5]),
        ([1, -1], 1, 1, [-1 << 11, 1 << 11], [1 << 11, -1 << 11]),
        ([0x4000, 1], 15, 15, [0, 0], [0x800, 0]),
        // The cut goes toward zero, and a bit that is lost does not come back.
        ([-15, 0], 4, 15, [0, 0x800], [-1, 0]),
        ([0, 0], 0, 4, [0, -1 << 11], [0, 0]),
        ([0, 0], 0, 0, [0, 0], [0, 0]),
    ] {
        let inputs = Inputs { samples: &samples, gains: &[15; 2], training: &[0; 2] };
        let (detail, after) = work(&state, inputs).expect("an accepted block");
        assert_eq!((detail.b, detail.bmax), (b, bmax), "{samples:?}");
        assert_eq!((&detail.past[..], &detail.stored[..]), (&past[..], &stored[..]), "{samples:?}");
        state = after;
    }
}
