//! What each operation turns down, in its order, with nothing touched.

use reference::block::work;
use reference::lists::Lists;
use reference::state::SLOTS;
use reference::vectors::gathering::{gathering, Gathering};
use reference::{load, run, run_by, save, set_up, trace, Inputs, Outputs, Rule, Settings, State};

fn sizes() -> Settings {
    Settings {
        p: 3,
        q: 2,
        n: 4,
        r: 1,
        l: 2,
        m: 1000,
    }
}

/// A record with something in every place that may hold something.
fn record() -> State {
    let mut state = State::zeros(sizes());
    state.psi = 3;
    state.b = 20;
    state.bmax = 22;
    state.weights = vec![16383, -16383, 5, -7, 0];
    state.data = vec![1, -1, 0, 3, -1];
    let state = state.lent();
    assert_eq!(state.examine(), 0);
    state
}

fn lists() -> Lists {
    Lists {
        samples: vec![100, -200, 300, -32768],
        gains: vec![2, 15, 7, 3],
        training: vec![1, 0, -3, 3],
        outputs: Outputs {
            y: vec![77; 4],
            xi: vec![77; 4],
            decision: vec![77; 4],
            z: vec![77; 4],
            theta: vec![77; 4],
        },
    }
}

/// Runs a block and sees that a refusal touches nothing.
fn answer(state: &State, lent: &Lists) -> u8 {
    let mut after = state.clone();
    let mut outputs = lent.outputs.clone();
    let number = run(&mut after, lent.inputs(), &mut outputs);
    if number == 0 {
        assert_ne!(after, *state);
        assert_ne!(outputs, lent.outputs);
    } else {
        assert_eq!(after, *state);
        assert_eq!(outputs, lent.outputs);
    }
    number
}

fn saved(state: &State) -> u8 {
    let mut buffer = [0x55u8; 200];
    let (number, length) = save(state, &mut buffer);
    if number != 0 {
        assert_eq!(buffer, [0x55; 200]);
        assert_eq!(length, 0);
    }
    number
}

fn bad_sizes() -> Vec<Settings> {
    let good = sizes();
    vec![
        Settings { p: 0, ..good },
        Settings {
            p: 17,
            n: 128,
            ..good
        },
        Settings { p: 255, ..good },
        Settings { q: 0, ..good },
        Settings { q: 17, ..good },
        Settings { q: 255, ..good },
        Settings { p: 1, n: 0, ..good },
        Settings { p: 6, ..good },
        Settings { n: 1, ..good },
        Settings { n: 129, ..good },
        Settings { n: 255, ..good },
        Settings { r: 4, ..good },
        Settings { r: 255, ..good },
        Settings { l: 16, ..good },
        Settings { l: 255, ..good },
    ]
}

fn unsound_records() -> Vec<State> {
    let mut list = Vec::new();
    let mut with = |change: &dyn Fn(&mut State)| {
        let mut state = record();
        change(&mut state);
        list.push(state);
    };
    with(&|s| s.psi = 16);
    with(&|s| s.psi = 255);
    with(&|s| s.b = 23);
    with(&|s| s.bmax = 30);
    with(&|s| s.bmax = 255);
    for place in 0..5 {
        for w in [16384, -16384, 32767, -32768] {
            with(&move |s| s.weights[place] = w);
        }
    }
    // S(3) = 3: |A|·2^25 is below 2^35.
    for place in 0..2 {
        for a in [1024, -1024, 32767, -32768] {
            with(&move |s| s.data[place] = a);
        }
    }
    for a in [1, -1, 3, -32768] {
        with(&move |s| s.data[2] = a);
    }
    for place in 3..5 {
        for v in [2, -2, 4, 5, -5, 32767, -32768] {
            with(&move |s| s.data[place] = v);
        }
    }
    for place in 5..SLOTS {
        with(&move |s| s.weights[place] = 1);
        with(&move |s| s.data[place] = -1);
    }
    list
}

#[test]
fn set_up_turns_down_sizes_then_the_step() {
    for bad in bad_sizes() {
        assert_eq!(set_up(bad), (1, State::fresh()), "{bad:?}");
        assert_eq!(set_up(bad.with_m(u32::MAX)).0, 1);
    }
    for m in [sizes().largest_m() + 1, 1 << 30, u32::MAX] {
        assert_eq!(set_up(sizes().with_m(m)), (2, State::fresh()));
    }
    let good = sizes().with_m(sizes().largest_m());
    assert_eq!(set_up(good), (0, State::zeros(good)));
}

#[test]
fn the_sizes_at_their_limits_pass() {
    for (p, q, n) in [
        (1, 1, 1),
        (2, 1, 1),
        (16, 16, 15),
        (16, 16, 128),
        (1, 16, 128),
    ] {
        for r in 0..=3 {
            for l in 0..=15 {
                let m = 0;
                let settings = Settings { p, q, n, r, l, m };
                assert_eq!(set_up(settings).0, 0);
                let largest = settings.largest_m();
                assert_eq!(set_up(settings.with_m(largest)).0, 0);
                assert_eq!(set_up(settings.with_m(largest + 1)).0, 2);
            }
        }
    }
}

#[test]
fn a_good_block_runs() {
    assert_eq!(answer(&record(), &lists()), 0);
    assert_eq!(answer(&record().compact(), &lists()), 0);
}

#[test]
fn a_block_turns_down_sizes_first() {
    let mut lent = lists();
    lent.gains = vec![0; 3];
    for bad in bad_sizes() {
        let mut state = record();
        state.settings = bad.with_m(u32::MAX);
        state.psi = 16;
        assert_eq!(answer(&state, &lent), 1, "{bad:?}");
        assert_eq!(saved(&state), 1);
    }
}

#[test]
fn a_block_turns_down_the_step_second() {
    let mut lent = lists();
    lent.gains = vec![0; 3];
    for m in [sizes().largest_m() + 1, u32::MAX] {
        let mut state = record();
        state.settings.m = m;
        state.psi = 16;
        assert_eq!(answer(&state, &lent), 2);
        assert_eq!(saved(&state), 2);
    }
}

#[test]
fn a_block_turns_down_an_unsound_state_third() {
    let mut lent = lists();
    lent.gains = vec![0; 3];
    let list = unsound_records();
    assert!(list.len() > 100);
    for state in list {
        assert_eq!(answer(&state, &lists()), 9, "{state:?}");
        assert_eq!(answer(&state, &lent), 9);
        assert_eq!(saved(&state), 9);
    }
}

#[test]
fn the_sound_neighbours_pass() {
    let with = |change: &dyn Fn(&mut State)| {
        let mut state = record();
        change(&mut state);
        assert_eq!(saved(&state), 0, "{state:?}");
        assert_eq!(answer(&state, &lists()), 0);
    };
    with(&|s| s.psi = 0);
    with(&|s| s.b = 22);
    with(&|s| {
        s.bmax = 29;
        s.b = 29;
    });
    with(&|s| s.data[0] = 1023);
    with(&|s| s.data[1] = -1023);
    with(&|s| s.data[3] = 0);
    with(&|s| s.data[4] = -3);
    with(&|s| s.weights[4] = -16383);
    // b = B: |A| is below 2^12.
    with(&|s| {
        s.b = 22;
        s.data[0] = 4095;
    });
    // B − b of 12 leaves only 0.
    with(&|s| {
        s.b = 10;
        s.data[0] = 0;
        s.data[1] = 0;
    });
    let mut state = record();
    state.b = 10;
    state.data[0] = 1;
    state.data[1] = 0;
    assert_eq!(saved(&state), 9);
}

#[test]
fn a_block_turns_down_each_list_of_another_length() {
    type Change = fn(&mut Lists, usize);
    let changes: [Change; 8] = [
        |t, n| t.samples.resize(n, 0),
        |t, n| t.gains.resize(n, 0),
        |t, n| t.training.resize(n, 2),
        |t, n| t.outputs.y.resize(n, 1),
        |t, n| t.outputs.xi.resize(n, 1),
        |t, n| t.outputs.decision.resize(n, 1),
        |t, n| t.outputs.z.resize(n, 1),
        |t, n| t.outputs.theta.resize(n, 1),
    ];
    for change in changes {
        for n in [0, 1, 3, 5, 128] {
            let mut lent = lists();
            change(&mut lent, n);
            assert_eq!(answer(&record(), &lent), 3);
            lent.gains.iter_mut().for_each(|g| *g = 16);
            lent.training.iter_mut().for_each(|t| *t = 2);
            assert_eq!(answer(&record(), &lent), 3);
        }
    }
}

#[test]
fn a_block_turns_down_gains_before_training() {
    for place in 0..4 {
        for g in [0, 1, 16, 255] {
            let mut lent = lists();
            lent.gains[place] = g;
            assert_eq!(answer(&record(), &lent), 4);
            lent.training[0] = 2;
            assert_eq!(answer(&record(), &lent), 4);
        }
        for g in [2, 15] {
            let mut lent = lists();
            lent.gains[place] = g;
            assert_eq!(answer(&record(), &lent), 0);
        }
    }
}

#[test]
fn a_block_turns_down_training_entries() {
    for place in 0..4 {
        for t in i8::MIN..=i8::MAX {
            let mut lent = lists();
            lent.training[place] = t;
            let good = [0, 1, -1, 3, -3].contains(&t);
            assert_eq!(answer(&record(), &lent), if good { 0 } else { 5 });
        }
    }
}

/// ψ = 15, the feedback weights push the output far below the symbol and the
/// feed forward weight is at its limit.
fn full_record() -> State {
    let settings = Settings {
        p: 1,
        q: 2,
        n: 2,
        r: 0,
        l: 0,
        m: 0,
    };
    let settings = settings.with_m(settings.largest_m());
    let mut state = State::zeros(settings);
    state.psi = 15;
    state.weights = vec![16383, -16383, -16383];
    state.data = vec![0, 1, 1];
    state.lent()
}

fn full_lists(entry: i8, second_gain: u8) -> Lists {
    Lists {
        samples: vec![0x2000, 0],
        gains: vec![0, second_gain],
        training: vec![1, entry],
        outputs: Outputs::zeros(2),
    }
}

#[test]
fn a_block_turns_down_the_last_exponent() {
    let state = full_record();
    assert_eq!(answer(&state, &full_lists(1, 0)), 6);
    // 4 and 5 of a later sample go before 6 of an earlier one.
    assert_eq!(answer(&state, &full_lists(1, 16)), 4);
    assert_eq!(answer(&state, &full_lists(3, 0)), 5);
    // One below, ψ rises.
    let mut lower = full_record();
    lower.psi = 14;
    let lent = full_lists(1, 0);
    let mut outputs = lent.outputs.clone();
    assert_eq!(run(&mut lower, lent.inputs(), &mut outputs), 0);
    assert_eq!(lower.psi, 15);
    // With a frozen step nothing rises.
    let mut frozen = full_record();
    frozen.settings.m = 0;
    assert_eq!(answer(&frozen, &full_lists(1, 0)), 0);
}

/// ψ after each of the first `n` samples, or 6.
fn exponents(block: &Gathering, n: usize) -> Result<Vec<i32>, u8> {
    let mut state = block.state.clone();
    state.settings.n = n as u8;
    let inputs = Inputs {
        samples: &block.samples[..n],
        gains: &block.gains[..n],
        training: &block.training[..n],
    };
    let (detail, _) = work(&state, inputs)?;
    Ok(detail.samples.iter().map(|d| d.psi_after).collect())
}

/// ψ falls from 15 and comes up again: 6 is answered exactly where it would
/// come to 16.
#[test]
fn six_after_a_fall() {
    let block = gathering(3850, 0);
    let refused = (15..=128).find(|&n| exponents(&block, n) == Err(6));
    let last = refused.unwrap() - 1;
    let seen = exponents(&block, last).unwrap();
    assert_eq!((seen[0], seen[last - 1]), (14, 15));
    assert!(seen.windows(2).all(|two| two[0] <= two[1]));
    let answers = (15..=128).map(|n| exponents(&block, n).err());
    let wanted = (15..=128).map(|n| (n > last).then_some(6));
    assert!(answers.eq(wanted));
    // A little less, and it stays at 15.
    let seen = exponents(&gathering(3800, 0), 128).unwrap();
    assert_eq!((seen[0], seen[127]), (14, 15));
}

/// A fall keeps a digit more: it decides whether the block is accepted.
#[test]
fn a_fall_decides_about_six() {
    for (size, larger, number, without) in [
        (3800, 0, 0, 0),
        (3804, 13, 6, 0),
        (3804, 24, 6, 0),
        (3804, 23, 0, 6),
        (3805, 1, 0, 6),
        (3850, 0, 6, 6),
    ] {
        let block = gathering(size, larger);
        for (rule, wanted) in [(Rule::Amended, number), (Rule::RisesOnly, without)] {
            let mut state = block.state.clone();
            let mut outputs = Outputs::zeros(128);
            let inputs = Inputs {
                samples: &block.samples,
                gains: &block.gains,
                training: &block.training,
            };
            let answer = run_by(rule, &mut state, inputs, &mut outputs);
            assert_eq!(answer, wanted, "{size} {larger} {rule:?}");
            assert_eq!(answer == 6, state == block.state);
        }
    }
}

#[test]
fn saving_turns_down_a_short_buffer_last() {
    let state = record();
    for length in 0..32 {
        let mut buffer = vec![0x55u8; length];
        assert_eq!(save(&state, &mut buffer), (7, 0));
        assert_eq!(buffer, vec![0x55u8; length]);
    }
    for length in 32..40 {
        let mut buffer = vec![0x55u8; length];
        assert_eq!(save(&state, &mut buffer), (0, 32));
        assert!(buffer[32..].iter().all(|&byte| byte == 0x55));
    }
    let mut unsound = record();
    unsound.psi = 16;
    assert_eq!(save(&unsound, &mut []), (9, 0));
    unsound.settings.m = u32::MAX;
    assert_eq!(save(&unsound, &mut []), (2, 0));
    unsound.settings.r = 4;
    assert_eq!(save(&unsound, &mut []), (1, 0));
}

#[test]
fn loading_turns_down_in_its_order() {
    let mut buffer = [0u8; 32];
    assert_eq!(save(&record(), &mut buffer), (0, 32));
    assert_eq!(load(&buffer), (0, record().compact()));
    let fresh = State::fresh();
    // Below 12 bytes, whatever they say.
    for length in 0..12 {
        assert_eq!(load(&vec![0xFF; length]), (8, fresh.clone()));
        assert_eq!(load(&buffer[..length]), (8, fresh.clone()));
    }
    // Sizes before the exact length, the step and soundness.
    let mut sized = buffer.to_vec();
    sized[3] = 4;
    sized[5] = 16;
    sized[8..12].fill(0xFF);
    sized.push(0);
    assert_eq!(load(&sized), (1, fresh.clone()));
    sized[3] = 1;
    assert_eq!(load(&sized), (8, fresh.clone()));
    sized.pop();
    assert_eq!(load(&sized), (2, fresh.clone()));
    sized[8..12].fill(0);
    assert_eq!(load(&sized), (9, fresh.clone()));
    sized[5] = 15;
    assert_eq!(load(&sized).0, 0);
    for length in 12..32 {
        assert_eq!(load(&buffer[..length]), (8, fresh.clone()));
    }
    for state in unsound_records() {
        if state != state.compact().lent() {
            continue;
        }
        let mut image = reference::image::header(&state).to_vec();
        for a in state.weights[..5].iter().chain(&state.data[..5]) {
            image.extend(a.to_le_bytes());
        }
        assert_eq!(load(&image), (9, fresh.clone()));
    }
}

#[test]
fn the_fresh_state_has_its_image() {
    let mut buffer = [0xFFu8; 20];
    assert_eq!(save(&State::fresh(), &mut buffer), (0, 20));
    let mut expected = [0u8; 20];
    expected[..3].copy_from_slice(&[1, 1, 1]);
    assert_eq!(buffer, expected);
    assert_eq!(load(&buffer), (0, State::fresh()));
}

fn trace_of(header: [u8; 12], rest: &[u8]) -> String {
    let mut input = header.to_vec();
    input.extend(rest);
    trace(&input)
}

#[test]
fn traces_of_wrong_length() {
    let good = [1, 1, 1, 0, 0, 0, 1, 0, 0, 0, 0, 0];
    assert_eq!(trace_of(good, &[0, 0, 0, 0]), "0 0 1 1\n");
    for length in 0..40usize {
        let rest = vec![0; length];
        let text = trace_of(good, &rest);
        assert_eq!(text == "stop 8 0\n", length != 4);
    }
    for length in 0..12 {
        assert_eq!(trace(&good[..length]), "stop 8 0\n");
    }
    // Byte 5, and a length that does not fit, go before the sizes.
    let mut bad = good;
    bad[5] = 1;
    assert_eq!(trace_of(bad, &[0, 0, 0, 0]), "stop 8 0\n");
    bad[0] = 0;
    assert_eq!(trace_of(bad, &[0, 0, 0, 0]), "stop 8 0\n");
    bad[5] = 0;
    assert_eq!(trace_of(bad, &[0, 0, 0]), "stop 8 0\n");
    assert_eq!(trace_of(bad, &[0, 0, 0, 0]), "stop 1 0\n");
    // N = 0 asks for 12 bytes.
    bad = good;
    bad[2] = 0;
    assert_eq!(trace_of(bad, &[]), "stop 1 0\n");
    assert_eq!(trace_of(bad, &[0, 0, 0, 0]), "stop 8 0\n");
}

#[test]
fn traces_of_no_blocks() {
    assert_eq!(trace_of([1, 1, 1, 0, 0, 0, 0, 0, 0, 0, 0, 0], &[]), "");
    assert_eq!(
        trace_of([1, 1, 1, 4, 0, 0, 0, 0, 0, 0, 0, 0], &[]),
        "stop 1 0\n"
    );
    assert_eq!(
        trace_of([1, 1, 1, 0, 0, 0, 0, 0, 1, 0, 0, 4], &[]),
        "stop 2 0\n"
    );
}

#[test]
fn traces_up_to_the_longest() {
    // 12 + 4·16381 = 65536 and 16381 is prime, so N = 1.
    let header = |count: u16| {
        let [low, high] = count.to_le_bytes();
        [1, 1, 1, 0, 0, 0, low, high, 0, 0, 0, 0]
    };
    let text = trace_of(header(16381), &vec![0; 65524]);
    assert_eq!(text.lines().count(), 16381);
    assert!(text.ends_with("\n16380 0 2 1\n"));
    assert_eq!(trace_of(header(16382), &vec![0; 65528]), "stop 8 0\n");
    assert_eq!(trace_of(header(16381), &vec![0; 65525]), "stop 8 0\n");
    let mut rest = vec![0; 65524];
    rest[3 * 16380 + 2] = 16;
    let text = trace_of(header(16381), &rest);
    assert_eq!(text.lines().count(), 16381);
    assert!(text.ends_with("\n16379 0 2 1\nstop 4 16380\n"));
}

#[test]
fn a_trace_stops_at_its_block() {
    let header = [1, 1, 2, 0, 3, 0, 3, 0, 0, 0, 0, 0];
    let mut rest = [0u8, 0, 3].repeat(6);
    rest.extend([0; 6]);
    let good = trace_of(header, &rest);
    assert_eq!(good.lines().count(), 6);
    for block in 0..3 {
        let start: String = good.split_inclusive('\n').take(2 * block).collect();
        let mut bad = rest.clone();
        bad[18 + 2 * block + 1] = 2;
        assert_eq!(trace_of(header, &bad), format!("{start}stop 5 {block}\n"));
        bad[3 * (2 * block + 1) + 2] = 2;
        assert_eq!(trace_of(header, &bad), format!("{start}stop 4 {block}\n"));
    }
}
