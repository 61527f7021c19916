//! What each operation turns down, in its order, with nothing touched. What a
//! block turns down by its lists, 3 to 6, the tests of trials hold.

use reference::image::header;
use reference::lists::Lists;
use reference::settings::settings_of;
use reference::state::SLOTS;
use reference::{load, run, save, set_up, trace, Outputs, Settings, State};

const GOOD: Settings = Settings { p: 3, q: 2, n: 4, r: 1, l: 2, m: 1000 };

/// A record with something in every place that may hold something.
fn record() -> State {
    let state = State {
        settings: GOOD,
        psi: 3,
        b: 20,
        bmax: 22,
        weights: vec![16383, -16383, 5, -7, 0],
        data: vec![1, -1, 0, 3, -1],
    };
    state.lent()
}

fn changed(change: impl FnOnce(&mut State)) -> State {
    let mut state = record();
    change(&mut state);
    state
}

fn lists() -> Lists {
    Lists {
        samples: vec![100, -200, 300, -32768],
        gains: vec![2, 15, 7, 3],
        training: vec![1, 0, -3, 3],
        outputs: Outputs { y: vec![77; 4], xi: vec![77; 4], decision: vec![77; 4], z: vec![77; 4], theta: vec![77; 4] },
    }
}

/// Runs a block and sees that a refusal touches nothing.
fn answer(state: &State, lent: &Lists) -> u8 {
    let (mut after, mut outputs) = (state.clone(), lent.outputs.clone());
    let number = run(&mut after, lent.inputs(), &mut outputs);
    let untouched = (after == *state, outputs == lent.outputs);
    assert_eq!(untouched, (number != 0, number != 0));
    number
}

/// The bytes of a record's own slots, sound or not.
fn image(state: &State) -> Vec<u8> {
    let own = state.weights[..5].iter().chain(&state.data[..5]);
    own.fold(header(state), |image, a| [image, a.to_le_bytes().to_vec()].concat())
}

/// A block with lists of which one is too short, and a save without room, answer this.
fn turned_down_first(state: &State, number: u8) {
    let mut short = lists();
    short.gains = vec![0; 3];
    assert_eq!((answer(state, &short), save(state, &mut [])), (number, (number, 0)), "{state:?}");
}

#[test]
fn sizes_go_first() {
    let beside =
        [(0, 0), (0, 17), (0, 255), (1, 0), (1, 17), (1, 255), (2, 1), (2, 129), (2, 255), (3, 4), (3, 255), (4, 16)];
    for (place, size) in beside.into_iter().chain([(4, 255), (2, 0)]) {
        let p = if (place, size) == (2, 0) { 1 } else { 3 };
        let mut bytes = header(&changed(|s| s.settings = Settings { p, n: 16, m: u32::MAX, ..GOOD }));
        bytes[place] = size;
        let bad = settings_of(&bytes);
        assert_eq!(set_up(bad), (1, State::fresh()), "{bad:?}");
        assert_eq!(set_up(bad.with_m(0)), (1, State::fresh()), "{bad:?}");
        turned_down_first(&changed(|s| (s.settings, s.psi) = (bad, 16)), 1);
        assert_eq!(load(&bytes), (1, State::fresh()), "{bad:?}");
        assert_eq!(load(&bytes[..11]), (8, State::fresh()));
    }
    for (p, n) in [(1, 1), (2, 1), (16, 15), (16, 128), (1, 128)] {
        assert_eq!(set_up(Settings { p, n, ..GOOD }).0, 0);
    }
}

#[test]
fn the_step_goes_next() {
    for m in [GOOD.greatest_m() + 1, 1 << 30, u32::MAX] {
        let state = changed(|s| (s.settings.m, s.psi) = (m, 16));
        turned_down_first(&state, 2);
        assert_eq!(load(&image(&state)), (2, State::fresh()));
        // The exact length stands before it.
        assert_eq!(load(&[&image(&state)[..], &[0]].concat()), (8, State::fresh()));
    }
}

/// Every place of a list with each of these numbers, one at a time.
fn each<'a>(places: std::ops::Range<usize>, numbers: &'a [i16]) -> impl Iterator<Item = (usize, i16)> + 'a {
    places.flat_map(move |place| numbers.iter().map(move |&number| (place, number)))
}

fn unsound_records() -> Vec<State> {
    let headers: [fn(&mut State); 5] =
        [|s| s.psi = 16, |s| s.psi = 255, |s| s.b = 23, |s| s.bmax = 30, |s| s.bmax = 255];
    let weights = each(0..5, &[16384, -16384, 32767, -32768]).chain(each(5..SLOTS, &[1]));
    // S(3) = 3: |A|·2^25 is below 2^35.
    let data = each(0..2, &[1024, -1024, 32767, -32768])
        .chain(each(2..3, &[1, -1, 3, -32768]))
        .chain(each(3..5, &[2, -2, 4, 5, -5, 32767, -32768]))
        .chain(each(5..SLOTS, &[-1]));
    let mut list: Vec<State> = headers.into_iter().map(changed).collect();
    list.extend(weights.map(|(place, w)| changed(|s| s.weights[place] = w)));
    list.extend(data.map(|(place, a)| changed(|s| s.data[place] = a)));
    // B − b of 12 leaves only 0.
    list.push(changed(|s| (s.b, s.data[0], s.data[1]) = (10, 1, 0)));
    list
}

#[test]
fn an_unsound_state_goes_next() {
    let list = unsound_records();
    assert_eq!(list.len(), 106);
    for state in list {
        assert_eq!(answer(&state, &lists()), 9, "{state:?}");
        turned_down_first(&state, 9);
        let spare = state != state.compact().lent();
        assert!(spare || load(&image(&state)) == (9, State::fresh()), "{state:?}");
    }
}

#[test]
fn the_sound_neighbours_pass() {
    let neighbours: [fn(&mut State); 9] = [
        |_| {},
        |s| s.psi = 0,
        |s| (s.psi, s.weights[4]) = (15, -16383),
        |s| (s.b, s.bmax) = (29, 29),
        |s| (s.data[0], s.data[1]) = (1023, -1023),
        |s| (s.data[3], s.data[4]) = (0, -3),
        // b = B: |A| is below 2^12.
        |s| (s.b, s.data[0]) = (22, 4095),
        |s| (s.b, s.data[0], s.data[1]) = (10, 0, 0),
        |s| s.settings.m = GOOD.greatest_m(),
    ];
    for state in neighbours.map(changed) {
        assert_eq!(answer(&state, &lists()), 0, "{state:?}");
        assert_eq!(answer(&state.compact(), &lists()), 0, "{state:?}");
        assert_eq!(load(&image(&state)), (0, state.compact()));
    }
}

#[test]
fn a_buffer_has_room_for_the_image() {
    for length in 0..40 {
        let mut buffer = vec![0x55; length];
        let saved = save(&record(), &mut buffer);
        let (number, end) = if length < 32 { (7, 0) } else { (0, 32) };
        assert_eq!(saved, (number, end));
        assert_eq!(buffer[..end], image(&record())[..end]);
        assert!(buffer[end..].iter().all(|&byte| byte == 0x55));
        // Loading wants the exact length.
        assert_eq!(load(&vec![0xFF; length.min(11)]), (8, State::fresh()));
        let cut = [image(&record()), vec![0; 8]].concat();
        assert_eq!(load(&cut[..length]).0, if length == 32 { 0 } else { 8 });
    }
}

#[test]
fn the_fresh_state_has_its_image() {
    let mut buffer = [0xFF; 20];
    assert_eq!(save(&State::fresh(), &mut buffer), (0, 20));
    assert_eq!(buffer, [[1; 3].to_vec(), vec![0; 17]].concat()[..]);
    assert_eq!(load(&buffer), (0, State::fresh()));
}

/// The first bytes of a trace of one block with one tap each.
const HEADER: [u8; 12] = [1, 1, 1, 0, 0, 0, 1, 0, 0, 0, 0, 0];

/// What the trace program prints for these bytes with some changed and others behind them.
fn printed(changes: &[(usize, u8)], rest: &[u8]) -> String {
    let mut input = [&HEADER, rest].concat();
    changes.iter().for_each(|&(place, byte)| input[place] = byte);
    trace(&input)
}

#[test]
fn traces_are_stopped_by_their_bytes_first() {
    let eight = "stop 8 0\n";
    for length in 0..40 {
        let text = printed(&[], &vec![0; length]);
        assert_eq!(text, if length == 4 { "0 0 1 1\n" } else { eight });
        assert_eq!(trace(&HEADER[..length.min(11)]), eight);
    }
    for (changes, rest, text) in [
        (&[(5, 1)][..], 4, eight),
        (&[(5, 1), (0, 0)], 4, eight),
        (&[(0, 0)], 3, eight),
        (&[(0, 0)], 4, "stop 1 0\n"),
        // N = 0 asks for 12 bytes, and so does a count of 0.
        (&[(2, 0)], 0, "stop 1 0\n"),
        (&[(2, 0)], 4, eight),
        (&[(6, 0)], 0, ""),
        (&[(6, 0), (3, 4)], 0, "stop 1 0\n"),
        (&[(6, 0), (8, 1), (11, 4)], 0, "stop 2 0\n"),
    ] {
        assert_eq!(printed(changes, &vec![0; rest]), text, "{changes:?}, {rest}");
    }
}

/// 12 + 4·16381 = 65536.
#[test]
fn the_longest_trace_has_16381_samples() {
    let [low, high] = 16381u16.to_le_bytes();
    let count = [(6, low), (7, high)];
    let text = printed(&count, &vec![0; 65524]);
    assert_eq!(text.lines().count(), 16381);
    assert!(text.ends_with("\n16380 0 2 1\n"));
    let mut rest = vec![0; 65524];
    rest[3 * 16380 + 2] = 16;
    let stopped = text.replace("\n16380 0 2 1\n", "\nstop 4 16380\n");
    assert_eq!(printed(&count, &rest), stopped);
    assert_eq!(printed(&count, &vec![0; 65525]), "stop 8 0\n");
    assert_eq!(printed(&[(6, low + 1), (7, high)], &vec![0; 65528]), "stop 8 0\n");
}

#[test]
fn a_trace_stops_at_its_block() {
    let three = [(2, 2), (4, 3), (6, 3)];
    let rest = [[0, 0, 3].repeat(6), vec![0; 6]].concat();
    let good = printed(&three, &rest);
    assert_eq!(good.lines().count(), 6);
    for block in 0..3 {
        let start: String = good.split_inclusive('\n').take(2 * block).collect();
        let mut bad = rest.clone();
        bad[18 + 2 * block + 1] = 2;
        assert_eq!(printed(&three, &bad), format!("{start}stop 5 {block}\n"));
        bad[3 * (2 * block + 1) + 2] = 2;
        assert_eq!(printed(&three, &bad), format!("{start}stop 4 {block}\n"));
    }
}
