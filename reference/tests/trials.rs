//! Trials of a block: held to the steps in 64-bit numbers and to running the
//! block on a copy, over any blocks, over every refusal, and in lists of calls.

mod wrong_trial;

use reference::lists::Lists;
use reference::numbers::scale_count;
use reference::random::{Aim, Random};
use reference::state::SLOTS;
use reference::vectors::block_vectors;
use reference::{image_length, load, run, save, Inputs, Outputs, Settings, State};
use std::cell::RefCell;
use std::sync::OnceLock;
use wrong_trial::{wrong_trial, FAULTS};

/// A trial. The state is lent to be written, so that a trial that writes to
/// it is found.
type Trial<'a> = &'a dyn Fn(&mut State, Inputs<'_>, &mut Outputs) -> (u8, State);

/// How often each number was answered.
type Answers = [u64; 10];

/// The numbers in the order in which they are examined.
const ORDER: [u8; 7] = [1, 2, 9, 3, 4, 5, 6];

fn right(state: &mut State, inputs: Inputs<'_>, outputs: &mut Outputs) -> (u8, State) {
    reference::trial(state, inputs, outputs)
}

/// A state and the lists that are lent with it.
#[derive(Clone, Debug)]
struct Call {
    state: State,
    lists: Lists,
}

impl Call {
    /// A sound state, one in four with weights about to be doubled, as a lent
    /// record or without spare slots, and good lists.
    fn good(random: &mut Random) -> Call {
        let settings = random.settings();
        let state = random.state(settings);
        let state = if random.chance(1, 2) {
            state.lent()
        } else {
            state
        };
        let lists = random.lists(&settings);
        Call { state, lists }
    }

    /// What the steps in 64-bit numbers give.
    fn by_steps(&self) -> (u8, State, Outputs) {
        let (mut given, mut outputs) = (self.state.clone(), self.lists.outputs.clone());
        let (number, next) = wrong_trial(&mut given, self.lists.inputs(), &mut outputs, "");
        (number, next, outputs)
    }

    /// What running the block on a copy gives.
    fn on_a_copy(&self) -> (u8, State, Outputs) {
        let (mut copy, mut outputs) = (self.state.clone(), self.lists.outputs.clone());
        let number = run(&mut copy, self.lists.inputs(), &mut outputs);
        (number, copy, outputs)
    }
}

/// The number of a trial, or what is wrong about it.
fn compared(trial: Trial<'_>, call: &Call) -> Result<u8, String> {
    let (mut given, mut outputs) = (call.state.clone(), call.lists.outputs.clone());
    let (number, next) = trial(&mut given, call.lists.inputs(), &mut outputs);
    let wrong = |about: &str| Err(format!("{about}: answer {number} to {call:?}"));
    if given != call.state {
        return wrong("the given state is another");
    }
    if number != 0 && next != call.state {
        return wrong("refused, another state comes back");
    }
    if number != 0 && outputs != call.lists.outputs {
        return wrong("refused, the outputs are others");
    }
    let left = (number, next, outputs);
    if left != call.by_steps() {
        return wrong("the steps give something else");
    }
    if left != call.on_a_copy() {
        return wrong("running on a copy gives something else");
    }
    Ok(number)
}

/// Blocks from sound states, each on the state that the one before left.
fn over_blocks(trial: Trial<'_>) -> Result<Answers, String> {
    let mut random = Random::new(2026);
    let mut answers = [0; 10];
    for _ in 0..1500 {
        let mut call = Call::good(&mut random);
        for _ in 0..random.between(1, 3) {
            call.lists = random.lists(&call.state.settings);
            let number = compared(trial, &call)?;
            answers[usize::from(number)] += 1;
            call.state = call.on_a_copy().1;
        }
    }
    Ok(answers)
}

#[test]
fn trials_of_any_blocks_are_right() {
    let answers = over_blocks(&right).unwrap();
    assert!(answers[0] > 2000 && answers[6] > 50, "{answers:?}");
    assert_eq!(answers.iter().sum::<u64>(), answers[0] + answers[6]);
}

/// The blocks that are stored for other implementations, on lent records.
#[test]
fn trials_of_the_block_vectors_are_right() {
    let mut random = Random::new(1);
    let mut answers: Answers = [0; 10];
    for vector in block_vectors() {
        let call = Call {
            state: vector.before,
            lists: Lists {
                samples: vector.samples,
                gains: vector.gains,
                training: vector.training,
                outputs: random.outputs(vector.output_lengths),
            },
        };
        let number = compared(&right, &call).unwrap();
        assert_eq!(number, vector.number, "{}", vector.about);
        answers[usize::from(number)] += 1;
    }
    for number in ORDER {
        assert!(answers[usize::from(number)] > 0, "{answers:?}");
    }
}

/// A size outside its limits.
fn spoil_size(random: &mut Random, s: &mut Settings) {
    match random.below(6) {
        0 => s.p = random.pick(&[0, 17, 255]),
        1 => s.q = random.pick(&[0, 17, 255]),
        2 => s.n = random.pick(&[0, 129, 255]),
        3 => s.n = s.p.saturating_sub(2),
        4 => s.r = random.pick(&[4, 255]),
        _ => s.l = random.pick(&[16, 255]),
    }
}

/// One reason of unsoundness in a sound state.
fn spoil_soundness(random: &mut Random, state: &mut State) {
    let (p, q) = (state.settings.p, state.settings.q);
    let (taps, r) = (state.settings.taps(), state.settings.r);
    let room = 15 + i32::from(state.b) - i32::from(state.bmax) - scale_count(p);
    let mut below = |end: usize| random.below(end as u64) as usize;
    let (place, tap, past, back) = (below(64), below(taps), below(p.into()), below(q.into()));
    let sign = random.sign() as i16;
    match random.below(8) {
        0 => state.b = random.byte(state.bmax + 1, 255),
        1 => state.bmax = random.byte(32 - state.settings.l, 255),
        2 => state.weights[tap] = random.pick(&[16384, -16384, 32767, -32768]),
        // The filler, or the least sample that is too large.
        3 if past + 1 == p.into() => state.data[past] = sign,
        3 => state.data[past] = sign * (1 << room.max(0)),
        4 => state.data[usize::from(p) + back] = sign * 2,
        5 => state.data[usize::from(p) + back] = sign * ((2 << r) + 1),
        6 if taps + place < state.weights.len() => state.weights[taps + place] = sign,
        7 if taps + place < state.data.len() => state.data[taps + place] = sign,
        _ => state.psi = random.byte(16, 255),
    }
}

/// Puts the cause of one number other than 6 into a call.
fn spoil(random: &mut Random, call: &mut Call, number: u8) {
    let settings = &mut call.state.settings;
    match number {
        1 => spoil_size(random, settings),
        2 => settings.m = random.pick(&[settings.largest_m() + 1, 1 << 30, u32::MAX]),
        9 => spoil_soundness(random, &mut call.state),
        _ => random.spoil(&mut call.lists, settings, number),
    }
}

/// A call that 6 turns down. With M = 0 it is accepted.
fn rising(random: &mut Random) -> Call {
    loop {
        let mut call = Call::good(random);
        let settings = &mut call.state.settings;
        settings.m = settings.largest_m();
        call.lists.training = random.training(settings, Aim::Ends);
        call.state.psi = 15;
        if call.by_steps().0 == 6 {
            return call;
        }
    }
}

/// A call with these causes, which stand in their order; without 6, M is 0.
fn with_causes(random: &mut Random, rising: &Call, causes: &[u8]) -> Call {
    let mut call = rising.clone();
    if !causes.contains(&6) {
        call.state.settings.m = 0;
    }
    for &number in causes.iter().rev().filter(|&&number| number != 6) {
        spoil(random, &mut call, number);
    }
    call
}

/// A record of any bytes, its sizes and M often good, or a sound one; with any
/// lists.
fn any_call(random: &mut Random) -> Call {
    let mut settings = random.settings();
    let lists = random.any_lists();
    if random.chance(1, 3) {
        let state = random.sound_state(settings).lent();
        return Call { state, lists };
    }
    if random.chance(1, 3) {
        spoil_size(random, &mut settings);
    }
    if random.chance(1, 3) {
        settings.m = random.next() as u32;
    }
    let state = State {
        settings,
        psi: random.byte(0, 255),
        b: random.byte(0, 255),
        bmax: random.byte(0, 255),
        weights: random.list(SLOTS, |bits| bits as i16),
        data: random.list(SLOTS, |bits| bits as i16),
    };
    Call { state, lists }
}

/// Every set of causes, of which the first in the order is answered, and any
/// records with any lists.
fn over_refusals(trial: Trial<'_>) -> Result<Answers, String> {
    let mut random = Random::new(9);
    let pool: Vec<Call> = (0..100).map(|_| rising(&mut random)).collect();
    let mut answers = [0; 10];
    for set in 1..1 << ORDER.len() {
        let chosen = |at: &usize| (set >> at) & 1 == 1;
        let places = (0..ORDER.len()).filter(chosen);
        let causes: Vec<u8> = places.map(|at| ORDER[at]).collect();
        for base in pool.iter().skip(random.below(4) as usize).step_by(4) {
            let call = with_causes(&mut random, base, &causes);
            let number = compared(trial, &call)?;
            if number != causes[0] {
                return Err(format!("answer {number} to {causes:?} in {call:?}"));
            }
            answers[usize::from(number)] += 1;
        }
    }
    for _ in 0..600 {
        let number = compared(trial, &any_call(&mut random))?;
        answers[usize::from(number)] += 1;
    }
    Ok(answers)
}

#[test]
fn trials_are_turned_down_in_order_and_touch_nothing() {
    let answers = over_refusals(&right).unwrap();
    assert_eq!(answers[0], 0);
    // 6 is the first cause in one set only.
    for number in ORDER {
        assert!(answers[usize::from(number)] >= 25, "{answers:?}");
    }
}

/// A call in a list of calls.
#[derive(Clone, Debug)]
enum Step {
    Block(Lists),
    Trial(Lists),
    /// A save into a buffer of this length.
    Save(usize),
    Load(Vec<u8>),
    /// A load of what an earlier save left in its buffer.
    LoadSaved(usize),
}

/// What a block, a save or a load got, answered and handed out.
#[derive(Clone, Debug, PartialEq)]
enum Told {
    Block(State, u8, Outputs),
    Save(State, (u8, usize), Vec<u8>),
    Load(u8, State),
}

/// Makes the calls of a list one after another, the trials by `trial`: what
/// the others told, and the state at the end.
fn told(start: &State, steps: &[Step], trial: Trial<'_>) -> (Vec<Told>, State) {
    let mut state = start.clone();
    let (mut told, mut buffers) = (Vec::new(), Vec::new());
    for step in steps {
        let got = state.clone();
        match step {
            Step::Block(lists) => {
                let mut outputs = lists.outputs.clone();
                let number = run(&mut state, lists.inputs(), &mut outputs);
                told.push(Told::Block(got, number, outputs));
            }
            Step::Trial(lists) => {
                trial(&mut state, lists.inputs(), &mut lists.outputs.clone());
            }
            Step::Save(length) => {
                let mut buffer = vec![0x5A; *length];
                let answer = save(&state, &mut buffer);
                told.push(Told::Save(got, answer, buffer.clone()));
                buffers.push(buffer);
            }
            Step::Load(bytes) => {
                let (number, loaded) = load(bytes);
                told.push(Told::Load(number, loaded.clone()));
                state = loaded;
            }
            Step::LoadSaved(place) => {
                let (number, loaded) = load(&buffers[*place]);
                told.push(Told::Load(number, loaded.clone()));
                state = loaded;
            }
        }
    }
    (told, state)
}

/// Lists for a state: good, with one cause, or any.
fn lists_for(random: &mut Random, state: &State) -> Lists {
    let mut call = Call::good(random);
    if state.settings.examine() == 0 {
        call.state = state.clone();
        call.lists = random.lists(&state.settings);
    }
    match random.below(8) {
        0 => call.lists = random.any_lists(),
        cause @ 3..=5 => spoil(random, &mut call, cause as u8),
        _ => {}
    }
    call.lists
}

/// The image of a sound state, sometimes with a bit changed or bytes missing.
fn image(random: &mut Random) -> Vec<u8> {
    let settings = random.settings();
    let state = random.sound_state(settings);
    let mut bytes = vec![0; image_length(&settings)];
    assert_eq!(save(&state, &mut bytes).0, 0);
    let place = random.below(bytes.len() as u64) as usize;
    match random.below(3) {
        0 => bytes[place] ^= 1 << random.below(8),
        1 if random.chance(1, 2) => bytes.truncate(place),
        _ => {}
    }
    bytes
}

/// A start and a list of calls, trials anywhere among them.
fn list_of_calls(random: &mut Random) -> (State, Vec<Step>) {
    let start = match random.below(4) {
        0 => any_call(random).state,
        1 => rising(random).state,
        _ => Call::good(random).state,
    };
    let (mut steps, mut saves) = (Vec::new(), 0);
    for _ in 0..random.between(2, 9) {
        let state = told(&start, &steps, &right).1;
        let step = match random.below(10) {
            0..=2 => Step::Block(lists_for(random, &state)),
            3 => Step::Load(image(random)),
            4 if saves > 0 => Step::LoadSaved(random.below(saves) as usize),
            4 | 5 => {
                saves += 1;
                Step::Save(random.pick(&[0, 19, 20, 140, 140]))
            }
            _ => Step::Trial(lists_for(random, &state)),
        };
        steps.push(step);
    }
    (start, steps)
}

/// The lists of calls, made once.
fn lists_of_calls() -> &'static [(State, Vec<Step>)] {
    static LISTS: OnceLock<Vec<(State, Vec<Step>)>> = OnceLock::new();
    LISTS.get_or_init(|| {
        let mut random = Random::new(3);
        (0..1000).map(|_| list_of_calls(&mut random)).collect()
    })
}

/// Lists of calls tell the same with their trials as without them: all that
/// they told.
fn over_lists(trial: Trial<'_>) -> Result<Vec<Told>, String> {
    let mut all = Vec::new();
    for (start, steps) in lists_of_calls() {
        let mut without = steps.clone();
        without.retain(|step| !matches!(step, Step::Trial(_)));
        let with = told(start, steps, trial);
        if with != told(start, &without, trial) {
            return Err(format!("{start:?} {steps:?}"));
        }
        all.extend(with.0);
    }
    Ok(all)
}

#[test]
fn lists_of_calls_go_on_as_if_no_trial_were_among_them() {
    let trials: RefCell<Answers> = RefCell::new([0; 10]);
    let counted = |state: &mut State, inputs: Inputs<'_>, outputs: &mut Outputs| {
        let answer = right(state, inputs, outputs);
        trials.borrow_mut()[usize::from(answer.0)] += 1;
        answer
    };
    let (mut blocks, mut saves, mut loads) = ([0; 10], [0; 10], [0; 10]);
    for told in over_lists(&counted).unwrap() {
        match told {
            Told::Block(_, number, _) => blocks[usize::from(number)] += 1,
            Told::Save(_, (number, _), _) => saves[usize::from(number)] += 1,
            Told::Load(number, _) => loads[usize::from(number)] += 1,
        }
    }
    let all = |answers: Answers, numbers: &[usize]| numbers.iter().all(|&n| answers[n] >= 5);
    let seen = (trials.into_inner(), blocks, saves, loads);
    assert!(all(seen.0, &[0, 1, 2, 9, 3, 4, 5, 6]), "{seen:?}");
    assert!(all(seen.1, &[0, 1, 2, 9, 3, 4, 5, 6]), "{seen:?}");
    assert!(all(seen.2, &[0, 1, 2, 9, 7]), "{seen:?}");
    assert!(all(seen.3, &[0, 1, 2, 8, 9]), "{seen:?}");
}

#[test]
fn every_fault_of_a_trial_is_found_where_it_shows() {
    let found = |fault: &'static str| -> String {
        let trial = move |state: &mut State, inputs: Inputs<'_>, outputs: &mut Outputs| {
            wrong_trial(state, inputs, outputs, fault)
        };
        let finders = [
            ('b', over_blocks(&trial).is_err()),
            ('r', over_refusals(&trial).is_err()),
            ('l', over_lists(&trial).is_err()),
        ];
        let finders = finders.into_iter().filter(|(_, found)| *found);
        finders.map(|(letter, _)| letter).collect()
    };
    assert_eq!(found(""), "");
    for (fault, finders) in FAULTS {
        assert_eq!(found(fault), finders.replace('p', ""), "{fault}");
    }
}

/// The halving of `docs/EQUALISER.md`: the trial gives its numbers, and the
/// state can still be saved as it was.
#[test]
fn the_halving_of_the_page_is_tried() {
    let before = [
        0x01, 0x01, 0x01, 0x01, 0x02, 0x03, 0x1C, 0x1C, 0xB1, 0x13, 0x3B, 0x01, 0xFC, 0x3F, 0xD7,
        0xDC, 0x00, 0x00, 0x01, 0x00,
    ];
    let after = [
        0x01, 0x01, 0x01, 0x01, 0x02, 0x04, 0x1C, 0x1C, 0xB1, 0x13, 0x3B, 0x01, 0x3A, 0x20, 0xF0,
        0xEE, 0x00, 0x00, 0x03, 0x00,
    ];
    let (_, state) = load(&before);
    let inputs = Inputs {
        samples: &[30001],
        gains: &[2],
        training: &[3],
    };
    let mut outputs = Outputs::zeros(1);
    let (number, next) = reference::trial(&state, inputs, &mut outputs);
    let expected = Outputs {
        y: vec![-12_311_192],
        xi: vec![5],
        decision: vec![-1],
        z: vec![112_974_488],
        theta: vec![5],
    };
    assert_eq!((number, outputs), (0, expected));
    for (state, image) in [(state, before), (next, after)] {
        let mut buffer = [0; 20];
        assert_eq!(save(&state, &mut buffer), (0, 20));
        assert_eq!(buffer, image);
    }
}
