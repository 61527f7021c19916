//! Trials of a block: held to the steps in 64-bit numbers and to running the block on a copy, over any blocks, over
//! every refusal, and in lists of calls.

use faults::spoiled::{unsound, wrong_size, wrong_step};
use faults::{Counts, Faulty, Implementation, Second, FAULTS};
use reference::lists::Lists;
use reference::random::{Aim, Random};
use reference::settings::Rules;
use reference::state::SLOTS;
use reference::{load, run, save, Outputs, State};

/// The numbers in the order in which they are examined.
const ORDER: [u8; 7] = [1, 2, 9, 3, 4, 5, 6];

/// A state and the lists that are lent with it.
#[derive(Clone, Debug)]
struct Call {
    state: State,
    lists: Lists,
}

/// The number, the given state, the one that comes back, and the outputs.
type Left = (u8, State, State, Outputs);

impl Call {
    /// A sound state, one in four with weights about to be doubled, as a lent record or without spare slots, and good
    /// lists.
    fn good(random: &mut Random) -> Call {
        let settings = random.settings();
        let state = random.state(settings);
        let state = if random.chance(1, 2) { state.lent() } else { state };
        let lists = random.lists(&settings);
        Call { state, lists }
    }

    fn tried(&self, by: &dyn Implementation) -> Left {
        let (mut given, mut outputs) = (self.state.clone(), self.lists.outputs.clone());
        let (number, back) = by.trial(&mut given, self.lists.inputs(), &mut outputs);
        (number, given, back, outputs)
    }

    /// What running the block on a copy gives.
    fn on_a_copy(&self) -> Left {
        let (mut copy, mut outputs) = (self.state.clone(), self.lists.outputs.clone());
        let number = run(&mut copy, self.lists.inputs(), &mut outputs);
        (number, self.state.clone(), copy, outputs)
    }
}

/// A call, and what a trial of it leaves by the second implementation, by the steps in 64-bit numbers, and by running
/// the block on a copy; turned down, that is what was lent.
struct Tried {
    call: Call,
    left: Left,
}

impl Tried {
    fn of(call: Call) -> Tried {
        let left = call.tried(&Second);
        assert_eq!(left, call.tried(&Faulty::new("")), "the steps give something else: {call:?}");
        assert_eq!(left, call.on_a_copy(), "running on a copy gives something else: {call:?}");
        let untouched = (left.0, call.state.clone(), call.state.clone(), call.lists.outputs.clone());
        assert!(left.0 == 0 || left == untouched, "turned down, something is touched: {call:?}");
        Tried { call, left }
    }
}

/// How often each number was answered.
fn answers(tried: &[Tried]) -> [u64; 10] {
    let mut answers = [0; 10];
    tried.iter().for_each(|tried| answers[usize::from(tried.left.0)] += 1);
    answers
}

/// Blocks from sound states, each on the state that the one before left.
fn any_blocks() -> Vec<Tried> {
    let mut random = Random::new(2026);
    let mut blocks = Vec::new();
    for _ in 0..1500 {
        let mut call = Call::good(&mut random);
        for _ in 0..random.between(1, 3) {
            call.lists = random.lists(&call.state.settings);
            let tried = Tried::of(call.clone());
            call.state = tried.left.2.clone();
            blocks.push(tried);
        }
    }
    blocks
}

#[test]
fn trials_of_any_blocks_are_right() {
    let answers = answers(&any_blocks());
    assert!(answers[0] > 2000 && answers[6] > 50, "{answers:?}");
    assert_eq!(answers.iter().sum::<u64>(), answers[0] + answers[6]);
}

/// Puts the cause of one number other than 6 into a call.
fn spoil(random: &mut Random, call: &mut Call, number: u8) {
    let settings = &mut call.state.settings;
    match number {
        1 => wrong_size(random, settings),
        2 => settings.m = wrong_step(random, settings),
        9 => unsound(random, &mut call.state),
        _ => random.spoil(&mut call.lists, settings, number),
    }
}

/// A call that 6 turns down. With M = 0 it is accepted.
fn rising(random: &mut Random) -> Call {
    loop {
        let mut call = Call::good(random);
        let settings = &mut call.state.settings;
        settings.m = settings.greatest_m();
        call.lists.training = random.training(settings, Aim::Ends);
        call.state.psi = 15;
        if call.on_a_copy().0 == 6 {
            return call;
        }
    }
}

/// A call with these causes, which stand in their order; without 6, M is 0.
fn with_causes(random: &mut Random, rising: &Call, causes: &[u8]) -> Call {
    let mut call = rising.clone();
    if !causes.contains(&6) {
        call.state.settings.m = 0;
    }
    for &number in causes.iter().rev().filter(|&&number| number != 6) {
        spoil(random, &mut call, number);
    }
    call
}

/// A record of any bytes, its sizes and M often good, or a sound one; with any lists.
fn any_call(random: &mut Random) -> Call {
    let mut settings = random.settings();
    let lists = random.any_lists();
    if random.chance(1, 3) {
        return Call { state: random.sound_state(settings).lent(), lists };
    }
    if random.chance(1, 3) {
        wrong_size(random, &mut settings);
    }
    if random.chance(1, 3) {
        settings.m = random.next() as u32;
    }
    let [psi, b, bmax] = [(); 3].map(|()| random.byte(0, 255));
    let [weights, data] = [(); 2].map(|()| random.list(SLOTS, |bits| bits as i16));
    Call { state: State { settings, psi, b, bmax, weights, data }, lists }
}

/// Every set of causes, of which the first in the order is answered, and any records with any lists.
fn refusals() -> Vec<Tried> {
    let mut random = Random::new(9);
    let pool: Vec<Call> = (0..100).map(|_| rising(&mut random)).collect();
    let mut refusals = Vec::new();
    for set in 1..1 << ORDER.len() {
        let chosen = |at: &usize| (set >> at) & 1 == 1;
        let causes: Vec<u8> = (0..ORDER.len()).filter(chosen).map(|at| ORDER[at]).collect();
        for base in pool.iter().skip(random.below(4) as usize).step_by(4) {
            let tried = Tried::of(with_causes(&mut random, base, &causes));
            assert_eq!(tried.left.0, causes[0], "{causes:?} in {:?}", tried.call);
            refusals.push(tried);
        }
    }
    refusals.extend((0..600).map(|_| Tried::of(any_call(&mut random))));
    refusals
}

#[test]
fn trials_are_turned_down_in_order_and_touch_nothing() {
    let answers = answers(&refusals());
    assert_eq!(answers[0], 0);
    // 6 is the first cause in one set only.
    assert!(ORDER.iter().all(|&number| answers[usize::from(number)] >= 25), "{answers:?}");
}

/// A list of calls: blocks from a start, each run, saved and loaded again.
struct List {
    start: State,
    blocks: Vec<Lists>,
}

/// The state that a block got, its number and outputs, the number of the save, and the buffer after it.
type Told = (State, u8, Outputs, u8, Vec<u8>);

impl List {
    /// Lists for the start: good, with one cause, or any.
    fn any(random: &mut Random) -> List {
        let call = match random.below(4) {
            0 => any_call(random),
            1 => rising(random),
            _ => Call::good(random),
        };
        let within = call.state.settings.within_limits();
        let block = |_| {
            let mut call = if within { call.clone() } else { Call::good(random) };
            call.lists = random.lists(&call.state.settings);
            match random.below(6) {
                0 => call.lists = random.any_lists(),
                cause @ 3..=5 => spoil(random, &mut call, cause as u8),
                _ => {}
            }
            call.lists
        };
        List { start: call.state.clone(), blocks: (0..5).map(block).collect() }
    }

    /// What the calls tell, with a trial before each block or without.
    fn told(&self, trials: Option<&dyn Implementation>) -> Vec<Told> {
        let mut state = self.start.clone();
        let tell = |lists: &Lists| {
            if let Some(by) = trials {
                by.trial(&mut state, lists.inputs(), &mut lists.outputs.clone());
            }
            let (got, mut outputs, mut buffer) =
                (state.clone(), lists.outputs.clone(), vec![0x5A; lists.samples.len() + 50]);
            let number = run(&mut state, lists.inputs(), &mut outputs);
            let (saved, length) = save(&state, &mut buffer);
            if saved == 0 {
                state = load(&buffer[..length]).1;
            }
            (got, number, outputs, saved, buffer)
        };
        self.blocks.iter().map(tell).collect()
    }
}

/// Lists, and what they tell without trials.
fn lists() -> Vec<(List, Vec<Told>)> {
    let mut random = Random::new(3);
    let lists = (0..500).map(|_| List::any(&mut random));
    let told = lists.map(|list| {
        let told = list.told(None);
        (list, told)
    });
    told.collect()
}

#[test]
fn lists_of_calls_go_on_as_if_no_trial_were_among_them() {
    let mut counts = Counts::default();
    for (list, told) in lists() {
        assert!(list.told(Some(&Second)) == told, "{:?} {:?}", list.start, list.blocks);
        for (_, number, _, saved, _) in told {
            counts.add(&format!("block {number}"), true);
            counts.add(&format!("save {saved}"), true);
        }
    }
    let answers = |kind: &str| counts.by_number(kind).into_iter().map(|(number, _)| number).collect::<Vec<usize>>();
    assert_eq!((answers("block"), answers("save")), (vec![0, 1, 2, 3, 4, 5, 6, 9], vec![0, 1, 2, 7, 9]), "{counts:?}");
}

#[test]
fn every_fault_of_a_trial_is_found_where_it_shows() {
    let (blocks, refusals, lists) = (any_blocks(), refusals(), lists());
    let found = |fault: &'static str| -> String {
        let by = Faulty::new(fault);
        let shows = |tried: &Tried| tried.call.tried(&by) != tried.left;
        let found = [
            ('b', blocks.iter().any(shows)),
            ('r', refusals.iter().any(shows)),
            ('l', lists.iter().any(|(list, told)| list.told(Some(&by)) != *told)),
        ];
        found.into_iter().filter(|(_, found)| *found).map(|(letter, _)| letter).collect()
    };
    assert_eq!(found(""), "");
    for fault in FAULTS {
        let wanted: String = fault.found.chars().filter(|letter| "brl".contains(*letter)).collect();
        assert_eq!(found(fault.name), wanted, "{}", fault.name);
    }
}
