//! One call after the other on both sides, with everything that is checked.

use crate::cables::CableInputs;
use crate::figures::{as_the_steps_give, detail};
use crate::kinds::Sides;
use crate::lists::Lister;
use crate::pieces::Accepted;
use faults::Counts;
use harness::calls::{Call, Lists};
use harness::compare::{difference, unlike_a_run, without_trials, SIDES};
use harness::perform::{on_a_copy, perform, Outcome};
use harness::sides::{record_of, state_of, Operations};
use reference::demand3::{Checker, Received};
use reference::random::Random;
use reference::swapped::Pair;
use reference::State;
use std::cell::Cell;
use std::collections::HashMap;
use std::fmt;
use std::panic::{catch_unwind, AssertUnwindSafe};
use std::sync::Once;
use tigbulode::{Answer, Block, Equaliser, Outputs, Saved, IMAGE_BYTES};

/// A call of a list, or a cable, which is a list of its own.
#[derive(Clone, Debug, PartialEq, Eq)]
pub enum Step {
    Call(Call),
    Cable(CableInputs),
}

impl Step {
    pub fn kind(&self) -> &'static str {
        match self {
            Step::Call(call) => Call::KINDS[call.kind()],
            Step::Cable(_) => "cable",
        }
    }

    /// The samples of a block or trial, the symbols of a cable.
    pub fn samples(&self) -> usize {
        match self {
            Step::Call(call) => call.lists().map_or(0, |lists| lists.m.len()),
            Step::Cable(lent) => lent.symbols.len(),
        }
    }
}

/// What failed, and where in a list: the check by name, and the text for a reader.
#[derive(Clone, Debug, PartialEq, Eq)]
pub struct Failure {
    pub place: usize,
    pub kind: &'static str,
    pub check: String,
    pub text: String,
}

impl fmt::Display for Failure {
    fn fmt(&self, f: &mut fmt::Formatter) -> fmt::Result {
        write!(f, "call {}, {}: {}", self.place, self.kind, self.text)
    }
}

impl Failure {
    /// One whose place is not told yet.
    pub fn of(check: &str, text: impl Into<String>) -> Failure {
        Failure { place: 0, kind: "", check: check.to_string(), text: text.into() }
    }

    /// The first difference between the sides.
    pub fn differing(outcomes: [&Outcome; 2]) -> Result<(), Failure> {
        match difference(&outcomes[0].parts, &outcomes[1].parts) {
            Some(d) => Err(Failure::of(&format!("difference in {}", d.part), d.between(SIDES[0], SIDES[1]))),
            None => Ok(()),
        }
    }

    /// What is left of a call that was turned down is what was lent.
    pub fn touched(outcome: &Outcome, untouched: &Outcome) -> Result<(), Failure> {
        let number = outcome.number;
        match difference(&outcome.parts, &untouched.parts) {
            Some(d) => Err(Failure::of("refusal", format!("turned down with {number}, but {} is touched", d.part))),
            None => Ok(()),
        }
    }
}

/// A side that turns every call down with one number and touches nothing.
struct Refusing(u8);

impl Operations for Refusing {
    fn set_up(&self, _: reference::Settings) -> Answer {
        self.load(&[])
    }

    fn run(&self, _: &mut Equaliser, _: Block, _: Outputs) -> u8 {
        self.0
    }

    fn trial(&self, s: &mut Equaliser, _: Block, _: Outputs) -> Answer {
        Answer { number: self.0, state: *s }
    }

    fn save(&self, _: &mut Equaliser, _: &mut [u8]) -> Saved {
        Saved { number: self.0, length: 0 }
    }

    fn load(&self, _: &[u8]) -> Answer {
        Answer { number: self.0, state: record_of(&State::fresh()) }
    }
}

/// What `work` gives, or that it stopped, with the text, which is not printed.
fn stopping<T>(work: impl FnOnce() -> Result<T, Failure>) -> Result<T, Failure> {
    static SILENT: Once = Once::new();
    thread_local!(static INSIDE: Cell<bool> = const { Cell::new(false) });
    SILENT.call_once(|| {
        let usual = std::panic::take_hook();
        std::panic::set_hook(Box::new(move |stop| {
            if !INSIDE.get() {
                usual(stop);
            }
        }));
    });
    INSIDE.set(true);
    let given = catch_unwind(AssertUnwindSafe(work));
    INSIDE.set(false);
    given.unwrap_or_else(|stop| {
        let plain = stop.downcast_ref::<&str>().map(|text| text.to_string());
        let text = stop.downcast_ref::<String>().cloned().or(plain).unwrap_or_default();
        Err(Failure::of("stop", format!("a computation stopped: {text}")))
    })
}

/// How the past samples of the list's state came there.
const AT_ONCE: &str = "followed at once";
const AFTER_CALLS: &str = "followed after calls";
const AFTER_A_LOAD: &str = "followed after a load";

/// What is known of a list.
pub(crate) struct List {
    records: [Equaliser; 2],
    /// Its calls, with what they left.
    past: Vec<(Call, Outcome)>,
    /// What the past samples in each saved image were, where that is known.
    images: HashMap<Vec<u8>, Option<Received>>,
    way: &'static str,
    /// The swapped pair of each side, and numbers for their output lists.
    pub(crate) pairs: Option<[Pair; 2]>,
    pub(crate) random: Random,
}

/// The state of a refused set-up, which every list starts from.
fn start() -> Equaliser {
    record_of(&State::fresh())
}

impl List {
    fn new() -> List {
        let (past, images, random) = (Vec::new(), HashMap::new(), Random::new(0));
        List { records: [start(); 2], past, images, way: AT_ONCE, pairs: None, random }
    }
}

/// The two sides, and what was seen on them.
pub struct Bench<'a> {
    pub(crate) sides: Sides<'a>,
    pub(crate) list: List,
    pub checker: Checker,
    pub counts: Counts,
}

impl<'a> Bench<'a> {
    pub fn new(sides: Sides<'a>) -> Bench<'a> {
        Bench { sides, list: List::new(), checker: Checker::new(), counts: Counts::default() }
    }

    fn start_list(&mut self) {
        self.list = List::new();
        self.checker.forget();
    }

    /// The record that the list has led to.
    pub fn record(&self) -> &Equaliser {
        &self.list.records[0]
    }

    /// Makes a call, or a cable, on both sides; gives the image of an accepted save.
    fn step(&mut self, step: &Step) -> Result<Option<Vec<u8>>, Failure> {
        let (place, kind) = (self.list.past.len(), step.kind());
        let checked = stopping(|| match step {
            Step::Call(call) => self.call(call),
            Step::Cable(lent) => self.cable(lent).map(|()| None),
        });
        checked.map_err(|failure| Failure { place, kind, ..failure })
    }

    /// The end of a list, which must be the same without its trials.
    fn end_list(&mut self) -> Result<(), Failure> {
        let again = without_trials(self.sides.station, start(), &self.list.past).map_err(|(place, text)| {
            let kind = Call::KINDS[self.list.past[place].0.kind()];
            Failure { place, kind, ..Failure::of("list without its trials", text) }
        });
        self.counts.add("again", again?);
        Ok(())
    }

    /// Makes the calls of a run's list to its end, as long as it goes on with so many calls; gives them, and what
    /// fails.
    pub fn made(&mut self, seed: u64, list: u64, goes_on: &mut dyn FnMut(u64) -> bool) -> (Vec<Step>, Option<Failure>) {
        let mut lister = Lister::new(seed, list);
        let mut steps = Vec::new();
        self.start_list();
        while goes_on(self.counts.of("calls")) {
            let Some(call) = lister.next(self.record()) else {
                break;
            };
            steps.push(Step::Call(call));
            match self.step(&steps[steps.len() - 1]) {
                Ok(image) => image.iter().for_each(|image| lister.keep(image)),
                Err(failure) => return (steps, Some(failure)),
            }
        }
        let failure = self.end_list().err();
        (steps, failure)
    }

    /// A whole list.
    pub fn list(&mut self, steps: &[Step]) -> Result<(), Failure> {
        self.start_list();
        for step in steps {
            self.step(step)?;
        }
        self.end_list()
    }

    fn call(&mut self, call: &Call) -> Result<Option<Vec<u8>>, Failure> {
        let before = self.list.records;
        let [first, second] = &mut self.list.records;
        let [library, other] = self.sides.station;
        let outcomes = [perform(library, call, first), perform(other, call, second)];
        Failure::differing([&outcomes[0], &outcomes[1]])?;
        if let Some(text) = unlike_a_run(self.sides.station, call, &before, [&outcomes[0], &outcomes[1]]) {
            return Err(Failure::of("run on a copy", text));
        }
        self.counts.add("copies", call.is_trial());
        let ([outcome, _], [before, _]) = (outcomes, before);
        if outcome.number != 0 {
            Failure::touched(&outcome, &perform(&Refusing(outcome.number), call, &mut before.clone()))?;
        }
        self.list_state(call, &outcome)?;
        self.round_trip(call, &outcome)?;
        match call {
            Call::Block(lists, _) | Call::Trial(lists, _) => self.block(call, lists, before, &outcome)?,
            _ => self.follow(call, &outcome),
        }
        if call.lists().is_some() && outcome.number == 0 {
            self.readings(&outcome)?;
        }
        self.swapped(call, &before)?;
        self.count(call, &outcome, &before);
        let image = outcome.image.clone();
        self.list.past.push((call.clone(), outcome));
        Ok(image)
    }

    /// Every state of a list is sound and has admitted settings, so that no block, trial or save on it answers 1, 2 or
    /// 9; so is every state beside an accepted trial.
    fn list_state(&self, call: &Call, outcome: &Outcome) -> Result<(), Failure> {
        let number = outcome.number;
        let on_record = matches!(call, Call::Block(..) | Call::Trial(..) | Call::Save(..));
        if on_record && call.other().is_none() && [1, 2, 9].contains(&number) {
            return Err(Failure::of("state", format!("answer {number} on a state of the list")));
        }
        let given = outcome.state.filter(|_| number == 0);
        let mut numbers = given.into_iter().chain([self.list.records[0]]).map(|state| state_of(&state).examine());
        match numbers.find(|&number| number != 0) {
            None => Ok(()),
            Some(number) => Err(Failure::of("state", format!("a state has a {number}"))),
        }
    }

    /// An accepted save loads to what was saved, an accepted image saves to the same bytes.
    fn round_trip(&self, call: &Call, outcome: &Outcome) -> Result<(), Failure> {
        let library = self.sides.station[0];
        let good = match (call, &outcome.image) {
            (Call::Save(_, lent), Some(image)) => {
                let loaded = library.load(image);
                loaded.number == 0 && loaded.state == lent.unwrap_or(self.list.records[0])
            }
            (Call::Load(bytes), _) if outcome.number == 0 => {
                let (mut loaded, mut buffer) = (self.list.records[0], [0; IMAGE_BYTES]);
                let saved = library.save(&mut loaded, &mut buffer);
                saved.number == 0 && buffer.get(..saved.length) == Some(bytes)
            }
            _ => true,
        };
        match good {
            true => Ok(()),
            false => Err(Failure::of("round trip", "saving and loading do not give the same back")),
        }
    }

    /// A block or a trial. The list goes on without a trial, and without a block on another record.
    fn block(&mut self, call: &Call, lists: &Lists, own: Equaliser, outcome: &Outcome) -> Result<(), Failure> {
        if outcome.number != 0 {
            self.calls_between();
            return Ok(());
        }
        if call.other().is_none() && !call.is_trial() {
            self.counts.add(self.list.way, self.checker.received().is_some() && own.p > 1);
            self.list.way = AT_ONCE;
            return self.figures(&Accepted { before: own, lists, outcome, after: self.list.records[0] });
        }
        self.calls_between();
        let before = *call.other().unwrap_or(&own);
        let after = outcome.state.or_else(|| on_a_copy(self.sides.station[0], lists, &before).state);
        let received = self.checker.received();
        if call.other().is_some() {
            self.counts.add("others", true);
            self.checker.forget();
        }
        let checked = self.figures(&Accepted { before, lists, outcome, after: after.unwrap_or(before) });
        self.checker.recall(received);
        checked
    }

    /// The figures of demand 3 at every sample of an accepted block or trial.
    fn figures(&mut self, block: &Accepted) -> Result<(), Failure> {
        let checked = detail(self.sides.station[0], block).and_then(|detail| {
            self.count_moves(&detail);
            self.checker.figures(&block.before.settings(), &detail)?;
            as_the_steps_give(block, &detail)
        });
        checked.map_err(|text| Failure::of("figure", text))
    }

    fn calls_between(&mut self) {
        if self.list.way == AT_ONCE {
            self.list.way = AFTER_CALLS;
        }
    }

    /// What the past samples of the list's state were, after a call that is no block and no trial.
    fn follow(&mut self, call: &Call, outcome: &Outcome) {
        self.calls_between();
        match (call, &outcome.image) {
            (Call::Save(_, None), Some(image)) => {
                self.list.images.insert(image.clone(), self.checker.received());
            }
            (Call::Load(bytes), _) if outcome.number == 0 => {
                let saved = self.list.images.get(bytes);
                self.counts.add("saved earlier", saved.is_some());
                self.checker.recall(saved.cloned().flatten());
                self.list.way = AFTER_A_LOAD;
            }
            (Call::Load(_) | Call::SetUp(_), _) => self.checker.forget(),
            _ => (),
        }
    }
}
