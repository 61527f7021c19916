//! One call after the other on both sides, with everything that is checked.

use crate::cables::bench::Side;
use crate::figures::{as_the_steps_give, detail};
use crate::pieces::Accepted;
use crate::readings::ReadingsBench;
use crate::swapped::SwappedBench;
use reference::block::BlockDetail;
use reference::demand3::{Checker, Received};
use reference::State;
use std::cell::Cell;
use std::collections::HashMap;
use std::fmt;
use std::panic::{catch_unwind, AssertUnwindSafe};
use std::sync::Once;
use tigbulode::calls::{Call, Lists};
use tigbulode::compare::{difference, unlike_a_run, Past, Tally, SIDES};
use tigbulode::perform::{on_a_copy, perform, Outcome};
use tigbulode::sides::{record_of, settings_of, state_of, Operations};
use tigbulode::{Answer, Block, Equaliser, Outputs, Saved, IMAGE_BYTES};

/// What failed: the check by name, and the text for a reader.
#[derive(Clone, Debug, PartialEq, Eq)]
pub struct Failing {
    pub check: String,
    pub text: String,
}

impl Failing {
    pub fn of(check: &str, text: impl Into<String>) -> Failing {
        let (check, text) = (check.to_string(), text.into());
        Failing { check, text }
    }
}

/// The place in a list where something failed.
#[derive(Clone, Debug, PartialEq, Eq)]
pub struct Failure {
    pub place: usize,
    pub kind: &'static str,
    pub failing: Failing,
}

impl fmt::Display for Failure {
    fn fmt(&self, f: &mut fmt::Formatter) -> fmt::Result {
        let Failure {
            place,
            kind,
            failing,
        } = self;
        write!(f, "call {place}, {kind}: {}", failing.text)
    }
}

/// A side that turns every call down with one number and touches nothing.
struct Refusing(u8);

impl Operations for Refusing {
    fn set_up(&self, _: reference::Settings) -> Answer {
        self.load(&[])
    }

    fn run(&self, _: &mut Equaliser, _: Block, _: Outputs) -> u8 {
        self.0
    }

    fn trial(&self, s: &mut Equaliser, _: Block, _: Outputs) -> Answer {
        Answer {
            number: self.0,
            state: *s,
        }
    }

    fn save(&self, _: &mut Equaliser, _: &mut [u8]) -> Saved {
        Saved {
            number: self.0,
            length: 0,
        }
    }

    fn load(&self, _: &[u8]) -> Answer {
        Answer {
            number: self.0,
            state: record_of(&State::fresh()),
        }
    }
}

/// What `work` gives, or the text with which it stopped, which is not printed.
pub fn stopping<T>(work: impl FnOnce() -> T) -> Result<T, String> {
    static SILENT: Once = Once::new();
    thread_local!(static INSIDE: Cell<bool> = const { Cell::new(false) });
    SILENT.call_once(|| {
        let usual = std::panic::take_hook();
        std::panic::set_hook(Box::new(move |stop| {
            if !INSIDE.get() {
                usual(stop);
            }
        }));
    });
    INSIDE.set(true);
    let given = catch_unwind(AssertUnwindSafe(work));
    INSIDE.set(false);
    given.map_err(|stop| {
        let text = stop.downcast_ref::<String>().cloned();
        let plain = stop.downcast_ref::<&str>().map(|text| text.to_string());
        text.or(plain).unwrap_or_default()
    })
}

/// Accepted blocks whose past samples were followed from the block before.
#[derive(Clone, Copy, Debug, Default)]
pub struct Followed {
    pub at_once: u64,
    /// Calls came between that left the state as it was.
    pub after_calls: u64,
    /// A save was loaded back between.
    pub loaded_back: u64,
}

/// Accepted blocks and trials in which ψ fell.
#[derive(Clone, Copy, Debug, Default)]
pub struct Moves {
    pub fell: u64,
    pub from_15_to_0: u64,
    pub fell_and_rose: u64,
}

impl Moves {
    fn count(&mut self, detail: &BlockDetail) {
        let samples = &detail.samples;
        let fell = samples.iter().any(|d| d.psi_after < d.psi_before);
        let rose = samples.iter().any(|d| d.psi_after > d.psi_before);
        let from_15 = samples.first().is_some_and(|d| d.psi_before == 15);
        let to_0 = samples.last().is_some_and(|d| d.psi_after == 0);
        self.fell += u64::from(fell);
        self.from_15_to_0 += u64::from(from_15 && to_0);
        self.fell_and_rose += u64::from(fell && rose);
    }
}

/// How the past samples of the list's state came there.
#[derive(Clone, Copy, Default)]
struct Way {
    calls_between: bool,
    loaded_back: bool,
}

/// The two sides, and what was seen on them.
pub struct Bench<'a> {
    sides: [&'a dyn Operations; 2],
    records: [Equaliser; 2],
    past: Past,
    /// What the past samples in each saved image were, where that is known.
    images: HashMap<Vec<u8>, Option<Received>>,
    way: Way,
    pub checker: Checker,
    pub tally: Tally,
    pub followed: Followed,
    pub moves: Moves,
    /// Accepted blocks and trials on other records.
    pub others: u64,
    pub readings: ReadingsBench<'a>,
    pub swapped: SwappedBench<'a>,
}

impl<'a> Bench<'a> {
    pub fn new(library: &'a dyn Side, second: &'a dyn Side) -> Bench<'a> {
        let start = record_of(&State::fresh());
        Bench {
            sides: [library, second],
            records: [start; 2],
            past: Past::new(start),
            images: HashMap::new(),
            way: Way::default(),
            checker: Checker::new(),
            tally: Tally::default(),
            followed: Followed::default(),
            moves: Moves::default(),
            others: 0,
            readings: ReadingsBench::new(library, second),
            swapped: SwappedBench::new(library, second),
        }
    }

    /// A new list, which starts from the state of a refused set-up.
    pub fn start_list(&mut self) {
        let start = record_of(&State::fresh());
        self.records = [start; 2];
        self.past = Past::new(start);
        self.images.clear();
        self.checker.forget();
        self.way = Way::default();
        self.swapped.start_list();
    }

    /// The record that the list has led to.
    pub fn record(&self) -> &Equaliser {
        &self.records[0]
    }

    /// Makes a call on both sides; gives the image of an accepted save.
    pub fn call(&mut self, call: &Call) -> Result<Option<Vec<u8>>, Failure> {
        let checked = stopping(|| self.checked(call)).unwrap_or_else(|text| {
            Err(Failing::of(
                "stop",
                format!("a computation stopped: {text}"),
            ))
        });
        let (place, kind) = (self.past.count(), Call::KINDS[call.kind()]);
        let outcome = checked.map_err(|failing| Failure {
            place,
            kind,
            failing,
        })?;
        let image = outcome.image.clone();
        self.past.push(call.clone(), outcome);
        Ok(image)
    }

    /// The end of a list, which must be the same without its trials.
    pub fn end_list(&mut self) -> Result<(), Failure> {
        let again = self.past.without_trials(self.sides);
        let again = again.map_err(|(place, kind, text)| Failure {
            place,
            kind,
            failing: Failing::of("list without its trials", text),
        });
        self.tally.again += again?;
        Ok(())
    }

    /// A whole list.
    pub fn list(&mut self, calls: &[Call]) -> Result<(), Failure> {
        self.start_list();
        for call in calls {
            self.call(call)?;
        }
        self.end_list()
    }

    fn checked(&mut self, call: &Call) -> Result<Outcome, Failing> {
        let before = self.records;
        let [first, second] = &mut self.records;
        let outcome = perform(self.sides[0], call, first);
        let other = perform(self.sides[1], call, second);
        if let Some(difference) = difference(&outcome.parts, &other.parts) {
            let check = format!("difference in {}", difference.part);
            let text = difference.between(SIDES[0], SIDES[1]);
            return Err(Failing::of(&check, text));
        }
        self.as_a_run(call, &before, [&outcome, &other])?;
        let [before, _] = before;
        self.refused(call, &before, &outcome)?;
        self.list_state(call, &outcome)?;
        self.round_trip(call, &outcome)?;
        match call {
            Call::Block(lists, None) => self.own_block(lists, before, &outcome)?,
            Call::Block(lists, other) | Call::Trial(lists, other) => {
                self.aside(lists, before, *other, &outcome)?;
            }
            _ => self.follow(call, &outcome),
        }
        if call.lists().is_some() && outcome.number == 0 {
            self.readings.outcome(&outcome)?;
        }
        self.swapped.call(call, &before)?;
        let after = self.records[0];
        self.tally.count(call, &outcome, &before, &after);
        Ok(outcome)
    }

    /// A trial is what running its block on a copy is, by the same side.
    fn as_a_run(
        &mut self,
        call: &Call,
        before: &[Equaliser; 2],
        outcomes: [&Outcome; 2],
    ) -> Result<(), Failing> {
        self.tally.on_copies += u64::from(call.is_trial());
        match unlike_a_run(self.sides, call, before, outcomes) {
            Some(text) => Err(Failing::of("run on a copy", text)),
            None => Ok(()),
        }
    }

    /// A call that was turned down left everything as it was.
    fn refused(&self, call: &Call, before: &Equaliser, outcome: &Outcome) -> Result<(), Failing> {
        let number = outcome.number;
        if number == 0 {
            return Ok(());
        }
        let untouched = perform(&Refusing(number), call, &mut before.clone());
        match difference(&outcome.parts, &untouched.parts) {
            Some(d) => {
                let text = format!("turned down with {number}, but {} is touched", d.part);
                Err(Failing::of("refusal", text))
            }
            None => Ok(()),
        }
    }

    /// Every state of a list is sound and has admitted settings, so that no
    /// block, trial or save on it answers 1, 2 or 9; so is every state beside
    /// an accepted trial.
    fn list_state(&self, call: &Call, outcome: &Outcome) -> Result<(), Failing> {
        let number = outcome.number;
        let on_record = matches!(call, Call::Block(..) | Call::Trial(..) | Call::Save(..));
        if on_record && call.other().is_none() && [1, 2, 9].contains(&number) {
            let text = format!("answer {number} on a state of the list");
            return Err(Failing::of("state", text));
        }
        let given = outcome.state.filter(|_| number == 0);
        let mut states = given.iter().chain([&self.records[0]]);
        match states.find_map(|state| Some(state_of(state).examine()).filter(|&n| n != 0)) {
            None => Ok(()),
            Some(number) => Err(Failing::of("state", format!("a state has a {number}"))),
        }
    }

    /// An accepted save loads to what was saved, an accepted image saves to
    /// the same bytes.
    fn round_trip(&self, call: &Call, outcome: &Outcome) -> Result<(), Failing> {
        let good = match (call, &outcome.image) {
            (Call::Save(_, lent), Some(image)) => {
                let loaded = self.sides[0].load(image);
                let saved = lent.unwrap_or(self.records[0]);
                loaded.number == 0 && loaded.state == saved
            }
            (Call::Load(bytes), _) if outcome.number == 0 => {
                let (mut loaded, mut buffer) = (self.records[0], [0; IMAGE_BYTES]);
                let saved = self.sides[0].save(&mut loaded, &mut buffer);
                saved.number == 0 && buffer.get(..saved.length) == Some(bytes)
            }
            _ => true,
        };
        if good {
            Ok(())
        } else {
            let text = "saving and loading do not give the same back";
            Err(Failing::of("round trip", text))
        }
    }

    /// A block on the list's own record.
    fn own_block(
        &mut self,
        lists: &Lists,
        before: Equaliser,
        outcome: &Outcome,
    ) -> Result<(), Failing> {
        if outcome.number != 0 {
            self.way.calls_between = true;
            return Ok(());
        }
        if self.checker.received().is_some() && before.p > 1 {
            let way = std::mem::take(&mut self.way);
            let followed = &mut self.followed;
            followed.loaded_back += u64::from(way.loaded_back);
            followed.after_calls += u64::from(way.calls_between && !way.loaded_back);
            followed.at_once += u64::from(!way.calls_between && !way.loaded_back);
        }
        self.way = Way::default();
        let after = self.records[0];
        self.figures(&Accepted {
            before,
            lists,
            outcome,
            after,
        })
    }

    /// A trial, or a block on another record: the list goes on without it.
    fn aside(
        &mut self,
        lists: &Lists,
        own: Equaliser,
        other: Option<Equaliser>,
        outcome: &Outcome,
    ) -> Result<(), Failing> {
        self.way.calls_between = true;
        if outcome.number != 0 {
            return Ok(());
        }
        let before = other.unwrap_or(own);
        let by_trial = outcome.state;
        let after = by_trial.or_else(|| on_a_copy(self.sides[0], lists, &before).state);
        let received = self.checker.received();
        if other.is_some() {
            self.others += 1;
            self.checker.forget();
        }
        let checked = self.figures(&Accepted {
            before,
            lists,
            outcome,
            after: after.unwrap_or(before),
        });
        self.checker.recall(received);
        checked
    }

    /// The figures of demand 3 at every sample of an accepted block or trial.
    fn figures(&mut self, block: &Accepted) -> Result<(), Failing> {
        let settings = settings_of(&block.before);
        let checked = detail(self.sides[0], block).and_then(|detail| {
            self.moves.count(&detail);
            self.checker.figures(&settings, &detail)?;
            as_the_steps_give(block, &detail)
        });
        checked.map_err(|text| Failing::of("figure", text))
    }

    /// What the past samples of the list's state were, after a call that is no
    /// block and no trial.
    fn follow(&mut self, call: &Call, outcome: &Outcome) {
        self.way.calls_between = true;
        match (call, &outcome.image) {
            (Call::Save(_, None), Some(image)) => {
                let received = self.checker.received();
                self.images.insert(image.clone(), received);
            }
            (Call::Load(bytes), _) if outcome.number == 0 => {
                let saved = self.images.get(bytes);
                self.tally.saved_earlier += u64::from(saved.is_some());
                self.checker.recall(saved.cloned().flatten());
                self.way.loaded_back = true;
            }
            (Call::Load(_) | Call::SetUp(_), _) => self.checker.forget(),
            _ => (),
        }
    }
}
