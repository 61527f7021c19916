//! The five operations on the record of C: by the static library, and by whatever has them over the second
//! implementation's types.

pub use faults::Second;

use faults::Implementation;
use reference::{Inputs, Settings, State};
use tigbulode::{Answer, Block, Equaliser, Outputs, Saved};

/// The five operations. A trial and a save only read the record; it is lent to them so that a side that writes to it is
/// found.
pub trait Operations {
    fn set_up(&self, settings: Settings) -> Answer;
    fn run(&self, s: &mut Equaliser, block: Block, out: Outputs) -> u8;
    fn trial(&self, s: &mut Equaliser, block: Block, out: Outputs) -> Answer;
    fn save(&self, s: &mut Equaliser, buffer: &mut [u8]) -> Saved;
    fn load(&self, bytes: &[u8]) -> Answer;
}

/// The static library.
pub struct Library;

impl Operations for Library {
    fn set_up(&self, s: Settings) -> Answer {
        tigbulode::set_up(s)
    }

    fn run(&self, s: &mut Equaliser, block: Block, out: Outputs) -> u8 {
        tigbulode::run(s, block, out)
    }

    fn trial(&self, s: &mut Equaliser, block: Block, out: Outputs) -> Answer {
        tigbulode::trial(s, block, out)
    }

    fn save(&self, s: &mut Equaliser, buffer: &mut [u8]) -> Saved {
        tigbulode::save(s, buffer)
    }

    fn load(&self, bytes: &[u8]) -> Answer {
        tigbulode::load(bytes)
    }
}

fn answer((number, state): (u8, State)) -> Answer {
    Answer { number, state: record_of(&state) }
}

/// What `call` gives on a record's state, which is moved on.
fn on_state<T>(s: &mut Equaliser, call: impl FnOnce(&mut State) -> T) -> T {
    let mut state = state_of(s);
    let given = call(&mut state);
    *s = record_of(&state);
    given
}

impl<T: Implementation> Operations for T {
    fn set_up(&self, settings: Settings) -> Answer {
        answer(Implementation::set_up(self, settings))
    }

    fn run(&self, s: &mut Equaliser, block: Block, out: Outputs) -> u8 {
        on_state(s, |s| over_lists(block, out, |inputs, lists| Implementation::run(self, s, inputs, lists)))
    }

    fn trial(&self, s: &mut Equaliser, block: Block, out: Outputs) -> Answer {
        answer(on_state(s, |s| over_lists(block, out, |inputs, lists| Implementation::trial(self, s, inputs, lists))))
    }

    fn save(&self, s: &mut Equaliser, buffer: &mut [u8]) -> Saved {
        let (number, length) = on_state(s, |s| Implementation::save(self, s, buffer));
        Saved { number, length }
    }

    fn load(&self, bytes: &[u8]) -> Answer {
        answer(Implementation::load(self, bytes))
    }
}

/// A call over copies of lent lists, which get back what it leaves in them, as far as they go.
pub fn over_lists<T>(block: Block, out: Outputs, call: impl FnOnce(Inputs, &mut reference::Outputs) -> T) -> T {
    fn put<T: Copy>(list: &mut [T], left: &[T]) {
        list.iter_mut().zip(left).for_each(|(place, number)| *place = *number);
    }
    let inputs = Inputs { samples: block.samples, gains: block.gains, training: block.entries };
    let mut lists = reference::Outputs {
        y: out.y.to_vec(),
        xi: out.xi.to_vec(),
        decision: out.decision.to_vec(),
        z: out.z.to_vec(),
        theta: out.theta.to_vec(),
    };
    let given = call(inputs, &mut lists);
    put(out.y, &lists.y);
    put(out.xi, &lists.xi);
    put(out.decision, &lists.decision);
    put(out.z, &lists.z);
    put(out.theta, &lists.theta);
    given
}

/// The second implementation's state for a record, spare slots and all.
pub fn state_of(e: &Equaliser) -> State {
    State {
        settings: e.settings(),
        psi: e.psi,
        b: e.b,
        bmax: e.bmax,
        weights: e.weights.to_vec(),
        data: e.past.to_vec(),
    }
}

/// The record for a state of the second implementation.
pub fn record_of(state: &State) -> Equaliser {
    let lent = state.lent();
    let places = |list: Vec<i16>| list.try_into().expect("a lent record has 32 places");
    let Settings { p, q, n, r, l, m } = lent.settings;
    Equaliser {
        p,
        q,
        n,
        r,
        l,
        psi: lent.psi,
        b: lent.b,
        bmax: lent.bmax,
        step: m,
        weights: places(lent.weights),
        past: places(lent.data),
    }
}
