//! The five operations by the library and by the second implementation.

use crate::{Answer, Block, Equaliser, Outputs, Saved};
use reference::{Inputs, Settings, State};

/// The five operations. A trial and a save only read the record; it is lent to
/// them so that a side that writes to it is found.
pub trait Operations {
    fn set_up(&self, settings: Settings) -> Answer;
    fn run(&self, s: &mut Equaliser, block: Block, out: Outputs) -> u8;
    fn trial(&self, s: &mut Equaliser, block: Block, out: Outputs) -> Answer;
    fn save(&self, s: &mut Equaliser, buffer: &mut [u8]) -> Saved;
    fn load(&self, bytes: &[u8]) -> Answer;
}

/// The static library.
pub struct Library;

impl Operations for Library {
    fn set_up(&self, s: Settings) -> Answer {
        crate::set_up(s.p, s.q, s.n, s.r, s.l, s.m)
    }

    fn run(&self, s: &mut Equaliser, block: Block, out: Outputs) -> u8 {
        crate::run(s, block, out)
    }

    fn trial(&self, s: &mut Equaliser, block: Block, out: Outputs) -> Answer {
        crate::trial(s, block, out)
    }

    fn save(&self, s: &mut Equaliser, buffer: &mut [u8]) -> Saved {
        crate::save(s, buffer)
    }

    fn load(&self, bytes: &[u8]) -> Answer {
        crate::load(bytes)
    }
}

/// The second implementation.
pub struct Second;

impl Operations for Second {
    fn set_up(&self, settings: Settings) -> Answer {
        let (number, state) = reference::set_up(settings);
        Answer {
            number,
            state: record_of(&state),
        }
    }

    fn run(&self, s: &mut Equaliser, block: Block, out: Outputs) -> u8 {
        let mut state = state_of(s);
        let number = over_lists(block, out, |inputs, lists| {
            reference::run(&mut state, inputs, lists)
        });
        *s = record_of(&state);
        number
    }

    fn trial(&self, s: &mut Equaliser, block: Block, out: Outputs) -> Answer {
        let (number, state) = over_lists(block, out, |inputs, lists| {
            reference::trial(&state_of(s), inputs, lists)
        });
        Answer {
            number,
            state: record_of(&state),
        }
    }

    fn save(&self, s: &mut Equaliser, buffer: &mut [u8]) -> Saved {
        let (number, length) = reference::save(&state_of(s), buffer);
        Saved { number, length }
    }

    fn load(&self, bytes: &[u8]) -> Answer {
        let (number, state) = reference::load(bytes);
        Answer {
            number,
            state: record_of(&state),
        }
    }
}

/// A call of the second implementation over lent lists.
pub fn over_lists<T>(
    block: Block,
    out: Outputs,
    call: impl FnOnce(Inputs, &mut reference::Outputs) -> T,
) -> T {
    let inputs = Inputs {
        samples: block.samples,
        gains: block.gains,
        training: block.entries,
    };
    let mut lists = reference::Outputs {
        y: out.y.to_vec(),
        xi: out.xi.to_vec(),
        decision: out.decision.to_vec(),
        z: out.z.to_vec(),
        theta: out.theta.to_vec(),
    };
    let answer = call(inputs, &mut lists);
    out.y.copy_from_slice(&lists.y);
    out.xi.copy_from_slice(&lists.xi);
    out.decision.copy_from_slice(&lists.decision);
    out.z.copy_from_slice(&lists.z);
    out.theta.copy_from_slice(&lists.theta);
    answer
}

/// The sizes and M of a record.
pub fn settings_of(e: &Equaliser) -> Settings {
    Settings {
        p: e.p,
        q: e.q,
        n: e.n,
        r: e.r,
        l: e.l,
        m: e.step,
    }
}

/// The second implementation's state for a record, spare slots and all.
pub fn state_of(e: &Equaliser) -> State {
    State {
        settings: settings_of(e),
        psi: e.psi,
        b: e.b,
        bmax: e.bmax,
        weights: e.weights.to_vec(),
        data: e.past.to_vec(),
    }
}

/// The record for a state of the second implementation.
pub fn record_of(state: &State) -> Equaliser {
    let lent = state.lent();
    let places = |list: Vec<i16>| list.try_into().expect("a lent record has 32 places");
    Equaliser {
        p: lent.settings.p,
        q: lent.settings.q,
        n: lent.settings.n,
        r: lent.settings.r,
        l: lent.settings.l,
        psi: lent.psi,
        b: lent.b,
        bmax: lent.bmax,
        step: lent.settings.m,
        weights: places(lent.weights),
        past: places(lent.data),
    }
}
