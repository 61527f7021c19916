//! Faulty equalisers: one list, to which every check is held, and one implementation that has them.
//!
//! * [`list`]: each fault, and which checks find it.
//! * [`faulty`]: the five operations with a fault, as far as it is one of what they answer and leave.
//! * [`steps`]: a block in 64-bit numbers, with the faults inside it.
//! * [`spoiled`]: settings and states that are turned down.
//! * [`counts`]: how often a check has seen what.

pub mod counts;
pub mod faulty;
pub mod list;
pub mod spoiled;
pub mod steps;

pub use counts::Counts;
pub use faulty::Faulty;
pub use list::{Fault, CHECKS, FAULTS};

use reference::{Inputs, Outputs, Settings, State};

/// The five operations over the second implementation's types. A trial and a save only read the state; it is lent to
/// them to be written, so that one that writes to it is found.
pub trait Implementation {
    fn set_up(&self, settings: Settings) -> (u8, State);
    fn run(&self, state: &mut State, inputs: Inputs<'_>, outputs: &mut Outputs) -> u8;
    fn trial(&self, state: &mut State, inputs: Inputs<'_>, outputs: &mut Outputs) -> (u8, State);
    fn save(&self, state: &mut State, buffer: &mut [u8]) -> (u8, usize);
    fn load(&self, bytes: &[u8]) -> (u8, State);
}

/// The second implementation.
pub struct Second;

impl Implementation for Second {
    fn set_up(&self, settings: Settings) -> (u8, State) {
        reference::set_up(settings)
    }

    fn run(&self, state: &mut State, inputs: Inputs<'_>, outputs: &mut Outputs) -> u8 {
        reference::run(state, inputs, outputs)
    }

    fn trial(&self, state: &mut State, inputs: Inputs<'_>, outputs: &mut Outputs) -> (u8, State) {
        reference::trial(state, inputs, outputs)
    }

    fn save(&self, state: &mut State, buffer: &mut [u8]) -> (u8, usize) {
        reference::save(state, buffer)
    }

    fn load(&self, bytes: &[u8]) -> (u8, State) {
        reference::load(bytes)
    }
}
