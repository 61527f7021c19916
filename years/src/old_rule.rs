//! The old rule, by which the weights' exponent only rises. The second
//! implementation has it, for comparison alone.

use reference::{run_by, Rule, Settings};
use tigbulode::sides::{over_lists, record_of, state_of, Operations, Second};
use tigbulode::{Answer, Block, Equaliser, Outputs, Saved};

/// The second implementation by the old rule.
pub struct RisesOnly;

impl Operations for RisesOnly {
    fn set_up(&self, settings: Settings) -> Answer {
        Second.set_up(settings)
    }

    fn run(&self, s: &mut Equaliser, block: Block, out: Outputs) -> u8 {
        let mut state = state_of(s);
        let number = over_lists(block, out, |inputs, lists| {
            run_by(Rule::RisesOnly, &mut state, inputs, lists)
        });
        *s = record_of(&state);
        number
    }

    fn trial(&self, s: &mut Equaliser, block: Block, out: Outputs) -> Answer {
        let mut state = *s;
        let number = self.run(&mut state, block, out);
        Answer { number, state }
    }

    fn save(&self, s: &mut Equaliser, buffer: &mut [u8]) -> Saved {
        Second.save(s, buffer)
    }

    fn load(&self, bytes: &[u8]) -> Answer {
        Second.load(bytes)
    }
}
