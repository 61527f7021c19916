//! What a station keeps through a loss of power, and what it takes of it.

use super::{IMAGE, SIZES};
use crate::sides::Operations;
use crate::{check_sum, Equaliser, Saved};

/// What lies in the memory that survives a loss of power.
#[derive(Clone, Copy)]
pub struct Kept {
    pub image: [u8; IMAGE],
    pub check_sum: u32,
}

impl Kept {
    pub fn filled(byte: u8) -> Kept {
        let check_sum = u32::from_ne_bytes([byte; 4]);
        let image = [byte; IMAGE];
        Kept { image, check_sum }
    }

    pub fn make_right(&mut self) {
        self.check_sum = check_sum(&self.image);
    }
}

/// What the station finds there. Only the first is taken.
#[derive(Clone, Copy, PartialEq)]
pub enum Finding {
    OwnState,
    WrongCheckSum,
    TurnedDown,
    OtherSettings,
}

impl Finding {
    const COUNT: usize = 4;

    pub fn text(self) -> &'static str {
        match self {
            Finding::OwnState => "recovered",
            Finding::WrongCheckSum => "set up anew, the check sum is wrong",
            Finding::TurnedDown => "set up anew, the load is turned down",
            Finding::OtherSettings => "set up anew, the settings are not the station's own",
        }
    }
}

/// How often each was found.
#[derive(Default)]
pub struct Findings([u32; Finding::COUNT]);

impl Findings {
    pub fn add(&mut self, found: Finding) {
        self.0[found as usize] += 1;
    }

    pub fn of(&self, found: Finding) -> u32 {
        self.0[found as usize]
    }
}

/// Keeps a state: its image, and the check sum of that.
pub fn keep(side: &dyn Operations, s: &mut Equaliser, kept: &mut Kept) -> Saved {
    let saved = side.save(s, &mut kept.image);
    if saved.number == 0 {
        kept.make_right();
    }
    saved
}

/// The state after a loss of power: the kept one, if its check sum is right,
/// it can be loaded and its settings are the station's own; otherwise a fresh
/// one.
pub fn recover(side: &dyn Operations, kept: &Kept) -> (Finding, Equaliser) {
    let fresh = side.set_up(SIZES).state;
    if check_sum(&kept.image) != kept.check_sum {
        return (Finding::WrongCheckSum, fresh);
    }
    let answer = side.load(&kept.image);
    if answer.number != 0 {
        return (Finding::TurnedDown, fresh);
    }
    if answer.state.settings() != fresh.settings() {
        return (Finding::OtherSettings, fresh);
    }
    (Finding::OwnState, answer.state)
}
