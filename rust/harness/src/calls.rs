//! A call with all that is lent to it.

use reference::Settings;
use tigbulode::{Equaliser, SLOTS};

/// The three lists that a block reads, and the lengths of the five that it hands out.
#[derive(Clone, Debug, PartialEq, Eq)]
pub struct Lists {
    pub m: Vec<i16>,
    pub gains: Vec<u8>,
    pub entries: Vec<i8>,
    pub rooms: [usize; 5],
}

impl Lists {
    /// Another length for one of the eight lists: m, gains, entries, Y, xi, decision, Z, theta.
    pub fn resize(&mut self, list: usize, length: usize) {
        match list {
            0 => self.m.resize(length, 1),
            1 => self.gains.resize(length, 15),
            2 => self.entries.resize(length, 0),
            other => self.rooms[other - 3] = length,
        }
    }

    /// The lengths of the eight lists.
    pub fn lengths(&self) -> [usize; 8] {
        let [y, xi, decision, z, theta] = self.rooms;
        let read = [self.m.len(), self.gains.len(), self.entries.len()];
        [read[0], read[1], read[2], y, xi, decision, z, theta]
    }
}

/// One call with all that is lent to it. A block, a trial or a save has the list's own record, or where one is given
/// that one, which the list then forgets.
#[derive(Clone, Debug, PartialEq, Eq)]
pub enum Call {
    SetUp(Settings),
    Block(Lists, Option<Equaliser>),
    Trial(Lists, Option<Equaliser>),
    Save(usize, Option<Equaliser>),
    Load(Vec<u8>),
}

/// [`Call::Block`] or [`Call::Trial`].
pub type CallOfLists = fn(Lists, Option<Equaliser>) -> Call;

impl Call {
    /// The names of the five kinds.
    pub const KINDS: [&'static str; 5] = ["set-up", "block", "trial", "save", "load"];

    /// The place of this call's kind among them.
    pub fn kind(&self) -> usize {
        match self {
            Call::SetUp(_) => 0,
            Call::Block(..) => 1,
            Call::Trial(..) => 2,
            Call::Save(..) => 3,
            Call::Load(_) => 4,
        }
    }

    pub fn is_trial(&self) -> bool {
        matches!(self, Call::Trial(..))
    }

    /// The lists of a block or a trial.
    pub fn lists(&self) -> Option<&Lists> {
        match self {
            Call::Block(lists, _) | Call::Trial(lists, _) => Some(lists),
            _ => None,
        }
    }

    /// The record that is lent in place of the list's own.
    pub fn other(&self) -> Option<&Equaliser> {
        match self {
            Call::Block(_, other) | Call::Trial(_, other) | Call::Save(_, other) => other.as_ref(),
            _ => None,
        }
    }
}

/// The image of any record, sound or not, with all its taps if they fit its places.
pub fn raw_image(e: &Equaliser) -> Vec<u8> {
    let taps = SLOTS.min(usize::from(e.p) + usize::from(e.q));
    let mut bytes = vec![e.p, e.q, e.n, e.r, e.l, e.psi, e.b, e.bmax];
    bytes.extend(e.step.to_le_bytes());
    for place in e.weights[..taps].iter().chain(&e.past[..taps]) {
        bytes.extend(place.to_le_bytes());
    }
    bytes
}
