//! One call by one side, and everything that it may have touched.

use crate::calls::{Call, Lists};
use crate::sides::Operations;
use crate::{Answer, Block, Equaliser, Outputs};
use reference::Settings;

/// Numbers that are compared: an answer, a record, or a list with what lies
/// around it.
#[derive(Clone, Debug, PartialEq, Eq)]
pub struct Part {
    pub name: &'static str,
    pub numbers: Vec<i64>,
    /// How many of the numbers lie in front of what was lent.
    pub front: usize,
}

impl Part {
    /// The numbers that were lent, without those around them.
    pub fn lent(&self) -> &[i64] {
        &self.numbers[self.front..self.numbers.len() - self.front]
    }
}

/// What a call left. An accepted save also gives its image, a trial the state
/// beside its number.
pub struct Outcome {
    pub number: u8,
    pub parts: Vec<Part>,
    pub image: Option<Vec<u8>>,
    pub state: Option<Equaliser>,
}

impl Outcome {
    fn of(number: u8, parts: impl IntoIterator<Item = Part>) -> Outcome {
        let answer = plain("answer", vec![number.into()]);
        Outcome {
            number,
            parts: std::iter::once(answer).chain(parts).collect(),
            image: None,
            state: None,
        }
    }

    /// The lent numbers of a part, none where it has no such part.
    pub fn list(&self, name: &str) -> &[i64] {
        let part = self.parts.iter().find(|part| part.name == name);
        part.map_or(&[], Part::lent)
    }
}

/// How many elements lie on each side of what is lent.
const AROUND: usize = 8;
const SENTINEL: u8 = 0x55;

/// A lent list between elements that no call may touch.
struct Guarded<T> {
    all: Vec<T>,
    length: usize,
}

impl<T: Copy + Into<i64>> Guarded<T> {
    fn of(list: &[T], around: T) -> Guarded<T> {
        let mut all = vec![around; AROUND];
        all.extend(list);
        all.resize(list.len() + 2 * AROUND, around);
        let length = list.len();
        Guarded { all, length }
    }

    fn filled(length: usize, with: T) -> Guarded<T> {
        Guarded::of(&vec![with; length], with)
    }

    fn list(&self) -> &[T] {
        &self.all[AROUND..AROUND + self.length]
    }

    fn list_mut(&mut self) -> &mut [T] {
        &mut self.all[AROUND..AROUND + self.length]
    }

    fn part(&self, name: &'static str) -> Part {
        let all = std::hint::black_box(&self.all);
        Part {
            name,
            numbers: all.iter().map(|&number| number.into()).collect(),
            front: AROUND,
        }
    }
}

/// A record between two that no call may touch; only the one in the middle is
/// lent.
struct GuardedRecord([Equaliser; 3]);

impl GuardedRecord {
    fn of(record: &Equaliser) -> GuardedRecord {
        GuardedRecord([*record; 3])
    }

    fn lent(&mut self) -> &mut Equaliser {
        &mut self.0[1]
    }

    fn parts(&self) -> [Part; 3] {
        let [before, record, after] = std::hint::black_box(&self.0);
        [
            plain("record", numbers_of(record)),
            plain("memory before the record", numbers_of(before)),
            plain("memory after the record", numbers_of(after)),
        ]
    }
}

/// All that is lent to a block.
struct GuardedBlock {
    m: Guarded<i16>,
    gains: Guarded<u8>,
    entries: Guarded<i8>,
    y: Guarded<i32>,
    xi: Guarded<u8>,
    decision: Guarded<i8>,
    z: Guarded<i32>,
    theta: Guarded<u8>,
    record: GuardedRecord,
}

impl GuardedBlock {
    fn new(lists: &Lists, record: &Equaliser) -> GuardedBlock {
        let [y, xi, decision, z, theta] = lists.rooms;
        GuardedBlock {
            m: Guarded::of(&lists.m, SENTINEL.into()),
            gains: Guarded::of(&lists.gains, SENTINEL),
            entries: Guarded::of(&lists.entries, SENTINEL as i8),
            y: Guarded::filled(y, i32::MIN),
            xi: Guarded::filled(xi, SENTINEL),
            decision: Guarded::filled(decision, SENTINEL as i8),
            z: Guarded::filled(z, i32::MAX),
            theta: Guarded::filled(theta, SENTINEL),
            record: GuardedRecord::of(record),
        }
    }

    fn lend<T>(&mut self, call: impl FnOnce(&mut Equaliser, Block, Outputs) -> T) -> T {
        let block = Block {
            samples: self.m.list(),
            gains: self.gains.list(),
            entries: self.entries.list(),
        };
        let out = Outputs {
            y: self.y.list_mut(),
            xi: self.xi.list_mut(),
            decision: self.decision.list_mut(),
            z: self.z.list_mut(),
            theta: self.theta.list_mut(),
        };
        call(self.record.lent(), block, out)
    }

    fn parts(&self) -> impl Iterator<Item = Part> {
        let lists = [
            self.m.part("m"),
            self.gains.part("gains"),
            self.entries.part("entries"),
            self.y.part("Y"),
            self.xi.part("xi"),
            self.decision.part("decision"),
            self.z.part("Z"),
            self.theta.part("theta"),
        ];
        self.record.parts().into_iter().chain(lists)
    }
}

fn plain(name: &'static str, numbers: Vec<i64>) -> Part {
    let front = 0;
    Part {
        name,
        numbers,
        front,
    }
}

/// The numbers of a record in the image's order: eight bytes, M, 32 weights,
/// 32 data.
fn numbers_of(e: &Equaliser) -> Vec<i64> {
    let bytes = [e.p, e.q, e.n, e.r, e.l, e.psi, e.b, e.bmax];
    let mut numbers: Vec<i64> = bytes.map(i64::from).to_vec();
    numbers.push(e.step.into());
    numbers.extend(e.weights.map(i64::from));
    numbers.extend(e.past.map(i64::from));
    numbers
}

/// Makes a call on the list's record, or on the one that is lent in its place,
/// and moves that on.
pub fn perform(side: &dyn Operations, call: &Call, record: &mut Equaliser) -> Outcome {
    let mut other = call.other().copied();
    let record = other.as_mut().unwrap_or(record);
    match call {
        Call::SetUp(settings) => set_up(side, *settings, record),
        Call::Block(lists, _) => block(side, lists, record),
        Call::Trial(lists, _) => trial(lists, record, |s, block, out| side.trial(s, block, out)),
        Call::Save(room, _) => save(side, *room, record),
        Call::Load(bytes) => load(side, bytes, record),
    }
}

/// What a trial is to leave: the block is run on a copy of the record.
pub fn on_a_copy(side: &dyn Operations, lists: &Lists, record: &Equaliser) -> Outcome {
    trial(lists, &mut record.clone(), |s, block, out| {
        let mut state = *s;
        let number = side.run(&mut state, block, out);
        Answer { number, state }
    })
}

fn set_up(side: &dyn Operations, settings: Settings, record: &mut Equaliser) -> Outcome {
    let answer = side.set_up(settings);
    *record = answer.state;
    Outcome::of(answer.number, [plain("record", numbers_of(record))])
}

fn block(side: &dyn Operations, lists: &Lists, record: &mut Equaliser) -> Outcome {
    let mut lent = GuardedBlock::new(lists, record);
    let number = lent.lend(|s, block, out| side.run(s, block, out));
    *record = *lent.record.lent();
    Outcome::of(number, lent.parts())
}

fn trial(
    lists: &Lists,
    record: &mut Equaliser,
    call: impl FnOnce(&mut Equaliser, Block, Outputs) -> Answer,
) -> Outcome {
    let mut lent = GuardedBlock::new(lists, record);
    let Answer { number, state } = lent.lend(call);
    *record = *lent.record.lent();
    let given = plain("state", numbers_of(&state));
    Outcome {
        state: Some(state),
        ..Outcome::of(number, std::iter::once(given).chain(lent.parts()))
    }
}

fn save(side: &dyn Operations, room: usize, record: &mut Equaliser) -> Outcome {
    let mut lent = GuardedRecord::of(record);
    let mut buffer = Guarded::filled(room, SENTINEL);
    let saved = side.save(lent.lent(), buffer.list_mut());
    *record = *lent.lent();
    let image = buffer.list().get(..saved.length).map(<[u8]>::to_vec);
    let length = plain("length", vec![saved.length as i64]);
    let written = [length, buffer.part("buffer")];
    Outcome {
        image: image.filter(|_| saved.number == 0),
        ..Outcome::of(saved.number, lent.parts().into_iter().chain(written))
    }
}

fn load(side: &dyn Operations, bytes: &[u8], record: &mut Equaliser) -> Outcome {
    let lent = Guarded::of(bytes, SENTINEL);
    let answer = side.load(lent.list());
    *record = answer.state;
    let parts = [plain("record", numbers_of(record)), lent.part("bytes")];
    Outcome::of(answer.number, parts)
}
