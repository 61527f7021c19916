//! One call by one side, and everything that it may have touched.

use crate::calls::{Call, Lists};
use crate::sides::Operations;
use tigbulode::{Answer, Block, Equaliser, Outputs};

/// Numbers that are compared: an answer, a record, or a list with what lies around it.
#[derive(Clone, Debug, PartialEq, Eq)]
pub struct Part {
    pub name: &'static str,
    pub numbers: Vec<i64>,
    /// How many of the numbers lie in front of what was lent.
    pub front: usize,
}

impl Part {
    /// The numbers that were lent, without those around them.
    pub fn lent(&self) -> &[i64] {
        &self.numbers[self.front..self.numbers.len() - self.front]
    }
}

/// What a call left. An accepted save also gives its image, a trial the state beside its number.
pub struct Outcome {
    pub number: u8,
    pub parts: Vec<Part>,
    pub image: Option<Vec<u8>>,
    pub state: Option<Equaliser>,
}

impl Outcome {
    pub fn of(number: u8, parts: impl IntoIterator<Item = Part>) -> Outcome {
        let answer = plain("answer", vec![number.into()]);
        Outcome { number, parts: std::iter::once(answer).chain(parts).collect(), image: None, state: None }
    }

    /// The lent numbers of a part, none where it has no such part.
    pub fn list(&self, name: &str) -> &[i64] {
        let part = self.parts.iter().find(|part| part.name == name);
        part.map_or(&[], Part::lent)
    }
}

/// How many elements lie on each side of what is lent.
const AROUND: usize = 8;
const SENTINEL: u8 = 0x55;

/// A lent list between elements that no call may touch.
pub struct Guarded<T> {
    all: Vec<T>,
    length: usize,
}

impl<T: Copy + Into<i64>> Guarded<T> {
    pub fn of(list: &[T], around: T) -> Guarded<T> {
        let mut all = vec![around; AROUND];
        all.extend(list);
        all.resize(list.len() + 2 * AROUND, around);
        let length = list.len();
        Guarded { all, length }
    }

    pub fn filled(length: usize, with: T) -> Guarded<T> {
        Guarded::of(&vec![with; length], with)
    }

    pub fn list(&self) -> &[T] {
        &self.all[AROUND..AROUND + self.length]
    }

    pub fn list_mut(&mut self) -> &mut [T] {
        &mut self.all[AROUND..AROUND + self.length]
    }

    pub fn part(&self, name: &'static str) -> Part {
        let all = std::hint::black_box(&self.all);
        Part { name, numbers: all.iter().map(|&number| number.into()).collect(), front: AROUND }
    }
}

/// A record between two that no call may touch; only the one in the middle is lent.
struct GuardedRecord([Equaliser; 3]);

impl GuardedRecord {
    fn of(record: &Equaliser) -> GuardedRecord {
        GuardedRecord([*record; 3])
    }

    fn lent(&mut self) -> &mut Equaliser {
        &mut self.0[1]
    }

    fn parts(&self) -> [Part; 3] {
        let [before, record, after] = std::hint::black_box(&self.0);
        [
            plain("record", numbers_of(record)),
            plain("memory before the record", numbers_of(before)),
            plain("memory after the record", numbers_of(after)),
        ]
    }
}

pub fn plain(name: &'static str, numbers: Vec<i64>) -> Part {
    let front = 0;
    Part { name, numbers, front }
}

/// The numbers of a record in the image's order: eight bytes, M, 32 weights, 32 data.
fn numbers_of(e: &Equaliser) -> Vec<i64> {
    let bytes = [e.p, e.q, e.n, e.r, e.l, e.psi, e.b, e.bmax];
    let mut numbers: Vec<i64> = bytes.map(i64::from).to_vec();
    numbers.push(e.step.into());
    numbers.extend(e.weights.map(i64::from));
    numbers.extend(e.past.map(i64::from));
    numbers
}

/// Makes a call on the list's record, or on the one that is lent in its place, and moves that on.
pub fn perform(side: &dyn Operations, call: &Call, record: &mut Equaliser) -> Outcome {
    let mut other = call.other().copied();
    let record = other.as_mut().unwrap_or(record);
    match call {
        Call::SetUp(settings) => answered(side.set_up(*settings), record, None),
        Call::Block(lists, _) => with_lists(lists, record, |s, block, out| (side.run(s, block, out), None)),
        Call::Trial(lists, _) => with_lists(lists, record, |s, block, out| {
            let Answer { number, state } = side.trial(s, block, out);
            (number, Some(state))
        }),
        Call::Save(room, _) => save(side, *room, record),
        Call::Load(bytes) => {
            let lent = Guarded::of(bytes, SENTINEL);
            answered(side.load(lent.list()), record, Some(lent.part("bytes")))
        }
    }
}

/// What a trial is to leave: the block is run on a copy of the record.
pub fn on_a_copy(side: &dyn Operations, lists: &Lists, record: &Equaliser) -> Outcome {
    with_lists(lists, &mut record.clone(), |s, block, out| {
        let mut state = *s;
        (side.run(&mut state, block, out), Some(state))
    })
}

fn answered(answer: Answer, record: &mut Equaliser, lent: Option<Part>) -> Outcome {
    *record = answer.state;
    Outcome::of(answer.number, [plain("record", numbers_of(record))].into_iter().chain(lent))
}

/// A call with all that is lent to a block; it gives its number, and a trial the state beside that.
fn with_lists(
    lists: &Lists,
    record: &mut Equaliser,
    call: impl FnOnce(&mut Equaliser, Block, Outputs) -> (u8, Option<Equaliser>),
) -> Outcome {
    let [y, xi, decision, z, theta] = lists.rooms;
    let m = Guarded::of(&lists.m, SENTINEL.into());
    let (gains, entries) = (Guarded::of(&lists.gains, SENTINEL), Guarded::of(&lists.entries, SENTINEL as i8));
    let (mut y, mut z) = (Guarded::filled(y, i32::MIN), Guarded::filled(z, i32::MAX));
    let (mut xi, mut theta) = (Guarded::filled(xi, SENTINEL), Guarded::filled(theta, SENTINEL));
    let mut decision = Guarded::filled(decision, SENTINEL as i8);
    let mut lent = GuardedRecord::of(record);
    let block = Block { samples: m.list(), gains: gains.list(), entries: entries.list() };
    let out = Outputs {
        y: y.list_mut(),
        xi: xi.list_mut(),
        decision: decision.list_mut(),
        z: z.list_mut(),
        theta: theta.list_mut(),
    };
    let (number, state) = call(lent.lent(), block, out);
    *record = *lent.lent();
    let read = [m.part("m"), gains.part("gains"), entries.part("entries")];
    let written = [y.part("Y"), xi.part("xi"), decision.part("decision"), z.part("Z"), theta.part("theta")];
    let given = state.iter().map(|state| plain("state", numbers_of(state)));
    Outcome { state, ..Outcome::of(number, given.chain(lent.parts()).chain(read).chain(written)) }
}

fn save(side: &dyn Operations, room: usize, record: &mut Equaliser) -> Outcome {
    let mut lent = GuardedRecord::of(record);
    let mut buffer = Guarded::filled(room, SENTINEL);
    let saved = side.save(lent.lent(), buffer.list_mut());
    *record = *lent.lent();
    let image = buffer.list().get(..saved.length).map(<[u8]>::to_vec);
    let length = plain("length", vec![saved.length as i64]);
    let written = [length, buffer.part("buffer")];
    Outcome {
        image: image.filter(|_| saved.number == 0),
        ..Outcome::of(saved.number, lent.parts().into_iter().chain(written))
    }
}
