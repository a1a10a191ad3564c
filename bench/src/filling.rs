//! Pools of 16,384 nodes that are filled: a line of frames from Main down, each with writes of its own, until the nodes run out.

use crate::case::{tree_nodes, values, Case, MAX_NODES, MAX_PLACES, PLACES};
use crate::generate::Generator;
use crate::measure::answers;
use crate::peer::Peer;
use crate::tape::{record, READ, RETURN, SPAWN, STEAL};

/// Splitters.
pub const N: usize = 256;
/// The second worker is idle.
const WORKERS: usize = 2;
/// Of the pools whose instructions are counted.
const SEED: u64 = 5;
pub const WRITTEN: u32 = 106;
pub const POOL_FULL: u32 = 16;

#[derive(Clone, Copy, PartialEq, Eq, Debug)]
pub enum Filling {
    /// Main alone, without a write.
    Untouched,
    /// Frames with random writes, as far as no more nodes are in use.
    Quarter,
    Half,
    ThreeQuarters,
    /// The next write is refused by 16; so with those below.
    Full,
    /// Each frame writes to all splitters: full views.
    FullViews,
    /// Each frame writes to every fourth splitter: of the 255 nodes that it takes 191 are inner ones, with two links each.
    FullApart,
    /// In a table of 256 places, each frame writes to ten splitters.
    FullDeep,
}

pub const FILLINGS: [Filling; 8] = [
    Filling::Untouched,
    Filling::Quarter,
    Filling::Half,
    Filling::ThreeQuarters,
    Filling::Full,
    Filling::FullViews,
    Filling::FullApart,
    Filling::FullDeep,
];

impl Filling {
    pub fn name(self) -> &'static str {
        match self {
            Filling::Untouched => "untouched",
            Filling::Quarter => "quarter",
            Filling::Half => "half",
            Filling::ThreeQuarters => "three quarters",
            Filling::Full => "full",
            Filling::FullViews => "full, all splitters written",
            Filling::FullApart => "full, writes far apart",
            Filling::FullDeep => "full, 256 places",
        }
    }

    pub fn named(name: &str) -> Option<Self> {
        FILLINGS.into_iter().find(|filling| filling.name() == name)
    }

    /// Writes of each frame, but for the last.
    pub fn writes(self) -> usize {
        match self {
            Filling::Untouched => 0,
            Filling::FullViews => N,
            Filling::FullApart => N / 4,
            Filling::FullDeep => 10,
            _ => 200,
        }
    }

    /// Of the frame table.
    pub fn places(self) -> usize {
        match self {
            Filling::FullDeep => MAX_PLACES,
            _ => PLACES,
        }
    }

    fn write(self, generator: &mut Generator, number: usize) {
        match self {
            Filling::FullViews => generator.write_to(0, number),
            Filling::FullApart => generator.write_to(0, 4 * number),
            Filling::FullDeep => generator.write_to(0, 25 * number),
            _ => generator.write(0),
        }
    }

    /// So many nodes in use at most.
    fn most_used(self) -> usize {
        match self {
            Filling::Quarter => MAX_NODES / 4,
            Filling::Half => MAX_NODES / 2,
            Filling::ThreeQuarters => MAX_NODES / 4 * 3,
            _ => MAX_NODES,
        }
    }

    pub fn is_full(self) -> bool {
        matches!(
            self,
            Filling::Full | Filling::FullViews | Filling::FullApart | Filling::FullDeep
        )
    }

    /// More records than the nodes suffice for.
    fn records(self, seed: u64) -> Vec<[u8; 8]> {
        let mut generator = Generator::new(seed, 1, N, self.places());
        let frames = if self.writes() == 0 { 0 } else { self.places() };
        for frame in 0..frames {
            if frame > 0 {
                generator.spawn(0);
            }
            (0..self.writes()).for_each(|number| self.write(&mut generator, number));
        }
        generator.take().as_chunks().0.to_vec()
    }
}

/// A pool that has been filled.
pub struct Filled {
    places: usize,
    records: Vec<[u8; 8]>,
    /// The write after them: of a full pool, the one that is refused.
    next: Option<[u8; 8]>,
    /// Nodes in use.
    pub used: usize,
}

impl Filled {
    pub fn new(filling: Filling) -> Self {
        Filled::seeded(filling, SEED)
    }

    pub fn seeded(filling: Filling, seed: u64) -> Self {
        let mut records = filling.records(seed);
        let places = filling.places();
        let answers = answers(Peer::Plain, &case(places, &[], &records));
        let (answers, _) = answers.as_chunks();
        let used = |answer: &[u32; 2]| MAX_NODES - answer[1] as usize;
        let too_many = |answer: &[u32; 2]| {
            answer[0] == POOL_FULL || (answer[0] == WRITTEN && used(answer) > filling.most_used())
        };
        let end = answers.iter().position(too_many).unwrap_or(records.len());
        let next = records.get(end).copied();
        records.truncate(end);
        let written = answers[..end].iter().rfind(|answer| answer[0] == WRITTEN);
        Filled {
            places,
            records,
            next,
            used: written.map_or(tree_nodes(N), used),
        }
    }

    /// Live frames.
    pub fn frames(&self) -> usize {
        1 + self.records.iter().filter(|r| r[0] == SPAWN).count()
    }

    /// An empty tape.
    pub fn case(&self) -> Case {
        case(self.places, &self.records, &[])
    }

    /// The records that fill it, and the one after them, as a tape.
    pub fn as_tape(&self) -> Case {
        let next: Vec<[u8; 8]> = self.next.into_iter().collect();
        case(self.places, &[], &[&self.records[..], &next].concat())
    }

    /// The writes of the last frame: to write there again takes no node.
    fn last_writes(&self) -> Vec<[u8; 8]> {
        let of_last = self.records.rsplit(|record| record[0] == SPAWN).next();
        of_last.unwrap_or_default().to_vec()
    }
}

fn case(places: usize, prelude: &[[u8; 8]], tape: &[[u8; 8]]) -> Case {
    Case {
        workers: WORKERS,
        values: values(N),
        nodes: MAX_NODES,
        places,
        prelude: prelude.concat(),
        tape: tape.concat(),
    }
}

/// A kind of step in a full pool.
#[derive(Clone, Copy, PartialEq, Eq, Debug)]
pub enum FullStep {
    Read,
    /// To a splitter that the frame has written since its spawn.
    Write,
    /// Refused by 16.
    Refused,
    /// A spawn and the return of its frame, by turns.
    SpawnReturn,
    /// All frames but the last wait as returning; its return ends them all.
    EndAll,
}

pub const FULL_STEPS: [FullStep; 5] = [
    FullStep::Read,
    FullStep::Write,
    FullStep::Refused,
    FullStep::SpawnReturn,
    FullStep::EndAll,
];

impl FullStep {
    pub fn name(self) -> &'static str {
        match self {
            FullStep::Read => "read",
            FullStep::Write => "write that takes no node",
            FullStep::Refused => "write refused by 16",
            FullStep::SpawnReturn => "spawn and return by turns",
            FullStep::EndAll => "return that ends all frames",
        }
    }

    pub fn named(name: &str) -> Option<Self> {
        FULL_STEPS.into_iter().find(|step| step.name() == name)
    }

    /// It leaves the frames and nodes for more of its kind.
    pub fn repeats(self) -> bool {
        self != FullStep::EndAll
    }

    /// So many steps of this kind, in the pool of `Filling::Full`.
    pub fn case(self, count: usize) -> Case {
        let filled = Filled::new(Filling::Full);
        let again = |records: Vec<[u8; 8]>| records.into_iter().cycle().take(count).collect();
        let [spawn, end] = [SPAWN, RETURN].map(|kind| record(kind, 0, 0, 0));
        let tape: Vec<[u8; 8]> = match self {
            FullStep::Read => again((0..N).map(|i| record(READ, 0, i as u16, 0)).collect()),
            FullStep::Write => again(filled.last_writes()),
            FullStep::Refused => again(filled.next.into_iter().collect()),
            FullStep::SpawnReturn => again(vec![spawn, end]),
            FullStep::EndAll => vec![end],
        };
        let waits = [record(STEAL, 1, 0, 0), record(RETURN, 1, 0, 0)];
        let more = match self {
            FullStep::EndAll => waits.repeat(filled.frames() - 1),
            _ => Vec::new(),
        };
        assert!(!tape.is_empty(), "{}: no such step", self.name());
        case(filled.places, &[filled.records, more].concat(), &tape)
    }
}
