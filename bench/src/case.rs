//! What is measured: a start, a prelude that is not measured, and a tape that is.

use crate::generate::Generator;
use crate::tape::SPAWN;

pub const RECORDS: usize = 8192;
pub const WORKERS: usize = 4;
/// The record workloads' pool has this many times T(n) nodes.
pub const POOL_VIEWS: usize = 32;
pub const MAX_NODES: usize = 16_384;
/// The places of the lent frame table, where nothing else is said; the most there can be.
pub const PLACES: usize = 64;
pub const MAX_PLACES: usize = 256;
/// The table's lengths that records and images are compared at.
pub const BOTH: [usize; 2] = [PLACES, MAX_PLACES];
/// The shared writes of a tape, each in a frame of its own.
pub const SHARED_WRITES: usize = 48;
/// Steps in calls of their own, and their workers.
pub const SINGLE_STEPS: usize = 256;
pub const SINGLE_WORKERS: usize = 2;
/// The frames of a chain that wait, each for the next one, the last for the frame whose return ends them all.
pub const WAITING: usize = PLACES - 1;
/// Frames that a control record lets live at most.
pub const MAX_LIVE: usize = 24;

#[derive(Clone, Copy, PartialEq, Eq, Debug)]
pub enum Workload {
    Reads,
    Writes,
    /// Writes to paths that the frame alone holds.
    WritesAlone,
    /// Writes to paths of which the frame shares every node.
    WritesShared,
    Control,
    Mix,
    /// Another mix, with folds; those before R-5 have none.
    MixFolds,
    /// One return that ends a chain of waiting frames, Main too.
    Chain,
}

pub const WORKLOADS: [Workload; 8] = [
    Workload::Reads,
    Workload::Writes,
    Workload::WritesAlone,
    Workload::WritesShared,
    Workload::Control,
    Workload::Mix,
    Workload::MixFolds,
    Workload::Chain,
];

/// Those whose tapes have 8,192 records.
pub const LONG_WORKLOADS: [Workload; 6] = [
    Workload::Reads,
    Workload::Writes,
    Workload::WritesAlone,
    Workload::Control,
    Workload::Mix,
    Workload::MixFolds,
];

impl Workload {
    pub fn name(self) -> &'static str {
        match self {
            Workload::Reads => "reads",
            Workload::Writes => "writes",
            Workload::WritesAlone => "writes alone",
            Workload::WritesShared => "writes shared",
            Workload::Control => "control",
            Workload::Mix => "mix",
            Workload::MixFolds => "mix with folds",
            Workload::Chain => "chain",
        }
    }

    pub fn named(name: &str) -> Option<Self> {
        WORKLOADS
            .into_iter()
            .find(|workload| workload.name() == name)
    }

    /// The records of a tape that are counted; of a chain, the frames that its one record ends.
    pub fn counted(self) -> usize {
        match self {
            Workload::WritesShared => SHARED_WRITES,
            Workload::Chain => WAITING + 1,
            _ => RECORDS,
        }
    }
}

/// A state for the soundness check: in a table of so many places so many frames live, each with so many writes since its spawn. In one line
/// they are Main and its descendants, on one deque; in more lines Main has so many children, each with as many of the other frames below it,
/// each line on a deque of its own.
#[derive(Clone, Copy, PartialEq, Eq, Debug)]
pub struct Standing {
    pub n: usize,
    pub nodes: usize,
    pub places: usize,
    pub frames: usize,
    pub writes: usize,
    pub lines: usize,
}

pub struct Case {
    pub workers: usize,
    pub values: Vec<u32>,
    pub nodes: usize,
    /// The places of the lent frame table.
    pub places: usize,
    /// Run before the measured tape, on the same state.
    pub prelude: Vec<u8>,
    pub tape: Vec<u8>,
}

/// T(n).
pub fn tree_nodes(n: usize) -> usize {
    let mut width = n;
    let mut sum = width;
    while width > 1 {
        width = width.div_ceil(2);
        sum += width;
    }
    sum
}

/// H + 1.
pub fn path_nodes(n: usize) -> usize {
    n.next_power_of_two().ilog2() as usize + 1
}

/// As many frames as the pool has full views for, beside one path; no write is refused then. Since R-2 the path beside them need not be,
/// but the tapes stay as they were.
fn max_live(n: usize, nodes: usize) -> usize {
    MAX_LIVE.min((nodes - path_nodes(n)) / tree_nodes(n))
}

pub fn values(n: usize) -> Vec<u32> {
    (0..n as u32).map(|i| 1000 + i).collect()
}

impl Case {
    /// A tape of records.
    pub fn records(workload: Workload, n: usize) -> Self {
        match workload {
            Workload::WritesShared => Case::shared(n),
            Workload::Chain => Case::chain(n),
            _ => Case::new(workload, n, WORKERS, POOL_VIEWS * tree_nodes(n), RECORDS),
        }
    }

    /// The same in a pool of so many nodes.
    pub fn in_pool(workload: Workload, n: usize, nodes: usize) -> Self {
        Case::new(workload, n, WORKERS, nodes, RECORDS)
    }

    /// Writes alone in a pool without a free node: one that takes a node is refused.
    pub fn full_pool(n: usize) -> Self {
        let nodes = WORKERS * tree_nodes(n);
        Case::new(Workload::WritesAlone, n, WORKERS, nodes, RECORDS)
    }

    /// Records to be fed one by one, each in a call of its own.
    pub fn steps(workload: Workload, n: usize, nodes: usize) -> Self {
        Case::new(workload, n, SINGLE_WORKERS, nodes, SINGLE_STEPS)
    }

    /// Each worker has a frame: Main and its line of descendants. Each frame has made n / 2 writes, so the trees share some nodes; or, for
    /// writes alone, one to every splitter, so they share none. Then the records.
    fn new(workload: Workload, n: usize, workers: usize, nodes: usize, records: usize) -> Self {
        let mut generator = Generator::new(1, workers, n, max_live(n, nodes));
        for thief in 1..workers {
            generator.spawn(0);
            generator.steal(thief, 0);
        }
        for worker in 0..workers {
            match workload {
                Workload::WritesAlone => (0..n).for_each(|place| generator.write_to(worker, place)),
                _ => (0..n.div_ceil(2)).for_each(|_| generator.write(worker)),
            }
        }
        let prelude = generator.take();
        (0..records).for_each(|_| one_record(&mut generator, workload));
        Case {
            workers,
            values: values(n),
            nodes,
            places: PLACES,
            prelude,
            tape: generator.take(),
        }
    }

    /// Spawns, and after each a write in the new frame, which has its whole tree from its parent. The nodes just suffice. As many frames
    /// have come and gone before, so that the copying machine has its buffers and no spawn allocates.
    fn shared(n: usize) -> Self {
        let mut generator = Generator::new(3, 1, n, 1 + SHARED_WRITES);
        (0..SHARED_WRITES).for_each(|_| generator.spawn(0));
        (0..SHARED_WRITES).for_each(|_| generator.end(0));
        let prelude = generator.take();
        for _ in 0..SHARED_WRITES {
            generator.spawn(0);
            generator.write(0);
        }
        Case {
            workers: 1,
            values: values(n),
            nodes: tree_nodes(n) + SHARED_WRITES * path_nodes(n),
            places: PLACES,
            prelude,
            tape: generator.take(),
        }
    }

    /// A line of frames from Main down, each with a write of its own; all but the last are stolen and return, and wait. Then the last one
    /// returns. All nodes are in use before, if each write takes a whole path.
    fn chain(n: usize) -> Self {
        let mut generator = Generator::new(4, 2, n, 1 + WAITING);
        for _ in 0..WAITING {
            generator.spawn(0);
            generator.write(0);
        }
        for _ in 0..WAITING {
            generator.steal(1, 0);
            generator.wait(1);
        }
        let prelude = generator.take();
        generator.end(0);
        Case {
            workers: 2,
            values: values(n),
            nodes: tree_nodes(n) + WAITING * path_nodes(n),
            places: PLACES,
            prelude,
            tape: generator.take(),
        }
    }

    /// The same without the records that are counted: an empty tape, but for the spawns among shared writes.
    pub fn rest(mut self, workload: Workload) -> Self {
        self.tape = match workload {
            Workload::WritesShared => spawns(&self.tape),
            _ => Vec::new(),
        };
        self
    }

    /// The same as one tape from the start, as a report takes it.
    pub fn from_start(mut self) -> Self {
        self.tape.splice(0..0, self.prelude.drain(..));
        self
    }

    /// The same in a table of so many places.
    pub fn in_table(mut self, places: usize) -> Self {
        self.places = places;
        self
    }

    /// The same start, and nothing after it.
    pub fn started(&self) -> Self {
        Case {
            workers: self.workers,
            values: self.values.clone(),
            nodes: self.nodes,
            places: self.places,
            prelude: Vec::new(),
            tape: Vec::new(),
        }
    }

    /// An empty tape on a state with many frames.
    pub fn standing(standing: Standing) -> Self {
        let Standing {
            n, frames, lines, ..
        } = standing;
        let workers = if lines == 1 { 1 } else { lines + 1 };
        let mut generator = Generator::new(2, workers, n, frames);
        let write = |generator: &mut Generator, worker| {
            (0..standing.writes).for_each(|_| generator.write(worker));
        };
        write(&mut generator, 0);
        for worker in 0..lines {
            for frame in 0..(frames - 1) / lines {
                generator.spawn(worker);
                if frame == 0 && lines > 1 {
                    generator.steal(worker + 1, worker);
                }
                write(&mut generator, worker);
            }
        }
        Case {
            workers,
            values: values(n),
            nodes: standing.nodes,
            places: standing.places,
            prelude: generator.take(),
            tape: Vec::new(),
        }
    }
}

/// The spawns of a tape.
fn spawns(tape: &[u8]) -> Vec<u8> {
    let (records, _) = tape.as_chunks::<8>();
    let spawns = records.iter().filter(|record| record[0] == SPAWN);
    spawns.flatten().copied().collect()
}

/// Mix: 70 in 100 reads, 22 writes, 8 control. Mix with folds: 60 reads, 20 writes, 12 folds, 8 control.
fn one_record(generator: &mut Generator, workload: Workload) {
    match workload {
        Workload::Reads => read(generator),
        Workload::Writes | Workload::WritesAlone | Workload::WritesShared => write(generator),
        Workload::Control | Workload::Chain => generator.control(),
        Workload::Mix => match generator.choice(100) {
            0..70 => read(generator),
            70..92 => write(generator),
            _ => generator.control(),
        },
        Workload::MixFolds => match generator.choice(100) {
            0..60 => read(generator),
            60..80 => write(generator),
            80..92 => fold(generator),
            _ => generator.control(),
        },
    }
}

fn read(generator: &mut Generator) {
    let worker = generator.busy();
    generator.read(worker);
}

fn write(generator: &mut Generator) {
    let worker = generator.busy();
    generator.write(worker);
}

fn fold(generator: &mut Generator) {
    let worker = generator.busy();
    generator.fold(worker);
}
