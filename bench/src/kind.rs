//! Records of one kind that R-5 adds or changes, to be counted by themselves: folds, and spawns and returns, with and without live siblings
//! elsewhere.

use crate::case::{tree_nodes, values, Case, PLACES, POOL_VIEWS, RECORDS};
use crate::generate::Generator;
use crate::tape::{AFFINE, MIN, SUM};

#[derive(Clone, Copy, PartialEq, Eq, Debug)]
pub enum Kind {
    FoldSum,
    FoldMin,
    FoldAffine,
    /// Into any reducer.
    Fold,
    /// By a frame without a live child.
    Spawn,
    /// Of an only child that has folded nothing, with outcomes 0, 1 and 2.
    Return,
    /// The same with outcome 0, after a fold.
    ReturnFolded,
    ReturnIdle,
    ReturnResumes,
    /// One return that ends a line of frames: all but the last wait as returning, each for its only child.
    ReturnWaiting,
    /// By a frame with live children elsewhere.
    SpawnBeside,
    /// Of the youngest of several live children: the next frame is the parent.
    ReturnYoungest,
    /// Of the eldest: the next frame is the next younger one.
    ReturnEldest,
    /// The same, but the next frame is the last of a line below the next younger one.
    ReturnOver,
}

/// All kinds.
pub fn all() -> Vec<Kind> {
    FOLDS.into_iter().chain(CONTROLS).collect()
}

pub const FOLDS: [Kind; 4] = [Kind::FoldSum, Kind::FoldMin, Kind::FoldAffine, Kind::Fold];
/// Those that search the table.
pub const SEARCHES: [Kind; 4] = [
    Kind::SpawnBeside,
    Kind::ReturnYoungest,
    Kind::ReturnEldest,
    Kind::ReturnOver,
];
/// Spawns and returns: those without live siblings elsewhere first.
pub const CONTROLS: [Kind; 10] = [
    Kind::Spawn,
    Kind::Return,
    Kind::ReturnFolded,
    Kind::ReturnIdle,
    Kind::ReturnResumes,
    Kind::ReturnWaiting,
    Kind::SpawnBeside,
    Kind::ReturnYoungest,
    Kind::ReturnEldest,
    Kind::ReturnOver,
];

/// Splitters, of which no figure here depends.
pub const N: usize = 16;
const WORKERS: usize = 8;
const SEED: u64 = 6;
/// The spawns of a line of frames.
pub const LINE: usize = 48;
/// The live children elsewhere, each on a worker of its own.
pub const CHILDREN: usize = 7;
/// The frames below the next younger sibling.
pub const BELOW: usize = 8;

impl Kind {
    pub fn name(self) -> &'static str {
        match self {
            Kind::FoldSum => "fold, sum",
            Kind::FoldMin => "fold, minimum",
            Kind::FoldAffine => "fold, affine map",
            Kind::Fold => "fold, any of them",
            Kind::Spawn => "spawn",
            Kind::Return => "return, outcome 0",
            Kind::ReturnFolded => "return after a fold, outcome 0",
            Kind::ReturnIdle => "return, outcome 1",
            Kind::ReturnResumes => "return, outcome 2",
            Kind::ReturnWaiting => "return that ends waiting frames, per frame",
            Kind::SpawnBeside => "spawn beside live children",
            Kind::ReturnYoungest => "return of the youngest child",
            Kind::ReturnEldest => "return of the eldest child",
            Kind::ReturnOver => "return of the eldest child, a line below the next",
        }
    }

    pub fn named(name: &str) -> Option<Self> {
        let all = FOLDS.into_iter().chain(CONTROLS);
        all.into_iter().find(|kind| kind.name() == name)
    }

    /// The records that are counted; of a return that ends waiting frames, the frames.
    pub fn counted(self) -> usize {
        match self {
            Kind::FoldSum | Kind::FoldMin | Kind::FoldAffine | Kind::Fold => RECORDS,
            Kind::Spawn | Kind::Return | Kind::ReturnFolded | Kind::ReturnResumes => LINE,
            Kind::ReturnWaiting => LINE + 1,
            Kind::ReturnIdle => WORKERS - 1,
            _ => 1,
        }
    }

    /// The answer to each record that is counted; a spawn's has the depth in it.
    pub fn answer(self) -> [Option<u32>; 2] {
        let outcome = |number| [Some(102), Some(number)];
        match self {
            Kind::FoldSum | Kind::FoldMin | Kind::FoldAffine | Kind::Fold => [Some(107), Some(0)],
            Kind::Spawn | Kind::SpawnBeside => [Some(101), None],
            Kind::Return | Kind::ReturnFolded | Kind::ReturnYoungest => outcome(0),
            Kind::ReturnIdle | Kind::ReturnEldest | Kind::ReturnOver => outcome(1),
            Kind::ReturnResumes => outcome(2),
            Kind::ReturnWaiting => outcome(3),
        }
    }

    /// A tape of one read and the records that are counted.
    pub fn case(self) -> Case {
        let mut generator = Generator::new(SEED, WORKERS, N, PLACES);
        let prelude = self.prelude(&mut generator);
        generator.read(self.first_worker());
        self.records(&mut generator);
        Case {
            workers: WORKERS,
            values: values(N),
            nodes: POOL_VIEWS * tree_nodes(N),
            places: PLACES,
            prelude,
            tape: generator.take(),
        }
    }

    /// The read alone.
    pub fn rest(self) -> Case {
        let mut case = self.case();
        case.tape.truncate(8);
        case
    }

    /// The worker of the first record that is counted.
    fn first_worker(self) -> usize {
        match self {
            Kind::SpawnBeside | Kind::ReturnYoungest => CHILDREN,
            _ => 0,
        }
    }

    /// As many frames as there are later have come and gone before, so that the copying machine has its buffers and no spawn allocates.
    fn prelude(self, generator: &mut Generator) -> Vec<u8> {
        line(generator, 0, LINE);
        (0..LINE).for_each(|_| generator.end(0));
        match self {
            Kind::FoldSum | Kind::FoldMin | Kind::FoldAffine | Kind::Fold | Kind::ReturnIdle => {
                apart(generator);
            }
            Kind::Spawn => {}
            Kind::Return => line(generator, 0, LINE),
            Kind::ReturnFolded => {
                for _ in 0..LINE {
                    generator.spawn(0);
                    generator.fold(0);
                }
            }
            Kind::ReturnResumes => {
                line(generator, 0, LINE);
                for _ in 0..LINE {
                    generator.steal(1, 0);
                    generator.sync(1);
                }
            }
            Kind::ReturnWaiting => {
                line(generator, 0, LINE);
                for _ in 0..LINE {
                    generator.steal(1, 0);
                    generator.wait(1);
                }
            }
            Kind::SpawnBeside | Kind::ReturnEldest => siblings(generator),
            Kind::ReturnYoungest => {
                siblings(generator);
                generator.spawn(CHILDREN);
            }
            Kind::ReturnOver => {
                siblings(generator);
                line(generator, 1, BELOW);
            }
        }
        generator.take()
    }

    fn records(self, generator: &mut Generator) {
        match self {
            Kind::FoldSum => folds(generator, |generator, w| generator.fold_into(w, SUM)),
            Kind::FoldMin => folds(generator, |generator, w| generator.fold_into(w, MIN)),
            Kind::FoldAffine => folds(generator, |generator, w| generator.fold_into(w, AFFINE)),
            Kind::Fold => folds(generator, Generator::fold),
            Kind::Spawn => line(generator, 0, LINE),
            Kind::SpawnBeside => generator.spawn(CHILDREN),
            Kind::Return | Kind::ReturnFolded | Kind::ReturnResumes => {
                (0..LINE).for_each(|_| generator.end(0));
            }
            Kind::ReturnIdle => [0]
                .into_iter()
                .chain((2..WORKERS).rev())
                .for_each(|w| generator.end(w)),
            Kind::ReturnYoungest => generator.end(CHILDREN),
            Kind::ReturnWaiting | Kind::ReturnEldest | Kind::ReturnOver => generator.end(0),
        }
    }
}

fn folds(generator: &mut Generator, fold: impl Fn(&mut Generator, usize)) {
    for _ in 0..RECORDS {
        let worker = generator.busy();
        fold(generator, worker);
    }
}

/// A worker's bottom frame spawns, and the new one, and so on.
fn line(generator: &mut Generator, worker: usize, spawns: usize) {
    (0..spawns).for_each(|_| generator.spawn(worker));
}

/// Main and a line of descendants, a frame for each worker: Main is on worker 1's deque, the last one on worker 0's.
fn apart(generator: &mut Generator) {
    line(generator, 0, WORKERS - 1);
    (1..WORKERS).for_each(|thief| generator.steal(thief, 0));
}

/// Children of Main on the first workers' deques, the eldest on worker 0's; Main on the next one's.
fn siblings(generator: &mut Generator) {
    for worker in 0..CHILDREN {
        generator.spawn(worker);
        generator.steal(worker + 1, worker);
    }
}
