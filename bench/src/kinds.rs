//! What the records of one kind cost: the instructions of a call with a read and then these records, less those of the call with the
//! read alone.

use crate::callgrind::count_all;
use crate::job::Job;
use crate::kind::{Kind, CONTROLS};
use crate::peer::Peer;

/// Instructions of the library before R-5, at `BEFORE_COMMIT`, counted by this bench: those of `CONTROLS`, less those of the read alone. A
/// return after a fold stands beside a return, as there were no folds.
pub const BEFORE_COMMIT: &str = "0690622";
const BEFORE: [u64; 10] = [3_984, 4_128, 4_128, 672, 5_040, 3_120, 83, 86, 94, 94];
/// The peers that are counted.
pub const KIND_PEERS: [Peer; 3] = [Peer::Library, Peer::Plain, Peer::Copying];

pub struct KindCost {
    pub kind: Kind,
    /// Instructions per record, those of `KIND_PEERS`.
    pub peers: [f64; 3],
    /// The library's before R-5, which had no folds.
    pub before: Option<f64>,
}

impl KindCost {
    pub fn library(&self) -> f64 {
        self.peers[0]
    }

    pub fn plain(&self) -> f64 {
        self.peers[1]
    }

    pub fn ratio(&self) -> f64 {
        self.library() / self.plain()
    }

    /// How many more instructions than before R-5.
    pub fn more(&self) -> Option<f64> {
        self.before.map(|before| self.library() - before)
    }
}

/// These kinds in a table of so many places.
pub fn count(kinds: &[Kind], places: usize) -> Vec<KindCost> {
    let jobs = |&kind: &Kind| {
        let both = [Job::Kind(kind, places), Job::KindRest(kind, places)];
        KIND_PEERS.map(|peer| both.map(|job| (peer, job)))
    };
    let jobs: Vec<(Peer, Job)> = kinds.iter().flat_map(jobs).flatten().collect();
    let counts = count_all(&jobs);
    let (counts, _) = counts.as_chunks::<2>().0.as_chunks();
    let cost = |(&kind, counts): (&Kind, &[[u64; 2]; 3])| KindCost {
        kind,
        peers: counts.map(|[whole, rest]| (whole - rest) as f64 / kind.counted() as f64),
        before: before(kind),
    };
    kinds.iter().zip(counts).map(cost).collect()
}

/// Of the library before R-5, per record.
fn before(kind: Kind) -> Option<f64> {
    let at = CONTROLS.iter().position(|&control| control == kind)?;
    Some(BEFORE[at] as f64 / kind.counted() as f64)
}

/// The cost of one kind among those counted.
pub fn find(costs: &[KindCost], kind: Kind) -> &KindCost {
    let found = costs.iter().find(|cost| cost.kind == kind);
    found.expect("it was counted")
}
