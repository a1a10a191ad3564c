//! What a step costs in a call of its own, `splitter_step`: the instructions of the call, its check included.

use crate::callgrind::count_all;
use crate::case::{Workload, SINGLE_STEPS};
use crate::job::Job;
use crate::peer::Peer;

const WORKLOADS: [Workload; 4] = [
    Workload::Reads,
    Workload::Writes,
    Workload::Control,
    Workload::Mix,
];
/// n and the nodes of the pool.
const POOLS: [(usize, usize); 4] = [(16, 127), (16, 1_024), (64, 4_096), (256, 16_384)];

pub struct StepCost {
    pub workload: Workload,
    pub n: usize,
    pub nodes: usize,
    /// Instructions of all calls.
    library: u64,
    plain: u64,
}

impl StepCost {
    /// Instructions of one call.
    pub fn library(&self) -> f64 {
        self.library as f64 / SINGLE_STEPS as f64
    }

    pub fn plain(&self) -> f64 {
        self.plain as f64 / SINGLE_STEPS as f64
    }

    pub fn ratio(&self) -> f64 {
        self.library as f64 / self.plain as f64
    }
}

/// Every workload with every pool.
pub fn all() -> Vec<(Workload, usize, usize)> {
    let pools = |workload| POOLS.map(|(n, nodes)| (workload, n, nodes));
    WORKLOADS.map(pools).concat()
}

pub fn count() -> Vec<StepCost> {
    let asked = all();
    let jobs = |peer| {
        let job = move |&(workload, n, nodes)| (peer, Job::Steps(workload, n, nodes));
        asked.iter().map(job)
    };
    let both: Vec<(Peer, Job)> = jobs(Peer::Library).chain(jobs(Peer::Plain)).collect();
    let counts = count_all(&both);
    let (library, plain) = counts.split_at(asked.len());
    let counted = asked.iter().zip(library.iter().zip(plain));
    counted
        .map(|(&(workload, n, nodes), (&library, &plain))| StepCost {
            workload,
            n,
            nodes,
            library,
            plain,
        })
        .collect()
}
