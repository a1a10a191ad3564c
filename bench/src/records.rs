//! Instructions per record, by workload, n and the places of the frame table.

use crate::callgrind::count_all;
use crate::case::Workload;
use crate::job::Job;
use crate::peer::Peer;

pub struct Cost {
    pub peer: Peer,
    pub workload: Workload,
    pub n: usize,
    /// Instructions of the call with all records.
    pub whole: u64,
    /// Instructions of the call without the records that are counted.
    pub rest: u64,
}

impl Cost {
    /// What a further record costs.
    pub fn marginal(&self) -> f64 {
        (self.whole as f64 - self.rest as f64) / self.workload.counted() as f64
    }

    /// What a record costs with its share of the call's check.
    pub fn with_check(&self) -> f64 {
        self.whole as f64 / self.workload.counted() as f64
    }
}

pub fn count(peers: &[Peer], workloads: &[Workload], sizes: &[usize], places: usize) -> Vec<Cost> {
    let mut asked = Vec::new();
    for &workload in workloads {
        for &n in sizes {
            asked.extend(peers.iter().map(|&peer| (peer, workload, n)));
        }
    }
    let whole: Vec<(Peer, Job)> = asked
        .iter()
        .map(|&(peer, workload, n)| (peer, Job::Records(workload, n, places)))
        .collect();
    let rest: Vec<(Peer, Job)> = asked
        .iter()
        .map(|&(peer, workload, n)| (peer, Job::Rest(workload, n, places)))
        .collect();
    let counts = count_all(&[whole, rest].concat());
    let (whole, rest) = counts.split_at(asked.len());
    let pairs = whole.iter().zip(rest);
    let cost = |((peer, workload, n), (&whole, &rest))| Cost {
        peer,
        workload,
        n,
        whole,
        rest,
    };
    asked.into_iter().zip(pairs).map(cost).collect()
}

/// The cost of one peer among those counted, all in tables of one length.
pub fn find(costs: &[Cost], peer: Peer, workload: Workload, n: usize) -> &Cost {
    let wanted = |cost: &&Cost| cost.peer == peer && cost.workload == workload && cost.n == n;
    costs.iter().find(wanted).expect("it was counted")
}
