//! nodes of two words against nodes of four, in a pool of 16,384 nodes: instructions and data-cache misses.

use crate::callgrind::{simulate_all, Caches, Counts};
use crate::case::{Workload, MAX_NODES, RECORDS};
use crate::job::Job;
use crate::peer::Peer;

/// Splitters.
pub const N: usize = 256;
/// Those that are compared: two words, two words, four words, no nodes.
pub const LAYOUT_PEERS: [Peer; 4] = [Peer::Library, Peer::Plain, Peer::FourWords, Peer::Copying];
pub const LAYOUT_WORKLOADS: [Workload; 5] = [
    Workload::Mix,
    Workload::Reads,
    Workload::Writes,
    Workload::WritesAlone,
    Workload::Control,
];
const CACHES: [Caches; 2] = [Caches::Machine, Caches::Small];

/// Of each peer, per record or per call.
type Row = [f64; 4];

/// One workload, or the check.
pub struct LayoutCost {
    /// None of the call with an empty tape, after the mix's prelude.
    pub workload: Option<Workload>,
    pub instructions: Row,
    /// Misses of the first cache and of the last one, this machine's and small ones.
    pub machine: [Row; 2],
    pub small: [Row; 2],
}

impl LayoutCost {
    /// One peer's figure divided by another's.
    pub fn ratio(row: Row, one: Peer, other: Peer) -> f64 {
        let of = |peer| {
            let at = LAYOUT_PEERS.iter().position(|&each| each == peer);
            row[at.expect("it is compared")]
        };
        of(one) / of(other)
    }

    /// From what the peers' calls cost with this machine's caches and with small ones.
    fn of(workload: Option<Workload>, figures: [[Figures; 2]; 4]) -> Self {
        let row = |caches: usize, figure: usize| figures.map(|both| both[caches][figure]);
        LayoutCost {
            workload,
            instructions: row(0, 0),
            machine: [row(0, 1), row(0, 2)],
            small: [row(1, 1), row(1, 2)],
        }
    }
}

/// Instructions and misses of both caches.
type Figures = [f64; 3];

fn figures(counts: Counts) -> Figures {
    [counts.instructions, counts.d1, counts.ll].map(|count| count as f64)
}

/// Per record, without what a call without them costs.
fn per_record(whole: Counts, rest: Counts) -> Figures {
    let (whole, rest) = (figures(whole), figures(rest));
    [0, 1, 2].map(|at: usize| (whole[at] - rest[at]) / RECORDS as f64)
}

pub fn count() -> Vec<LayoutCost> {
    let of_workload = |workload| {
        let both = [
            Job::Pool(workload, N, MAX_NODES),
            Job::PoolRest(workload, N, MAX_NODES),
        ];
        LAYOUT_PEERS.map(|peer| CACHES.map(|caches| both.map(|job| (peer, job, caches))))
    };
    let jobs = LAYOUT_WORKLOADS.map(of_workload);
    let counts = simulate_all(jobs.as_flattened().as_flattened().as_flattened());
    let (counts, _) = counts.as_chunks::<2>();
    let (counts, _) = counts.as_chunks::<2>();
    let (counts, _) = counts.as_chunks::<4>();
    let records = LAYOUT_WORKLOADS
        .into_iter()
        .zip(counts)
        .map(|(workload, counts)| {
            let figures = counts.map(|both| both.map(|[whole, rest]| per_record(whole, rest)));
            LayoutCost::of(Some(workload), figures)
        });
    let check = counts[0].map(|both| both.map(|[_, rest]| figures(rest)));
    records.chain([LayoutCost::of(None, check)]).collect()
}

/// The cost of one workload among those counted.
pub fn find(costs: &[LayoutCost], workload: Workload) -> &LayoutCost {
    let found = costs.iter().find(|cost| cost.workload == Some(workload));
    found.expect("it was counted")
}

/// What is simulated, as a list in markdown.
pub fn caches() -> String {
    let line = |(name, caches): (&str, Caches)| format!("- {name}: {}\n", caches.described());
    ["machine's caches", "small caches"]
        .into_iter()
        .zip(CACHES)
        .map(line)
        .collect()
}
