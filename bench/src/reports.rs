//! What R-7's report costs: the instructions of a further record of a tape that runs in a report, against the same tape without one, and
//! against plain Rust's report.

use crate::callgrind::count_all;
use crate::case::{Case, Workload, RECORDS};
use crate::job::Job;
use crate::measure;
use crate::peer::Peer;
use crate::records::{self, Cost};
use crate::tables::SIZES;

/// The workloads whose tapes are reported.
pub const REPORTED: [Workload; 3] = [Workload::Mix, Workload::MixFolds, Workload::Control];
/// Those that report.
pub const REPORT_PEERS: [Peer; 2] = [Peer::Library, Peer::Plain];
/// The refusal of a tape without Main's return.
pub const NO_SPAN: u32 = 22;

/// Instructions per further record, those of `REPORT_PEERS`.
pub struct ReportCost {
    pub workload: Workload,
    pub n: usize,
    /// In a report.
    pub reported: [f64; 2],
    /// In `splitter_tape`.
    pub taped: [f64; 2],
}

impl ReportCost {
    /// The library's report against its tape.
    pub fn ratio(&self) -> f64 {
        self.reported[0] / self.taped[0]
    }

    /// Plain Rust's.
    pub fn plain_ratio(&self) -> f64 {
        self.reported[1] / self.taped[1]
    }

    /// The library's report against plain Rust's.
    pub fn against_plain(&self) -> f64 {
        self.reported[0] / self.reported[1]
    }
}

/// Every workload at every size of the tables. The tapes without a report have been counted.
pub fn count(costs: &[Cost]) -> Vec<ReportCost> {
    let asked: Vec<(Workload, usize)> = REPORTED
        .into_iter()
        .flat_map(|workload| SIZES.map(|n| (workload, n)))
        .collect();
    let jobs = |&(workload, n): &(Workload, usize)| {
        let both = [Job::Report(workload, n), Job::ReportRest(workload, n)];
        REPORT_PEERS.map(|peer| both.map(|job| (peer, job)))
    };
    let jobs: Vec<(Peer, Job)> = asked.iter().flat_map(jobs).flatten().collect();
    let counts = count_all(&jobs);
    let (counts, _) = counts.as_chunks::<2>().0.as_chunks();
    let cost = |(&(workload, n), counts): (&(Workload, usize), &[[u64; 2]; 2])| ReportCost {
        workload,
        n,
        reported: counts.map(|[whole, rest]| (whole - rest) as f64 / RECORDS as f64),
        taped: REPORT_PEERS.map(|peer| records::find(costs, peer, workload, n).marginal()),
    };
    asked.iter().zip(counts).map(cost).collect()
}

/// The cost of one workload among those counted.
pub fn find(costs: &[ReportCost], workload: Workload, n: usize) -> &ReportCost {
    let wanted = |cost: &&ReportCost| cost.workload == workload && cost.n == n;
    costs.iter().find(wanted).expect("it was counted")
}

/// What a report answers, and the answers and the four words that it leaves.
pub fn given(peer: Peer, case: &Case) -> (u32, Vec<u32>, [u64; 4]) {
    let mut answers = vec![0; case.tape.len() / 4];
    let mut reporter = peer.reporter(case).expect("it reports");
    let refusal = reporter.report(&case.tape, &mut answers);
    (refusal, answers, reporter.words())
}

/// Library and plain Rust answer as in a tape, and neither tells a report, as Main has not returned.
pub fn compare() {
    for workload in REPORTED {
        for n in SIZES {
            let what = format!("report, {} {n}", workload.name());
            let (case, tape) = (Job::Report(workload, n).case(), Case::records(workload, n));
            for peer in REPORT_PEERS {
                let name = peer.name();
                let (refusal, answers, words) = given(peer, &case);
                assert_eq!(refusal, NO_SPAN, "{what}: {name}");
                assert_eq!(words, [0; 4], "{what}: {name} tells a report");
                let expected = measure::answers(peer, &tape);
                let prelude = answers.len() - expected.len();
                assert!(
                    answers[prelude..] == expected,
                    "{what}: {name} answers otherwise"
                );
            }
        }
    }
}
