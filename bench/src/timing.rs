//! Time of one call: the best of many, the peers by turns in one process.

use crate::case::{Case, Workload, RECORDS};
use crate::measure::bench_measured;
use crate::peer::{Peer, Run, PEERS};
use std::time::{Duration, Instant};

pub const ROUNDS: usize = 300;

pub struct Time {
    pub peer: Peer,
    pub workload: Workload,
    pub n: usize,
    /// The best time of the call with all records.
    pub whole: Duration,
    /// The best time of the call with an empty tape.
    pub empty: Duration,
}

impl Time {
    /// Records per second without the call's check.
    pub fn rate(&self) -> f64 {
        RECORDS as f64 / (self.whole.as_secs_f64() - self.empty.as_secs_f64())
    }

    /// Records per second with it.
    pub fn rate_with_check(&self) -> f64 {
        RECORDS as f64 / self.whole.as_secs_f64()
    }
}

pub fn time_all(workloads: &[Workload], sizes: &[usize]) -> Vec<Time> {
    let mut times = Vec::new();
    for &workload in workloads {
        for &n in sizes {
            times.extend(time_peers(workload, n));
        }
    }
    times
}

fn time_peers(workload: Workload, n: usize) -> Vec<Time> {
    let case = Case::records(workload, n);
    let mut answers = vec![0; 2 * RECORDS];
    let unmeasured = |peer| Time {
        peer,
        workload,
        n,
        whole: Duration::MAX,
        empty: Duration::MAX,
    };
    let mut times = PEERS.map(unmeasured);
    for _ in 0..ROUNDS {
        for time in &mut times {
            let mut run = time.peer.begin(&case);
            time.empty = time.empty.min(clock(run.as_mut(), &[], &mut answers));
            time.whole = time
                .whole
                .min(clock(run.as_mut(), &case.tape, &mut answers));
        }
    }
    times.into()
}

/// The time of the library's first call with an empty tape.
pub fn time_first(case: &Case) -> Duration {
    clock(Peer::Library.begin(case).as_mut(), &[], &mut [])
}

fn clock(run: &mut dyn Run, tape: &[u8], answers: &mut [u32]) -> Duration {
    let begun = Instant::now();
    let refusal = bench_measured(run, tape, answers);
    let time = begun.elapsed();
    assert_eq!(refusal, 0, "the tape is refused");
    time
}

/// The time of one peer among those taken.
pub fn find(times: &[Time], peer: Peer, workload: Workload, n: usize) -> &Time {
    let wanted = |time: &&Time| time.peer == peer && time.workload == workload && time.n == n;
    times.iter().find(wanted).expect("it was taken")
}
