//! What the check and single steps cost in a filled pool: instructions, and the check's time.

use crate::callgrind::count_all;
use crate::case::MAX_NODES;
use crate::filling::{Filled, Filling, FullStep, FILLINGS, FULL_STEPS};
use crate::job::Job;
use crate::peer::Peer;
use crate::timing;
use std::time::Duration;

pub struct FilledCost {
    pub filling: Filling,
    pub frames: usize,
    /// Nodes in use.
    pub used: usize,
    pub library: u64,
    pub plain: u64,
}

impl FilledCost {
    pub fn ratio(&self) -> f64 {
        self.library as f64 / self.plain as f64
    }

    /// The library's, per node of the pool.
    pub fn per_node(&self) -> f64 {
        self.library as f64 / MAX_NODES as f64
    }
}

/// The check of every filling.
pub fn count() -> Vec<FilledCost> {
    let counts = by_peer(&FILLINGS.map(Job::Filled));
    let cost = |(filling, [library, plain]): (Filling, [u64; 2])| {
        let filled = Filled::new(filling);
        FilledCost {
            filling,
            frames: filled.frames(),
            used: filled.used,
            library,
            plain,
        }
    };
    FILLINGS.into_iter().zip(counts).map(cost).collect()
}

/// The one whose check costs most.
pub fn most(costs: &[FilledCost]) -> &FilledCost {
    let most = costs.iter().max_by_key(|cost| cost.library);
    most.expect("there are fillings")
}

pub fn find(costs: &[FilledCost], filling: Filling) -> &FilledCost {
    let found = costs.iter().find(|cost| cost.filling == filling);
    found.expect("it was counted")
}

/// Instructions of library and plain Rust for each job.
fn by_peer(jobs: &[Job]) -> Vec<[u64; 2]> {
    let both = |&job: &Job| [(Peer::Library, job), (Peer::Plain, job)];
    let all: Vec<(Peer, Job)> = jobs.iter().flat_map(both).collect();
    count_all(&all).as_chunks().0.to_vec()
}

/// Of library and plain Rust.
pub struct FullStepCost {
    pub step: FullStep,
    /// Instructions of a call with one step.
    pub single: [f64; 2],
    /// Instructions per record of a tape, with the check.
    pub taped: Option<[f64; 2]>,
}

/// Every kind of step in a full pool.
pub fn count_steps() -> Vec<FullStepCost> {
    let repeated = FULL_STEPS.into_iter().filter(|step| step.repeats());
    let singles = FULL_STEPS.map(Job::FullSteps);
    let tapes = repeated.map(Job::FullTape);
    let jobs: Vec<Job> = singles.into_iter().chain(tapes).collect();
    let mut means = jobs.iter().zip(by_peer(&jobs)).map(mean);
    let singles: Vec<[f64; 2]> = means.by_ref().take(FULL_STEPS.len()).collect();
    let cost = |(step, single): (FullStep, [f64; 2])| FullStepCost {
        step,
        single,
        taped: step.repeats().then(|| means.next()).flatten(),
    };
    FULL_STEPS.into_iter().zip(singles).map(cost).collect()
}

fn mean((job, counts): (&Job, [u64; 2])) -> [f64; 2] {
    let steps = job.case().tape.len() / 8;
    counts.map(|count| count as f64 / steps as f64)
}

/// Fillings whose check is timed.
pub const TIMED: [Filling; 3] = [Filling::Untouched, Filling::Full, Filling::FullApart];
/// Pools of each.
pub const TIMED_POOLS: usize = 31;

/// The time of the library's check: for each filling the median over pools from other seeds, each checked once. A check that is repeated on
/// one pool is faster, by more than half if the writes were random; a host's pool changes between its calls.
pub fn times() -> [Duration; 3] {
    let mut times = [const { Vec::new() }; 3];
    for seed in 0..TIMED_POOLS as u64 {
        for (times, filling) in times.iter_mut().zip(TIMED) {
            times.push(timing::time_first(&Filled::seeded(filling, seed).case()));
        }
    }
    times.map(median)
}

fn median(mut times: Vec<Duration>) -> Duration {
    times.sort();
    times[times.len() / 2]
}
