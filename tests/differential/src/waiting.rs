//! R-3's cases: where a return leads, and how many frames end by it.

use crate::machine::{FrameId, Machine, MAIN};
use crate::record::{self, Record, Step};
use std::collections::BTreeMap;

/// A chain is long from so many frames on, ended by one return.
const LONG_CHAIN: usize = 3;

/// Of the accepted returns, at least one in so many must be answered 102 4.
const WAITS_ONE_IN: usize = 10;

/// Where an accepted return leads. Outcome 1 is told apart by why the parent
/// reached does neither end nor resume.
#[derive(Clone, Copy, Debug, PartialEq, Eq, PartialOrd, Ord)]
pub enum Stop {
    /// Outcome 4: the frame waits for its children.
    Waits,
    /// Outcome 0: the parent is the bottom.
    ParentBelow,
    /// Outcome 1: the parent reached is not suspended.
    ParentRuns,
    /// Outcome 1: the parent reached is at a sync and has other live children.
    SyncSiblings,
    /// Outcome 1: the parent reached waits as returning and has other live
    /// children.
    ReturnSiblings,
    /// Outcome 2.
    Resumes,
    /// Outcome 3.
    MainEnds,
}

/// Those that a chain may have, with the table's words for them.
const STOPS: [(Stop, &str); 5] = [
    (Stop::ParentRuns, "stop 1, parent runs"),
    (Stop::SyncSiblings, "stop 1, sibling, sync"),
    (Stop::ReturnSiblings, "stop 1, sibling, return"),
    (Stop::Resumes, "stop 2"),
    (Stop::MainEnds, "stop 3"),
];

impl Stop {
    pub fn outcome(self) -> u32 {
        match self {
            Stop::ParentBelow => 0,
            Stop::ParentRuns | Stop::SyncSiblings | Stop::ReturnSiblings => 1,
            Stop::Resumes => 2,
            Stop::MainEnds => 3,
            Stop::Waits => 4,
        }
    }
}

/// What a return will do: the frames that end by it, and where that stops.
#[derive(Clone, Copy, Debug, PartialEq, Eq)]
pub struct Ends {
    pub frames: usize,
    pub stop: Stop,
}

/// A return by a worker that exists, none if it is idle. The frames are
/// followed upward by their live children and are left as they are; the
/// machine's own way is another, and a test compares the two.
pub fn foresee(machine: &Machine, worker: usize) -> Option<Ends> {
    let bottom = machine.bottom(worker)?;
    if machine.live_children(bottom) > 0 {
        return Some(Ends {
            frames: 0,
            stop: Stop::Waits,
        });
    }
    if machine.deque_frames(worker) > 1 {
        return Some(Ends {
            frames: 1,
            stop: Stop::ParentBelow,
        });
    }
    let mut ended = bottom;
    let mut frames = 1;
    loop {
        if let Some(stop) = stop_above(machine, ended) {
            return Some(Ends { frames, stop });
        }
        ended = machine.parent(ended)?;
        frames += 1;
    }
}

/// Where the end of a frame stops, none if its parent ends too.
fn stop_above(machine: &Machine, ended: FrameId) -> Option<Stop> {
    if ended == MAIN {
        return Some(Stop::MainEnds);
    }
    let parent = machine.parent(ended)?;
    let siblings = machine.live_children(parent) > 1;
    if !machine.is_suspended(parent) {
        Some(Stop::ParentRuns)
    } else if siblings && machine.is_returning(parent) {
        Some(Stop::ReturnSiblings)
    } else if siblings {
        Some(Stop::SyncSiblings)
    } else if machine.is_returning(parent) {
        None
    } else {
        Some(Stop::Resumes)
    }
}

/// The accepted returns by where they lead and how many frames end.
#[derive(Default)]
pub struct Waiting(BTreeMap<(Stop, usize), usize>);

impl Waiting {
    /// Looks at a record that the machine is about to take.
    pub fn see(&mut self, machine: &Machine, record: Record) {
        let Ok(Step::Return { worker }) = record::decode(record) else {
            return;
        };
        let worker = usize::from(worker);
        if worker >= machine.workers() || machine.main_has_returned() {
            return;
        }
        if let Some(Ends { frames, stop }) = foresee(machine, worker) {
            *self.0.entry((stop, frames)).or_default() += 1;
        }
    }

    fn returns(&self) -> usize {
        self.0.values().sum()
    }

    fn waits(&self) -> usize {
        self.0.get(&(Stop::Waits, 0)).copied().unwrap_or(0)
    }

    /// The frames ended by the longest chain.
    fn longest(&self) -> usize {
        let lengths = self.0.keys().map(|(_, frames)| *frames);
        lengths.max().unwrap_or(0)
    }

    /// Long chains that stopped so.
    fn long_chains(&self, stop: Stop) -> usize {
        let lengths = LONG_CHAIN..;
        let counts = self.0.iter();
        counts
            .filter(|((other, frames), _)| *other == stop && lengths.contains(frames))
            .map(|(_, count)| count)
            .sum()
    }

    /// Every stop of a long chain with its count.
    pub fn cases(&self) -> Vec<(String, usize)> {
        let case = |(stop, words): (Stop, &str)| (format!("chain, {words}"), stop);
        let counted = |(words, stop)| (words, self.long_chains(stop));
        STOPS.into_iter().map(case).map(counted).collect()
    }

    /// The counts in a line, and whether enough returns wait and each stop of
    /// a long chain occurred.
    pub fn line(&self) -> (String, bool) {
        let (waits, returns) = (self.waits(), self.returns());
        let [runs, sync, returning, resumes, home] = STOPS.map(|(stop, _)| self.long_chains(stop));
        let line = format!(
            "{waits} of {returns} accepted returns are answered 102 4 (at least one in \
             {WAITS_ONE_IN} asked); one return ended {LONG_CHAIN} frames or more with stop 1 \
             {} times ({} of them with siblings left), 2 {resumes} times, 3 {home} times; \
             {} frames at most",
            runs + sync + returning,
            sync + returning,
            self.longest()
        );
        let each_stop = self.cases().iter().all(|(_, count)| *count > 0);
        (line, each_stop && waits * WAITS_ONE_IN >= returns)
    }
}

#[cfg(test)]
mod tests {
    use super::*;
    use crate::generate;
    use crate::machine::Counting;
    use crate::splitrun::{Input, PLACES};

    /// Compares what is foreseen of each return with the machine's outcome
    /// and with the frames that are live after it.
    fn follow(input: &Input) -> usize {
        let workers = usize::from(input.workers);
        let nodes = input.nodes as usize;
        let started = Machine::start(workers, PLACES, nodes, &input.values, Counting::Cached);
        let Ok(mut machine) = started else {
            return 0;
        };
        let mut returns = 0;
        for record in record::records(&input.tape) {
            let Ok(step) = record::decode(record) else {
                continue;
            };
            let before = machine.live_frames();
            let foreseen = match step {
                Step::Return { worker } if usize::from(worker) < workers => {
                    foresee(&machine, worker.into())
                }
                _ => None,
            };
            let answer = machine.step(step);
            if let Some(Ends { frames, stop }) = foreseen {
                assert_eq!(answer, Ok(stop.outcome()));
                assert_eq!(before - machine.live_frames(), frames);
                returns += 1;
            }
        }
        returns
    }

    /// Each stop of a long chain once, and other returns.
    fn counted(waits: usize, others: usize) -> Waiting {
        let mut counts: BTreeMap<_, _> = STOPS.map(|(stop, _)| ((stop, LONG_CHAIN), 1)).into();
        counts.insert((Stop::Waits, 0), waits);
        counts.insert((Stop::ParentBelow, 1), others);
        Waiting(counts)
    }

    #[test]
    fn a_tenth_must_wait() {
        let (line, met) = counted(10, 85).line();
        assert!(met && line.starts_with("10 of 100 accepted"), "{line}");
        assert!(!counted(10, 86).line().1);
    }

    #[test]
    fn each_stop_of_a_long_chain_must_occur() {
        for (stop, words) in STOPS {
            let mut waiting = counted(10, 85);
            waiting.0.remove(&(stop, LONG_CHAIN));
            waiting.0.insert((stop, LONG_CHAIN - 1), 1);
            assert!(!waiting.line().1, "without {words}");
        }
    }

    #[test]
    fn returns_are_foreseen() {
        let inputs = (0..300).filter_map(|seed| Input::parse(&generate::input(seed)));
        let returns: usize = inputs.map(|input| follow(&input)).sum();
        assert!(returns > 3_000, "{returns} returns");
    }
}
