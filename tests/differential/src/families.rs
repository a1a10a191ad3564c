//! R-5's cases: whose view is joined when a frame ends, and how many runs have
//! three live siblings or more.

use crate::machine::{FrameId, Machine, MAIN};
use crate::record::{self, Record, Step};

/// A family is large from so many live children of one frame on.
const LARGE_FAMILY: usize = 3;

/// Of the runs, at least one in so many must have a large family.
const LARGE_ONE_IN: usize = 3;

/// What is joined by the end of the frame that returns; the frames that a
/// chain ends with it are not looked at.
const CASES: [&str; 6] = [
    "end, the parent's is next",
    "end, an elder sibling lives",
    "end, a sibling's is next",
    "end, next is below a sibling",
    "end, two levels below it",
    "end, within a deque, elder lives",
];

#[derive(Default)]
pub struct Families {
    cases: [usize; CASES.len()],
    runs: usize,
    large_runs: usize,
    /// The most live children of one frame, in this run and in all.
    most: usize,
    most_of_all: usize,
}

impl Families {
    /// Looks at a record that the machine is about to take.
    pub fn see(&mut self, machine: &Machine, record: Record) {
        self.most = self.most.max(machine.most_siblings());
        let Ok(Step::Return { worker }) = record::decode(record) else {
            return;
        };
        let worker = usize::from(worker);
        if worker >= machine.workers() {
            return;
        }
        if let Some(bottom) = machine.bottom(worker) {
            if bottom != MAIN && !machine.has_live_child(bottom) {
                self.see_end(machine, bottom, machine.deque_frames(worker) > 1);
            }
        }
    }

    fn see_end(&mut self, machine: &Machine, ended: FrameId, within: bool) {
        let order = machine.in_order();
        let place = order.iter().position(|frame| *frame == ended);
        let next = place.map_or(MAIN, |place| order[place + 1]);
        let parent = machine.parent(ended).unwrap_or(MAIN);
        let siblings = || {
            let others = order.iter().filter(|frame| **frame != ended);
            others.filter(|frame| machine.parent(**frame) == Some(parent))
        };
        let elder = siblings().any(|frame| machine.name(*frame) < machine.name(ended));
        let below = machine.name(next).len() as isize - machine.name(ended).len() as isize;
        let met = [
            next == parent,
            elder,
            below == 0,
            below == 1,
            below >= 2,
            within && elder,
        ];
        for (count, met) in self.cases.iter_mut().zip(met) {
            *count += usize::from(met);
        }
    }

    /// A run has come to its end.
    pub fn end_run(&mut self) {
        self.runs += 1;
        self.large_runs += usize::from(self.most >= LARGE_FAMILY);
        self.most_of_all = self.most_of_all.max(self.most);
        self.most = 0;
    }

    /// Every case with its count.
    pub fn cases(&self) -> Vec<(String, usize)> {
        let names = CASES.map(String::from);
        names.into_iter().zip(self.cases).collect()
    }

    /// The counts in a line, and whether enough runs have a large family.
    pub fn line(&self) -> (String, bool) {
        let line = format!(
            "{} of {} runs have {LARGE_FAMILY} live siblings or more at some time (at least one \
             in {LARGE_ONE_IN} asked), {} at most",
            self.large_runs, self.runs, self.most_of_all
        );
        let enough = self.large_runs * LARGE_ONE_IN >= self.runs && self.runs > 0;
        (line, enough)
    }
}

#[cfg(test)]
mod tests {
    use super::*;

    #[test]
    fn a_third_must_have_a_large_family() {
        let mut families = Families::default();
        for most in [3, 2, 2] {
            families.most = most;
            families.end_run();
        }
        assert!(families.line().1, "{}", families.line().0);
        families.end_run();
        assert!(!families.line().1);
    }
}
