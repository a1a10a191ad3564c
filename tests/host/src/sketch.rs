//! A tape under way: each record is made for what those before it leave in plain.rs.

use crate::plain::{self, State, NONE, RETURN, SPAWN, STEAL, SYNC, WRITE};
use crate::random::Random;
use crate::sharing::{self, Case};
use crate::steps::{self, StepWords};
use std::ops::RangeInclusive;

pub struct Sketch<'a> {
    pub state: State,
    pub pool: Vec<u32>,
    pub free_nodes: u32,
    /// The steps so far, each write that comes as far as 16 with its case.
    pub steps: Vec<(StepWords, Option<Case>)>,
    random: &'a Random,
}

impl<'a> Sketch<'a> {
    /// Begins with a sound pair.
    pub fn new(state: State, pool: Vec<u32>, random: &'a Random) -> Sketch<'a> {
        let mut work = vec![0; state.nodes as usize];
        let free_nodes = plain::sound(&state, &pool, &mut work).unwrap_or(0);
        Sketch {
            state,
            pool,
            free_nodes,
            steps: Vec::new(),
            random,
        }
    }

    /// The records' bytes.
    pub fn bytes(&self) -> Vec<u8> {
        let steps = self.steps.iter();
        steps.flat_map(|(step, _)| steps::record(*step)).collect()
    }

    pub fn cases(&self) -> Vec<Case> {
        self.steps.iter().filter_map(|(_, case)| *case).collect()
    }

    /// Takes the step, cut to a record's fields; whether it was accepted.
    pub fn push(&mut self, step: StepWords) -> bool {
        let record = steps::record(step);
        let step = steps::words(record);
        let case = Case::of(step, &self.state, &self.pool, self.free_nodes);
        let mut answer = [0; 2];
        self.free_nodes = plain::run_tape(
            &mut self.state,
            self.free_nodes,
            &mut self.pool,
            &record,
            &mut answer,
        );
        self.steps.push((step, case));
        answer[0] > 100
    }

    /// A write that finds a certain number of its path's nodes shared, with none free, one too few or just enough. It may miss. Before
    /// it, all children end that can, if asked.
    pub fn aim(&mut self, clear: bool) {
        let random = self.random;
        let path = self.path();
        let rest = random.word_below(path + 1);
        let free = match rest {
            0 => random.pick(&[0, 0, path]),
            _ => random.pick(&[0, rest - 1, rest]),
        };
        while clear && self.end_a_child() {}
        if random.one_in(3) {
            self.push(steps::plausible(&self.state, STEAL, random));
        }
        // a new frame shares its whole path, and less of it after a write
        let first = if rest < path { path } else { 0 };
        while self.free_nodes < first + free {
            if !self.end_a_child() {
                return;
            }
        }
        let Some(worker) = self.busy_worker() else {
            return;
        };
        let surplus = self.free_nodes - first - free;
        if !self.take_nodes(worker, surplus) || !self.push([SPAWN, worker, 0, 0]) {
            return;
        }
        if first > 0 {
            self.write_taking(worker, path..=path);
        }
        self.write_taking(worker, rest..=rest);
    }

    /// New frames write to every splitter, until few nodes are left.
    pub fn fill(&mut self, worker: u32) {
        while self.free_nodes > 4 * self.path() && self.push([SPAWN, worker, 0, 0]) {
            for splitter in 0..self.state.splitters {
                if self.free_nodes > 4 * self.path() {
                    self.push([WRITE, worker, splitter, self.random.word()]);
                }
            }
        }
    }

    /// A line of frames that wait, and the return that ends them.
    pub fn chain(&mut self, length: usize) {
        if let Some(worker) = self.line(length) {
            self.push([RETURN, worker, 0, 0]);
        }
    }

    /// A worker's frames and so many below them, then all but the last are stolen one by one: most of them return, and wait; now and then
    /// one waits at a sync, goes on, or has one more child. The worker, if it has only the last then.
    pub fn line(&mut self, length: usize) -> Option<u32> {
        let random = self.random;
        let worker = self.busy_worker()?;
        for _ in 0..length {
            self.push([SPAWN, worker, 0, 0]);
            if random.one_in(3) {
                self.push(steps::fold(worker, random));
            }
            if random.one_in(3) {
                self.push([
                    WRITE,
                    worker,
                    random.word_below(self.state.splitters),
                    random.word(),
                ]);
            }
        }
        while self.state.deques[worker as usize].length > 1 {
            let thief = self.idle_worker()?;
            self.push([STEAL, thief, worker, 0]);
            self.leave(thief);
        }
        Some(worker)
    }

    /// A frame with several children, each on a worker of its own: an idle worker steals the frame, spawns, and so on, with folds between.
    /// Then steps of all of them, and the ends of some, in any order.
    pub fn family(&mut self) {
        let random = self.random;
        let Some(mut worker) = self.busy_worker() else {
            return;
        };
        for _ in 0..3 + random.below(6) {
            self.fold_often(worker);
            self.push([SPAWN, worker, 0, 0]);
            let Some(thief) = self.idle_worker() else {
                break;
            };
            self.push([STEAL, thief, worker, 0]);
            worker = thief;
        }
        for _ in 0..random.below(40) {
            self.step_of_a_family();
        }
    }

    fn fold_often(&mut self, worker: u32) {
        while self.random.below(5) < 3 {
            self.push(steps::fold(worker, self.random));
        }
    }

    fn step_of_a_family(&mut self) {
        let random = self.random;
        let Some(worker) = self.busy_worker() else {
            return;
        };
        match random.below(20) {
            0..9 => self.fold_often(worker),
            9..12 => {
                self.end_a_child();
            }
            12 | 13 => {
                self.push([SPAWN, worker, 0, 0]);
            }
            14 => {
                self.push([SYNC, worker, 0, 0]);
            }
            15 => self.leave(worker),
            _ => {
                self.push(steps::plausible(&self.state, STEAL, random));
            }
        }
    }

    /// The thief's frame, which has a child elsewhere, waits as returning, or something else happens to it.
    fn leave(&mut self, thief: u32) {
        let bottom = self.bottom(thief);
        let main = bottom.is_some_and(|frame| self.state.frames[frame as usize].parent == NONE);
        match self.random.below(if main { 3 } else { 40 }) {
            0 => self.push([SYNC, thief, 0, 0]),
            1 if main => true, // goes on
            1 => self.push([SPAWN, thief, 0, 0]) && self.give_up(thief),
            _ => self.push([RETURN, thief, 0, 0]),
        };
    }

    /// The worker's top frame is stolen by another that is idle, and returns.
    fn give_up(&mut self, worker: u32) -> bool {
        let Some(thief) = self.idle_worker() else {
            return false;
        };
        self.push([STEAL, thief, worker, 0]) && self.push([RETURN, thief, 0, 0])
    }

    fn idle_worker(&self) -> Option<u32> {
        (0..self.state.workers).find(|&worker| self.bottom(worker).is_none())
    }

    /// The nodes from the root to a leaf.
    fn path(&self) -> u32 {
        plain::height(self.state.splitters) + 1
    }

    fn bottom(&self, worker: u32) -> Option<u32> {
        self.state.deques[worker as usize].bottom()
    }

    fn busy_worker(&self) -> Option<u32> {
        let busy: Vec<u32> = (0..self.state.workers)
            .filter(|&worker| self.bottom(worker).is_some())
            .collect();
        self.random.some(&busy)
    }

    /// A return of a frame other than Main; false if none can end.
    fn end_a_child(&mut self) -> bool {
        let ends: Vec<u32> = (0..self.state.workers)
            .filter(|&worker| {
                let bottom = self.bottom(worker);
                let frame = bottom.map(|frame| self.state.frames[frame as usize]);
                frame.is_some_and(|frame| frame.parent != NONE && frame.outstanding == 0)
            })
            .collect();
        let worker = self.random.some(&ends);
        worker.is_some_and(|worker| self.push([RETURN, worker, 0, 0]))
    }

    /// Takes just so many nodes, by writes of the worker's bottom frame and of new frames below it; false if that does not come out.
    fn take_nodes(&mut self, worker: u32, count: u32) -> bool {
        let left = self.free_nodes - count;
        while self.free_nodes > left {
            let count = self.free_nodes - left;
            if self.write_taking(worker, 1..=count) {
                continue;
            }
            if count < self.path() || !self.push([SPAWN, worker, 0, 0]) {
                return false;
            }
        }
        true
    }

    /// A write by the worker that finds so many nodes of its path shared, every fourth of the value that is there; false if no splitter
    /// is such.
    fn write_taking(&mut self, worker: u32, rest: RangeInclusive<u32>) -> bool {
        let Some(frame) = self.bottom(worker) else {
            return false;
        };
        let splitters = self.state.splitters;
        let first = self.random.word_below(splitters);
        let found = (0..splitters)
            .map(|place| (first + place) % splitters)
            .find(|&splitter| {
                rest.contains(&sharing::rest(&self.state, &self.pool, frame, splitter))
            });
        let Some(splitter) = found else {
            return false;
        };
        let value = if self.random.one_in(4) {
            sharing::value(&self.state, &self.pool, frame, splitter)
        } else {
            self.random.word()
        };
        self.push([WRITE, worker, splitter, value]);
        true
    }
}
