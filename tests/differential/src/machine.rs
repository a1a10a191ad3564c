//! Document 01's plain machine, with of document 02: each live
//! frame has its own full list of values and its whole history, and nodes in
//! use are counted from those. Each has its name and its view of the reducers;
//! whose view comes next is told by the names.

use super::history::{self, History, WriteId};
use super::name::{self, Name};
use super::record::Step;
use super::reducer::{View, REDUCERS};
use super::refusal::Refusal;
use super::shape;
use std::collections::BTreeMap;

/// A frame's identity: the number of frames made before it. It is never used
/// again.
pub type FrameId = usize;

pub const MAIN: FrameId = 0;

const MAX_SPLITTERS: usize = 256;
const MAX_WORKERS: usize = 8;
const MAX_NODES: usize = 16_384;
const MAX_PLACES: usize = 256;

struct Frame {
    parent: Option<FrameId>,
    depth: u32,
    suspended: bool,
    /// the frame has returned and waits for its children. It is
    /// suspended.
    returning: bool,
    values: Vec<u32>,
    history: History,
    name: Name,
    /// The frame's accepted spawns so far.
    spawns: usize,
    view: View,
}

/// How nodes in use are counted.
#[derive(Clone, Copy, PartialEq, Eq)]
pub enum Counting {
    Cached,
    /// The debug mode: each count is compared with a plain recount.
    Recounted,
}

pub struct Machine {
    splitters: usize,
    nodes: usize,
    /// the length of the frame table, "the limit in 13".
    places: usize,
    /// The live frames.
    frames: BTreeMap<FrameId, Frame>,
    /// One deque per worker: the top frame first, the bottom one last.
    deques: Vec<Vec<FrameId>>,
    frames_made: usize,
    writes_made: WriteId,
    /// Main's view at its end, none while Main lives.
    totals: Option<View>,
    counting: Counting,
}

impl Machine {
    /// A start, refused by 1 to 3 and 21. "At a start the plain machine is fed"
    /// the table's "length as well".
    pub fn start(
        workers: usize,
        places: usize,
        nodes: usize,
        values: &[u32],
        counting: Counting,
    ) -> Result<Machine, Refusal> {
        let splitters = values.len();
        if splitters == 0 || splitters > MAX_SPLITTERS {
            return Err(Refusal::InitialValues);
        }
        if workers == 0 || workers > MAX_WORKERS {
            return Err(Refusal::Workers);
        }
        if places == 0 || places > MAX_PLACES {
            return Err(Refusal::Places);
        }
        if nodes < shape::tree_nodes(splitters) || nodes > MAX_NODES {
            return Err(Refusal::PoolNodes);
        }
        let main = Frame {
            parent: None,
            depth: 0,
            suspended: false,
            returning: false,
            values: values.to_vec(),
            history: History::of_main(splitters),
            name: Name::new(),
            spawns: 0,
            // "Main begins with the identities."
            view: View::IDENTITY,
        };
        // "At the start Main, depth 0, is alone on worker 0's deque."
        let mut deques = vec![Vec::new(); workers];
        deques[0].push(MAIN);
        Ok(Machine {
            splitters,
            nodes,
            places,
            frames: BTreeMap::from([(MAIN, main)]),
            deques,
            frames_made: 1,
            writes_made: 0,
            totals: None,
            counting,
        })
    }

    /// One step: the answer's number, or its refusal. "A refused step alters
    /// nothing."
    pub fn step(&mut self, step: Step) -> Result<u32, Refusal> {
        self.check(step)?;
        Ok(self.take(step))
    }

    /// Refusals 8 to 16, in checking order. 14 no longer occurs, and 20
    /// has the place of 15.
    pub fn check(&self, step: Step) -> Result<(), Refusal> {
        let worker = usize::from(step.worker());
        if worker >= self.workers() {
            return Err(Refusal::NoWorker);
        }
        if self.main_has_returned() {
            return Err(Refusal::MainReturned);
        }
        if let Step::Steal { victim, .. } = step {
            return self.check_steal(worker, usize::from(victim));
        }
        let Some(bottom) = self.bottom(worker) else {
            return Err(Refusal::Idle);
        };
        match step {
            Step::Spawn { .. } => self.check_spawn(),
            Step::Read { splitter, .. } => self.check_splitter(splitter),
            Step::Write { splitter, .. } => self.check_write(bottom, splitter),
            Step::Fold { reducer, .. } => self.check_reducer(reducer),
            Step::Return { .. } | Step::Steal { .. } | Step::Sync { .. } => Ok(()),
        }
    }

    fn check_steal(&self, thief: usize, victim: usize) -> Result<(), Refusal> {
        if !self.deques[thief].is_empty() {
            return Err(Refusal::ThiefNotIdle);
        }
        if victim >= self.workers() || self.deques[victim].len() < 2 {
            return Err(Refusal::Victim);
        }
        Ok(())
    }

    fn check_spawn(&self) -> Result<(), Refusal> {
        if self.frames.len() == self.places {
            return Err(Refusal::TooManyFrames);
        }
        Ok(())
    }

    fn check_splitter(&self, splitter: u16) -> Result<(), Refusal> {
        if usize::from(splitter) >= self.splitters {
            return Err(Refusal::Splitter);
        }
        Ok(())
    }

    /// R-2: "It gives 16 when the write would bring that count above the
    /// pool's nodes."
    fn check_write(&self, bottom: FrameId, splitter: u16) -> Result<(), Refusal> {
        self.check_splitter(splitter)?;
        if self.nodes_after_write(bottom, usize::from(splitter)) > self.nodes {
            return Err(Refusal::TooFewNodes);
        }
        Ok(())
    }

    /// "20, kind 7 names no reducer".
    fn check_reducer(&self, reducer: u16) -> Result<(), Refusal> {
        if reducer >= REDUCERS {
            return Err(Refusal::Reducer);
        }
        Ok(())
    }

    /// Takes a step that passed `check` and gives the answer's number: "spawn
    /// the child's depth, steal the stolen frame's depth, return and sync the
    /// outcome, read the value, write the free nodes left". A fold "answers
    /// 107 0" (R-5).
    fn take(&mut self, step: Step) -> u32 {
        let worker = usize::from(step.worker());
        match step {
            Step::Spawn { .. } => self.spawn(worker),
            Step::Return { .. } => self.return_bottom(worker),
            Step::Steal { victim, .. } => self.steal(worker, usize::from(victim)),
            Step::Sync { .. } => self.sync(worker),
            Step::Read { splitter, .. } => self.read(worker, usize::from(splitter)),
            Step::Write {
                splitter, value, ..
            } => self.write(worker, usize::from(splitter), value),
            Step::Fold { reducer, value, .. } => self.fold(worker, reducer, value),
        }
    }

    /// "A new frame, child of the worker's bottom frame and one deeper, goes
    /// to the bottom of the same deque." "Spawn copies the parent's list as
    /// it is then." R-5: "The child inherits, the continuation begins with the
    /// identity."
    fn spawn(&mut self, worker: usize) -> u32 {
        let parent_id = self.executed(worker);
        let parent = self.frame_mut(parent_id);
        parent.spawns += 1;
        let child = Frame {
            parent: Some(parent_id),
            depth: parent.depth + 1,
            suspended: false,
            returning: false,
            values: parent.values.clone(),
            history: parent.history.clone(),
            name: name::of_child(&parent.name, parent.spawns),
            spawns: 0,
            view: parent.view,
        };
        parent.view = View::IDENTITY;
        let depth = child.depth;
        let child_id = self.frames_made;
        self.frames_made += 1;
        self.frames.insert(child_id, child);
        self.deques[worker].push(child_id);
        depth
    }

    /// R-3: "A return with a live child now suspends the frame as returning
    /// and gives outcome 4; its worker goes idle, and its tree is held."
    /// Without one, "the bottom frame ends".
    fn return_bottom(&mut self, worker: usize) -> u32 {
        let frame_id = self.executed(worker);
        let waits = self.has_live_child(frame_id);
        self.deques[worker].pop();
        if !waits {
            return self.end(worker, frame_id);
        }
        let frame = self.frame_mut(frame_id);
        frame.suspended = true;
        frame.returning = true;
        4
    }

    /// A frame that is in no deque any more ends on this worker. "Return
    /// drops the child's list."
    fn end(&mut self, worker: usize, ended_id: FrameId) -> u32 {
        let next = self.next_in_order(ended_id);
        let ended = self.frames.remove(&ended_id).expect("a live frame");
        self.hand_on(ended.view, next);
        // "The end of Main is outcome 3."
        let Some(parent) = ended.parent else {
            return 3;
        };
        // "If its parent is then the bottom, the outcome is 0."
        if self.bottom(worker) == Some(parent) {
            return 0;
        }
        // "If the deque is empty otherwise, the worker is idle: outcome 1."
        let idle = self.deques[worker].is_empty();
        if !idle || !self.is_suspended(parent) || self.has_live_child(parent) {
            return 1;
        }
        // R-3: "When its last child ends, it ends too on that child's worker,
        // and so on upward; the answer shows where that stopped."
        if self.is_returning(parent) {
            return self.end(worker, parent);
        }
        // "If the deque is empty, the parent is suspended and has no live
        // child left, the parent resumes on this worker, past its sync:
        // outcome 2."
        self.resume(worker, parent);
        2
    }

    /// R-5: "The view of a frame that ends joins on the left of the next one's
    /// in that order." Main is the last one, and no other lives then.
    fn hand_on(&mut self, view: View, next: Option<FrameId>) {
        match next {
            Some(next) => {
                let next = self.frame_mut(next);
                next.view = view.join(next.view);
            }
            None => self.totals = Some(view),
        }
    }

    /// The live frames, sorted by their names.
    pub fn in_order(&self) -> Vec<FrameId> {
        let mut frames: Vec<FrameId> = self.frames.keys().copied().collect();
        frames.sort_by(|one, other| name::order(self.name(*one), self.name(*other)));
        frames
    }

    fn next_in_order(&self, frame: FrameId) -> Option<FrameId> {
        let frames = self.in_order();
        let place = frames.iter().position(|other| *other == frame)?;
        frames.get(place + 1).copied()
    }

    /// "Sync, steal and resumption alter none" of the lists.
    fn resume(&mut self, worker: usize, parent: FrameId) {
        self.frame_mut(parent).suspended = false;
        self.deques[worker].push(parent);
    }

    /// "An idle worker takes the top frame of a victim with at least two
    /// frames."
    fn steal(&mut self, thief: usize, victim: usize) -> u32 {
        let stolen = self.deques[victim].remove(0);
        self.deques[thief].push(stolen);
        self.frames[&stolen].depth
    }

    /// "With no live child the bottom frame passes, outcome 0. Else it is
    /// suspended, its worker goes idle, outcome 1."
    fn sync(&mut self, worker: usize) -> u32 {
        let frame = self.executed(worker);
        if !self.has_live_child(frame) {
            return 0;
        }
        self.frame_mut(frame).suspended = true;
        self.deques[worker].pop();
        1
    }

    /// "Read answers the value at its place in the bottom frame's list."
    fn read(&self, worker: usize, splitter: usize) -> u32 {
        self.frames[&self.executed(worker)].values[splitter]
    }

    /// "Write alters one place of the bottom frame's list."
    fn write(&mut self, worker: usize, splitter: usize, value: u32) -> u32 {
        let frame_id = self.executed(worker);
        self.writes_made += 1;
        let id = self.writes_made;
        let frame = self.frame_mut(frame_id);
        frame.values[splitter] = value;
        frame.history.push(id, splitter);
        self.free_nodes() as u32
    }

    /// The value is folded into the bottom frame's view, after all that is
    /// there.
    fn fold(&mut self, worker: usize, reducer: u16, value: u32) -> u32 {
        let frame_id = self.executed(worker);
        let frame = self.frame_mut(frame_id);
        frame.view = frame.view.join(View::of(reducer, value));
        0
    }

    /// the four totals, "once Main has returned".
    pub fn totals(&self) -> Option<View> {
        self.totals
    }

    /// "Its free nodes are the pool's less those in use."
    pub fn free_nodes(&self) -> usize {
        self.nodes - self.nodes_in_use()
    }

    fn nodes_in_use(&self) -> usize {
        let live: Vec<&History> = self.histories().map(|(_, history)| history).collect();
        self.count(&live)
    }

    /// The nodes in use after a write to the splitter by this frame.
    fn nodes_after_write(&self, writer: FrameId, splitter: usize) -> usize {
        let mut written = self.frames[&writer].history.clone();
        written.push(self.writes_made + 1, splitter);
        let live: Vec<&History> = self
            .histories()
            .map(|(frame, history)| if frame == writer { &written } else { history })
            .collect();
        self.count(&live)
    }

    fn count(&self, live: &[&History]) -> usize {
        let count = history::nodes_in_use(live, self.splitters);
        if self.counting == Counting::Recounted {
            assert_eq!(count, history::recount_nodes_in_use(live));
        }
        count
    }

    fn histories(&self) -> impl Iterator<Item = (FrameId, &History)> {
        self.frames.iter().map(|(id, frame)| (*id, &frame.history))
    }

    /// The nodes of the path to the splitter that another live frame's tree
    /// has too: R-2's "rest of the path", which a write takes anew. The
    /// machine does not ask for it, only the generator and the tallies do.
    pub fn shared_nodes(&self, frame: FrameId, splitter: usize) -> usize {
        let own = &self.frames[&frame].history;
        let others = self.histories().filter(|(id, _)| *id != frame);
        let with = |(_, other): (FrameId, &History)| {
            (0..=shape::height(self.splitters))
                .take_while(|level| other.shares(own, *level, splitter >> level))
                .count()
        };
        others.map(with).max().unwrap_or(0)
    }

    /// "A frame's outstanding count is the number of its live children."
    pub fn has_live_child(&self, frame: FrameId) -> bool {
        self.frames.values().any(|f| f.parent == Some(frame))
    }

    pub fn is_suspended(&self, frame: FrameId) -> bool {
        self.frames.get(&frame).is_some_and(|f| f.suspended)
    }

    /// Does the frame wait as returning?
    pub fn is_returning(&self, frame: FrameId) -> bool {
        self.frames.get(&frame).is_some_and(|f| f.returning)
    }

    /// The machine itself asks only whether there is one.
    pub fn live_children(&self, frame: FrameId) -> usize {
        let parents = self.frames.values().map(|f| f.parent);
        parents.filter(|parent| *parent == Some(frame)).count()
    }

    pub fn parent(&self, frame: FrameId) -> Option<FrameId> {
        self.frames[&frame].parent
    }

    pub fn name(&self, frame: FrameId) -> &Name {
        &self.frames[&frame].name
    }

    pub fn is_live(&self, frame: FrameId) -> bool {
        self.frames.contains_key(&frame)
    }

    /// The most live children that a frame has.
    pub fn most_siblings(&self) -> usize {
        let mut children: BTreeMap<FrameId, usize> = BTreeMap::new();
        for parent in self.frames.values().filter_map(|frame| frame.parent) {
            *children.entry(parent).or_default() += 1;
        }
        children.values().copied().max().unwrap_or(0)
    }

    pub fn live_frames(&self) -> usize {
        self.frames.len()
    }

    pub fn deque_frames(&self, worker: usize) -> usize {
        self.deques[worker].len()
    }

    /// The bottom frame of a worker's deque, none if the worker is idle.
    pub fn bottom(&self, worker: usize) -> Option<FrameId> {
        self.deques[worker].last().copied()
    }

    /// The bottom frame of a worker that is not idle.
    fn executed(&self, worker: usize) -> FrameId {
        self.bottom(worker).expect("the worker is not idle")
    }

    fn frame_mut(&mut self, frame: FrameId) -> &mut Frame {
        self.frames.get_mut(&frame).expect("a live frame")
    }

    /// R-3: "Main has returned once it has ended, with outcome 3, and not
    /// while it waits."
    pub fn main_has_returned(&self) -> bool {
        !self.frames.contains_key(&MAIN)
    }

    pub fn workers(&self) -> usize {
        self.deques.len()
    }

    pub fn splitters(&self) -> usize {
        self.splitters
    }

    /// Frames made so far, Main among them: the next child's identity.
    pub fn frames_made(&self) -> usize {
        self.frames_made
    }

    pub fn value(&self, frame: FrameId, splitter: usize) -> u32 {
        self.frames[&frame].values[splitter]
    }
}

#[cfg(test)]
mod tests {
    use super::*;
    use crate::{generate, record, splitrun};

    fn start(
        workers: usize,
        places: usize,
        nodes: usize,
        splitters: usize,
    ) -> Result<Machine, Refusal> {
        let values = vec![0; splitters];
        Machine::start(workers, places, nodes, &values, Counting::Recounted)
    }

    fn refusal_of(
        workers: usize,
        places: usize,
        nodes: usize,
        splitters: usize,
    ) -> Option<Refusal> {
        start(workers, places, nodes, splitters).err()
    }

    /// Among them the starts that splitrun calls unfit, and those with tables
    /// that it does not lend.
    #[test]
    fn starts() {
        for places in [0, 1, 64, 256, 257] {
            assert_eq!(refusal_of(1, places, 600, 0), Some(Refusal::InitialValues));
            assert_eq!(
                refusal_of(1, places, 600, 257),
                Some(Refusal::InitialValues)
            );
            assert_eq!(refusal_of(0, places, 600, 256), Some(Refusal::Workers));
            assert_eq!(refusal_of(9, places, 600, 256), Some(Refusal::Workers));
        }
        for places in [0, 257, 300] {
            assert_eq!(refusal_of(8, places, 511, 256), Some(Refusal::Places));
            assert_eq!(refusal_of(8, places, 510, 256), Some(Refusal::Places));
        }
        for places in [1, 2, 64, 256] {
            assert_eq!(refusal_of(8, places, 510, 256), Some(Refusal::PoolNodes));
            assert_eq!(refusal_of(8, places, 16_385, 256), Some(Refusal::PoolNodes));
            assert_eq!(refusal_of(8, places, 511, 256), None);
            assert_eq!(refusal_of(8, places, 16_384, 256), None);
        }
    }

    /// as many frames live as the table has places; the next spawn is 13,
    /// and after one return it is accepted.
    #[test]
    fn full_tables() {
        let (spawn, end) = (Step::Spawn { worker: 0 }, Step::Return { worker: 0 });
        for places in [1, 2, 63, 64, 65, 255, 256] {
            let mut machine = start(1, places, 1, 1).expect("a start");
            let depths = 1..places as u32;
            depths.for_each(|depth| assert_eq!(machine.step(spawn), Ok(depth)));
            assert_eq!(machine.step(spawn), Err(Refusal::TooManyFrames));
            let outcome = if places == 1 { 3 } else { 0 };
            assert_eq!(machine.step(end), Ok(outcome));
            let again = match places {
                1 => Err(Refusal::MainReturned),
                _ => Ok(places as u32 - 1),
            };
            assert_eq!(machine.step(spawn), again);
        }
    }

    /// By how much a write brings the count up.
    #[test]
    fn the_rest_of_the_path_is_what_is_shared() {
        let mut writes = 0;
        let mut watch = |machine: &Machine, record| {
            let Ok(Step::Write {
                worker, splitter, ..
            }) = record::decode(record)
            else {
                return;
            };
            let (worker, splitter) = (usize::from(worker), usize::from(splitter));
            if worker >= machine.workers() || splitter >= machine.splitters {
                return;
            }
            if let Some(bottom) = machine.bottom(worker) {
                let after = machine.nodes_after_write(bottom, splitter);
                let shared = machine.shared_nodes(bottom, splitter);
                assert_eq!(after - machine.nodes_in_use(), shared);
                writes += 1;
            }
        };
        for seed in 0..200 {
            splitrun::watched_output(&generate::input(seed), Counting::Cached, &mut watch);
        }
        assert!(writes > 1_000, "{writes} writes");
    }
}
