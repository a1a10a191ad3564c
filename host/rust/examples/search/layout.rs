//! The search for a block layout, as in `host/c/layout.c`: a branch for each choice of a spare. The costs of
//! the layouts are folded: their sum, the least of them, and a digest of them in the order of a search by one
//! worker.

use splitter::{affine, tree_nodes, Engine, Frame, Reducer, Refusal, Returned, State, Step, Synced, Totals};
use splitter::{MAX_PLACES, NODE_WORDS};

pub const PLACES: usize = MAX_PLACES;
pub const MAX_WORKERS: usize = 3;

/// A block's state, kept in its splitter; 0 is good. A spare in use holds `STANDS_FOR` plus the
/// number of the bad block.
const BAD: u32 = 1;
const SPARE: u32 = 2;
const STANDS_FOR: u32 = 100;

/// A card: where its bad blocks are, which spares may stand for each, and the first block from which on all pass
/// their erase test.
pub struct Card {
    pub blocks: u16,
    pub bad_blocks: usize,
    first_bad: u16,
    bad_apart: u16,
    spares: u16,
    first_spare: u16,
    spares_apart: u16,
    strong: u16,
}

/// The search that is told, saved and read back: blocks 3 and 9 are bad, 12 to 15 spare.
pub const SMALL_CARD: Card = Card {
    blocks: 16,
    bad_blocks: 2,
    first_bad: 3,
    bad_apart: 6,
    spares: 4,
    first_spare: 12,
    spares_apart: 0,
    strong: 14,
};

/// 80 rows of three blocks: the first is bad, the others are its spares. It needs more than 64 frames.
pub const LARGE_CARD: Card = Card {
    blocks: 240,
    bad_blocks: 80,
    first_bad: 0,
    bad_apart: 3,
    spares: 2,
    first_spare: 1,
    spares_apart: 3,
    strong: 234,
};

impl Card {
    /// The bad block that a branch of this depth chose a spare for.
    fn bad_block(&self, depth: usize) -> u16 {
        self.first_bad + (depth as u16 - 1) * self.bad_apart
    }

    /// The first spare that a branch of this depth may choose from, for the next bad block.
    fn first_spare(&self, depth: usize) -> u16 {
        self.first_spare + depth as u16 * self.spares_apart
    }

    /// The blocks as the factory marked them.
    pub fn factory_marks(&self) -> Vec<u32> {
        let mut marks = vec![0; self.blocks.into()];
        for depth in 0..self.bad_blocks {
            marks[usize::from(self.bad_block(depth + 1))] = BAD;
            marks[self.first_spare(depth).into()..][..self.spares.into()].fill(SPARE);
        }
        marks
    }

    /// Stands for the controller's own test: of the weak blocks each third fails.
    fn passes_erase_test(&self, block: u16) -> bool {
        block >= self.strong || block % 3 != 1
    }
}

/// So many of a branch's choices are told, the last ones.
const NAMED: usize = 3;

/// The map of the digest multiplies by this and adds the cost: its total tells the order of the costs in a
/// search by one worker.
const DIGEST: u16 = 31;

/// Memory to lend, for some number of places and nodes.
pub struct Memory {
    pub state: State,
    pub frames: Vec<Frame>,
    pub pool: Vec<u32>,
    pub work: Vec<u32>,
}

impl Memory {
    pub fn new(places: usize, nodes: usize) -> Memory {
        let frames = vec![Frame::ZERO; places];
        Memory { state: State::ZERO, frames, pool: vec![0; nodes * NODE_WORDS], work: vec![0; nodes] }
    }

    pub fn lend(&mut self) -> Engine<'_> {
        Engine { state: &mut self.state, frames: &mut self.frames, pool: &mut self.pool, work: &mut self.work }
    }
}

/// What a branch does in its next turn.
#[derive(Clone, Copy, PartialEq)]
enum Stage {
    Take,
    Look,
    Wait,
    Score,
    End,
    /// Nothing more: it has ended, or waits as returning.
    Returned,
}

const STAGES: [Stage; 6] = [Stage::Take, Stage::Look, Stage::Wait, Stage::Score, Stage::End, Stage::Returned];

/// Which branches sync before they return. The others return at once and wait as returning, as Cilk has it.
#[derive(Clone, Copy)]
pub enum Syncs {
    None,
    Main,
    All,
}

pub const SYNCS: [Syncs; 3] = [Syncs::None, Syncs::Main, Syncs::All];

/// What the host keeps of a frame: how far this branch of the search has come.
#[derive(Clone, Copy)]
struct Branch {
    parent: Option<usize>,
    stage: Stage,
    /// So many bad blocks have a spare.
    depth: usize,
    /// Its own choice, for the last of them.
    spare: u16,
    /// The spare to look at next.
    next: u16,
    /// A spare that failed its test here and was marked bad.
    failed: Option<u16>,
}

/// The most words of the host's own part of a search: 9 numbers, a branch for each worker, 16 branches of 6.
pub const OWN_WORDS: usize = 9 + MAX_WORKERS + 16 * 6;

/// A branch as a word: its place and 1, or 0 for none.
fn branch_word(branch: Option<usize>) -> u32 {
    branch.map_or(0, |place| place as u32 + 1)
}

fn branch_of(word: u32) -> Option<usize> {
    (word as usize).checked_sub(1)
}

/// A search, and its result so far.
pub struct Search<'a> {
    pub engine: Engine<'a>,
    /// The steps since the start, as a tape.
    pub log: Vec<u8>,
    pub card: &'static Card,
    branches: Vec<Branch>,
    /// The branch that each worker runs.
    runs: [Option<usize>; MAX_WORKERS],
    syncs: Syncs,
    pub told: bool,
    pub turn: u32,
    pub finished: bool,
    pub least_free: u32,
    pub waits: u32,
    pub given_up: u32,
    pub layouts: u32,
    /// The best layout's branch and cost.
    best: Option<(usize, u32)>,
    /// The deepest frame's depth, and the most live frames.
    pub deepest: usize,
    pub most_live: usize,
}

/// The totals as a line of splitrun has them.
pub fn print_totals(totals: Totals) {
    println!("reduced {} {} {} {}", totals.sum, totals.min, totals.multiplier, totals.addend);
}

impl<'a> Search<'a> {
    pub fn begin(
        card: &'static Card,
        mut engine: Engine<'a>,
        workers: u32,
        syncs: Syncs,
    ) -> Result<Search<'a>, Refusal> {
        engine.start(workers, &card.factory_marks())?;
        let next = card.first_spare(0);
        let main = Branch { parent: None, stage: Stage::Look, depth: 0, spare: 0, next, failed: None };
        let nodes = (engine.pool.len() / NODE_WORDS) as u32;
        Ok(Search {
            engine,
            log: Vec::new(),
            card,
            branches: vec![main],
            runs: [Some(0), None, None],
            syncs,
            told: true,
            turn: 0,
            finished: false,
            least_free: nodes - tree_nodes(card.blocks.into()) as u32,
            waits: 0,
            given_up: 0,
            layouts: 0,
            best: None,
            deepest: 0,
            most_live: 0,
        })
    }

    /// The host's own part of the search as words.
    pub fn own_words(&self) -> Vec<u32> {
        let (best, cost) = self.best.map_or((None, 0), |(branch, cost)| (Some(branch), cost));
        let mut words = vec![self.branches.len() as u32, self.turn, self.waits, self.given_up];
        words.extend([self.least_free, self.layouts, cost, branch_word(best), self.syncs as u32]);
        words.extend(self.runs.map(branch_word));
        for b in &self.branches {
            let failed = b.failed.map_or(0, u32::from);
            words.extend([
                branch_word(b.parent),
                b.stage as u32,
                b.depth as u32,
                b.spare.into(),
                b.next.into(),
                failed,
            ]);
        }
        words
    }

    /// The search whose own part these words are, over its run that has been read.
    pub fn resume(engine: Engine<'a>, words: &[u32]) -> Search<'a> {
        let branch = |b: &[u32]| Branch {
            parent: branch_of(b[0]),
            stage: STAGES[b[1] as usize],
            depth: b[2] as usize,
            spare: b[3] as u16,
            next: b[4] as u16,
            failed: Some(b[5] as u16).filter(|spare| *spare != 0),
        };
        let (numbers, rest) = words.split_at(9);
        let (runs, branches) = rest.split_at(MAX_WORKERS);
        Search {
            engine,
            log: Vec::new(),
            card: &SMALL_CARD,
            branches: branches.chunks_exact(6).take(numbers[0] as usize).map(branch).collect(),
            runs: [0, 1, 2].map(|worker| branch_of(runs[worker])),
            syncs: SYNCS[numbers[8] as usize],
            told: true,
            turn: numbers[1],
            finished: false,
            least_free: numbers[4],
            waits: numbers[2],
            given_up: numbers[3],
            layouts: numbers[5],
            best: branch_of(numbers[7]).map(|branch| (branch, numbers[6])),
            deepest: 0,
            most_live: 0,
        }
    }

    /// The last choices of a branch, so many at most.
    fn choices(&self, branch: usize, most: usize) -> String {
        let Branch { parent, depth, spare, .. } = self.branches[branch];
        if most == 0 {
            return "..".to_string();
        }
        let own = format!("{}>{spare}", self.card.bad_block(depth));
        match parent.filter(|_| depth > 1) {
            Some(parent) => format!("{} {own}", self.choices(parent, most - 1)),
            None => own,
        }
    }

    /// A branch by its choices, as `3>12 9>14`.
    fn name(&self, branch: usize) -> String {
        match self.branches[branch].depth {
            0 => "Main".to_string(),
            _ => self.choices(branch, NAMED),
        }
    }

    /// The best layout and its cost.
    pub fn best(&self) -> String {
        match self.best {
            Some((branch, cost)) => format!("{}, cost {cost}", self.name(branch)),
            None => "none".to_string(),
        }
    }

    fn tell(&self, worker: u8, branch: usize, what: &str) {
        if self.told {
            println!("{:2}  worker {worker}, {}: {what}", self.turn, self.name(branch));
        }
    }

    fn keep(&mut self, step: Step) {
        self.log.extend(step.to_bytes());
    }

    fn read(&mut self, worker: u8, splitter: u16) -> Result<u32, Refusal> {
        self.keep(Step::Read { worker, splitter });
        self.engine.read(worker, splitter)
    }

    /// False where the pool has no room; then nothing has changed.
    fn write(&mut self, worker: u8, block: u16, value: u32) -> Result<bool, Refusal> {
        self.keep(Step::Write { worker, splitter: block, value });
        match self.engine.write(worker, block, value) {
            Ok(free) => {
                self.least_free = self.least_free.min(free);
                Ok(true)
            }
            Err(Refusal::PoolFull) => Ok(false),
            Err(other) => Err(other),
        }
    }

    /// A turn of each worker.
    pub fn take_turns(&mut self, workers: u8) -> Result<(), Refusal> {
        let mut moved = false;
        self.turn += 1;
        for worker in 0..workers {
            if !self.finished {
                moved = self.take_a_turn(worker)? || moved;
            }
        }
        if !moved {
            self.give_up_a_branch();
        }
        Ok(())
    }

    /// What was found, and what was folded.
    pub fn tell_result(&self, nodes: usize, workers: u8) {
        let Search { least_free, waits, given_up, layouts, .. } = self;
        print!("nodes {nodes}, workers {workers}: least free {least_free}, waits {waits}, ");
        println!("given up {given_up}, layouts {layouts}, best {}", self.best());
        let totals = self.engine.state.totals().expect("Main has returned");
        assert_eq!(totals.min, self.best.map_or(u32::MAX, |(_, cost)| cost));
        print_totals(totals);
    }

    /// One turn of a worker; true if it got something done.
    pub fn take_a_turn(&mut self, worker: u8) -> Result<bool, Refusal> {
        let Some(branch) = self.runs[usize::from(worker)] else {
            return self.steal(worker);
        };
        match self.branches[branch].stage {
            Stage::Take => return self.take(worker, branch),
            Stage::Look => self.look(worker, branch)?,
            Stage::Wait => self.wait(worker, branch)?,
            Stage::Score => self.score(worker, branch)?,
            Stage::End | Stage::Returned => self.end(worker, branch)?,
        }
        Ok(true)
    }

    /// An idle worker steals where it can. The depth tells which frame it got: each frame in a
    /// deque is a child of the one above.
    fn steal(&mut self, thief: u8) -> Result<bool, Refusal> {
        for victim in 0..MAX_WORKERS {
            self.keep(Step::Steal { worker: thief, victim: victim as u16 });
            let depth = match self.engine.steal(thief, victim as u16) {
                Ok(depth) => depth as usize,
                Err(Refusal::NothingToSteal) => continue,
                Err(other) => return Err(other),
            };
            let mut stolen = self.runs[victim];
            while let Some(branch) = stolen.filter(|branch| self.branches[*branch].depth > depth) {
                stolen = self.branches[branch].parent;
            }
            self.runs[usize::from(thief)] = stolen;
            if let Some(branch) = stolen {
                self.tell(thief, branch, &format!("stolen from worker {victim}"));
            }
            return Ok(true);
        }
        Ok(false)
    }

    /// A new branch marks its choice. Where the pool has no room it tries again in its next turn:
    /// other branches end and free their nodes.
    fn take(&mut self, worker: u8, branch: usize) -> Result<bool, Refusal> {
        let Branch { depth, spare, .. } = self.branches[branch];
        if !self.write(worker, spare, STANDS_FOR + u32::from(self.card.bad_block(depth)))? {
            self.waits += 1;
            self.tell(worker, branch, "no room in the pool, waits");
            return Ok(false);
        }
        let whole = depth == self.card.bad_blocks;
        self.branches[branch].stage = if whole { Stage::Score } else { Stage::Look };
        self.tell(worker, branch, &format!("takes {spare}"));
        Ok(true)
    }

    /// Must this branch sync before it returns?
    fn must_sync(&self, branch: usize) -> bool {
        match self.syncs {
            Syncs::None => false,
            Syncs::Main => self.branches[branch].depth == 0,
            Syncs::All => true,
        }
    }

    fn look(&mut self, worker: u8, branch: usize) -> Result<(), Refusal> {
        let spare = self.branches[branch].next;
        self.branches[branch].next += 1;
        if self.branches[branch].next == self.card.first_spare(self.branches[branch].depth) + self.card.spares {
            self.branches[branch].stage = if self.must_sync(branch) { Stage::Wait } else { Stage::End };
        }
        match self.read(worker, spare)? {
            SPARE if self.card.passes_erase_test(spare) => self.spawn(worker, branch, spare),
            SPARE => self.mark_failed(worker, branch, spare),
            BAD => {
                self.tell(worker, branch, &format!("{spare} is bad"));
                Ok(())
            }
            _ => {
                self.tell(worker, branch, &format!("{spare} is taken"));
                Ok(())
            }
        }
    }

    /// Where the table has no place, the search goes on without this branch and all below it.
    fn spawn(&mut self, worker: u8, parent: usize, spare: u16) -> Result<(), Refusal> {
        self.keep(Step::Spawn { worker });
        let depth = match self.engine.spawn(worker) {
            Ok(depth) => depth as usize,
            Err(Refusal::FramesFull) => {
                self.given_up += 1;
                return Ok(());
            }
            Err(other) => return Err(other),
        };
        let next = self.card.first_spare(depth);
        let child = Branch { parent: Some(parent), stage: Stage::Take, depth, spare, next, failed: None };
        self.runs[usize::from(worker)] = Some(self.branches.len());
        self.branches.push(child);
        self.deepest = self.deepest.max(depth);
        self.most_live = self.most_live.max(self.engine.live_frames());
        self.tell(worker, parent, &format!("{spare} is a good spare: spawns a branch"));
        Ok(())
    }

    /// A spare that fails its test is marked bad, in this branch's view. The mark saves later
    /// branches the test; without room, no mark.
    fn mark_failed(&mut self, worker: u8, branch: usize, spare: u16) -> Result<(), Refusal> {
        let marked = self.write(worker, spare, BAD)?;
        if marked {
            self.branches[branch].failed = Some(spare);
        }
        let mark = if marked { "marks it bad" } else { "no room for a mark" };
        self.tell(worker, branch, &format!("{spare} fails its erase test: {mark}"));
        Ok(())
    }

    fn wait(&mut self, worker: u8, branch: usize) -> Result<(), Refusal> {
        self.keep(Step::Sync { worker });
        let outcome = self.engine.sync(worker)?;
        self.branches[branch].stage = Stage::End;
        match outcome {
            Synced::Passed => self.tell(worker, branch, "all its branches have ended"),
            Synced::Suspended => {
                self.runs[usize::from(worker)] = None;
                self.tell(worker, branch, "waits for its branches");
            }
        }
        Ok(())
    }

    /// A whole layout, read from the branch's own view. The cost is the sum of the squared moves: no
    /// block should be far from its spare.
    fn score(&mut self, worker: u8, branch: usize) -> Result<(), Refusal> {
        let mut cost = 0;
        for spare in self.card.first_spare..self.card.blocks {
            let is = self.read(worker, spare)?;
            if is >= STANDS_FOR {
                let moved = u32::from(spare) - (is - STANDS_FOR);
                cost += moved * moved;
            }
        }
        self.fold(worker, cost)?;
        self.layouts += 1;
        if self.best.is_none_or(|(_, least)| cost < least) {
            self.best = Some((branch, cost));
        }
        self.branches[branch].stage = Stage::End;
        self.tell(worker, branch, &format!("a layout, cost {cost}"));
        Ok(())
    }

    /// Takes a cost into the reducers. Which worker does so, and when, makes no difference to the totals.
    fn fold(&mut self, worker: u8, cost: u32) -> Result<(), Refusal> {
        let folds = [(Reducer::Sum, cost), (Reducer::Min, cost), (Reducer::Affine, affine(DIGEST, cost as u16))];
        for (reducer, value) in folds {
            self.keep(Step::Fold { worker, reducer, value });
            self.engine.fold(worker, reducer, value)?;
        }
        Ok(())
    }

    fn end(&mut self, worker: u8, branch: usize) -> Result<(), Refusal> {
        if let Some(failed) = self.branches[branch].failed {
            let is = self.read(worker, failed)?;
            assert_eq!(is, BAD, "a branch must read its own mark");
            self.tell(worker, branch, &format!("{failed} still reads bad"));
        }
        self.keep(Step::Return { worker });
        let outcome = self.engine.ret(worker)?;
        self.branches[branch].stage = Stage::Returned;
        let (parent, above) = (self.branches[branch].parent, self.above(branch));
        let (next, what) = match outcome {
            Returned::Continued => (parent, "ends; its parent goes on here"),
            Returned::BecameIdle => (None, "ends; the worker is idle"),
            Returned::Resumed if above == parent => (above, "ends; its parent resumes here"),
            Returned::Resumed => (above, "ends; a branch above its parent resumes here"),
            Returned::Finished => (None, "ends; the search is over"),
            Returned::Waits => (None, "returns; waits for its branches"),
        };
        self.runs[usize::from(worker)] = next;
        self.finished = outcome == Returned::Finished;
        self.tell(worker, branch, what);
        Ok(())
    }

    /// The first branch above that has not returned. Those between had, waited so and have ended too when it
    /// resumes.
    fn above(&self, branch: usize) -> Option<usize> {
        let mut above = self.branches[branch].parent;
        while let Some(returned) = above.filter(|branch| self.branches[*branch].stage == Stage::Returned) {
            above = self.branches[returned].parent;
        }
        above
    }

    /// Every running branch waits for room, so none will end: one must, without its search.
    fn give_up_a_branch(&mut self) {
        if let Some(branch) = self.runs.into_iter().flatten().next() {
            self.branches[branch].stage = Stage::End;
            self.given_up += 1;
        }
    }
}
