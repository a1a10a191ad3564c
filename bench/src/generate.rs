//! Makes tapes whose records are all accepted, by keeping the frames and deques beside them. But for the chains and the random runs, no
//! return waits.

use crate::random::Random;
use crate::tape::{record, AFFINE, FOLD, READ, REDUCERS, RETURN, SPAWN, STEAL, SYNC, WRITE};
use crate::view::View;

struct Frame {
    parent: Option<usize>,
    outstanding: usize,
    suspended: bool,
    /// Ends with its last child.
    returning: bool,
    /// Its steps but for its return, in order.
    items: Vec<Item>,
}

impl Frame {
    fn below(parent: Option<usize>) -> Self {
        Frame {
            parent,
            outstanding: 0,
            suspended: false,
            returning: false,
            items: Vec::new(),
        }
    }
}

/// What matters of a frame's step to the totals, and to work and span.
enum Item {
    Fold(usize, u32),
    Child(usize),
    Sync,
    /// A read or a write.
    Other,
}

pub struct Generator {
    random: Random,
    splitters: usize,
    /// Every frame ever made; Main is 0.
    frames: Vec<Frame>,
    live: usize,
    /// So many live at most.
    max_live: usize,
    /// Top frame first.
    deques: Vec<Vec<usize>>,
    tape: Vec<u8>,
}

impl Generator {
    pub fn new(seed: u64, workers: usize, splitters: usize, max_live: usize) -> Self {
        let mut deques = vec![Vec::new(); workers];
        deques[0].push(0);
        Generator {
            random: Random::new(seed),
            splitters,
            frames: vec![Frame::below(None)],
            live: 1,
            max_live,
            deques,
            tape: Vec::new(),
        }
    }

    /// The records since the last call.
    pub fn take(&mut self) -> Vec<u8> {
        std::mem::take(&mut self.tape)
    }

    fn push(&mut self, kind: u8, worker: usize, field: usize, value: u32) {
        self.tape
            .extend_from_slice(&record(kind, worker as u8, field as u16, value));
    }

    pub fn spawn(&mut self, worker: usize) {
        let (parent, child) = (self.bottom(worker), self.frames.len());
        self.frames[parent].outstanding += 1;
        self.frames[parent].items.push(Item::Child(child));
        self.deques[worker].push(child);
        self.frames.push(Frame::below(Some(parent)));
        self.live += 1;
        self.push(SPAWN, worker, 0, 0);
    }

    pub fn steal(&mut self, thief: usize, victim: usize) {
        let stolen = self.deques[victim].remove(0);
        self.deques[thief].push(stolen);
        self.push(STEAL, thief, victim, 0);
    }

    pub fn read(&mut self, worker: usize) {
        let splitter = self.random.below(self.splitters);
        self.note(worker, Item::Other);
        self.push(READ, worker, splitter, 0);
    }

    pub fn write(&mut self, worker: usize) {
        let splitter = self.random.below(self.splitters);
        self.write_to(worker, splitter);
    }

    pub fn write_to(&mut self, worker: usize, splitter: usize) {
        let value = self.random.word();
        self.note(worker, Item::Other);
        self.push(WRITE, worker, splitter, value);
    }

    /// Into any reducer.
    pub fn fold(&mut self, worker: usize) {
        let reducer = self.random.below(REDUCERS);
        self.fold_into(worker, reducer);
    }

    /// A map's multiplier is odd, so that no earlier map is lost and the order of all shows in the total.
    pub fn fold_into(&mut self, worker: usize, reducer: usize) {
        let odd = if reducer == AFFINE { 65_536 } else { 0 };
        let value = self.random.word() | odd;
        self.note(worker, Item::Fold(reducer, value));
        self.push(FOLD, worker, reducer, value);
    }

    pub fn sync(&mut self, worker: usize) {
        let frame = self.bottom(worker);
        self.note(worker, Item::Sync);
        if self.frames[frame].outstanding > 0 {
            self.frames[frame].suspended = true;
            self.deques[worker].pop();
        }
        self.push(SYNC, worker, 0, 0);
    }

    /// The bottom frame returns while a child of it lives: it is alone in its deque, and waits.
    pub fn wait(&mut self, worker: usize) {
        let bottom = self.bottom(worker);
        let frame = &mut self.frames[bottom];
        assert!(frame.outstanding > 0, "no live child");
        frame.suspended = true;
        frame.returning = true;
        self.deques[worker].pop();
        self.push(RETURN, worker, 0, 0);
    }

    /// The bottom frame, which has no live child, ends, and upward from it those that wait as returning for it alone.
    pub fn end(&mut self, worker: usize) {
        let mut ended = self.bottom(worker);
        self.deques[worker].pop();
        self.live -= 1;
        while let Some(parent) = self.frames[ended].parent {
            let above = &mut self.frames[parent];
            above.outstanding -= 1;
            if !self.deques[worker].is_empty() || !above.suspended || above.outstanding > 0 {
                break;
            }
            if !above.returning {
                above.suspended = false;
                self.deques[worker].push(parent);
                break;
            }
            self.live -= 1;
            ended = parent;
        }
        self.push(RETURN, worker, 0, 0);
    }

    /// The bottom frame ends, or waits.
    fn leave(&mut self, worker: usize) {
        if self.frames[self.bottom(worker)].outstanding == 0 {
            self.end(worker);
        } else {
            self.wait(worker);
        }
    }

    /// Returns by any busy worker, until Main has returned.
    pub fn finish(&mut self) {
        while self.live > 0 {
            let worker = self.busy();
            self.leave(worker);
        }
    }

    /// The identity joined with the values folded so far, in the order of Main's child-first list: the totals, once Main has returned.
    pub fn totals(&self) -> [u32; 4] {
        let mut total = View::IDENTITY;
        self.fold_all(0, &mut total);
        total.words()
    }

    fn fold_all(&self, frame: usize, total: &mut View) {
        for item in &self.frames[frame].items {
            match *item {
                Item::Fold(reducer, value) => {
                    total.fold(reducer, value).expect("a reducer");
                }
                Item::Child(child) => self.fold_all(child, total),
                Item::Sync | Item::Other => {}
            }
        }
    }

    /// R-7's work and span, once Main has returned, from the frames' steps alone: a sync passes, and a frame ends, after all its children so
    /// far.
    pub fn pair(&self) -> [u64; 2] {
        let work = self.frames.iter().map(|frame| frame.items.len() as u64);
        [work.sum(), self.end_of(0, 0)]
    }

    /// The clock at its end of a frame whose clock begins so.
    fn end_of(&self, frame: usize, begins: u64) -> u64 {
        let (mut clock, mut children) = (begins, 0);
        for item in &self.frames[frame].items {
            if matches!(item, Item::Sync) {
                clock = clock.max(children);
            }
            clock += 1;
            if let Item::Child(child) = *item {
                children = children.max(self.end_of(child, clock));
            }
        }
        clock.max(children)
    }

    /// A step of the worker's bottom frame.
    fn note(&mut self, worker: usize, item: Item) {
        let frame = self.bottom(worker);
        self.frames[frame].items.push(item);
    }

    fn bottom(&self, worker: usize) -> usize {
        *self.deques[worker].last().expect("the worker is not idle")
    }

    fn is_idle(&self, worker: usize) -> bool {
        self.deques[worker].is_empty()
    }

    /// A worker that is not idle.
    pub fn busy(&mut self) -> usize {
        loop {
            let worker = self.random.below(self.deques.len());
            if !self.is_idle(worker) {
                return worker;
            }
        }
    }

    /// A number below `bound`, to choose kinds of records.
    pub fn choice(&mut self, bound: usize) -> usize {
        self.random.below(bound)
    }

    /// One accepted record of any kind, most of them folds, spawns, returns and steals; Main does not return.
    pub fn any(&mut self) {
        loop {
            let worker = self.random.below(self.deques.len());
            if self.is_idle(worker) {
                let victim = self.random.below(self.deques.len());
                if self.deques[victim].len() >= 2 {
                    return self.steal(worker, victim);
                }
                continue;
            }
            match self.random.below(20) {
                0..6 => return self.fold(worker),
                6 => return self.read(worker),
                7 => return self.write(worker),
                8..14 if self.live < self.max_live => return self.spawn(worker),
                14..19 if self.bottom(worker) != 0 => return self.leave(worker),
                19 => return self.sync(worker),
                _ => {}
            }
        }
    }

    /// One accepted spawn, return, steal or sync: an idle worker steals; a busy one spawns or returns, 2 in 5 each, or syncs.
    pub fn control(&mut self) {
        loop {
            let worker = self.random.below(self.deques.len());
            if self.is_idle(worker) {
                let victim = self.random.below(self.deques.len());
                if self.deques[victim].len() >= 2 {
                    return self.steal(worker, victim);
                }
                continue;
            }
            let bottom = self.bottom(worker);
            match self.random.below(5) {
                0 | 1 if self.live < self.max_live => return self.spawn(worker),
                2 | 3 if bottom != 0 && self.frames[bottom].outstanding == 0 => {
                    return self.end(worker)
                }
                4 => return self.sync(worker),
                _ => {}
            }
        }
    }
}
