//! Document 01's plain machine, with of document 02, in Rust: each live frame has its own values, spawn copies them. Refusals 7
//! to 15 and 20; there are no nodes, so 16 never comes and a write answers 0. The live frames are linked in R-5's order, each to the one
//! before it and the one after it: a spawned child comes just before its parent, and no sibling is searched for.

use crate::tape::{FOLD, READ, RETURN, SPAWN, STEAL, SYNC, WRITE};
use crate::values::Values;
use crate::view::View;
use std::mem;

/// The parent of Main, what comes after it and what comes before the first frame.
const NONE: usize = usize::MAX;

struct Frame<V> {
    parent: usize,
    depth: u32,
    outstanding: u32,
    suspended: bool,
    /// Suspended, and ends with its last child.
    returning: bool,
    values: V,
    view: View,
    /// In the order of the live frames.
    before: usize,
    after: usize,
}

pub struct Machine<V> {
    splitters: usize,
    /// A place for each frame that can live: so many as the table has places.
    frames: Vec<Frame<V>>,
    free: Vec<usize>,
    /// Each from the top frame to the bottom one.
    deques: Vec<Vec<usize>>,
    main_lives: bool,
    /// Once Main has returned.
    totals: Option<[u32; 4]>,
}

impl<V: Values> Machine<V> {
    pub fn start(workers: usize, initial: &[u32], places: usize) -> Self {
        let mut frames: Vec<Frame<V>> = (0..places).map(|_| no_frame()).collect();
        frames[0].values = V::of(initial);
        let mut deques: Vec<Vec<usize>> =
            (0..workers).map(|_| Vec::with_capacity(places)).collect();
        deques[0].push(0);
        Machine {
            splitters: initial.len(),
            frames,
            free: (1..places).rev().collect(),
            deques,
            main_lives: true,
            totals: None,
        }
    }

    pub fn totals(&self) -> Option<[u32; 4]> {
        self.totals
    }

    /// Two answer words for each record.
    pub fn tape(&mut self, tape: &[u8], answers: &mut [u32]) {
        let (records, _) = tape.as_chunks::<8>();
        let (pairs, _) = answers.as_chunks_mut::<2>();
        for (record, pair) in records.iter().zip(pairs) {
            *pair = self.step(record).unwrap_or_else(|refusal| [refusal, 0]);
        }
    }

    /// The two answer words, or the refusal's number.
    fn step(&mut self, &[kind, worker, f0, f1, v0, v1, v2, v3]: &[u8; 8]) -> Result<[u32; 2], u32> {
        let worker = usize::from(worker);
        let field = usize::from(u16::from_le_bytes([f0, f1]));
        let value = u32::from_le_bytes([v0, v1, v2, v3]);
        Ok(match (kind, field, value) {
            (SPAWN, 0, 0) => [101, self.spawn(worker)?],
            (RETURN, 0, 0) => [102, self.end(worker)?],
            (STEAL, victim, 0) => [103, self.steal(worker, victim)?],
            (SYNC, 0, 0) => [104, self.sync(worker)?],
            (READ, splitter, 0) => [105, self.read(worker, splitter)?],
            (WRITE, splitter, value) => [106, self.write(worker, splitter, value)?],
            (FOLD, reducer, value) => [107, self.fold(worker, reducer, value)?],
            _ => return Err(7),
        })
    }

    /// The bottom frame of a worker that is not idle.
    fn bottom(&self, worker: usize) -> Result<usize, u32> {
        let deque = self.deques.get(worker).ok_or(8_u32)?;
        match deque.last() {
            Some(&frame) => Ok(frame),
            None if self.main_lives => Err(10),
            None => Err(9),
        }
    }

    fn spawn(&mut self, worker: usize) -> Result<u32, u32> {
        let bottom = self.bottom(worker)?;
        let place = self.free.pop().ok_or(13_u32)?;
        let [parent, child] = self
            .frames
            .get_disjoint_mut([bottom, place])
            .expect("two frames");
        parent.outstanding += 1;
        child.parent = bottom;
        child.depth = parent.depth + 1;
        child.values.copy_from(&parent.values);
        child.view = mem::replace(&mut parent.view, View::IDENTITY);
        child.before = mem::replace(&mut parent.before, place);
        child.after = bottom;
        let (depth, before) = (child.depth, child.before);
        if before != NONE {
            self.frames[before].after = place;
        }
        self.deques[worker].push(place);
        Ok(depth)
    }

    fn end(&mut self, worker: usize) -> Result<u32, u32> {
        let bottom = self.bottom(worker)?;
        self.deques[worker].pop();
        let frame = &mut self.frames[bottom];
        if frame.outstanding > 0 {
            frame.suspended = true;
            frame.returning = true;
            return Ok(4);
        }
        Ok(self.end_upward(worker, bottom))
    }

    /// Ends a frame that its worker's deque no longer has, then its parents that wait for it as returning.
    fn end_upward(&mut self, worker: usize, mut ending: usize) -> u32 {
        loop {
            let frame = &mut self.frames[ending];
            frame.values.drop_values();
            let (parent, view) = (frame.parent, frame.view);
            self.free.push(ending);
            if parent == NONE {
                self.main_lives = false;
                self.totals = Some(view.words());
                return 3;
            }
            self.leave_order(ending);
            let above = &mut self.frames[parent];
            above.outstanding -= 1;
            let deque = &mut self.deques[worker];
            if !deque.is_empty() {
                return 0;
            }
            if !above.suspended || above.outstanding > 0 {
                return 1;
            }
            if !above.returning {
                above.suspended = false;
                deque.push(parent);
                return 2;
            }
            above.suspended = false;
            above.returning = false;
            ending = parent;
        }
    }

    /// The view of a frame that has ended joins on the left of the next one's. It is not Main, so that there is a next one.
    fn leave_order(&mut self, ended: usize) {
        let Frame {
            view,
            before,
            after,
            ..
        } = self.frames[ended];
        let next = &mut self.frames[after];
        next.view = view.join(next.view);
        next.before = before;
        if before != NONE {
            self.frames[before].after = after;
        }
    }

    fn steal(&mut self, thief: usize, victim: usize) -> Result<u32, u32> {
        match self.bottom(thief) {
            Ok(_) => return Err(11),
            Err(10) => {}
            Err(refusal) => return Err(refusal),
        }
        let deque = self
            .deques
            .get_mut(victim)
            .filter(|deque| deque.len() >= 2)
            .ok_or(12_u32)?;
        let stolen = deque.remove(0);
        self.deques[thief].push(stolen);
        Ok(self.frames[stolen].depth)
    }

    fn sync(&mut self, worker: usize) -> Result<u32, u32> {
        let bottom = self.bottom(worker)?;
        let frame = &mut self.frames[bottom];
        if frame.outstanding == 0 {
            return Ok(0);
        }
        frame.suspended = true;
        self.deques[worker].pop();
        Ok(1)
    }

    fn read(&self, worker: usize, splitter: usize) -> Result<u32, u32> {
        let bottom = self.bottom(worker)?;
        if splitter >= self.splitters {
            return Err(15);
        }
        Ok(self.frames[bottom].values.get(splitter))
    }

    fn write(&mut self, worker: usize, splitter: usize, value: u32) -> Result<u32, u32> {
        let bottom = self.bottom(worker)?;
        if splitter >= self.splitters {
            return Err(15);
        }
        self.frames[bottom].values.set(splitter, value);
        Ok(0)
    }

    fn fold(&mut self, worker: usize, reducer: usize, value: u32) -> Result<u32, u32> {
        let bottom = self.bottom(worker)?;
        let folded = self.frames[bottom].view.fold(reducer, value);
        folded.map_or(Err(20), |()| Ok(0))
    }
}

fn no_frame<V: Values>() -> Frame<V> {
    Frame {
        parent: NONE,
        depth: 0,
        outstanding: 0,
        suspended: false,
        returning: false,
        values: V::default(),
        view: View::IDENTITY,
        before: NONE,
        after: NONE,
    }
}
