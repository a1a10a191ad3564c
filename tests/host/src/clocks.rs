//! R-7 by the documents' text (its author had read the definitions too): the plain machine by names. Each live frame has its name, its full list of values and the last write to
//! each splitter in its history; beside that its clock and the clocks of its ended children. Nothing of plain.rs is used. Work and span come
//! twice: from the machine, as the run goes, and once more from the frames' steps alone, by names.

use std::collections::BTreeMap;

/// Document 01: "Main's name is the empty chain. The child made by a frame's k-th accepted spawn, k counted from 1, has its parent's name with
/// k after it."
pub type Name = Vec<u32>;

/// A frame's own steps that cost 1, in order; returns and steals are left out.
#[derive(Clone, Copy, Debug, PartialEq, Eq)]
pub enum Own {
    Spawn,
    Sync,
    /// A read, a write or a fold.
    Other,
}

pub type Steps = BTreeMap<Name, Vec<Own>>;

#[derive(PartialEq)]
enum Waits {
    No,
    AtSync,
    Returning,
}

struct Frame {
    values: Vec<u32>,
    /// By splitter, the last write in its history; the start is write 0.
    written: Vec<u64>,
    spawns: u32,
    waits: Waits,
    clock: u64,
    /// The clocks of its children at their ends.
    ended: Vec<u64>,
    place: usize,
}

impl Frame {
    fn latest_child(&self) -> u64 {
        latest(&self.ended)
    }

    /// "the latest of its own and its ended children's"
    fn latest(&self) -> u64 {
        self.clock.max(self.latest_child())
    }
}

/// A start's numbers.
#[derive(Clone, Copy)]
pub struct Start<'a> {
    pub workers: u32,
    pub values: &'a [u32],
    pub nodes: usize,
    pub places: usize,
}

pub struct Machine {
    workers: usize,
    splitters: usize,
    nodes: usize,
    places: usize,
    live: BTreeMap<Name, Frame>,
    /// From the top.
    deques: Vec<Vec<Name>>,
    writes: u64,
    /// "The last .. freed is the first taken": the last of these.
    free_places: Vec<usize>,
    /// "the sum of costs"
    pub work: u64,
    /// "Main's clock at its return"
    pub span: Option<u64>,
    pub steps: Steps,
    /// By place: clock and latest ended child of the frame that has it, or had it last, before the step that ended it.
    pub words: Vec<[u64; 2]>,
}

type Answer = (u32, u32);

impl Machine {
    /// An accepted start.
    pub fn start(start: Start) -> Machine {
        let splitters = start.values.len();
        let main = Frame {
            values: start.values.to_vec(),
            written: vec![0; splitters],
            spawns: 0,
            waits: Waits::No,
            clock: 0,
            ended: Vec::new(),
            place: 0,
        };
        let workers = start.workers as usize;
        let mut deques = vec![Vec::new(); workers];
        deques[0].push(Name::new());
        Machine {
            workers,
            splitters,
            nodes: start.nodes,
            places: start.places,
            live: BTreeMap::from([(Name::new(), main)]),
            deques,
            writes: 0,
            free_places: (1..start.places).rev().collect(),
            work: 0,
            span: None,
            steps: Steps::from([(Name::new(), Vec::new())]),
            words: vec![[0; 2]; start.places],
        }
    }

    /// The bottom frame's name.
    pub fn bottom(&self, worker: usize) -> Option<&Name> {
        self.deques[worker].last()
    }

    pub fn main_returned(&self) -> bool {
        self.live.is_empty()
    }

    fn children(&self, name: &Name) -> usize {
        let is_child = |other: &&Name| other.split_last().is_some_and(|(_, above)| above == name);
        self.live.keys().filter(is_child).count()
    }

    /// A record: kind, worker, field, value. Its answer.
    pub fn take(&mut self, [kind, worker, field, value]: [u32; 4]) -> Answer {
        if let Some(refusal) = self.refusal(kind, worker, field, value) {
            return (refusal, 0);
        }
        let worker = worker as usize;
        let number = match kind {
            1 => self.spawn(worker),
            2 => self.end(worker),
            3 => self.steal(worker, field as usize),
            4 => self.sync(worker),
            5 => self.read(worker, field as usize),
            6 => self.write(worker, field as usize, value),
            _ => {
                self.cost_one(worker, Own::Other);
                0
            }
        };
        for frame in self.live.values() {
            self.words[frame.place] = [frame.clock, frame.latest_child()];
        }
        (100 + kind, number)
    }

    /// "Refused, in checking order", 7 to 16 and 20.
    fn refusal(&self, kind: u32, worker: u32, field: u32, value: u32) -> Option<u32> {
        let (field_used, value_used) = (matches!(kind, 3 | 5..=7), matches!(kind, 6 | 7));
        if !(1..=7).contains(&kind) || (field != 0 && !field_used) || (value != 0 && !value_used) {
            return Some(7);
        }
        let worker = worker as usize;
        if worker >= self.workers {
            return Some(8);
        }
        if self.main_returned() {
            return Some(9);
        }
        let idle = self.deques[worker].is_empty();
        let field = field as usize;
        match kind {
            3 if !idle => Some(11),
            3 => {
                let victim = self.deques.get(field);
                victim.is_none_or(|deque| deque.len() < 2).then_some(12)
            }
            _ if idle => Some(10),
            1 => (self.live.len() == self.places).then_some(13),
            5 | 6 if field >= self.splitters => Some(15),
            7 => (field >= 3).then_some(20),
            6 => (self.used_after_write(worker, field) > self.nodes).then_some(16),
            _ => None,
        }
    }

    fn used(&self) -> usize {
        let histories = self.live.values().map(|frame| frame.written.clone());
        triples(histories)
    }

    /// "16 when the write would bring that count above the pool's nodes".
    fn used_after_write(&self, worker: usize, splitter: usize) -> usize {
        let histories = self.live.iter().map(|(name, frame)| {
            let mut written = frame.written.clone();
            if self.bottom(worker) == Some(name) {
                written[splitter] = self.writes + 1;
            }
            written
        });
        triples(histories)
    }

    /// The worker's bottom frame, which is there.
    fn frame(&mut self, worker: usize) -> &mut Frame {
        let name = self.deques[worker].last().expect("it is not idle");
        self.live.get_mut(name).expect("it lives")
    }

    /// "Each accepted spawn, sync, read, write and fold costs 1": of the work. The step is the bottom frame's.
    fn cost(&mut self, worker: usize, own: Own) {
        self.work += 1;
        let name = self.deques[worker].last().expect("it is not idle").clone();
        self.steps.entry(name).or_default().push(own);
    }

    /// The same, and of the frame's clock.
    fn cost_one(&mut self, worker: usize, own: Own) {
        self.cost(worker, own);
        self.frame(worker).clock += 1;
    }

    /// "A child's clock begins at its parent's after the spawn."
    fn spawn(&mut self, worker: usize) -> u32 {
        self.cost_one(worker, Own::Spawn);
        let place = self.free_places.pop().expect("a place is free");
        let parent = self.frame(worker);
        parent.spawns += 1;
        let number = parent.spawns;
        let child = Frame {
            values: parent.values.clone(),
            written: parent.written.clone(),
            spawns: 0,
            waits: Waits::No,
            clock: parent.clock,
            ended: Vec::new(),
            place,
        };
        let above = self.deques[worker].last().expect("the parent");
        let name = [&above[..], &[number]].concat();
        let depth = name.len() as u32;
        self.deques[worker].push(name.clone());
        self.steps.insert(name.clone(), Vec::new());
        self.live.insert(name, child);
        depth
    }

    /// R-3: a return with a live child waits; else the frame ends, and with the last child of a frame that waits so this frame too, "and so on
    /// upward".
    fn end(&mut self, worker: usize) -> u32 {
        let mut name = self.deques[worker].last().expect("it is not idle").clone();
        if self.children(&name) > 0 {
            self.frame(worker).waits = Waits::Returning;
            self.deques[worker].pop();
            return 4;
        }
        self.deques[worker].pop();
        loop {
            let frame = self.live.remove(&name).expect("it lives");
            self.free_places.push(frame.place);
            // "a return likewise waits but adds nothing"
            let clock = frame.latest();
            let Some((_, above)) = name.split_last() else {
                self.span = Some(clock);
                return 3;
            };
            let above = above.to_vec();
            let parent = self.live.get_mut(&above).expect("a parent lives");
            parent.ended.push(clock);
            if !self.deques[worker].is_empty() {
                return 0;
            }
            if self.children(&above) > 0 {
                return 1;
            }
            let parent = self.live.get_mut(&above).expect("a parent lives");
            match parent.waits {
                Waits::No => return 1,
                Waits::AtSync => {
                    parent.waits = Waits::No;
                    pass(parent);
                    self.deques[worker].push(above);
                    return 2;
                }
                Waits::Returning => name = above,
            }
        }
    }

    fn steal(&mut self, thief: usize, victim: usize) -> u32 {
        let stolen = self.deques[victim].remove(0);
        let depth = stolen.len() as u32;
        self.deques[thief].push(stolen);
        depth
    }

    fn sync(&mut self, worker: usize) -> u32 {
        self.cost(worker, Own::Sync);
        let name = self.deques[worker].last().expect("it is not idle");
        if self.children(name) == 0 {
            pass(self.frame(worker));
            return 0;
        }
        self.frame(worker).waits = Waits::AtSync;
        self.deques[worker].pop();
        1
    }

    fn read(&mut self, worker: usize, splitter: usize) -> u32 {
        self.cost_one(worker, Own::Other);
        self.frame(worker).values[splitter]
    }

    fn write(&mut self, worker: usize, splitter: usize, value: u32) -> u32 {
        self.cost_one(worker, Own::Other);
        self.writes += 1;
        let write = self.writes;
        let frame = self.frame(worker);
        frame.values[splitter] = value;
        frame.written[splitter] = write;
        (self.nodes - self.used()) as u32
    }
}

/// "Nodes in use are the distinct triples, over all live frames, of a level l, a group (splitter number divided by 2^l, rounded down) and the
/// last write in that frame's history to a member of the group." Of each frame the last writes by splitter.
fn triples(histories: impl Iterator<Item = Vec<u64>>) -> usize {
    let mut triples = Vec::new();
    for mut last in histories {
        let mut level = 0;
        triples.extend(
            (0..)
                .zip(&last)
                .map(|(group, write)| (level, group, *write)),
        );
        while last.len() > 1 {
            level += 1;
            last = last.chunks(2).map(latest).collect();
            triples.extend(
                (0..)
                    .zip(&last)
                    .map(|(group, write)| (level, group, *write)),
            );
        }
    }
    triples.sort_unstable();
    triples.dedup();
    triples.len()
}

fn latest(numbers: &[u64]) -> u64 {
    numbers.iter().copied().max().unwrap_or(0)
}

/// "A sync moves the clock to the latest of its own and its ended children's, counted when it passes, then adds 1".
fn pass(frame: &mut Frame) {
    frame.clock = frame.latest() + 1;
}

/// Work and span from the frames' steps alone, once Main has returned: no schedule is looked at. A sync passes, and a frame ends, after all its
/// children so far.
pub fn pair_of(steps: &Steps) -> (u64, u64) {
    let work = steps.values().map(|own| own.len() as u64).sum();
    (work, end_of(steps, &Name::new(), 0))
}

/// The clock at its end of a frame whose clock begins so.
fn end_of(steps: &Steps, name: &Name, begins: u64) -> u64 {
    let (mut clock, mut children, mut spawns) = (begins, 0, 0);
    for own in &steps[name] {
        if *own == Own::Sync {
            clock = clock.max(children);
        }
        clock += 1;
        if *own == Own::Spawn {
            spawns += 1;
            let child = [&name[..], &[spawns]].concat();
            children = children.max(end_of(steps, &child, clock));
        }
    }
    clock.max(children)
}
