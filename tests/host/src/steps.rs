//! Random steps that suit a state, and spoilt ones.

use crate::plain::{State, FOLD, MAX_WORKERS, NONE, READ, RETURN, SPAWN, STEAL, SYNC, WRITE};
use crate::random::Random;

/// Kind, worker, field, value.
pub type StepWords = [u32; 4];

/// What a run is bent on for a while: the weights of spawn, return, steal, sync, read, write and fold.
const MOODS: [[usize; 7]; 8] = [
    [60, 2, 15, 3, 5, 15, 10],
    [90, 1, 1, 1, 2, 5, 10],
    [25, 8, 35, 12, 5, 15, 10],
    [5, 3, 5, 2, 15, 70, 5],
    [2, 45, 15, 25, 5, 8, 10],
    [10, 10, 10, 10, 10, 10, 10],
    [15, 35, 40, 4, 2, 4, 10],
    [25, 12, 50, 2, 1, 2, 40],
];

/// Makes one step after another; its mood changes now and then.
pub struct Driver {
    mood: [usize; 7],
    left: usize,
    /// One step in so many is spoilt.
    spoilt_in: usize,
    /// One return of Main in so many is allowed.
    ended_in: usize,
}

impl Driver {
    pub fn new(spoilt_in: usize, ended_in: usize) -> Driver {
        Driver {
            mood: MOODS[0],
            left: 0,
            spoilt_in,
            ended_in,
        }
    }

    pub fn next(&mut self, state: &State, random: &Random) -> StepWords {
        if self.left == 0 {
            self.mood = random.pick(&MOODS);
            self.left = 1 + random.below(80);
        }
        self.left -= 1;
        let entry = plausible(state, weighted(&self.mood, random), random);
        if random.one_in(self.spoilt_in) {
            spoil(entry, state, random)
        } else if ends_main(state, entry) && !random.one_in(self.ended_in) {
            [SPAWN, entry[1], 0, 0]
        } else {
            entry
        }
    }
}

/// Whether the step is a return and Main the worker's bottom frame. With a live child Main waits, and then its end cannot be put off.
fn ends_main(state: &State, [kind, worker, ..]: StepWords) -> bool {
    let deque = state.deques.get(worker as usize);
    let bottom = deque.and_then(|deque| deque.bottom());
    kind == RETURN && bottom.is_some_and(|frame| state.frames[frame as usize].parent == NONE)
}

fn weighted(weights: &[usize; 7], random: &Random) -> u32 {
    let mut left = random.below(weights.iter().sum());
    for (kind, &weight) in (SPAWN..).zip(weights) {
        if left < weight {
            return kind;
        }
        left -= weight;
    }
    FOLD
}

/// A step of this kind that the state is likely to accept.
pub fn plausible(state: &State, kind: u32, random: &Random) -> StepWords {
    let mut workers: Vec<u32> = (0..state.workers)
        .filter(|&worker| suits(state, kind, worker))
        .collect();
    // a return by a frame that has a live child waits
    let waits = |worker: &u32| suits(state, SYNC, *worker);
    if kind == RETURN && workers.iter().any(waits) && random.one_in(2) {
        workers.retain(waits);
    }
    let worker = match random.some(&workers) {
        Some(worker) if !random.one_in(40) => worker,
        _ => random.word_below(state.workers.max(1)),
    };
    let field = match kind {
        STEAL => victim(state, random),
        READ | WRITE => random.word_below(state.splitters.max(1)),
        FOLD => random.pick(&[0, 1, 2, 2]),
        _ => 0,
    };
    let value = match kind {
        WRITE if random.one_in(3) => like_links(state.nodes, random),
        WRITE => random.word() >> random.word_below(32),
        FOLD => folded_value(field, random),
        _ => 0,
    };
    [kind, worker, field, value]
}

/// A value that would be links of an inner node, of a pool of so many nodes, or a little beside such.
pub fn like_links(nodes: u32, random: &Random) -> u32 {
    let link = || match random.below(6) {
        0 => 65_535,
        1 => nodes,
        _ => random.word_below(nodes.max(1)),
    };
    link() % 65_536 + link() % 65_536 * 65_536
}

/// A fold by the worker. A map that multiplies by an even number loses what was before it, bit by bit, so most multipliers are odd.
pub fn fold(worker: u32, random: &Random) -> StepWords {
    let reducer = random.pick(&[0, 1, 2, 2]);
    [FOLD, worker, reducer, folded_value(reducer, random)]
}

fn folded_value(reducer: u32, random: &Random) -> u32 {
    let word = random.word();
    match (reducer, random.below(20)) {
        (2, 0) => word & 0xFFFF,
        (2, 1) => 1 << 16,
        (2, 2) => word,
        (2, _) => word | 1 << 16,
        (_, 0) => u32::MAX,
        _ => word >> random.word_below(32),
    }
}

fn suits(state: &State, kind: u32, worker: u32) -> bool {
    let Some(bottom) = state.deques[worker as usize].bottom() else {
        return kind == STEAL;
    };
    let outstanding = state.frames[bottom as usize].outstanding;
    match kind {
        STEAL => false,
        SYNC => outstanding > 0,
        _ => true,
    }
}

fn victim(state: &State, random: &Random) -> u32 {
    let victims: Vec<u32> = (0..state.workers)
        .filter(|&worker| state.deques[worker as usize].length >= 2)
        .collect();
    random
        .some(&victims)
        .unwrap_or_else(|| random.word_below(MAX_WORKERS as u32))
}

/// The same step with something wrong, or likely to be. Bits beyond a record's fields are lost on a tape, but not from outside.
fn spoil([kind, worker, field, value]: StepWords, state: &State, random: &Random) -> StepWords {
    match random.below(10) {
        0 => {
            let kinds = [0, 8, 9, 255, kind + 256, kind | 1 << 31, u32::MAX];
            [random.pick(&kinds), worker, field, value]
        }
        1 => [
            kind,
            worker,
            field | 1 << random.below(16),
            value | u32::from(random.one_in(2)),
        ],
        2 => [
            kind,
            worker,
            field,
            random.pick(&[1, 1 << 31, u32::MAX, value.wrapping_add(1)]),
        ],
        3 => {
            let workers = [state.workers, 8, 255, worker + 256, u32::MAX, 1 << 31];
            [kind, random.pick(&workers), field, value]
        }
        4 => [kind, random.word_below(8), field, value],
        5 => [STEAL, worker, random.word_below(9), 0],
        6 => {
            let n = state.splitters;
            let fields = [n, n + 1, 256, 65_535, field + 65_536, u32::MAX, 1 << 31];
            [kind, worker, random.pick(&fields), value]
        }
        7 => [random.pick(&[RETURN, SYNC, SPAWN]), worker, 0, 0],
        8 => {
            let fields = [3, 4, 255, 256, 65_535, 65_536, u32::MAX, 1 << 31];
            [FOLD, worker, random.pick(&fields), random.word()]
        }
        _ => [random.word(), random.word(), random.word(), random.word()],
    }
}

/// The step that brings Main's return nearer: a return of the worker whose bottom frame is deepest.
pub fn homeward(state: &State) -> StepWords {
    let depth = |worker: &u32| {
        let bottom = state.deques[*worker as usize].bottom()?;
        Some(state.frames[bottom as usize].depth)
    };
    let deepest = (0..state.workers).max_by_key(depth).unwrap_or(0);
    [RETURN, deepest, 0, 0]
}

/// What a record keeps of a step's words.
pub fn words([kind, worker, f0, f1, v0, v1, v2, v3]: [u8; 8]) -> StepWords {
    [
        kind.into(),
        worker.into(),
        u16::from_le_bytes([f0, f1]).into(),
        u32::from_le_bytes([v0, v1, v2, v3]),
    ]
}

/// A record's bytes.
pub fn record([kind, worker, field, value]: StepWords) -> [u8; 8] {
    let [f0, f1] = (field as u16).to_le_bytes();
    let [v0, v1, v2, v3] = value.to_le_bytes();
    [kind as u8, worker as u8, f0, f1, v0, v1, v2, v3]
}
