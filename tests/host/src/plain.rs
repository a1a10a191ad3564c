//! Document 01's engine, with of document 02, in plain, fast, safe Rust: copying of what is shared of a path, reference
//! counts, free lists, recursive release, returns that wait, views that join, a lent frame table, clocks. Written from the documents alone, but that how a link is chosen, and that retain and
//! release leave alone what is no node, were tuned for R-8 by someone who had read crate packed, and that the change-over was written by someone who had read its definition. It is what the library is compared with,
//! and the peer it is timed against: what a tape and a single step share is inlined in both, so that each is as fast as if the other
//! were not there. The functions that end in `_of` are the same with nodes of either layout.

mod layout;
mod timing;

pub use layout::Layout;
use std::ops::{Deref, DerefMut};
use std::{array, mem};
use timing::{Beside, Clocks, Untimed};

pub const NONE: u32 = u32::MAX;
pub const MAX_WORKERS: usize = 8;
pub const MAX_PLACES: usize = 256;
pub const MAX_SPLITTERS: usize = 256;
pub const MAX_NODES: usize = 16_384;

pub const DEQUE_WORDS: usize = 1 + MAX_PLACES;
pub const FRAME_WORDS: usize = 12;
pub const NUMBERS_WORDS: usize = 10;
pub const DEQUES_WORDS: usize = MAX_WORKERS * DEQUE_WORDS;

/// The words of a node.
pub type Node = [u32; NODE_WORDS];
pub const NODE_WORDS: usize = 2;
/// Those from before R-8.
pub type OldNode = [u32; OLD_NODE_WORDS];
pub const OLD_NODE_WORDS: usize = 4;
pub const HOLDERS: usize = 0;

pub const RECORD_BYTES: usize = 8;
pub const SPAWN: u32 = 1;
pub const RETURN: u32 = 2;
pub const STEAL: u32 = 3;
pub const SYNC: u32 = 4;
pub const READ: u32 = 5;
pub const WRITE: u32 = 6;
pub const FOLD: u32 = 7;

/// The reducers, with their numbers.
pub const SUM: u32 = 0;
pub const MIN: u32 = 1;
pub const AFFINE: u32 = 2;

/// The documents' refusals, with their numbers; 14 no longer occurs.
#[derive(Clone, Copy, Debug, PartialEq, Eq)]
#[repr(u32)]
pub enum Refusal {
    BadValueCount = 1,
    BadWorkerCount,
    BadNodeCount,
    BadTape,
    ShortWork,
    Unsound,
    BadRecord,
    UnknownWorker,
    RunIsOver,
    WorkerHasNoFrame,
    ThiefBusy,
    NothingToSteal,
    FramesFull,
    UnknownSplitter = 15,
    PoolFull,
    UnknownReducer = 20,
    BadPlaceCount,
    NoSpan,
}

/// What was folded, of each reducer: the sum, the minimum, and the affine map, multiply then add. A view of zeros stands in free places.
#[derive(Clone, Copy, Debug, Default, PartialEq, Eq)]
pub struct View {
    pub sum: u32,
    pub min: u32,
    pub multiplier: u32,
    pub addend: u32,
}

impl View {
    pub const ZERO: View = View {
        sum: 0,
        min: 0,
        multiplier: 0,
        addend: 0,
    };

    pub const IDENTITY: View = View {
        sum: 0,
        min: u32::MAX,
        multiplier: 1,
        addend: 0,
    };

    /// With a later view on its right.
    #[must_use]
    pub fn join(self, later: View) -> View {
        let joined = View {
            sum: self.sum.wrapping_add(later.sum),
            min: self.min.min(later.min),
            ..self
        };
        joined.then(later.multiplier, later.addend)
    }

    /// With a later map applied after its own.
    fn then(self, multiplier: u32, addend: u32) -> View {
        View {
            multiplier: self.multiplier.wrapping_mul(multiplier),
            addend: self.addend.wrapping_mul(multiplier).wrapping_add(addend),
            ..self
        }
    }

    pub fn words(self) -> [u32; 4] {
        [self.sum, self.min, self.multiplier, self.addend]
    }

    pub fn of_words([sum, min, multiplier, addend]: [u32; 4]) -> View {
        View {
            sum,
            min,
            multiplier,
            addend,
        }
    }
}

/// A frame place. `parent` of a free place is the next free place, or none. `returning` is 1 on a suspended frame that ends with its last
/// child, else 0. `younger` is the next younger live sibling, or none.
#[derive(Clone, Copy, Debug, Default, PartialEq, Eq)]
#[repr(align(16))]
pub struct Frame {
    pub live: u32,
    pub parent: u32,
    pub depth: u32,
    pub outstanding: u32,
    pub suspended: u32,
    pub root: u32,
    pub returning: u32,
    pub view: View,
    pub younger: u32,
}

impl Frame {
    fn vacant(next: u32) -> Frame {
        Frame {
            parent: next,
            ..Frame::default()
        }
    }
}

/// A worker's frames from the top; the places past them are zero.
#[derive(Clone, Copy, Debug, PartialEq, Eq)]
pub struct Deque {
    pub length: u32,
    pub places: [u32; MAX_PLACES],
}

impl Deque {
    pub const EMPTY: Deque = Deque {
        length: 0,
        places: [0; MAX_PLACES],
    };

    pub fn bottom(&self) -> Option<u32> {
        let last = self.length.checked_sub(1)?;
        Some(self.places[last as usize])
    }

    pub fn push(&mut self, frame: u32) {
        self.places[self.length as usize] = frame;
        self.length += 1;
    }

    pub fn pop(&mut self) {
        self.length -= 1;
        self.places[self.length as usize] = 0;
    }

    pub fn take_top(&mut self) -> u32 {
        let top = self.places[0];
        self.places.copy_within(1..self.length as usize, 0);
        self.pop();
        top
    }
}

/// The engine's state and the lent frame table, of any length.
#[derive(Clone, Debug, PartialEq, Eq)]
pub struct State {
    pub head: Head,
    pub frames: Vec<Frame>,
}

/// The state without the table. `free` is the first free node, `vacant` the first free frame place; `totals` are zeros while Main lives;
/// `places` is the table's length as recorded.
#[derive(Clone, Debug, PartialEq, Eq)]
pub struct Head {
    pub workers: u32,
    pub splitters: u32,
    pub nodes: u32,
    pub free: u32,
    pub vacant: u32,
    pub totals: View,
    pub places: u32,
    pub deques: [Deque; MAX_WORKERS],
}

impl Deref for State {
    type Target = Head;

    fn deref(&self) -> &Head {
        &self.head
    }
}

impl DerefMut for State {
    fn deref_mut(&mut self) -> &mut Head {
        &mut self.head
    }
}

impl Head {
    pub const ZERO: Head = Head {
        workers: 0,
        splitters: 0,
        nodes: 0,
        free: 0,
        vacant: 0,
        totals: View::ZERO,
        places: 0,
        deques: [Deque::EMPTY; MAX_WORKERS],
    };
}

impl State {
    /// The state of zeros that a refused start hands out, beside this table.
    pub fn zero(frames: Vec<Frame>) -> State {
        State {
            head: Head::ZERO,
            frames,
        }
    }

    pub fn main_lives(&self) -> bool {
        self.frames.iter().any(|frame| frame.live != 0)
    }
}

/// The words of the state, ten numbers and the deques, and of the table's records.
#[derive(Clone, Debug, PartialEq, Eq)]
pub struct Words {
    pub numbers: [u32; NUMBERS_WORDS],
    pub deques: [u32; DEQUES_WORDS],
    pub frames: Vec<u32>,
}

pub fn to_words(state: &State) -> Words {
    let [sum, min, multiplier, addend] = state.totals.words();
    let mut words = Words {
        numbers: [
            state.workers,
            state.splitters,
            state.nodes,
            state.free,
            state.vacant,
            sum,
            min,
            multiplier,
            addend,
            state.places,
        ],
        deques: [0; DEQUES_WORDS],
        frames: state.frames.iter().flat_map(record).collect(),
    };
    let deques = words.deques.chunks_exact_mut(DEQUE_WORDS);
    for (words, deque) in deques.zip(&state.deques) {
        words[0] = deque.length;
        words[1..].copy_from_slice(&deque.places);
    }
    words
}

/// The words of a frame place.
pub fn record(f: &Frame) -> [u32; FRAME_WORDS] {
    let [sum, min, multiplier, addend] = f.view.words();
    [
        f.live,
        f.parent,
        f.depth,
        f.outstanding,
        f.suspended,
        f.root,
        f.returning,
        sum,
        min,
        multiplier,
        addend,
        f.younger,
    ]
}

/// The frame place of these words.
pub fn of_record(words: &[u32; FRAME_WORDS]) -> Frame {
    let &[live, parent, depth, outstanding, suspended, root, returning, sum, min, multiplier, addend, younger] =
        words;
    Frame {
        live,
        parent,
        depth,
        outstanding,
        suspended,
        root,
        returning,
        view: View::of_words([sum, min, multiplier, addend]),
        younger,
    }
}

pub fn from_words(words: &Words) -> State {
    let [workers, splitters, nodes, free, vacant, totals @ .., places] = words.numbers;
    let (records, _) = words.frames.as_chunks();
    State {
        head: Head {
            workers,
            splitters,
            nodes,
            free,
            vacant,
            totals: View::of_words(totals),
            places,
            deques: array::from_fn(|worker| {
                let words = &words.deques[worker * DEQUE_WORDS..][..DEQUE_WORDS];
                Deque {
                    length: words[0],
                    places: array::from_fn(|place| words[1 + place]),
                }
            }),
        },
        frames: records.iter().map(of_record).collect(),
    }
}

/// H: the least number with 2^H at least n.
pub fn height(splitters: u32) -> u32 {
    splitters.next_power_of_two().trailing_zeros()
}

/// T(n): the nodes of one full tree.
pub fn tree_nodes(splitters: u32) -> u32 {
    (0..=height(splitters))
        .map(|level| splitters.div_ceil(1 << level))
        .sum()
}

/// Begins a run in this table, whatever it holds: the state and 0, or a state of zeros, with the table as it was, and the refusal.
pub fn start(workers: u32, values: &[u32], frames: Vec<Frame>, pool: &mut [u32]) -> (State, u32) {
    start_of::<Node>(workers, values, frames, pool)
}

pub fn start_of<N: Layout>(
    workers: u32,
    values: &[u32],
    mut frames: Vec<Frame>,
    pool: &mut [u32],
) -> (State, u32) {
    let nodes = N::nodes_mut(pool);
    if let Some(refusal) = refuse_start(workers, values.len(), frames.len(), nodes.len()) {
        return (State::zero(frames), refusal as u32);
    }
    let tree = plant(values, nodes);
    let last = nodes.len() - 1;
    for (node, cell) in nodes.iter_mut().enumerate().skip(tree) {
        let next = if node < last { node as u32 + 1 } else { NONE };
        *cell = N::free(next);
    }
    let vacant = furnish(&mut frames);
    let head = Head {
        workers,
        splitters: values.len() as u32,
        nodes: nodes.len() as u32,
        free: if tree <= last { tree as u32 } else { NONE },
        vacant,
        places: frames.len() as u32,
        ..Head::ZERO
    };
    let mut state = State { head, frames };
    state.deques[0].push(0);
    (state, 0)
}

/// Main in place 0, the others free in rising order; the first free one, or none.
fn furnish(frames: &mut [Frame]) -> u32 {
    let last = frames.len() - 1;
    let next = |place: usize| if place < last { place as u32 + 1 } else { NONE };
    for (place, frame) in frames.iter_mut().enumerate() {
        *frame = Frame::vacant(next(place));
    }
    frames[0] = Frame {
        live: 1,
        parent: NONE,
        view: View::IDENTITY,
        younger: NONE,
        ..Frame::default()
    };
    next(0)
}

fn refuse_start(workers: u32, values: usize, places: usize, nodes: usize) -> Option<Refusal> {
    if values == 0 || values > MAX_SPLITTERS {
        Some(Refusal::BadValueCount)
    } else if workers == 0 || workers as usize > MAX_WORKERS {
        Some(Refusal::BadWorkerCount)
    } else if places == 0 || places > MAX_PLACES {
        Some(Refusal::BadPlaceCount)
    } else if nodes < tree_nodes(values as u32) as usize || nodes > MAX_NODES {
        Some(Refusal::BadNodeCount)
    } else {
        None
    }
}

/// Writes the first tree, level by level from the root; the number of its nodes.
fn plant<N: Layout>(values: &[u32], nodes: &mut [N]) -> usize {
    let width = |level: u32| values.len().div_ceil(1 << level);
    let mut first = 0;
    for level in (1..=height(values.len() as u32)).rev() {
        let below = first + width(level);
        for (group, node) in nodes[first..below].iter_mut().enumerate() {
            let left = (below + 2 * group) as u32;
            let has_right = 2 * group + 1 < width(level - 1);
            *node = N::inner(left, if has_right { left + 1 } else { N::NO_LINK });
        }
        first = below;
    }
    for (node, &value) in nodes[first..].iter_mut().zip(values) {
        *node = N::leaf(value);
    }
    first + values.len()
}

/// A step entered from outside: its two answer words, or a refusal and 0.
pub fn step(
    state: &mut State,
    pool: &mut [u32],
    work: &mut [u32],
    kind: u32,
    worker: u32,
    field: u32,
    value: u32,
) -> (u32, u32) {
    step_of::<Node>(state, pool, work, [kind, worker, field, value])
}

#[inline(always)]
pub fn step_of<N: Layout>(
    state: &mut State,
    pool: &mut [u32],
    work: &mut [u32],
    [kind, worker, field, value]: [u32; 4],
) -> (u32, u32) {
    match admit::<N>(state, pool, work) {
        Ok(free_nodes) => {
            let step = Step::decode(kind, worker, field, value);
            Engine::<N, _>::new(state, free_nodes, pool, Untimed).answer(step)
        }
        Err(refusal) => (refusal as u32, 0),
    }
}

/// A tape: 0 with two answer words for each record, or a refusal.
pub fn tape(
    state: &mut State,
    pool: &mut [u32],
    work: &mut [u32],
    bytes: &[u8],
    answers: &mut [u32],
) -> u32 {
    tape_of::<Node>(state, pool, work, bytes, answers)
}

#[inline(always)]
pub fn tape_of<N: Layout>(
    state: &mut State,
    pool: &mut [u32],
    work: &mut [u32],
    bytes: &[u8],
    answers: &mut [u32],
) -> u32 {
    if !is_tape(bytes, answers) {
        return Refusal::BadTape as u32;
    }
    match admit::<N>(state, pool, work) {
        Ok(free_nodes) => {
            Engine::<N, _>::new(state, free_nodes, pool, Untimed).run(bytes, answers);
            0
        }
        Err(refusal) => refusal as u32,
    }
}

/// Whole records, with two answer words for each.
fn is_tape(bytes: &[u8], answers: &[u32]) -> bool {
    let whole = bytes.len().is_multiple_of(RECORD_BYTES);
    whole && answers.len() / 2 >= bytes.len() / RECORD_BYTES
}

/// Runs the whole records of `bytes` on a sound state with that many free nodes; the free nodes left.
pub fn run_tape(
    state: &mut State,
    free_nodes: u32,
    pool: &mut [u32],
    bytes: &[u8],
    answers: &mut [u32],
) -> u32 {
    run_tape_of::<Node>(state, free_nodes, pool, bytes, answers)
}

#[inline(always)]
pub fn run_tape_of<N: Layout>(
    state: &mut State,
    free_nodes: u32,
    pool: &mut [u32],
    bytes: &[u8],
    answers: &mut [u32],
) -> u32 {
    let mut engine = Engine::<N, _>::new(state, free_nodes, pool, Untimed);
    engine.run(bytes, answers);
    engine.free_nodes
}

/// What a report is lent beside the table.
pub struct Reporting<'a> {
    pub pool: &'a mut [u32],
    pub work: &'a mut [u32],
    pub answers: &'a mut [u32],
    /// Two words for each place.
    pub clocks: &'a mut [u64],
    /// Work, span, quotient and remainder.
    pub report: &'a mut [u64; 4],
}

/// A start, a tape and its report: the state and 0, or 22 if Main has not returned or the span is 0, with what the tape left; or a state of
/// zeros, with all that is lent as it was, and another refusal.
pub fn report(
    workers: u32,
    values: &[u32],
    frames: Vec<Frame>,
    bytes: &[u8],
    lent: Reporting,
) -> (State, u32) {
    report_of::<Node>(workers, values, frames, bytes, lent)
}

#[inline(always)]
pub fn report_of<N: Layout>(
    workers: u32,
    values: &[u32],
    frames: Vec<Frame>,
    bytes: &[u8],
    lent: Reporting,
) -> (State, u32) {
    let Reporting {
        pool,
        work,
        answers,
        clocks,
        report,
    } = lent;
    let nodes = N::nodes(pool).len();
    let refusal = refuse_start(workers, values.len(), frames.len(), nodes)
        .or((!is_tape(bytes, answers)).then_some(Refusal::BadTape))
        .or((work.len() < nodes).then_some(Refusal::ShortWork));
    if let Some(refusal) = refusal {
        return (State::zero(frames), refusal as u32);
    }
    let (mut state, _) = start_of::<N>(workers, values, frames, pool);
    work[..nodes].fill(0);
    let free_nodes = state.nodes - tree_nodes(state.splitters);
    let mut engine = Engine::<N, _>::new(&mut state, free_nodes, pool, Clocks::begin(clocks));
    engine.run(bytes, answers);
    let Clocks { work, span, .. } = engine.beside;
    if span == 0 {
        return (state, Refusal::NoSpan as u32);
    }
    *report = [work, span, work / span, work % span];
    (state, 0)
}

/// R-9's change-over, of a sound state with four-word nodes: 0, with two-word nodes in the front of the same pool, the old nodes' other words
/// zero and words past them as they were; or a refusal, with the pool as it was.
pub fn convert(state: &State, pool: &mut [u32], work: &mut [u32]) -> u32 {
    if let Err(refusal) = admit::<OldNode>(state, pool, work) {
        return refusal as u32;
    }
    pack(&mut OldNode::nodes_mut(pool)[..state.nodes as usize]);
    0
}

/// The change-over of nodes that are known to be sound, front to back: a new node's words are those of an old one that has been read.
pub fn pack(nodes: &mut [OldNode]) {
    for number in 0..nodes.len() {
        let old = mem::take(&mut nodes[number]);
        nodes.as_flattened_mut().as_chunks_mut().0[number] = packed(old);
    }
}

/// What a node of a sound pool is can be told without its level: a free one has no holders, and of the others a leaf has no left link.
fn packed(old: OldNode) -> Node {
    let second = match old.holders() {
        0 => old.next_free(),
        _ if old.link(0) == OldNode::NO_LINK => old.value(),
        _ => Node::inner(old.link(0), old.link(1) & Node::NO_LINK)[1],
    };
    [old.holders(), second]
}

/// Refusals 5 and 6; else the number of free nodes.
#[inline(always)]
fn admit<N: Layout>(state: &State, pool: &[u32], work: &mut [u32]) -> Result<u32, Refusal> {
    if work.len() < state.nodes as usize {
        return Err(Refusal::ShortWork);
    }
    sound_of::<N>(state, pool, work).ok_or(Refusal::Unsound)
}

#[derive(Clone, Copy)]
enum Step {
    Spawn(u32),
    Return(u32),
    Steal(u32, u32),
    Sync(u32),
    Read(u32, u32),
    Write(u32, u32, u32),
    Fold(u32, u32, u32),
}

impl Step {
    /// None if the kind is not 1 to 7 or an unused field is not zero.
    fn decode(kind: u32, worker: u32, field: u32, value: u32) -> Option<Step> {
        match (kind, field, value) {
            (SPAWN, 0, 0) => Some(Step::Spawn(worker)),
            (RETURN, 0, 0) => Some(Step::Return(worker)),
            (STEAL, victim, 0) => Some(Step::Steal(worker, victim)),
            (SYNC, 0, 0) => Some(Step::Sync(worker)),
            (READ, splitter, 0) => Some(Step::Read(worker, splitter)),
            (WRITE, splitter, value) => Some(Step::Write(worker, splitter, value)),
            (FOLD, reducer, value) => Some(Step::Fold(worker, reducer, value)),
            _ => None,
        }
    }
}

/// A sound state, its table and its nodes, with what need not be found again at each step; and clocks, if there are any.
struct Engine<'a, N, B> {
    head: &'a mut Head,
    frames: &'a mut [Frame],
    nodes: &'a mut [N],
    free_nodes: u32,
    height: u32,
    main_lives: bool,
    beside: B,
}

impl<'a, N: Layout, B: Beside> Engine<'a, N, B> {
    fn new(state: &'a mut State, free_nodes: u32, pool: &'a mut [u32], beside: B) -> Self {
        Engine {
            nodes: &mut N::nodes_mut(pool)[..state.nodes as usize],
            height: height(state.splitters),
            main_lives: state.main_lives(),
            free_nodes,
            frames: &mut state.frames,
            head: &mut state.head,
            beside,
        }
    }

    /// The whole records of a tape.
    #[inline(always)]
    fn run(&mut self, bytes: &[u8], answers: &mut [u32]) {
        let (records, _) = bytes.as_chunks::<RECORD_BYTES>();
        let (answers, _) = answers.as_chunks_mut::<2>();
        for (&[kind, worker, f0, f1, v0, v1, v2, v3], answer) in records.iter().zip(answers) {
            let field = u16::from_le_bytes([f0, f1]);
            let value = u32::from_le_bytes([v0, v1, v2, v3]);
            let step = Step::decode(kind.into(), worker.into(), field.into(), value);
            *answer = self.answer(step).into();
        }
    }

    #[inline(always)]
    fn answer(&mut self, step: Option<Step>) -> (u32, u32) {
        let taken = step
            .ok_or(Refusal::BadRecord)
            .and_then(|step| self.take(step));
        taken.unwrap_or_else(|refusal| (refusal as u32, 0))
    }

    #[inline(always)]
    fn take(&mut self, step: Step) -> Result<(u32, u32), Refusal> {
        Ok(match step {
            Step::Spawn(worker) => (101, self.spawn(worker)?),
            Step::Return(worker) => (102, self.end(worker)?),
            Step::Steal(worker, victim) => (103, self.steal(worker, victim)?),
            Step::Sync(worker) => (104, self.sync(worker)?),
            Step::Read(worker, splitter) => (105, self.read(worker, splitter)?),
            Step::Write(worker, splitter, value) => (106, self.write(worker, splitter, value)?),
            Step::Fold(worker, reducer, value) => (107, self.fold(worker, reducer, value)?),
        })
    }

    /// The bottom frame of a worker. A worker that is not idle shows that Main lives.
    fn bottom(&self, worker: u32) -> Result<usize, Refusal> {
        if worker >= self.head.workers {
            return Err(Refusal::UnknownWorker);
        }
        match self.head.deques[worker as usize].bottom() {
            Some(frame) => Ok(frame as usize),
            None if self.main_lives => Err(Refusal::WorkerHasNoFrame),
            None => Err(Refusal::RunIsOver),
        }
    }

    /// The child's depth.
    #[inline(always)]
    fn spawn(&mut self, worker: u32) -> Result<u32, Refusal> {
        let bottom = self.bottom(worker)?;
        let place = self.head.vacant;
        if place == NONE {
            return Err(Refusal::FramesFull);
        }
        if self.frames[bottom].outstanding > 0 {
            self.relink(bottom as u32, NONE, place);
        }
        let parent = &mut self.frames[bottom];
        parent.outstanding += 1;
        let child = Frame {
            live: 1,
            parent: bottom as u32,
            depth: parent.depth + 1,
            outstanding: 0,
            suspended: 0,
            root: parent.root,
            returning: 0,
            view: mem::replace(&mut parent.view, View::IDENTITY),
            younger: NONE,
        };
        self.retain(child.root);
        self.head.vacant = self.frames[place as usize].parent;
        self.frames[place as usize] = child;
        self.head.deques[worker as usize].push(place);
        self.beside.spawns(bottom, place);
        Ok(child.depth)
    }

    /// A return's outcome. A bottom frame with a live child is alone in its deque.
    #[inline(always)]
    fn end(&mut self, worker: u32) -> Result<u32, Refusal> {
        let bottom = self.bottom(worker)?;
        self.head.deques[worker as usize].pop();
        let frame = &mut self.frames[bottom];
        if frame.outstanding > 0 {
            frame.suspended = 1;
            frame.returning = 1;
            return Ok(4);
        }
        let time = self.beside.ends(bottom);
        let parent = self.vacate(bottom as u32);
        if parent == NONE {
            self.beside.finishes(time);
            return Ok(3);
        }
        let deque = &mut self.head.deques[worker as usize];
        if deque.length > 0 {
            self.beside.hears(parent, time);
            return Ok(0);
        }
        let above = &mut self.frames[parent as usize];
        if above.suspended == 0 || above.outstanding > 0 {
            self.beside.hears(parent, time);
            return Ok(1);
        }
        if above.returning == 1 {
            return Ok(self.end_waiting(worker, parent, time));
        }
        above.suspended = 0;
        deque.push(parent);
        self.beside.hears(parent, time);
        self.beside.passes(parent as usize);
        Ok(2)
    }

    /// A frame ends: its view joins the next one's, or becomes the totals, its place is free, and its tree is released. Its parent, or none.
    #[inline(always)]
    fn vacate(&mut self, place: u32) -> u32 {
        let Frame {
            parent, root, view, ..
        } = self.frames[place as usize];
        if parent == NONE {
            self.main_lives = false;
            self.head.totals = view;
        } else {
            self.leave(place, parent, view);
        }
        self.frames[place as usize] = Frame::vacant(self.head.vacant);
        self.head.vacant = place;
        self.release(root, self.height);
        parent
    }

    /// An only child's view joins its parent's.
    #[inline(always)]
    fn leave(&mut self, place: u32, parent: u32, view: View) {
        let above = &mut self.frames[parent as usize];
        above.outstanding -= 1;
        if above.outstanding > 0 {
            self.leave_siblings(place);
        } else {
            above.view = view.join(above.view);
        }
    }

    /// The next one in the order of the live frames is the first of the next younger sibling and all below it, or the parent after the
    /// youngest child.
    #[inline(never)]
    fn leave_siblings(&mut self, place: u32) {
        let Frame {
            parent,
            younger,
            view,
            ..
        } = self.frames[place as usize];
        self.relink(parent, place, younger);
        let next = match younger {
            NONE => parent,
            _ => self.first_from(younger),
        };
        let next = &mut self.frames[next as usize];
        next.view = view.join(next.view);
    }

    /// The live child of this parent that names `old` as its next younger sibling, if there is one, names `new` instead.
    #[inline(never)]
    fn relink(&mut self, parent: u32, old: u32, new: u32) {
        let mut frames = self.frames.iter_mut();
        let elder = frames.find(|f| f.live == 1 && f.parent == parent && f.younger == old);
        if let Some(elder) = elder {
            elder.younger = new;
        }
    }

    /// Down the eldest children.
    fn first_from(&self, mut place: u32) -> u32 {
        while self.frames[place as usize].outstanding > 0 {
            place = self.eldest(place);
        }
        place
    }

    /// The eldest live child: of the children's places and the links between them, the last of which is none, all but this place and none
    /// come twice.
    fn eldest(&self, parent: u32) -> u32 {
        let frames = (0..).zip(&*self.frames);
        let children = frames.filter(|(_, f)| f.live == 1 && f.parent == parent);
        children.fold(NONE, |rest, (place, f)| rest ^ place ^ f.younger)
    }

    /// Ends frames that wait as returning, from this one upward, each after its last child; the worker's deque is empty.
    #[cold]
    #[inline(never)]
    fn end_waiting(&mut self, worker: u32, mut ending: u32, mut time: B::Time) -> u32 {
        loop {
            time = self.beside.ends_too(ending as usize, time);
            let parent = self.vacate(ending);
            if parent == NONE {
                self.beside.finishes(time);
                return 3;
            }
            let above = &mut self.frames[parent as usize];
            if above.suspended == 0 || above.outstanding > 0 {
                self.beside.hears(parent, time);
                return 1;
            }
            if above.returning == 0 {
                above.suspended = 0;
                self.head.deques[worker as usize].push(parent);
                self.beside.hears(parent, time);
                self.beside.passes(parent as usize);
                return 2;
            }
            ending = parent;
        }
    }

    /// The stolen frame's depth.
    #[inline(always)]
    fn steal(&mut self, thief: u32, victim: u32) -> Result<u32, Refusal> {
        match self.bottom(thief) {
            Ok(_) => return Err(Refusal::ThiefBusy),
            Err(Refusal::WorkerHasNoFrame) => {}
            Err(refusal) => return Err(refusal),
        }
        if victim >= self.head.workers || self.head.deques[victim as usize].length < 2 {
            return Err(Refusal::NothingToSteal);
        }
        let stolen = self.head.deques[victim as usize].take_top();
        self.head.deques[thief as usize].push(stolen);
        Ok(self.frames[stolen as usize].depth)
    }

    /// A sync's outcome. A bottom frame with a live child is alone in its deque.
    #[inline(always)]
    fn sync(&mut self, worker: u32) -> Result<u32, Refusal> {
        let bottom = self.bottom(worker)?;
        self.beside.syncs();
        let frame = &mut self.frames[bottom];
        if frame.outstanding == 0 {
            self.beside.passes(bottom);
            return Ok(0);
        }
        frame.suspended = 1;
        self.head.deques[worker as usize].pop();
        Ok(1)
    }

    #[inline(always)]
    fn read(&mut self, worker: u32, splitter: u32) -> Result<u32, Refusal> {
        let bottom = self.bottom(worker)?;
        if splitter >= self.head.splitters {
            return Err(Refusal::UnknownSplitter);
        }
        self.beside.costs(bottom);
        let mut node = self.frames[bottom].root;
        for level in (0..self.height).rev() {
            node = self.nodes[node as usize].link(splitter >> level & 1);
        }
        Ok(self.nodes[node as usize].value())
    }

    /// The free nodes left. From the root down, nodes with one holder stay where they are; from the first with more holders on, the path
    /// is new.
    #[inline(always)]
    fn write(&mut self, worker: u32, splitter: u32, value: u32) -> Result<u32, Refusal> {
        let bottom = self.bottom(worker)?;
        if splitter >= self.head.splitters {
            return Err(Refusal::UnknownSplitter);
        }
        let mut node = self.frames[bottom].root;
        let mut above = NONE;
        let mut level = self.height;
        while level > 0 && self.nodes[node as usize].holders() == 1 {
            level -= 1;
            above = node;
            node = self.nodes[node as usize].link(splitter >> level & 1);
        }
        if self.nodes[node as usize].holders() == 1 {
            self.nodes[node as usize].set_value(value);
            self.beside.costs(bottom);
            return Ok(self.free_nodes);
        }
        if self.free_nodes <= level {
            return Err(Refusal::PoolFull);
        }
        let new = self.copy_rest(node, level, splitter, value);
        *self.nodes[node as usize].holders_mut() -= 1;
        if above == NONE {
            self.frames[bottom].root = new;
        } else {
            self.nodes[above as usize].set_link(splitter >> level & 1, new);
        }
        self.beside.costs(bottom);
        Ok(self.free_nodes)
    }

    /// For the affine map the value divided by 65,536 is the multiplier and its remainder the addend.
    #[inline(always)]
    fn fold(&mut self, worker: u32, reducer: u32, value: u32) -> Result<u32, Refusal> {
        let bottom = self.bottom(worker)?;
        let view = &mut self.frames[bottom].view;
        match reducer {
            SUM => view.sum = view.sum.wrapping_add(value),
            MIN => view.min = view.min.min(value),
            AFFINE => *view = view.then(value >> 16, value & 0xFFFF),
            _ => return Err(Refusal::UnknownReducer),
        }
        self.beside.costs(bottom);
        Ok(0)
    }

    /// A new path from a node of this level to the splitter, beside the old siblings; its first node.
    #[inline(always)]
    fn copy_rest(&mut self, node: u32, level: u32, splitter: u32, value: u32) -> u32 {
        let first = self.allocate();
        let (mut old, mut new) = (node, first);
        for level in (0..level).rev() {
            let [left, right] = [0, 1].map(|side| self.nodes[old as usize].link(side));
            let child = self.allocate();
            if splitter >> level & 1 == 0 {
                self.nodes[new as usize] = N::inner(child, right);
                self.retain(right);
                old = left;
            } else {
                self.nodes[new as usize] = N::inner(left, child);
                self.retain(left);
                old = right;
            }
            new = child;
        }
        self.nodes[new as usize] = N::leaf(value);
        first
    }

    fn allocate(&mut self) -> u32 {
        let node = self.head.free;
        self.head.free = self.nodes[node as usize].next_free();
        self.free_nodes -= 1;
        node
    }

    /// No link, no change.
    fn retain(&mut self, node: u32) {
        if let Some(cell) = self.nodes.get_mut(node as usize) {
            *cell.holders_mut() += 1;
        }
    }

    /// At zero holders the node, of this level, is freed, then its left link is released, then its right. No link, no change.
    fn release(&mut self, node: u32, level: u32) {
        let Some(cell) = self.nodes.get_mut(node as usize) else {
            return;
        };
        *cell.holders_mut() -= 1;
        if cell.holders() > 0 {
            return;
        }
        let freed = *cell;
        *cell = N::free(self.head.free);
        self.head.free = node;
        self.free_nodes += 1;
        if level > 0 {
            self.release(freed.link(0), level - 1);
            self.release(freed.link(1), level - 1);
        }
    }
}

/// Soundness, in time linear in the nodes: the number of free nodes if state and pool are sound. `work` has at least a word for each
/// recorded node; these words are zero afterwards.
#[inline(always)]
pub fn sound(state: &State, pool: &[u32], work: &mut [u32]) -> Option<u32> {
    sound_of::<Node>(state, pool, work)
}

#[inline(always)]
pub fn sound_of<N: Layout>(state: &State, pool: &[u32], work: &mut [u32]) -> Option<u32> {
    let marks = &mut work[..state.nodes as usize];
    marks.fill(0);
    let free_nodes = judge::<N>(state, pool, marks);
    marks.fill(0);
    free_nodes
}

#[inline(always)]
fn judge<N: Layout>(state: &State, pool: &[u32], marks: &mut [u32]) -> Option<u32> {
    let nodes = N::nodes(pool);
    if !numbers_sound(state, nodes.len()) || !frames_sound(state) {
        return None;
    }
    let nodes = &nodes[..marks.len()];
    let reached = walk_trees(state, nodes, marks)?;
    let free_nodes = state.nodes - reached;
    let counts_right = marks
        .iter()
        .zip(nodes)
        .all(|(mark, node)| mark & LINKS == node.holders());
    let sound = counts_right && free_chain_sound(state.free, free_nodes, nodes);
    sound.then_some(free_nodes)
}

fn numbers_sound(state: &State, held: usize) -> bool {
    let n = state.splitters;
    (1..=MAX_WORKERS as u32).contains(&state.workers)
        && (1..=MAX_SPLITTERS as u32).contains(&n)
        && (tree_nodes(n)..=MAX_NODES as u32).contains(&state.nodes)
        && state.nodes as usize <= held
        && (1..=MAX_PLACES as u32).contains(&state.places)
        && state.places as usize == state.frames.len()
}

/// A bit for each place.
#[derive(Default)]
struct Met([u64; MAX_PLACES / 64]);

impl Met {
    fn has(&self, place: usize) -> bool {
        self.0[place / 64] >> (place % 64) & 1 == 1
    }

    /// Whether it is met for the first time.
    fn meet(&mut self, place: usize) -> bool {
        let first = !self.has(place);
        self.0[place / 64] |= 1 << (place % 64);
        first
    }
}

fn frames_sound(state: &State) -> bool {
    let mut queued = Met::default();
    let deques_right = (0..).zip(&state.deques).all(|(worker, deque)| {
        (worker < state.workers || deque.length == 0) && deque_sound(state, deque, &mut queued)
    });
    deques_right && live_frames_sound(state, &queued) && vacant_chain_sound(state)
}

/// `queued` has the frames met in a deque so far.
fn deque_sound(state: &State, deque: &Deque, queued: &mut Met) -> bool {
    let Some((frames, past)) = deque.places.split_at_checked(deque.length as usize) else {
        return false;
    };
    // all of them: the compiler makes vectors of that
    if past.iter().fold(0, |all, place| all | place) != 0 {
        return false;
    }
    let mut above = None;
    for (place, &number) in frames.iter().enumerate() {
        let Some(frame) = state.frames.get(number as usize) else {
            return false;
        };
        if frame.live != 1 || frame.suspended != 0 || !queued.meet(number as usize) {
            return false;
        }
        if let Some(parent) = above {
            let below = (place + 1 < frames.len()) as u32;
            if frame.parent != parent || frame.outstanding != below {
                return false;
            }
        }
        above = Some(number);
    }
    true
}

fn live_frames_sound(state: &State, queued: &Met) -> bool {
    let mut children = [0; MAX_PLACES];
    let mut eldest = [NONE; MAX_PLACES];
    let (mut live, mut mains) = (0, 0);
    for (number, frame) in state.frames.iter().enumerate() {
        match (frame.live, frame.suspended, queued.has(number)) {
            (0, _, _) => continue,
            (1, 0, true) if frame.returning == 0 => {}
            (1, 1, false) if frame.outstanding > 0 && frame.returning <= 1 => {}
            _ => return false,
        }
        live += 1;
        if frame.depth == 0 {
            mains += 1;
            if frame.parent != NONE || frame.younger != NONE {
                return false;
            }
            continue;
        }
        match state.frames.get(frame.parent as usize) {
            Some(parent) if parent.live == 1 && parent.depth == frame.depth - 1 => {}
            _ => return false,
        }
        children[frame.parent as usize] += 1;
        eldest[frame.parent as usize] ^= number as u32 ^ frame.younger;
    }
    let mut frames = (0..).zip(&state.frames).zip(children.iter().zip(&eldest));
    let children_right = frames.all(|((number, frame), (&count, &eldest))| {
        frame.live == 0
            || frame.outstanding == count && siblings_chained(state, number, count, eldest)
    });
    mains == live.min(1) && children_right && (live == 0 || state.totals == View::default())
}

/// A chain that ends after as many steps as the frame has live children, through these only, holds each of them once.
fn siblings_chained(state: &State, parent: u32, count: u32, eldest: u32) -> bool {
    let mut next = eldest;
    for _ in 0..count {
        match state.frames.get(next as usize) {
            Some(frame) if frame.live == 1 && frame.parent == parent => next = frame.younger,
            _ => return false,
        }
    }
    next == NONE
}

/// A chain that ends after as many steps as there are free places, through free places only, holds each of them once.
fn vacant_chain_sound(state: &State) -> bool {
    let vacant = state.frames.iter().filter(|frame| frame.live == 0).count();
    let mut next = state.vacant;
    for _ in 0..vacant {
        match state.frames.get(next as usize) {
            Some(frame) if *frame == Frame::vacant(frame.parent) => next = frame.parent,
            _ => return false,
        }
    }
    next == NONE
}

/// A mark counts the links to a node in its low half; its high half tells where the node stands. No count reaches 65,536.
const LINKS: u32 = 0xFFFF;

/// Walks the trees of all live frames, each node once: the number of nodes reached.
fn walk_trees<N: Layout>(state: &State, nodes: &[N], marks: &mut [u32]) -> Option<u32> {
    let mut walk = Walk {
        nodes,
        marks,
        reached: 0,
    };
    let level = height(state.splitters);
    state
        .frames
        .iter()
        .filter(|frame| frame.live != 0)
        .all(|frame| walk.visit(frame.root, level, state.splitters))
        .then_some(walk.reached)
}

struct Walk<'a, N> {
    nodes: &'a [N],
    marks: &'a mut [u32],
    reached: u32,
}

impl<N: Layout> Walk<'_, N> {
    /// A tree of this level with so many leaves stands at `node`. No node may be reached on two levels, and no tree of a level has two
    /// numbers of leaves, so a node met again must be met as before, and need not be walked again.
    fn visit(&mut self, node: u32, level: u32, leaves: u32) -> bool {
        let Some(mark) = self.marks.get_mut(node as usize) else {
            return false;
        };
        let standing = level << 24 | (leaves - 1) << 16;
        if *mark != 0 {
            *mark += 1;
            return *mark & !LINKS == standing;
        }
        *mark = standing | 1;
        self.reached += 1;
        let node = &self.nodes[node as usize];
        if level == 0 {
            return node.may_be_leaf();
        }
        let half = 1 << (level - 1);
        node.may_be_inner()
            && self.visit(node.link(0), level - 1, leaves.min(half))
            && if leaves > half {
                self.visit(node.link(1), level - 1, leaves - half)
            } else {
                node.link(1) == N::NO_LINK
            }
    }
}

/// A chain that ends after as many steps as there are free nodes, through free nodes only, holds each of them once. The reference counts
/// are known to be right, so a node without holders was not reached.
fn free_chain_sound<N: Layout>(first: u32, free_nodes: u32, nodes: &[N]) -> bool {
    let mut next = first;
    for _ in 0..free_nodes {
        match nodes.get(next as usize) {
            Some(node) if node.holders() == 0 && node.may_be_free() => next = node.next_free(),
            _ => return false,
        }
    }
    next == NONE
}
