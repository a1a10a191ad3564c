//! Safe binding of libsplitter.a: splitters over stolen work. `host/include/splitter.h` describes
//! the library.
//!
//! The host lends all memory: a [`State`], a table of 1 to 256 [`Frame`]s, a pool of [`NODE_WORDS`] words
//! for each node, and a work slice of a word for each node. As many frames can live as the table has places,
//! 48 bytes each; a call changes the records where they are. The library checks every call, so whatever
//! the lent words hold, a call is safe; one that it cannot use is refused.
//!
//! ```
//! use splitter::{Engine, Frame, Returned, State, Synced, NODE_WORDS};
//!
//! let (mut state, mut table) = (State::ZERO, [Frame::ZERO; 64]);
//! let (mut pool, mut work) = ([0; 20 * NODE_WORDS], [0; 20]);
//! let mut engine = Engine { state: &mut state, frames: &mut table, pool: &mut pool, work: &mut work };
//! engine.start(2, &[10, 20, 30, 40, 50])?;
//! engine.spawn(0)?;
//! engine.steal(1, 0)?; // worker 1 takes the parent
//! engine.write(1, 4, 99)?;
//! assert_eq!(engine.read(0, 4)?, 50); // the child does not see it
//! assert_eq!(engine.sync(1)?, Synced::Suspended);
//! assert_eq!(engine.ret(0)?, Returned::Resumed); // the parent goes on, on worker 0
//! assert_eq!(engine.read(0, 4)?, 99); // and reads its own value
//! # Ok::<(), splitter::Refusal>(())
//! ```
//!
//! A return needs no sync before it: a frame with a live child waits, and ends with its last child.
//!
//! ```
//! use splitter::{Engine, Frame, Returned, State, NODE_WORDS};
//!
//! let (mut state, mut table) = (State::ZERO, [Frame::ZERO; 64]);
//! let (mut pool, mut work) = ([0; 20 * NODE_WORDS], [0; 20]);
//! let mut engine = Engine { state: &mut state, frames: &mut table, pool: &mut pool, work: &mut work };
//! engine.start(2, &[10, 20, 30, 40, 50])?;
//! engine.spawn(0)?;
//! engine.steal(1, 0)?;
//! assert_eq!(engine.ret(1)?, Returned::Waits); // Main has returned, but its child runs
//! assert_eq!(engine.ret(0)?, Returned::Finished); // the child ends, and Main with it
//! # Ok::<(), splitter::Refusal>(())
//! ```
//!
//! State and table tell what the run is at, without a call:
//!
//! ```
//! use splitter::{Engine, Frame, State, NODE_WORDS};
//!
//! let (mut state, mut table) = (State::ZERO, [Frame::ZERO; 64]);
//! let (mut pool, mut work) = ([0; 20 * NODE_WORDS], [0; 20]);
//! let mut engine = Engine { state: &mut state, frames: &mut table, pool: &mut pool, work: &mut work };
//! engine.start(2, &[10, 20, 30, 40, 50])?;
//! engine.spawn(0)?;
//! assert_eq!((engine.live_frames(), engine.state.places(), engine.state.deque_length(0)), (2, 64, 2));
//! assert_eq!((engine.bottom_depth(0), engine.bottom_depth(1)), (Some(1), None));
//! assert!(!engine.state.main_returned());
//! # Ok::<(), splitter::Refusal>(())
//! ```
//!
//! Three reducers add up what all frames find. Their totals are those of a run by one worker, whatever was
//! stolen:
//!
//! ```
//! use splitter::{affine, Engine, Frame, Reducer, Returned, State, Totals, NODE_WORDS};
//!
//! let (mut state, mut table) = (State::ZERO, [Frame::ZERO; 64]);
//! let (mut pool, mut work) = ([0; 20 * NODE_WORDS], [0; 20]);
//! let mut engine = Engine { state: &mut state, frames: &mut table, pool: &mut pool, work: &mut work };
//! engine.start(2, &[10, 20, 30, 40, 50])?;
//! engine.spawn(0)?;
//! engine.steal(1, 0)?;
//! engine.fold(1, Reducer::Sum, 5)?; // Main, before its child
//! engine.fold(1, Reducer::Affine, affine(10, 2))?;
//! assert_eq!(engine.ret(1)?, Returned::Waits);
//! engine.fold(0, Reducer::Sum, 7)?;
//! engine.fold(0, Reducer::Min, 7)?;
//! engine.fold(0, Reducer::Affine, affine(10, 1))?;
//! assert_eq!(engine.state.totals(), None);
//! assert_eq!(engine.ret(0)?, Returned::Finished);
//! // The child's map is the earlier one: x to 10 x + 1, then to 10 times that plus 2.
//! assert_eq!(engine.state.totals(), Some(Totals { sum: 12, min: 7, multiplier: 100, addend: 12 }));
//! # Ok::<(), splitter::Refusal>(())
//! ```
//!
//! A report of a tape tells how many cores the search can keep busy:
//!
//! ```
//! use splitter::{clocks_words, Engine, Frame, Report, State, Step, NODE_WORDS};
//!
//! let (mut state, mut table) = (State::ZERO, [Frame::ZERO; 64]);
//! let (mut pool, mut work) = ([0; 20 * NODE_WORDS], [0; 20]);
//! let mut engine = Engine { state: &mut state, frames: &mut table, pool: &mut pool, work: &mut work };
//! let steps = [
//!     Step::Spawn { worker: 0 },
//!     Step::Read { worker: 0, splitter: 4 }, // the child
//!     Step::Return { worker: 0 },
//!     Step::Read { worker: 0, splitter: 4 }, // Main, which does not wait for it
//!     Step::Read { worker: 0, splitter: 3 },
//!     Step::Return { worker: 0 },
//! ];
//! let (mut answers, mut clocks) = ([0; 2 * 6], [0; clocks_words(64)]);
//! let tape = steps.map(Step::to_bytes).concat();
//! let report = engine.report(1, &[10, 20, 30, 40, 50], &tape, &mut answers, &mut clocks)?;
//! assert_eq!(report, Report { work: 4, span: 3, quotient: 1, remainder: 1 }); // 1 and 1/3 cores
//! # Ok::<(), splitter::Refusal>(())
//! ```
//!
//! A run can be saved as an image and read back, in another process too:
//!
//! ```
//! use splitter::{image_array_bytes, Engine, Frame, State, NODE_WORDS};
//!
//! let mut image = [0; image_array_bytes(64, 20)];
//! let (mut state, mut table) = (State::ZERO, [Frame::ZERO; 64]);
//! let (mut pool, mut work) = ([0; 20 * NODE_WORDS], [0; 20]);
//! let mut engine = Engine { state: &mut state, frames: &mut table, pool: &mut pool, work: &mut work };
//! engine.start(2, &[10, 20, 30, 40, 50])?;
//! engine.write(0, 4, 99)?;
//! engine.save(&mut image)?;
//!
//! let (mut state, mut table) = (State::ZERO, [Frame::ZERO; 64]); // as many places as the saved run's
//! let (mut pool, mut work) = ([7; 30 * NODE_WORDS], [7; 30]);
//! let mut engine = Engine { state: &mut state, frames: &mut table, pool: &mut pool, work: &mut work };
//! engine.load(&image)?; // whatever the memory held
//! assert_eq!(engine.read(0, 4)?, 99);
//! # Ok::<(), splitter::Refusal>(())
//! ```
//!
//! A run that the library before has begun, with four words to a node, goes on after a change-over. State and table are
//! the same in both:
//!
//! ```
//! use splitter::{Engine, Frame, State, NODE_WORDS, NODE_WORDS_OLD, NONE};
//!
//! # let (mut state, mut table, mut work) = (State::ZERO, [Frame::ZERO; 64], [0; 2]);
//! # let (frames, pool) = (&mut table, &mut [0; 2 * NODE_WORDS]);
//! # Engine { state: &mut state, frames, pool, work: &mut work }.start(1, &[7])?;
//! // one splitter, two nodes: Main's leaf, holders, no links and its value; and a free node
//! let mut pool: [u32; 2 * NODE_WORDS_OLD] = [1, NONE, NONE, 7, 0, NONE, 0, 0];
//! let mut engine = Engine { state: &mut state, frames: &mut table, pool: &mut pool, work: &mut work };
//! engine.convert()?;
//! assert_eq!(engine.pool, [1, 7, 0, NONE, 0, 0, 0, 0]);
//! assert_eq!(engine.read(0, 0)?, 7);
//! # Ok::<(), splitter::Refusal>(())
//! ```
#![no_std]
#![deny(unsafe_code)]

mod answer;
mod frame;
pub mod raw;
mod report;
mod state;
mod step;

pub use answer::{answer, answers, Answer, Done, Refusal, Returned, Synced};
pub use frame::Frame;
pub use report::Report;
pub use state::{State, Totals};
pub use step::{affine, Reducer, Step};

/// The version of splitter.h that this binding follows; the package has the same.
pub const VERSION_MAJOR: u32 = 0;
/// Its minor number.
pub const VERSION_MINOR: u32 = 4;
/// Both, to compare.
pub const VERSION: u32 = VERSION_MAJOR * 1000 + VERSION_MINOR;

/// None, where a place or a number could be.
pub const NONE: u32 = u32::MAX;
/// The words of the state's numbers.
pub const NUMBERS_WORDS: usize = 10;
/// The places of each worker's deque, whatever the table's length.
pub const DEQUE_PLACES: usize = 256;
/// The words of the state's deques.
pub const DEQUES_WORDS: usize = MAX_WORKERS * (1 + DEQUE_PLACES);
/// The words of a node: its holders, then what its level tells.
pub const NODE_WORDS: usize = 2;
/// The words of a node of the library before, with header 0.2, which [`Engine::convert`] takes.
pub const NODE_WORDS_OLD: usize = 4;
/// In the place of an inner node's left or right link, in the low or high half of its second word: none.
pub const NO_LINK: u32 = 65_535;
/// The most nodes of a pool.
pub const MAX_NODES: usize = 16_384;
/// The most splitters.
pub const MAX_SPLITTERS: usize = 256;
/// The most workers.
pub const MAX_WORKERS: usize = 8;
/// The most places of a frame table.
pub const MAX_PLACES: usize = 256;
/// The number of reducers.
pub const REDUCERS: usize = 3;

/// The bytes of a block of an image.
pub const BLOCK_BYTES: usize = 512;
/// The words of a block's data; its check follows them.
pub const BLOCK_WORDS: usize = 127;
/// Added to the workers in an image's first word.
pub const IMAGE_VERSION: u32 = 1_024;

/// The bytes of an image that a save writes, of so many places and nodes: whole blocks.
pub fn image_bytes(places: u32, nodes: u32) -> u64 {
    raw::image_bytes(places, nodes)
}

/// The same as a constant, to size an array: for 0 to [`MAX_PLACES`] places and 0 to [`MAX_NODES`] nodes.
pub const fn image_array_bytes(places: usize, nodes: usize) -> usize {
    let words = NUMBERS_WORDS + MAX_WORKERS * (1 + places) + Frame::WORDS * places + NODE_WORDS * nodes;
    words.div_ceil(BLOCK_WORDS) * BLOCK_BYTES
}

/// The words, 64 bits each, that the clocks of a report have: two for each place of the table.
pub const fn clocks_words(places: usize) -> usize {
    2 * places
}

/// T(n): the nodes that one full view of n splitters takes, the least that a pool can have.
pub fn tree_nodes(n: u32) -> u64 {
    raw::tree_nodes(n)
}

/// A run, over lent memory. Between calls the words of state, table and pool are the engine's: what
/// another writes there is refused with [`Refusal::Unsound`], unless it is sound as well. The
/// memory outlives the engine: another one over the same words goes on with the run.
pub struct Engine<'a> {
    pub state: &'a mut State,
    /// The frame table, 1 to [`MAX_PLACES`] places: as many frames can live. A start takes it whatever it holds;
    /// every later call needs the same table with the same length.
    pub frames: &'a mut [Frame],
    /// [`NODE_WORDS`] words for each node.
    pub pool: &'a mut [u32],
    /// A word for each node; zero after each call.
    pub work: &'a mut [u32],
}

impl Engine<'_> {
    /// Begins a run with a splitter for each value.
    pub fn start(&mut self, workers: u32, values: &[u32]) -> Result<(), Refusal> {
        call(raw::start(self.state.parts(), self.frames, workers, values, self.pool))
    }

    /// One step.
    pub fn step(&mut self, step: Step) -> Answer {
        let (kind, worker, field, value) = step.fields();
        let fields = [kind.into(), worker.into(), field.into(), value];
        answer(raw::step(self.state.parts(), self.frames, self.pool, self.work, fields))
    }

    /// The worker's bottom frame spawns a child; gives its depth.
    pub fn spawn(&mut self, worker: u8) -> Result<u32, Refusal> {
        match self.step(Step::Spawn { worker })? {
            Done::Spawned(depth) => Ok(depth),
            other => Err(astray(other)),
        }
    }

    /// The bottom frame ends; with a live child it waits and ends with its last child.
    pub fn ret(&mut self, worker: u8) -> Result<Returned, Refusal> {
        match self.step(Step::Return { worker })? {
            Done::Returned(outcome) => Ok(outcome),
            other => Err(astray(other)),
        }
    }

    /// The idle worker takes the victim's top frame; gives its depth.
    pub fn steal(&mut self, worker: u8, victim: u16) -> Result<u32, Refusal> {
        match self.step(Step::Steal { worker, victim })? {
            Done::Stolen(depth) => Ok(depth),
            other => Err(astray(other)),
        }
    }

    /// The bottom frame waits for its children.
    pub fn sync(&mut self, worker: u8) -> Result<Synced, Refusal> {
        match self.step(Step::Sync { worker })? {
            Done::Synced(outcome) => Ok(outcome),
            other => Err(astray(other)),
        }
    }

    /// The value of a splitter in the bottom frame's view.
    pub fn read(&mut self, worker: u8, splitter: u16) -> Result<u32, Refusal> {
        match self.step(Step::Read { worker, splitter })? {
            Done::Value(value) => Ok(value),
            other => Err(astray(other)),
        }
    }

    /// A new value for a splitter in the bottom frame's view; gives the free nodes left.
    pub fn write(&mut self, worker: u8, splitter: u16, value: u32) -> Result<u32, Refusal> {
        match self.step(Step::Write { worker, splitter, value })? {
            Done::Written(free) => Ok(free),
            other => Err(astray(other)),
        }
    }

    /// Takes a value into a reducer; [`State::totals`] has what came of it once Main has returned.
    pub fn fold(&mut self, worker: u8, reducer: Reducer, value: u32) -> Result<(), Refusal> {
        match self.step(Step::Fold { worker, reducer, value })? {
            Done::Folded => Ok(()),
            other => Err(astray(other)),
        }
    }

    /// The live frames, those that wait among them: 0 to the table's places.
    pub fn live_frames(&self) -> usize {
        self.frames.iter().filter(|frame| frame.live != 0).count()
    }

    /// The depth of the frame that the worker executes, or `None` if it is idle or does not exist.
    pub fn bottom_depth(&self, worker: u8) -> Option<u32> {
        self.state.bottom_depth(self.frames, worker)
    }

    /// The free nodes of a sound state and its pool, as a write tells them, asked without one. 0 if the pool
    /// holds fewer nodes than recorded; of a state that is not sound some number.
    pub fn free_nodes(&self) -> u64 {
        raw::free_nodes(&self.state.numbers, self.pool)
    }

    /// Runs a tape of records ([`Step::to_bytes`]), with two answer words for each ([`answers`]). A
    /// refused record does not stop the tape.
    pub fn tape(&mut self, tape: &[u8], answers: &mut [u32]) -> Result<(), Refusal> {
        call(raw::tape(self.state.parts(), self.frames, self.pool, self.work, tape, answers))
    }

    /// Begins a run as [`Engine::start`] does, runs a tape as [`Engine::tape`] does, and reports its work and span.
    /// The clocks are just [`clocks_words`] of the table's places, whatever they hold. Refused by
    /// [`Refusal::NoSpan`] the tape has run, and the run may go on. Refused by another, no step was taken, and the
    /// state is [`State::ZERO`], or, by [`Refusal::BadState`], as it was.
    pub fn report(
        &mut self,
        workers: u32,
        values: &[u32],
        tape: &[u8],
        answers: &mut [u32],
        clocks: &mut [u64],
    ) -> Result<Report, Refusal> {
        let mut words = [0; Report::WORDS];
        let asked = raw::Asked { workers, values, tape };
        let told = raw::Told { answers, clocks, report: &mut words };
        call(raw::report(self.state.parts(), self.frames, self.pool, self.work, asked, told))?;
        Ok(Report::from_words(words))
    }

    /// Saves the run: its image, [`image_bytes`] of its places and nodes, in the front of the target. The bytes past
    /// it never change, and none if the save is refused.
    pub fn save(&mut self, target: &mut [u8]) -> Result<(), Refusal> {
        call(raw::save(self.state.parts(), self.frames, self.pool, self.work, target))
    }

    /// Goes on with a saved run as it was at its save, whatever the lent memory holds. The image is just its
    /// bytes, of the form that [`Engine::save`] writes and of no other; the table has as many places as the saved
    /// run's, the pool may be longer than its nodes. A refused reading leaves [`State::ZERO`], by
    /// [`Refusal::Unsound`] every record of the table and every whole node of the pool zero as well.
    pub fn load(&mut self, image: &[u8]) -> Result<(), Refusal> {
        call(raw::load(self.state.parts(), self.frames, self.pool, self.work, image))
    }

    /// The change-over of a run that the library with header 0.2 has begun: turns its nodes, [`NODE_WORDS_OLD`] words
    /// each, into as many of [`NODE_WORDS`] in the front of the same pool, and the run goes on as if it had begun with
    /// these. The old nodes' other words are zero then; words past the old nodes never change. It is the first call for
    /// such a run, with state, table and pool as the old library left them; splitter.h says more. Refused, nothing has
    /// changed but the work slice.
    pub fn convert(&mut self) -> Result<(), Refusal> {
        call(raw::convert(self.state.parts(), self.frames, self.pool, self.work))
    }
}

/// The result of a whole call.
fn call(number: u32) -> Result<(), Refusal> {
    match number {
        0 => Ok(()),
        number => Err(Refusal::from_number(number)),
    }
}

/// An answer to another step than was asked: the library gives none.
fn astray(done: Done) -> Refusal {
    Refusal::Unknown(done.words()[0])
}
