use crate::raw::Parts;
use crate::{Frame, DEQUES_WORDS, DEQUE_PLACES, NUMBERS_WORDS};

/// The words of a worker in the deques: its deque's length, then its places.
const DEQUE_WORDS: usize = 1 + DEQUE_PLACES;

/// What was folded into each reducer.
#[derive(Clone, Copy, Debug, PartialEq, Eq, Hash)]
pub struct Totals {
    pub sum: u32,
    pub min: u32,
    /// Of the affine map, as `addend`.
    pub multiplier: u32,
    pub addend: u32,
}

/// The state of a run, as splitter.h has it. The calls write it; a host may read and copy it, together with its
/// table and its pool.
#[derive(Clone, Debug, PartialEq, Eq)]
#[repr(C)]
pub struct State {
    /// Workers, splitters, nodes, first free node, first free frame place; then the totals, the sum, the minimum, the
    /// multiplier and the addend, which are zero while Main lives; last the recorded length of the frame table.
    pub numbers: [u32; NUMBERS_WORDS],
    /// For each of 8 workers its deque's length, then [`DEQUE_PLACES`] places for its frames from the top.
    pub deques: [u32; DEQUES_WORDS],
}

impl State {
    /// Zeros: what there is before a start, after a refused one and after a refused reading.
    pub const ZERO: State = State { numbers: [0; NUMBERS_WORDS], deques: [0; DEQUES_WORDS] };

    /// The workers of the run. This and the other queries read the state's words and call nothing. Of a state
    /// that is not sound each gives some number; of [`State::ZERO`] all give 0, `None` or false.
    pub fn workers(&self) -> u32 {
        self.numbers[0]
    }

    /// The splitters of the run.
    pub fn splitters(&self) -> u32 {
        self.numbers[1]
    }

    /// All recorded nodes, in use and free.
    pub fn nodes(&self) -> u32 {
        self.numbers[2]
    }

    /// The recorded length of the frame table: the most frames that can live.
    pub fn places(&self) -> u32 {
        self.numbers[9]
    }

    /// The frames in the worker's deque, 0 to [`DEQUE_PLACES`]: 0 if it is idle or does not exist; from 2 on it
    /// can be stolen from.
    pub fn deque_length(&self, worker: u8) -> usize {
        self.deque(worker).len()
    }

    /// The depth of the frame that the worker executes, by the run's table, or `None` if it is idle or does not
    /// exist.
    pub fn bottom_depth(&self, frames: &[Frame], worker: u8) -> Option<u32> {
        let place = *self.deque(worker).last()? as usize;
        frames.get(place).map(|frame| frame.depth)
    }

    /// Has Main returned? Then a run was started and no worker has a frame: steps are refused by
    /// [`Refusal::RunIsOver`](crate::Refusal::RunIsOver).
    pub fn main_returned(&self) -> bool {
        self.workers() != 0 && self.deques.iter().step_by(DEQUE_WORDS).all(|length| *length == 0)
    }

    /// What all frames have folded, in the order in which one worker would have done it; `None` while Main lives.
    pub fn totals(&self) -> Option<Totals> {
        let [_, _, _, _, _, sum, min, multiplier, addend, _] = self.numbers;
        self.main_returned().then_some(Totals { sum, min, multiplier, addend })
    }

    /// The places of the worker's frames, from the top.
    fn deque(&self, worker: u8) -> &[u32] {
        let Some(words) = self.deques.chunks(DEQUE_WORDS).nth(worker.into()) else { return &[] };
        &words[1..][..DEQUE_PLACES.min(words[0] as usize)]
    }

    /// The parts to lend.
    pub fn parts(&mut self) -> Parts<'_> {
        Parts { numbers: &mut self.numbers, deques: &mut self.deques }
    }
}

impl Default for State {
    fn default() -> State {
        State::ZERO
    }
}
