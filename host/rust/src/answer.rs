use core::fmt;

/// What an accepted step did.
#[derive(Clone, Copy, Debug, PartialEq, Eq, Hash)]
pub enum Done {
    /// The child's depth.
    Spawned(u32),
    Returned(Returned),
    /// The stolen frame's depth.
    Stolen(u32),
    Synced(Synced),
    /// The value read.
    Value(u32),
    /// The free nodes left.
    Written(u32),
    Folded,
}

/// The outcome of a return. If the worker's deque is empty and the parent waits as returning, with no other
/// live child, the parent ends too, and so on upward: idle, resumed and finished tell where that stopped.
#[derive(Clone, Copy, Debug, PartialEq, Eq, Hash)]
pub enum Returned {
    /// The parent is now the bottom frame of the same deque.
    Continued,
    /// The worker is idle: the frame above those that ended has other live children, or is in a deque.
    BecameIdle,
    /// The frame above those that ended waited at a sync: it goes on, on this worker, with its own view.
    Resumed,
    /// Main has ended.
    Finished,
    /// The frame has a live child: it has not ended, but waits as returning; the worker is idle.
    Waits,
}

/// The outcome of a sync.
#[derive(Clone, Copy, Debug, PartialEq, Eq, Hash)]
pub enum Synced {
    /// The frame has no live child and goes on.
    Passed,
    /// The frame waits for its children; its worker is idle.
    Suspended,
}

/// Why a call or a step was refused. Its display is the text that splitter.h has for the number.
#[derive(Clone, Copy, Debug, PartialEq, Eq, Hash)]
pub enum Refusal {
    /// At a start, 0 or more than 256 initial values.
    BadValueCount,
    /// At a start, 0 or more than 8 workers.
    BadWorkerCount,
    /// At a start, a frame table of 0 or more than 256 places.
    BadPlaceCount,
    /// At a start, a pool of fewer than T(n) or more than 16,384 nodes.
    BadNodeCount,
    /// A tape, or that of a report, that is not a multiple of 8 bytes, or fewer than two answer words for each record.
    BadTape,
    /// Fewer words in the work slice than nodes in the state or the image.
    ShortWork,
    /// State, table and pool are not sound: somebody else wrote to them, or there was no start. Or the table has
    /// another length than recorded. Of a reading: the image's are not sound, or the pool has fewer nodes than
    /// the image.
    Unsound,
    /// A record whose kind is not 1 to 7, or with an unused field that is not zero. No
    /// [`Step`](crate::Step) makes one.
    BadRecord,
    /// The worker does not exist.
    UnknownWorker,
    /// Main has returned: it has ended, and no frame lives.
    RunIsOver,
    /// The worker of a step that is no steal is idle.
    WorkerHasNoFrame,
    /// The thief is not idle.
    ThiefBusy,
    /// The victim does not exist or has fewer than two frames.
    NothingToSteal,
    /// A spawn while as many frames live as the table has places.
    FramesFull,
    /// The splitter is not below n.
    UnknownSplitter,
    /// A fold into no [`Reducer`](crate::Reducer). No [`Step`](crate::Step) makes one.
    UnknownReducer,
    /// A write while fewer nodes are free than the shared rest of its path has.
    PoolFull,
    /// An image that is not just as many whole blocks as its first block calls for, has no whole block, or
    /// whose first word is not 1,024 to 1,279: a form that this library does not read.
    BadBlocks,
    /// An image with a wrong check, or with a rest of its last block that is not zero.
    BadCheck,
    /// A target shorter than the image.
    ShortTarget,
    /// A report whose Main has not returned, or whose span is 0. The tape has run, and the run is there; only the
    /// report is withheld.
    NoSpan,
    /// A part of the state, or the clocks of a report, have another length than they must have. No
    /// [`State`](crate::State) has such a part.
    BadState,
    /// An answer that this binding does not know, with its first word: the archive is of another version.
    Unknown(u32),
}

/// The answer to one step or record.
pub type Answer = Result<Done, Refusal>;

/// The known refusals, with their numbers and texts.
const REFUSALS: [(Refusal, u32, &str); 22] = [
    (Refusal::BadValueCount, 1, "0 or more than 256 initial values"),
    (Refusal::BadWorkerCount, 2, "0 or more than 8 workers"),
    (Refusal::BadNodeCount, 3, "too few or too many nodes in the pool"),
    (Refusal::BadTape, 4, "not whole records, or too few answer words"),
    (Refusal::ShortWork, 5, "the work slice is too short"),
    (Refusal::Unsound, 6, "state, table and pool are not sound"),
    (Refusal::BadRecord, 7, "no such kind, or an unused field is not zero"),
    (Refusal::UnknownWorker, 8, "no such worker"),
    (Refusal::RunIsOver, 9, "Main has returned"),
    (Refusal::WorkerHasNoFrame, 10, "the worker is idle"),
    (Refusal::ThiefBusy, 11, "the thief is not idle"),
    (Refusal::NothingToSteal, 12, "the victim has no frame to steal"),
    (Refusal::FramesFull, 13, "every place of the frame table is taken"),
    (Refusal::UnknownSplitter, 15, "no such splitter"),
    (Refusal::PoolFull, 16, "too few free nodes"),
    (Refusal::BadBlocks, 17, "the image is not just as many whole blocks as it calls for, or of no readable form"),
    (Refusal::BadCheck, 18, "a check is wrong or the rest of the last block is not zero"),
    (Refusal::ShortTarget, 19, "the target is too short"),
    (Refusal::UnknownReducer, 20, "no such reducer"),
    (Refusal::BadPlaceCount, 21, "0 or more than 256 places in the frame table"),
    (Refusal::NoSpan, 22, "Main has not returned, or the span is 0"),
    (Refusal::BadState, 99, "state, clocks or report have another length than they must have"),
];

impl Refusal {
    /// The refusal of this number.
    pub fn from_number(number: u32) -> Refusal {
        let known = REFUSALS.iter().find(|row| row.1 == number);
        known.map_or(Refusal::Unknown(number), |row| row.0)
    }

    /// The number that the library gives.
    pub fn number(self) -> u32 {
        match self {
            Refusal::Unknown(number) => number,
            known => REFUSALS.iter().find(|row| row.0 == known).map_or(0, |row| row.1),
        }
    }
}

impl fmt::Display for Refusal {
    fn fmt(&self, to: &mut fmt::Formatter<'_>) -> fmt::Result {
        match REFUSALS.iter().find(|row| row.0 == *self) {
            Some(row) => to.write_str(row.2),
            None => write!(to, "unknown number {}", self.number()),
        }
    }
}

impl core::error::Error for Refusal {}

impl Done {
    /// The two answer words.
    pub fn words(self) -> [u32; 2] {
        match self {
            Done::Spawned(depth) => [101, depth],
            Done::Returned(outcome) => [102, outcome as u32],
            Done::Stolen(depth) => [103, depth],
            Done::Synced(outcome) => [104, outcome as u32],
            Done::Value(value) => [105, value],
            Done::Written(free) => [106, free],
            Done::Folded => [107, 0],
        }
    }
}

impl fmt::Display for Done {
    fn fmt(&self, to: &mut fmt::Formatter<'_>) -> fmt::Result {
        to.write_str(match self {
            Done::Spawned(_) => "spawned",
            Done::Returned(_) => "returned",
            Done::Stolen(_) => "stolen",
            Done::Synced(_) => "synced",
            Done::Value(_) => "value",
            Done::Written(_) => "written",
            Done::Folded => "folded",
        })
    }
}

/// The answer that two answer words mean.
pub fn answer(words: [u32; 2]) -> Answer {
    Ok(match words {
        [101, depth] => Done::Spawned(depth),
        [102, 0] => Done::Returned(Returned::Continued),
        [102, 1] => Done::Returned(Returned::BecameIdle),
        [102, 2] => Done::Returned(Returned::Resumed),
        [102, 3] => Done::Returned(Returned::Finished),
        [102, 4] => Done::Returned(Returned::Waits),
        [103, depth] => Done::Stolen(depth),
        [104, 0] => Done::Synced(Synced::Passed),
        [104, 1] => Done::Synced(Synced::Suspended),
        [105, value] => Done::Value(value),
        [106, free] => Done::Written(free),
        [107, 0] => Done::Folded,
        [refusal, 0] => return Err(Refusal::from_number(refusal)),
        [unknown, _] => return Err(Refusal::Unknown(unknown)),
    })
}

/// The answers of a tape, from its answer words.
pub fn answers(words: &[u32]) -> impl Iterator<Item = Answer> + '_ {
    words.chunks_exact(2).map(|pair| answer([pair[0], pair[1]]))
}
