//! The refusals, "Refused, in checking order". Numbers 5, 6 and 21 cannot
//! occur in splitrun: its work slice is long enough, its state is sound and its
//! frame table has 64 places. 14 no longer occurs (R-3 of document 02); 20 is
//! R-5's, 21 R-6's.

#[derive(Clone, Copy, Debug, PartialEq, Eq)]
pub enum Refusal {
    /// "At a start, there are 0 or more than 256 initial values."
    InitialValues = 1,
    /// "At a start, there are 0 or more than 8 workers."
    Workers = 2,
    /// "At a start, the pool has fewer than T(n) or more than 16,384 nodes."
    PoolNodes = 3,
    /// "The tape is not a multiple of 8 bytes."
    RaggedTape = 4,
    /// "The kind is not 1 to 6, or an unused field is not zero." R-5: "Refusal
    /// 7 lets kind 7 pass."
    Record = 7,
    /// "The worker does not exist."
    NoWorker = 8,
    /// "Main has returned."
    MainReturned = 9,
    /// "The step is not a steal and the worker is idle."
    Idle = 10,
    /// "The step is a steal and the thief is not idle."
    ThiefNotIdle = 11,
    /// "The victim does not exist or has fewer than two frames."
    Victim = 12,
    /// "The step is a spawn and" as many frames live as the table has places
    ///
    TooManyFrames = 13,
    /// "The step is a read or a write and the splitter is not below n."
    Splitter = 15,
    /// The step is a write, and fewer nodes are free than "the rest of the
    /// path" has that must be new (R-2 of document 02).
    TooFewNodes = 16,
    /// "kind 7 names no reducer, in the place of 15".
    Reducer = 20,
    /// "at a start, the table has 0 or more than 256 places, after 2".
    Places = 21,
}

impl Refusal {
    pub fn number(self) -> u32 {
        self as u32
    }
}
