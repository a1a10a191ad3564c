/// What a fold takes its value into. Arithmetic is modulo 4,294,967,296.
#[derive(Clone, Copy, Debug, PartialEq, Eq, Hash)]
pub enum Reducer {
    /// Adds the values; nothing folded: 0.
    Sum,
    /// Keeps the least value; nothing folded: [`NONE`](crate::NONE).
    Min,
    /// Maps x to multiplier times x plus addend, the earlier map first; nothing folded: 1 and 0. [`affine`] gives
    /// a fold's value.
    Affine,
}

/// The value to fold into [`Reducer::Affine`]: its multiplier in the high 16 bits, its addend in the low ones.
pub const fn affine(multiplier: u16, addend: u16) -> u32 {
    (multiplier as u32) << 16 | addend as u32
}

/// One step of a worker: what the engine is asked to do, and a record of a tape.
#[derive(Clone, Copy, Debug, PartialEq, Eq, Hash)]
pub enum Step {
    /// A new frame, child of the worker's bottom frame.
    Spawn { worker: u8 },
    /// The bottom frame ends; with a live child it waits and ends with its last child.
    Return { worker: u8 },
    /// An idle worker takes the victim's top frame.
    Steal { worker: u8, victim: u16 },
    /// The bottom frame waits for its children.
    Sync { worker: u8 },
    /// The value of a splitter in the bottom frame's view.
    Read { worker: u8, splitter: u16 },
    /// A new value for a splitter in the bottom frame's view.
    Write { worker: u8, splitter: u16, value: u32 },
    /// A value is taken into a reducer.
    Fold { worker: u8, reducer: Reducer, value: u32 },
}

impl Step {
    /// The bytes of a record.
    pub const RECORD_BYTES: usize = 8;

    /// The record of this step.
    pub const fn to_bytes(self) -> [u8; Step::RECORD_BYTES] {
        let (kind, worker, field, value) = self.fields();
        let f = field.to_le_bytes();
        let v = value.to_le_bytes();
        [kind, worker, f[0], f[1], v[0], v[1], v[2], v[3]]
    }

    /// Kind, worker, field and value; a field that the kind does not use is zero.
    pub(crate) const fn fields(self) -> (u8, u8, u16, u32) {
        match self {
            Step::Spawn { worker } => (1, worker, 0, 0),
            Step::Return { worker } => (2, worker, 0, 0),
            Step::Steal { worker, victim } => (3, worker, victim, 0),
            Step::Sync { worker } => (4, worker, 0, 0),
            Step::Read { worker, splitter } => (5, worker, splitter, 0),
            Step::Write { worker, splitter, value } => (6, worker, splitter, value),
            Step::Fold { worker, reducer, value } => (7, worker, reducer as u16, value),
        }
    }
}
