//! The kinds of step, and the tape's records that stand for them.

use super::refusal::Refusal;

pub const RECORD_BYTES: usize = 8;

pub type Record = [u8; RECORD_BYTES];

/// "A step is one of six kinds, each with only its own fields." R-5 has a
/// seventh.
#[derive(Clone, Copy, Debug, PartialEq, Eq)]
pub enum Step {
    Spawn {
        worker: u8,
    },
    Return {
        worker: u8,
    },
    Steal {
        worker: u8,
        victim: u16,
    },
    Sync {
        worker: u8,
    },
    Read {
        worker: u8,
        splitter: u16,
    },
    Write {
        worker: u8,
        splitter: u16,
        value: u32,
    },
    Fold {
        worker: u8,
        reducer: u16,
        value: u32,
    },
}

impl Step {
    pub fn kind(self) -> u8 {
        match self {
            Step::Spawn { .. } => 1,
            Step::Return { .. } => 2,
            Step::Steal { .. } => 3,
            Step::Sync { .. } => 4,
            Step::Read { .. } => 5,
            Step::Write { .. } => 6,
            Step::Fold { .. } => 7,
        }
    }

    pub fn worker(self) -> u8 {
        match self {
            Step::Spawn { worker }
            | Step::Return { worker }
            | Step::Steal { worker, .. }
            | Step::Sync { worker }
            | Step::Read { worker, .. }
            | Step::Write { worker, .. }
            | Step::Fold { worker, .. } => worker,
        }
    }

    /// The same step taken by another worker.
    pub fn taken_by(mut self, other: u8) -> Step {
        match &mut self {
            Step::Spawn { worker }
            | Step::Return { worker }
            | Step::Steal { worker, .. }
            | Step::Sync { worker }
            | Step::Read { worker, .. }
            | Step::Write { worker, .. }
            | Step::Fold { worker, .. } => *worker = other,
        }
        self
    }

    /// "A record is 8 bytes: kind, worker, a 16-bit splitter (victim for
    /// steal), a 32-bit value (write only). Unused fields are zero." R-5:
    /// "Record kind 7 folds its value into the reducer named in its splitter
    /// field."
    pub fn encode(self) -> Record {
        let (splitter, value) = match self {
            Step::Spawn { .. } | Step::Return { .. } | Step::Sync { .. } => (0, 0),
            Step::Steal { victim, .. } => (victim, 0),
            Step::Read { splitter, .. } => (splitter, 0),
            Step::Write {
                splitter, value, ..
            } => (splitter, value),
            Step::Fold { reducer, value, .. } => (reducer, value),
        };
        let [s0, s1] = u16::to_le_bytes(splitter);
        let [v0, v1, v2, v3] = u32::to_le_bytes(value);
        [self.kind(), self.worker(), s0, s1, v0, v1, v2, v3]
    }
}

/// Refused by 7: "The kind is not 1 to 6, or an unused field is not zero."
/// "Refusal 7 lets kind 7 pass."
pub fn decode(record: Record) -> Result<Step, Refusal> {
    let [kind, worker, s0, s1, v0, v1, v2, v3] = record;
    let field = u16::from_le_bytes([s0, s1]);
    let value = u32::from_le_bytes([v0, v1, v2, v3]);
    match (kind, field, value) {
        (1, 0, 0) => Ok(Step::Spawn { worker }),
        (2, 0, 0) => Ok(Step::Return { worker }),
        (3, victim, 0) => Ok(Step::Steal { worker, victim }),
        (4, 0, 0) => Ok(Step::Sync { worker }),
        (5, splitter, 0) => Ok(Step::Read { worker, splitter }),
        (6, splitter, value) => Ok(Step::Write {
            worker,
            splitter,
            value,
        }),
        (7, reducer, value) => Ok(Step::Fold {
            worker,
            reducer,
            value,
        }),
        _ => Err(Refusal::Record),
    }
}

/// The whole records of a tape.
pub fn records(tape: &[u8]) -> impl Iterator<Item = Record> + '_ {
    tape.chunks_exact(RECORD_BYTES)
        .map(|chunk| chunk.try_into().expect("a chunk of 8 bytes"))
}

#[cfg(test)]
mod tests {
    use super::*;

    const STEPS: [Step; 7] = [
        Step::Spawn { worker: 1 },
        Step::Return { worker: 2 },
        Step::Steal {
            worker: 3,
            victim: 513,
        },
        Step::Sync { worker: 4 },
        Step::Read {
            worker: 5,
            splitter: 258,
        },
        Step::Write {
            worker: 6,
            splitter: 772,
            value: 0x0403_0201,
        },
        Step::Fold {
            worker: 7,
            reducer: 0x0605,
            value: 0x0403_0201,
        },
    ];

    #[test]
    fn records_are_little_endian() {
        assert_eq!(STEPS[5].encode(), [6, 6, 4, 3, 1, 2, 3, 4]);
        assert_eq!(STEPS[6].encode(), [7, 7, 5, 6, 1, 2, 3, 4]);
        assert_eq!(STEPS[2].encode(), [3, 3, 1, 2, 0, 0, 0, 0]);
    }

    #[test]
    fn decoding_undoes_encoding() {
        for step in STEPS {
            assert_eq!(decode(step.encode()), Ok(step));
        }
    }

    #[test]
    fn bad_kinds_are_refused() {
        for kind in [0, 8, 100, 255] {
            let record = [kind, 0, 0, 0, 0, 0, 0, 0];
            assert_eq!(decode(record), Err(Refusal::Record));
        }
    }
}
