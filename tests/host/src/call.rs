//! One call with all that is lent to it, made through the library or through plain.rs, and all that it leaves.

use crate::image;
use crate::lent::Lent;
use crate::parts::Parts;
use crate::plain::{self, Layout, Node, OldNode, FRAME_WORDS};
use splitter::{raw, Frame};
use std::fmt;

/// The interface's own refusal: numbers or deques, or a report's clocks or words, have another length than they must have.
pub const BAD_STATE: u32 = 99;
/// The clock words for each place, and the words of a report.
pub const CLOCK_WORDS: usize = 2;
pub const REPORT_WORDS: usize = 4;

#[derive(Clone)]
pub enum Entry {
    Start {
        workers: u32,
        values: Vec<u32>,
    },
    Step([u32; 4]),
    Tape {
        bytes: Vec<u8>,
        answers: Vec<u32>,
    },
    Report(Reporting),
    Save {
        target: Vec<u8>,
    },
    Load {
        image: Vec<u8>,
    },
    /// The pool has four-word nodes.
    Convert,
}

/// What a report takes and is lent, beside state, table, pool and work.
#[derive(Clone)]
pub struct Reporting {
    pub workers: u32,
    pub values: Vec<u32>,
    pub bytes: Vec<u8>,
    pub answers: Vec<u32>,
    pub clocks: Vec<u64>,
    pub report: Vec<u64>,
}

#[derive(Clone)]
pub struct Call {
    pub state: Parts,
    pub pool: Vec<u32>,
    pub work: Vec<u32>,
    pub entry: Entry,
}

/// What a call leaves. The second word of the result is a step's; `bytes` are the tape, the target or the image.
#[derive(Clone, PartialEq)]
pub struct Outcome {
    pub result: [u32; 2],
    pub state: Parts,
    pub pool: Vec<u32>,
    pub work: Vec<u32>,
    pub answers: Vec<u32>,
    pub values: Vec<u32>,
    pub bytes: Vec<u8>,
    /// A report's.
    pub clocks: Vec<u64>,
    pub report: Vec<u64>,
}

impl Call {
    /// An outcome that has changed nothing.
    pub fn untouched(&self, result: [u32; 2]) -> Outcome {
        Outcome {
            result,
            state: self.state.clone(),
            pool: self.pool.clone(),
            work: self.work.clone(),
            answers: self.answers().to_vec(),
            values: self.values().to_vec(),
            bytes: self.bytes().to_vec(),
            clocks: self.clocks().to_vec(),
            report: self.report().to_vec(),
        }
    }

    pub fn answers(&self) -> &[u32] {
        match &self.entry {
            Entry::Tape { answers, .. } | Entry::Report(Reporting { answers, .. }) => answers,
            _ => &[],
        }
    }

    pub fn values(&self) -> &[u32] {
        match &self.entry {
            Entry::Start { values, .. } | Entry::Report(Reporting { values, .. }) => values,
            _ => &[],
        }
    }

    pub fn clocks(&self) -> &[u64] {
        match &self.entry {
            Entry::Report(asked) => &asked.clocks,
            _ => &[],
        }
    }

    pub fn report(&self) -> &[u64] {
        match &self.entry {
            Entry::Report(asked) => &asked.report,
            _ => &[],
        }
    }

    pub fn bytes(&self) -> &[u8] {
        match &self.entry {
            Entry::Start { .. } | Entry::Step(_) | Entry::Convert => &[],
            Entry::Tape { bytes, .. } | Entry::Report(Reporting { bytes, .. }) => bytes,
            Entry::Save { target } => target,
            Entry::Load { image } => image,
        }
    }

    pub fn by_plain(&self) -> Outcome {
        self.by_layout::<Node>()
    }

    /// The same with four words to a node, in a pool of such nodes. There are no images of them.
    pub fn by_older_layout(&self) -> Outcome {
        self.by_layout::<OldNode>()
    }

    fn by_layout<N: Layout>(&self) -> Outcome {
        let mut after = self.untouched([0, 0]);
        let Some(mut state) = self.state.state() else {
            after.result[0] = BAD_STATE;
            return after;
        };
        let (pool, work) = (&mut after.pool, &mut after.work);
        match &self.entry {
            Entry::Start { workers, values } => {
                (state, after.result[0]) =
                    plain::start_of::<N>(*workers, values, state.frames, pool);
            }
            &Entry::Step(step) => {
                after.result = plain::step_of::<N>(&mut state, pool, work, step).into();
            }
            Entry::Tape { bytes, .. } => {
                let answers = &mut after.answers;
                after.result[0] = plain::tape_of::<N>(&mut state, pool, work, bytes, answers);
            }
            Entry::Report(asked) => {
                let report = after.report.as_mut_slice().try_into().ok();
                let fits = after.clocks.len() == CLOCK_WORDS * state.frames.len();
                let Some(report) = report.filter(|_| fits) else {
                    after.result[0] = BAD_STATE;
                    return after;
                };
                let (workers, values, bytes) = (asked.workers, &asked.values, &asked.bytes);
                let lent = plain::Reporting {
                    pool,
                    work,
                    answers: &mut after.answers,
                    clocks: &mut after.clocks,
                    report,
                };
                (state, after.result[0]) =
                    plain::report_of::<N>(workers, values, state.frames, bytes, lent);
            }
            Entry::Save { .. } => {
                after.result[0] = image::save(&self.state, pool, work, &mut after.bytes);
            }
            Entry::Load { image } => {
                after.result[0] = image::load(&mut after.state, pool, work, image);
                return after;
            }
            Entry::Convert => after.result[0] = plain::convert(&state, pool, work),
        }
        after.state = Parts::of(&state);
        after
    }

    /// The same through the library, each slice between `guard` guard words. None if a guard word has changed.
    pub fn by_library(&self, guard: usize) -> Option<Outcome> {
        let lend = |words: &[u32]| Lent::new(words, guard, 0x5AFE_C0DE);
        let (mut numbers, mut deques) = (lend(&self.state.numbers), lend(&self.state.deques));
        let guard_frame = Frame::from_words([0x5AFE_C0DE; FRAME_WORDS]);
        let mut frames = Lent::new(&records(&self.state.frames), guard, guard_frame);
        let mut pool = lend(&self.pool);
        let mut work = lend(&self.work);
        let mut answers = lend(self.answers());
        let mut values = lend(self.values());
        let mut bytes = Lent::new(self.bytes(), guard, 0xC5);
        let lend = |words: &[u64]| Lent::new(words, guard, 0x5AFE_C0DE_5AFE_C0DE);
        let (mut clocks, mut report) = (lend(self.clocks()), lend(self.report()));
        let result = self.enter(
            raw::Parts {
                numbers: numbers.slice(),
                deques: deques.slice(),
            },
            frames.slice(),
            [pool.slice(), work.slice(), answers.slice()],
            values.slice(),
            bytes.slice(),
            [clocks.slice(), report.slice()],
        );
        Some(Outcome {
            result,
            state: Parts {
                numbers: numbers.back()?,
                deques: deques.back()?,
                frames: frames
                    .back()?
                    .into_iter()
                    .flat_map(Frame::to_words)
                    .collect(),
            },
            pool: pool.back()?,
            work: work.back()?,
            answers: answers.back()?,
            values: values.back()?,
            bytes: bytes.back()?,
            clocks: clocks.back()?,
            report: report.back()?,
        })
    }

    /// The library's function, over what is lent; its result.
    fn enter(
        &self,
        state: raw::Parts,
        frames: &mut [Frame],
        [pool, work, answers]: [&mut [u32]; 3],
        values: &[u32],
        bytes: &mut [u8],
        [clocks, report]: [&mut [u64]; 2],
    ) -> [u32; 2] {
        match &self.entry {
            Entry::Start { workers, .. } => [raw::start(state, frames, *workers, values, pool), 0],
            Entry::Step(step) => raw::step(state, frames, pool, work, *step),
            Entry::Tape { .. } => [raw::tape(state, frames, pool, work, bytes, answers), 0],
            &Entry::Report(Reporting { workers, .. }) => {
                let asked = raw::Asked {
                    workers,
                    values,
                    tape: bytes,
                };
                let told = raw::Told {
                    answers,
                    clocks,
                    report,
                };
                [raw::report(state, frames, pool, work, asked, told), 0]
            }
            Entry::Save { .. } => [raw::save(state, frames, pool, work, bytes), 0],
            Entry::Load { .. } => [raw::load(state, frames, pool, work, bytes), 0],
            Entry::Convert => [raw::convert(state, frames, pool, work), 0],
        }
    }
}

/// The records of a table's words.
fn records(words: &[u32]) -> Vec<Frame> {
    let (records, _) = words.as_chunks();
    records.iter().copied().map(Frame::from_words).collect()
}

impl Outcome {
    /// The first word or byte in which this outcome, the library's, differs from the other.
    pub fn difference(&self, other: &Outcome) -> Option<String> {
        let slices: [(&str, &[u32], &[u32]); 8] = [
            ("result", &self.result, &other.result),
            ("numbers", &self.state.numbers, &other.state.numbers),
            ("deques", &self.state.deques, &other.state.deques),
            ("frames", &self.state.frames, &other.state.frames),
            ("pool", &self.pool, &other.pool),
            ("work", &self.work, &other.work),
            ("answers", &self.answers, &other.answers),
            ("values", &self.values, &other.values),
        ];
        slices
            .into_iter()
            .find_map(|(name, mine, its)| first_difference(name, mine, its))
            .or_else(|| first_difference("bytes", &self.bytes, &other.bytes))
            .or_else(|| first_difference("clocks", &self.clocks, &other.clocks))
            .or_else(|| first_difference("report", &self.report, &other.report))
    }
}

fn first_difference<T: PartialEq + fmt::Display>(
    name: &str,
    mine: &[T],
    its: &[T],
) -> Option<String> {
    let at = mine.iter().zip(its).position(|(a, b)| a != b)?;
    Some(format!(
        "{name}, place {at}: {} instead of {}",
        mine[at], its[at]
    ))
}

impl fmt::Display for Call {
    fn fmt(&self, f: &mut fmt::Formatter) -> fmt::Result {
        match &self.entry {
            Entry::Start { workers, values } => {
                write!(f, "start, {workers} workers, {} values", values.len())?
            }
            Entry::Step([kind, worker, field, value]) => write!(
                f,
                "step, kind {kind}, worker {worker}, field {field}, value {value}"
            )?,
            Entry::Tape { bytes, answers } => write!(
                f,
                "tape of {} bytes, {} answer words",
                bytes.len(),
                answers.len()
            )?,
            Entry::Report(asked) => write!(
                f,
                "report, {} workers, {} values, tape of {} bytes, {} answer, {} clock, {} report words",
                asked.workers,
                asked.values.len(),
                asked.bytes.len(),
                asked.answers.len(),
                asked.clocks.len(),
                asked.report.len()
            )?,
            Entry::Save { target } => write!(f, "save, {} target bytes", target.len())?,
            Entry::Load { image } => write!(f, "load, {} image bytes", image.len())?,
            Entry::Convert => write!(f, "convert")?,
        }
        write!(
            f,
            "; {} number, {} deque words, {} places, {} pool, {} work words",
            self.state.numbers.len(),
            self.state.deques.len(),
            self.state.places(),
            self.pool.len(),
            self.work.len()
        )
    }
}
