//! libsplitter.a through its C interface, as the binding declares it.

use crate::work::Work;
use host_tests::parts::Parts;
use host_tests::plain;
use splitter::{clocks_words, raw, Frame, Report, State, NODE_WORDS};

/// The memory that the calls are lent.
pub struct Library {
    state: State,
    table: Vec<Frame>,
    pool: Vec<u32>,
    work: Work,
}

impl Library {
    pub fn start(workers: usize, values: &[u32], places: usize, nodes: usize) -> Self {
        let mut library = Library {
            state: State::ZERO,
            table: vec![Frame::ZERO; places],
            pool: vec![0; NODE_WORDS * nodes],
            work: Work::of(nodes),
        };
        let Library {
            state, table, pool, ..
        } = &mut library;
        let refusal = raw::start(state.parts(), table, workers as u32, values, pool);
        assert_eq!(refusal, 0, "library: the start is refused");
        library
    }

    /// Such a state and its table, with this pool, whatever its nodes are.
    pub fn of(state: &plain::State, pool: Vec<u32>) -> Self {
        let plain::Words {
            numbers,
            deques,
            frames,
        } = plain::to_words(state);
        let (records, _) = frames.as_chunks();
        Library {
            state: State { numbers, deques },
            table: records
                .iter()
                .map(|&words| Frame::from_words(words))
                .collect(),
            pool,
            work: Work::of(state.nodes as usize),
        }
    }

    pub fn tape(&mut self, tape: &[u8], answers: &mut [u32]) -> u32 {
        let (state, work) = (self.state.parts(), self.work.words());
        raw::tape(state, &mut self.table, &mut self.pool, work, tape, answers)
    }

    pub fn step(&mut self, fields: [u32; 4]) -> [u32; 2] {
        let (state, work) = (self.state.parts(), self.work.words());
        raw::step(state, &mut self.table, &mut self.pool, work, fields)
    }

    /// Once no frame lives.
    pub fn totals(&self) -> Option<[u32; 4]> {
        let totals = self.state.totals()?;
        let ended = self.table.iter().all(|frame| frame.live == 0);
        assert!(ended, "library: a frame lives after Main");
        Some([totals.sum, totals.min, totals.multiplier, totals.addend])
    }

    pub fn save(&mut self, target: &mut [u8]) -> u32 {
        let (state, work) = (self.state.parts(), self.work.words());
        raw::save(state, &self.table, &self.pool, work, target)
    }

    pub fn load(&mut self, image: &[u8]) -> u32 {
        let (state, work) = (self.state.parts(), self.work.words());
        raw::load(state, &mut self.table, &mut self.pool, work, image)
    }

    pub fn convert(&mut self) -> u32 {
        let (state, work) = (self.state.parts(), self.work.words());
        raw::convert(state, &self.table, &mut self.pool, work)
    }

    pub fn parts(&self) -> Parts {
        Parts {
            numbers: self.state.numbers.into(),
            deques: self.state.deques.into(),
            frames: self
                .table
                .iter()
                .flat_map(|frame| frame.to_words())
                .collect(),
        }
    }

    pub fn pool(&mut self) -> &mut [u32] {
        &mut self.pool
    }
}

/// The memory that a report is lent, and what it is asked.
pub struct LibraryReport {
    library: Library,
    workers: u32,
    values: Vec<u32>,
    clocks: Vec<u64>,
    pub words: [u64; Report::WORDS],
}

impl LibraryReport {
    pub fn new(workers: usize, values: &[u32], places: usize, nodes: usize) -> Self {
        LibraryReport {
            library: Library::start(workers, values, places, nodes),
            workers: workers as u32,
            values: values.to_vec(),
            clocks: vec![0; clocks_words(places)],
            words: [0; Report::WORDS],
        }
    }

    pub fn report(&mut self, tape: &[u8], answers: &mut [u32]) -> u32 {
        let Library {
            state,
            table,
            pool,
            work,
        } = &mut self.library;
        let asked = raw::Asked {
            workers: self.workers,
            values: &self.values,
            tape,
        };
        let told = raw::Told {
            answers,
            clocks: &mut self.clocks,
            report: &mut self.words,
        };
        raw::report(state.parts(), table, pool, work.words(), asked, told)
    }
}

/// The bytes of an image of so many places and nodes.
pub fn image_bytes(places: usize, nodes: usize) -> u64 {
    raw::image_bytes(places as u32, nodes as u32)
}
