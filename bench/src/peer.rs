//! The peers: the same tapes go in, the same answer words come out.

use crate::case::Case;
use crate::converts::PAST;
use crate::library::{Library, LibraryReport};
use crate::machine::Machine;
use crate::plain_image::{self, Sum};
use crate::tape::record;
use crate::values::Values;
use crate::work::Work;
use host_tests::parts::Parts;
use host_tests::plain::{self, Layout, OldNode, Refusal, OLD_NODE_WORDS};
use splitter::NODE_WORDS;

#[derive(Clone, Copy, PartialEq, Eq, Debug)]
pub enum Peer {
    Library,
    Plain,
    /// Plain on nodes of four words, those from before R-8.
    FourWords,
    /// Plain, but for images: their checks are summed byte by byte, after the words are stored.
    Bytewise,
    Copying,
    #[cfg(feature = "im")]
    Im,
}

#[cfg(not(feature = "im"))]
pub const PEERS: [Peer; 3] = [Peer::Library, Peer::Plain, Peer::Copying];
#[cfg(feature = "im")]
pub const PEERS: [Peer; 4] = [Peer::Library, Peer::Plain, Peer::Copying, Peer::Im];

/// All that are fed the same tapes before anything is measured.
pub fn compared() -> impl Iterator<Item = Peer> {
    PEERS.into_iter().chain([Peer::FourWords])
}

/// A run in progress.
pub trait Run {
    /// The refusal of the whole call, or 0.
    fn tape(&mut self, tape: &[u8], answers: &mut [u32]) -> u32;

    /// A step in a call of its own: its answer words. The fields are kind, worker, field and value.
    fn step(&mut self, [kind, worker, field, value]: [u32; 4]) -> [u32; 2] {
        let mut answer = [0; 2];
        let record = record(kind as u8, worker as u8, field as u16, value);
        self.tape(&record, &mut answer);
        answer
    }

    /// R-5's totals, once Main has returned.
    fn totals(&mut self) -> Option<[u32; 4]>;

    /// Its images, if it keeps nodes.
    fn images(&mut self) -> Option<&mut dyn Images> {
        None
    }
}

/// R-1's calls.
pub trait Images {
    /// 0 with the image in the front of the target, or the refusal.
    fn save(&mut self, target: &mut [u8]) -> u32;

    /// 0 with the image's state and pool, or the refusal.
    fn load(&mut self, image: &[u8]) -> u32;

    /// The save without its soundness check, which only plain Rust can leave out.
    fn bare_save(&mut self, _: &mut [u8]) -> u32 {
        unimplemented!("a save has its soundness check")
    }

    /// The same for the reading.
    fn bare_load(&mut self, _: &[u8]) -> u32 {
        unimplemented!("a reading has its soundness check")
    }
}

/// R-9's call, on a run with nodes of four words.
pub trait Conversion {
    /// 0 with nodes of two words in the front of the pool, or the refusal.
    fn convert(&mut self) -> u32;

    /// The pass over the nodes alone. The library has no call for it, nor for the next.
    fn pack(&mut self) {
        unimplemented!("a change-over has its soundness check")
    }

    /// The soundness check alone, of nodes of four words: 0 or 6.
    fn old_check(&mut self) -> u32 {
        unimplemented!("the check is part of the change-over")
    }

    /// State and table.
    fn parts(&self) -> Parts;

    fn pool(&mut self) -> &mut [u32];

    /// The run after the change-over. (A tape call of its own here would be a second one of plain Rust's, which the compiler then makes slower.)
    fn go_on(self: Box<Self>) -> Box<dyn Run>;
}

/// R-7's call, which makes a start of its own.
pub trait Reporter {
    /// The refusal, or 0.
    fn report(&mut self, tape: &[u8], answers: &mut [u32]) -> u32;

    /// Work, span, quotient and remainder, if there was a report, else zeros.
    fn words(&self) -> [u64; 4];
}

impl Peer {
    pub fn name(self) -> &'static str {
        match self {
            Peer::Library => "library",
            Peer::Plain => "plain",
            Peer::FourWords => "four words",
            Peer::Bytewise => "bytewise",
            Peer::Copying => "copying",
            #[cfg(feature = "im")]
            Peer::Im => "im-rc",
        }
    }

    pub fn named(name: &str) -> Option<Self> {
        let mut all = compared().chain([Peer::Bytewise]);
        all.find(|peer| peer.name() == name)
    }

    /// It keeps nodes: its tape call has a soundness check in it, and its writes answer the free nodes.
    pub fn has_nodes(self) -> bool {
        matches!(
            self,
            Peer::Library | Peer::Plain | Peer::FourWords | Peer::Bytewise
        )
    }

    /// A run that has had the case's prelude, all of it accepted.
    pub fn begin(self, case: &Case) -> Box<dyn Run> {
        let mut run = self.start(case);
        run_prelude(run.as_mut(), case, self.name());
        run
    }

    /// The same in a pool of nodes of four words, with words past them, if it changes over from these.
    pub fn conversion(self, case: &Case) -> Option<Box<dyn Conversion>> {
        let mut old = FourWords::start(case);
        run_prelude(&mut old, case, Peer::FourWords.name());
        old.pool.extend(PAST);
        match self {
            Peer::Library => Some(Box::new(Library::of(&old.state, old.pool))),
            Peer::Plain => Some(Box::new(old)),
            _ => None,
        }
    }

    /// Reports of the case's start, if it makes them.
    pub fn reporter(self, case: &Case) -> Option<Box<dyn Reporter>> {
        let Case {
            workers,
            values,
            nodes,
            places,
            ..
        } = case;
        match self {
            Peer::Library => Some(Box::new(LibraryReport::new(
                *workers, values, *places, *nodes,
            ))),
            Peer::Plain => Some(Box::new(PlainReport::new(
                *workers, values, *places, *nodes,
            ))),
            _ => None,
        }
    }

    fn start(self, case: &Case) -> Box<dyn Run> {
        match self {
            Peer::Library => Box::new(Library::start(
                case.workers,
                &case.values,
                case.places,
                case.nodes,
            )),
            Peer::Plain => Box::new(Plain::start(case, Sum::ByWords)),
            Peer::Bytewise => Box::new(Plain::start(case, Sum::ByBytes)),
            Peer::FourWords => Box::new(FourWords::start(case)),
            Peer::Copying => Box::new(Machine::<Vec<u32>>::start(
                case.workers,
                &case.values,
                case.places,
            )),
            #[cfg(feature = "im")]
            Peer::Im => Box::new(Machine::<im_rc::Vector<u32>>::start(
                case.workers,
                &case.values,
                case.places,
            )),
        }
    }
}

fn run_prelude(run: &mut dyn Run, case: &Case, name: &str) {
    let mut answers = vec![0; case.prelude.len() / 4];
    let refusal = run.tape(&case.prelude, &mut answers);
    let accepted = refusal == 0 && answers.chunks(2).all(|pair| pair[0] > 100);
    assert!(accepted, "{name}: the prelude is refused");
}

/// State, table and pool of a run in plain Rust that has had the case's prelude.
pub fn left_by_plain(case: &Case) -> (Parts, Vec<u32>) {
    let mut run = Plain::start(case, Sum::ByWords);
    run_prelude(&mut run, case, Peer::Plain.name());
    (Parts::of(&run.state), run.pool)
}

impl Run for Library {
    fn tape(&mut self, tape: &[u8], answers: &mut [u32]) -> u32 {
        Library::tape(self, tape, answers)
    }

    fn step(&mut self, fields: [u32; 4]) -> [u32; 2] {
        Library::step(self, fields)
    }

    fn totals(&mut self) -> Option<[u32; 4]> {
        Library::totals(self)
    }

    fn images(&mut self) -> Option<&mut dyn Images> {
        Some(self)
    }
}

impl Images for Library {
    fn save(&mut self, target: &mut [u8]) -> u32 {
        Library::save(self, target)
    }

    fn load(&mut self, image: &[u8]) -> u32 {
        Library::load(self, image)
    }
}

impl Conversion for Library {
    fn convert(&mut self) -> u32 {
        Library::convert(self)
    }

    fn parts(&self) -> Parts {
        Library::parts(self)
    }

    fn pool(&mut self) -> &mut [u32] {
        Library::pool(self)
    }

    fn go_on(self: Box<Self>) -> Box<dyn Run> {
        self
    }
}

impl Reporter for LibraryReport {
    fn report(&mut self, tape: &[u8], answers: &mut [u32]) -> u32 {
        LibraryReport::report(self, tape, answers)
    }

    fn words(&self) -> [u64; 4] {
        self.words
    }
}

impl<V: Values> Run for Machine<V> {
    fn tape(&mut self, tape: &[u8], answers: &mut [u32]) -> u32 {
        Machine::tape(self, tape, answers);
        0
    }

    fn totals(&mut self) -> Option<[u32; 4]> {
        Machine::totals(self)
    }
}

/// The same algorithm in plain Rust, with the memory that it works on; the state has the lent table in it.
struct Plain {
    state: plain::State,
    pool: Vec<u32>,
    work: Work,
    /// How an image's checks are summed.
    sum: Sum,
}

impl Plain {
    fn start(case: &Case, sum: Sum) -> Self {
        let mut pool = vec![0; NODE_WORDS * case.nodes];
        let table = vec![plain::Frame::default(); case.places];
        let (state, refusal) = plain::start(case.workers as u32, &case.values, table, &mut pool);
        assert_eq!(refusal, 0, "plain: the start is refused");
        Plain {
            state,
            pool,
            work: Work::of(case.nodes),
            sum,
        }
    }

    /// With the soundness check or without it.
    fn save_image<const CHECKED: bool>(&mut self, target: &mut [u8]) -> u32 {
        let (state, pool) = (&self.state, &self.pool);
        plain_image::save::<CHECKED>(state, pool, self.work.words(), target, self.sum)
    }

    fn load_image<const CHECKED: bool>(&mut self, image: &[u8]) -> u32 {
        let (pool, work) = (&mut self.pool, self.work.words());
        plain_image::load::<CHECKED>(&mut self.state, pool, work, image, self.sum)
    }
}

impl Run for Plain {
    fn tape(&mut self, tape: &[u8], answers: &mut [u32]) -> u32 {
        plain::tape(
            &mut self.state,
            &mut self.pool,
            self.work.words(),
            tape,
            answers,
        )
    }

    fn step(&mut self, [kind, worker, field, value]: [u32; 4]) -> [u32; 2] {
        let Plain {
            state, pool, work, ..
        } = self;
        plain::step(state, pool, work.words(), kind, worker, field, value).into()
    }

    fn totals(&mut self) -> Option<[u32; 4]> {
        (!self.state.main_lives()).then(|| self.state.totals.words())
    }

    fn images(&mut self) -> Option<&mut dyn Images> {
        Some(self)
    }
}

impl Images for Plain {
    fn save(&mut self, target: &mut [u8]) -> u32 {
        self.save_image::<true>(target)
    }

    fn load(&mut self, image: &[u8]) -> u32 {
        self.load_image::<true>(image)
    }

    fn bare_save(&mut self, target: &mut [u8]) -> u32 {
        self.save_image::<false>(target)
    }

    fn bare_load(&mut self, image: &[u8]) -> u32 {
        self.load_image::<false>(image)
    }
}

/// The same engine on nodes of four words.
struct FourWords {
    state: plain::State,
    pool: Vec<u32>,
    work: Work,
}

impl FourWords {
    fn start(case: &Case) -> Self {
        let mut pool = vec![0; OLD_NODE_WORDS * case.nodes];
        let table = vec![plain::Frame::default(); case.places];
        let workers = case.workers as u32;
        let (state, refusal) = plain::start_of::<OldNode>(workers, &case.values, table, &mut pool);
        assert_eq!(refusal, 0, "four words: the start is refused");
        FourWords {
            state,
            pool,
            work: Work::of(case.nodes),
        }
    }
}

impl Run for FourWords {
    fn tape(&mut self, tape: &[u8], answers: &mut [u32]) -> u32 {
        let FourWords { state, pool, work } = self;
        plain::tape_of::<OldNode>(state, pool, work.words(), tape, answers)
    }

    fn totals(&mut self) -> Option<[u32; 4]> {
        (!self.state.main_lives()).then(|| self.state.totals.words())
    }
}

impl Conversion for FourWords {
    fn convert(&mut self) -> u32 {
        plain::convert(&self.state, &mut self.pool, self.work.words())
    }

    fn pack(&mut self) {
        let nodes = OldNode::nodes_mut(&mut self.pool);
        plain::pack(&mut nodes[..self.state.nodes as usize]);
    }

    fn old_check(&mut self) -> u32 {
        match plain::sound_of::<OldNode>(&self.state, &self.pool, self.work.words()) {
            Some(_) => 0,
            None => Refusal::Unsound as u32,
        }
    }

    fn parts(&self) -> Parts {
        Parts::of(&self.state)
    }

    fn pool(&mut self) -> &mut [u32] {
        &mut self.pool
    }

    fn go_on(self: Box<Self>) -> Box<dyn Run> {
        let FourWords { state, pool, work } = *self;
        Box::new(Plain {
            state,
            pool,
            work,
            sum: Sum::ByWords,
        })
    }
}

/// The same algorithm's report, with the memory that it is lent.
struct PlainReport {
    workers: u32,
    values: Vec<u32>,
    table: Vec<plain::Frame>,
    pool: Vec<u32>,
    work: Work,
    clocks: Vec<u64>,
    words: [u64; 4],
}

impl PlainReport {
    fn new(workers: usize, values: &[u32], places: usize, nodes: usize) -> Self {
        PlainReport {
            workers: workers as u32,
            values: values.to_vec(),
            table: vec![plain::Frame::default(); places],
            pool: vec![0; NODE_WORDS * nodes],
            work: Work::of(nodes),
            clocks: vec![0; 2 * places],
            words: [0; 4],
        }
    }
}

impl Reporter for PlainReport {
    fn report(&mut self, tape: &[u8], answers: &mut [u32]) -> u32 {
        let lent = plain::Reporting {
            pool: &mut self.pool,
            work: self.work.words(),
            answers,
            clocks: &mut self.clocks,
            report: &mut self.words,
        };
        let table = std::mem::take(&mut self.table);
        let (state, refusal) = plain::report(self.workers, &self.values, table, tape, lent);
        self.table = state.frames;
        refusal
    }

    fn words(&self) -> [u64; 4] {
        self.words
    }
}
