//! Seeded inputs for splitrun. The generator runs the plain machine beside
//! the tape it writes, so that most steps mean something.

use crate::machine::{Counting, FrameId, Machine};
use crate::random::Random;
use crate::record::{self, Record, Step, RECORD_BYTES};
use crate::refusal::Refusal;
use crate::shape;
use crate::sharing;
use crate::splitrun::{Input, MAX_NODES, MAX_SPLITTERS, MAX_TAPE_BYTES, PLACES};
use crate::waiting::{self, Stop};
use std::ops::RangeInclusive;

/// Past this many records, a run that is to bring Main home only heads home.
const LONG_TAPE: usize = 1_700;

/// The input that belongs to a seed.
pub fn input(seed: u64) -> Vec<u8> {
    let mut random = Random::new(seed);
    match random.below(100) {
        0..=5 => unfit(&mut random),
        6..=11 => refused_whole(&mut random),
        12..=13 => longest(&mut random),
        14..=19 => run(&mut random, Ending::Unfinished).to_bytes(),
        20..=28 => run(&mut random, Ending::Home).to_bytes(),
        29..=42 => waiting(&mut random).to_bytes(),
        43..=64 => aimed(&mut random).to_bytes(),
        65..=93 => families(&mut random).to_bytes(),
        _ => run(&mut random, Ending::PastHome).to_bytes(),
    }
}

/// How a run's tape ends.
#[derive(Clone, Copy, PartialEq, Eq)]
enum Ending {
    Unfinished,
    /// Main returns by the last record.
    Home,
    /// Main returns, and further records follow.
    PastHome,
}

fn unfit(random: &mut Random) -> Vec<u8> {
    let mut input = run(random, Ending::Home);
    match random.below(4) {
        0 => {
            let mut bytes = input.to_bytes();
            bytes.truncate(random.below(8 + 4 * input.values.len()));
            bytes
        }
        1 => {
            let splitters = random.between(MAX_SPLITTERS + 1, 2 * MAX_SPLITTERS);
            input.values = initial_values(random, splitters);
            input.to_bytes()
        }
        2 => {
            let beyond = random.pick(&[1, 2, 15_360, u32::MAX - MAX_NODES]);
            input.nodes = MAX_NODES + beyond;
            input.to_bytes()
        }
        _ => {
            let mut input = filled(random);
            let beyond = beyond_the_most(random);
            lengthen(&mut input.tape, MAX_TAPE_BYTES + beyond);
            input.to_bytes()
        }
    }
}

/// By how much a tape is too long: by a few bytes, near 20,000 bytes of
/// input, far longer, and by all that 16 bits of a length do not show.
fn beyond_the_most(random: &mut Random) -> usize {
    match random.below(5) {
        0 => random.between(1, 2 * RECORD_BYTES),
        1 => random.between(2_584 - RECORD_BYTES, 2_584 + RECORD_BYTES),
        2 => random.between(1, 2 * MAX_TAPE_BYTES),
        3 => random.pick(&[40_000, 1_000_000]),
        _ => 65_536 * random.between(1, 2) - random.below(2 * RECORD_BYTES),
    }
}

/// A run whose records are as many bytes as may be, at n 256 half of the
/// time: then the input is the longest that is not unfit.
fn filled(random: &mut Random) -> Input {
    let splitters = match random.below(4) {
        0..=1 => MAX_SPLITTERS,
        2 => random.pick(&[1, MAX_SPLITTERS - 1]),
        _ => splitter_count(random),
    };
    let ending = random.pick(&[Ending::Unfinished, Ending::Unfinished, Ending::Home]);
    let mut input = run_of(random, splitters, ending);
    // Behind the run come reads by worker 0, and a last record unlike them.
    lengthen(&mut input.tape, MAX_TAPE_BYTES - RECORD_BYTES);
    let kind = random.pick(&[1, 2, 4]);
    input.tape.extend([kind, 0, 0, 0, 0, 0, 0, 0]);
    input
}

/// Makes the tape so long, by reads of splitter 0; its last record may be
/// cut.
fn lengthen(tape: &mut Vec<u8>, length: usize) {
    let read = Step::Read {
        worker: 0,
        splitter: 0,
    };
    let records = read.encode().into_iter().cycle();
    tape.extend(records.take(length.saturating_sub(tape.len())));
    tape.truncate(length);
}

/// The most bytes of records, or a few bytes less or more.
fn longest(random: &mut Random) -> Vec<u8> {
    let mut input = filled(random);
    match random.below(4) {
        0..=1 => {}
        2 => {
            let less = random.between(1, 2 * RECORD_BYTES);
            input.tape.truncate(MAX_TAPE_BYTES - less);
        }
        _ => {
            let more = random.between(1, 2 * RECORD_BYTES);
            lengthen(&mut input.tape, MAX_TAPE_BYTES + more);
        }
    }
    input.to_bytes()
}

/// Calls refused whole by 1 to 4, some by more than one of them.
fn refused_whole(random: &mut Random) -> Vec<u8> {
    let mut input = run(random, Ending::Home);
    let mut splitters = input.values.len();
    let first = random.below(4);
    for cause in first..4 {
        if cause != first && !random.percent(20) {
            continue;
        }
        match cause {
            0 => splitters = 0,
            1 => input.workers = random.pick(&[0, 9, 10, 256, 257, u16::MAX]),
            2 => input.nodes = random.below(shape::tree_nodes(splitters.max(1))) as u32,
            _ => cut_last_record(random, &mut input.tape),
        }
    }
    input.values.truncate(splitters);
    input.to_bytes()
}

/// One to seven bytes of one more record, or of the last record less.
fn cut_last_record(random: &mut Random, tape: &mut Vec<u8>) {
    let bytes = random.between(1, RECORD_BYTES - 1);
    if random.percent(50) && !tape.is_empty() {
        tape.truncate(tape.len() - bytes);
    } else {
        let record = Step::Return { worker: 0 }.encode();
        tape.extend(&record[..bytes]);
    }
}

fn initial_values(random: &mut Random, splitters: usize) -> Vec<u32> {
    let small = random.percent(50);
    (0..splitters).map(|_| value(random, small)).collect()
}

fn value(random: &mut Random, small: bool) -> u32 {
    if small {
        random.below(4) as u32
    } else if random.percent(5) {
        u32::MAX
    } else {
        random.word()
    }
}

fn splitter_count(random: &mut Random) -> usize {
    match random.below(10) {
        0..=4 => random.between(1, 9),
        5..=6 => MAX_SPLITTERS,
        7 => random.pick(&[15, 16, 17, 31, 32, 33, 63, 64, 65, 127, 128, 129, 255]),
        _ => random.between(1, MAX_SPLITTERS),
    }
}

/// Tight pools hold the tree and a few paths, with some nodes over.
fn pool_nodes(random: &mut Random, splitters: usize) -> u32 {
    let tree = shape::tree_nodes(splitters);
    let path = shape::path_nodes(splitters);
    let most = MAX_NODES as usize;
    let nodes = match random.below(10) {
        0..=3 => tree + random.below(4) * path + random.below(path),
        4..=6 => tree + random.between(4, 16) * path,
        7..=8 => random.between(tree, most),
        _ => most,
    };
    nodes.min(most) as u32
}

/// The weights of spawn, return, steal, sync, read, write and fold.
const MIXTURES: [[usize; 7]; 6] = [
    [20, 15, 20, 10, 20, 20, 20], // even
    [60, 5, 10, 2, 8, 10, 20],    // deep
    [30, 10, 60, 15, 15, 20, 20], // wide
    [10, 10, 20, 5, 15, 60, 10],  // writing
    [12, 25, 25, 25, 30, 15, 20], // syncing
    [25, 15, 60, 5, 2, 3, 60],    // folding
];

/// Steps of the tape's body.
fn body_length(random: &mut Random) -> usize {
    match random.below(20) {
        0 => random.between(300, 1_200),
        1..=5 => random.between(80, 250),
        6 => random.below(4),
        _ => random.between(5, 80),
    }
}

fn run(random: &mut Random, ending: Ending) -> Input {
    let splitters = splitter_count(random);
    run_of(random, splitters, ending)
}

fn run_of(random: &mut Random, splitters: usize, ending: Ending) -> Input {
    let nodes = pool_nodes(random, splitters);
    run_with(random, splitters, nodes, |writer| {
        writer.body();
        writer.finish(ending);
    })
}

/// A run whose returns are aimed at R-3's cases: thieves return the frames
/// that they have stolen, so that most of them wait.
fn waiting(random: &mut Random) -> Input {
    let ending = random.pick(&[
        Ending::Unfinished,
        Ending::Home,
        Ending::Home,
        Ending::Home,
        Ending::PastHome,
    ]);
    let splitters = splitter_count(random);
    let nodes = pool_nodes(random, splitters);
    run_with(random, splitters, nodes, |writer| {
        for _ in 0..writer.random.between(2, 12) {
            if writer.tape.len() / RECORD_BYTES < LONG_TAPE / 2 {
                writer.chain();
            }
        }
        writer.finish(ending);
    })
}

/// A run aimed at R-5's cases: frames with several live children, which fold
/// and end in any order, by three workers or more.
fn families(random: &mut Random) -> Input {
    let splitters = random.pick(&[1, 2, 5, 9]);
    let nodes = pool_nodes(random, splitters);
    let ending = random.pick(&[
        Ending::Unfinished,
        Ending::Home,
        Ending::Home,
        Ending::Home,
        Ending::Home,
        Ending::PastHome,
    ]);
    let workers = random.between(3, 8);
    run_by(random, workers, splitters, nodes, |writer| {
        for _ in 0..writer.random.between(1, 6) {
            writer.family();
        }
        writer.finish(ending);
    })
}

/// A run whose writes are aimed at R-2's cases, in a pool that holds the tree
/// and a few paths.
fn aimed(random: &mut Random) -> Input {
    // The longer the path, the more cases; n below 5 need some runs too.
    let every_n: Vec<usize> = sharing::every_n()
        .flat_map(|n| vec![n; shape::path_nodes(n).max(4)])
        .collect();
    let splitters = random.pick(&every_n);
    let path = shape::path_nodes(splitters);
    let paths = random.pick(&[0, 1, 2, 3, 3, 3, 3, 3]);
    let nodes = shape::tree_nodes(splitters) + paths * path + random.below(path + 1);
    run_with(random, splitters, nodes as u32, |writer| {
        // Frames that wait hold nodes, and the aim then misses more often.
        let waits = writer.random.pick(&[0, 0, 0, 0, 50]);
        for _ in 0..writer.random.between(30, 60) {
            writer.aim(waits);
        }
        writer.bring_main_home();
    })
}

/// A run with so many splitters and nodes.
fn run_with(
    random: &mut Random,
    splitters: usize,
    nodes: u32,
    write: impl FnOnce(&mut TapeWriter),
) -> Input {
    let workers = random.between(1, 8);
    run_by(random, workers, splitters, nodes, write)
}

/// A run with so many workers, splitters and nodes.
fn run_by(
    random: &mut Random,
    workers: usize,
    splitters: usize,
    nodes: u32,
    write: impl FnOnce(&mut TapeWriter),
) -> Input {
    let values = initial_values(random, splitters);
    let machine = Machine::start(workers, PLACES, nodes as usize, &values, Counting::Cached)
        .expect("a start that is not refused");
    let mut writer = TapeWriter::new(random, machine);
    write(&mut writer);
    Input {
        workers: workers as u16,
        nodes,
        values,
        tape: writer.tape,
    }
}

struct TapeWriter<'a> {
    random: &'a mut Random,
    machine: Machine,
    tape: Vec<u8>,
    /// Splitters that most reads and writes go to.
    favourites: Vec<u16>,
    weights: [usize; 7],
    small_values: bool,
    /// Of 100 records of the body, those that are not meant to be accepted.
    strays: usize,
}

impl<'a> TapeWriter<'a> {
    fn new(random: &'a mut Random, machine: Machine) -> TapeWriter<'a> {
        let splitters = machine.splitters();
        let mut favourites = vec![0, splitters as u16 - 1];
        favourites.extend((0..3).map(|_| random.below(splitters) as u16));
        let weights = random.pick(&MIXTURES);
        let small_values = random.percent(50);
        let strays = random.pick(&[0, 5, 10, 25]);
        TapeWriter {
            random,
            machine,
            tape: Vec::new(),
            favourites,
            weights,
            small_values,
            strays,
        }
    }

    fn push(&mut self, record: Record) {
        self.tape.extend(record);
        if let Ok(step) = record::decode(record) {
            // A refused step alters nothing, so its answer is of no use here.
            let _ = self.machine.step(step);
        }
    }

    fn body(&mut self) {
        for _ in 0..body_length(self.random) {
            let record = if self.random.percent(self.strays) {
                self.stray_record()
            } else {
                self.likely_step().encode()
            };
            if !self.ends_main(record) {
                self.push(record);
            }
        }
    }

    /// Is this a return by which Main ends, alone or after its last child?
    fn ends_main(&self, record: Record) -> bool {
        let Ok(Step::Return { worker }) = record::decode(record) else {
            return false;
        };
        self.stop_of_return(worker) == Some(Stop::MainEnds)
    }

    /// Where a return leads, none if it is refused.
    fn stop_of_return(&self, worker: u8) -> Option<Stop> {
        self.machine.check(Step::Return { worker }).ok()?;
        waiting::foresee(&self.machine, worker.into()).map(|ends| ends.stop)
    }

    fn finish(&mut self, ending: Ending) {
        if ending != Ending::Unfinished {
            self.bring_main_home();
        }
        if ending == Ending::PastHome {
            self.past_home();
        }
    }

    /// Returns frames, syncs some that have live children and lets idle
    /// workers steal, until Main has returned.
    fn bring_main_home(&mut self) {
        while !self.machine.main_has_returned() {
            let aside = self.tape.len() / RECORD_BYTES < LONG_TAPE && self.random.percent(35);
            let step = if aside {
                self.step_aside()
            } else {
                self.step_home()
            };
            self.push(step.encode());
        }
    }

    fn step_home(&mut self) -> Step {
        let worker = self.busy_worker();
        match self.stop_of_return(worker) {
            Some(Stop::Waits) if self.random.percent(40) => Step::Sync { worker },
            _ => Step::Return { worker },
        }
    }

    fn step_aside(&mut self) -> Step {
        let kind = self.random.pick(&[3, 4, 5, 6, 7, 7]);
        self.step_of_kind(kind).unwrap_or_else(|| self.step_home())
    }

    fn past_home(&mut self) {
        for _ in 0..self.random.between(1, 12) {
            let record = self.stray_record();
            self.push(record);
        }
    }

    /// A step that is accepted, or refused by 16.
    fn likely_step(&mut self) -> Step {
        let kind = 1 + self.random.weighted(&self.weights);
        self.step_of_kind(kind).unwrap_or_else(|| {
            let worker = self.busy_worker();
            self.read(worker)
        })
    }

    fn step_of_kind(&mut self, kind: usize) -> Option<Step> {
        let worker = self.busy_worker();
        let step = match kind {
            1 => Step::Spawn { worker },
            2 => Step::Return { worker },
            3 => return self.accepted_steal(),
            4 => Step::Sync { worker },
            5 => self.read(worker),
            6 => self.write(worker),
            _ => self.fold(worker),
        };
        let wanted = match self.machine.check(step) {
            Err(Refusal::TooFewNodes) => self.random.percent(40),
            checked => checked.is_ok(),
        };
        wanted.then_some(step)
    }

    fn accepted_steal(&mut self) -> Option<Step> {
        let workers = self.machine.workers();
        let mut steals = Vec::new();
        for worker in 0..workers as u8 {
            for victim in 0..workers as u16 {
                steals.push(Step::Steal { worker, victim });
            }
        }
        steals.retain(|steal| self.machine.check(*steal).is_ok());
        (!steals.is_empty()).then(|| self.random.pick(&steals))
    }

    /// A worker that is not idle: there is one until Main has returned.
    fn busy_worker(&mut self) -> u8 {
        let workers = 0..self.machine.workers();
        let busy: Vec<usize> = workers
            .filter(|worker| self.machine.bottom(*worker).is_some())
            .collect();
        self.random.pick(&busy) as u8
    }

    fn splitter(&mut self) -> u16 {
        if self.random.percent(75) {
            self.random.pick(&self.favourites)
        } else {
            self.random.below(self.machine.splitters()) as u16
        }
    }

    fn read(&mut self, worker: u8) -> Step {
        let splitter = self.splitter();
        Step::Read { worker, splitter }
    }

    fn write(&mut self, worker: u8) -> Step {
        let splitter = self.splitter();
        self.write_to(worker, splitter)
    }

    /// A write, one time in four of the value that is there already.
    fn write_to(&mut self, worker: u8, splitter: u16) -> Step {
        let bottom = self.machine.bottom(worker.into());
        let value = match bottom {
            Some(frame) if self.random.percent(25) => self.machine.value(frame, splitter.into()),
            _ => value(self.random, self.small_values),
        };
        Step::Write {
            worker,
            splitter,
            value,
        }
    }

    fn fold(&mut self, worker: u8) -> Step {
        let reducer = self.random.pick(&[0, 1, 2, 2, 2]);
        let value = self.folded_value(reducer);
        Step::Fold {
            worker,
            reducer,
            value,
        }
    }

    /// A map that multiplies by an even number loses what was before it, bit
    /// by bit, so most multipliers are odd.
    fn folded_value(&mut self, reducer: u16) -> u32 {
        let word = self.random.word();
        match (reducer, self.random.below(20)) {
            (2, 0) => word % 65_536,
            (2, 1) => 65_536 + word % 65_536,
            (2, 2) => word,
            (2, _) => word | 65_536,
            (_, 0) => 0,
            (_, 1) => u32::MAX,
            _ => word >> self.random.below(32),
        }
    }

    /// A frame with several children, each on a worker of its own: an idle
    /// worker steals the frame, spawns, and so on. Then steps of all of them.
    fn family(&mut self) {
        let mut worker = self.busy_worker();
        for _ in 0..self.random.between(3, 8) {
            self.fold_often(worker);
            self.accepted(Step::Spawn { worker });
            let thieves = (0..self.machine.workers() as u8).map(|thief| Step::Steal {
                worker: thief,
                victim: worker.into(),
            });
            let Some(steal) = thieves
                .into_iter()
                .find(|steal| self.machine.check(*steal).is_ok())
            else {
                break;
            };
            self.push(steal.encode());
            worker = steal.worker();
        }
        for _ in 0..self.random.between(5, 40) {
            self.step_of_a_family();
        }
    }

    fn fold_often(&mut self, worker: u8) {
        while self.random.percent(60) {
            let fold = self.fold(worker);
            self.push(fold.encode());
        }
    }

    /// A fold, an end or a wait of a child, a further child, a steal.
    fn step_of_a_family(&mut self) {
        let worker = self.busy_worker();
        match self.random.below(20) {
            0..=8 => self.fold_often(worker),
            9..=11 => {
                self.end_a_child();
            }
            12..=13 => {
                self.accepted(Step::Spawn { worker });
            }
            14 => {
                self.accepted(Step::Sync { worker });
            }
            15 => self.leave_stolen(worker, 0),
            _ => {
                if let Some(steal) = self.accepted_steal() {
                    self.push(steal.encode());
                }
            }
        }
    }

    /// Some nested frames, most of them stolen and returned while their
    /// child lives; then some ends.
    fn chain(&mut self) {
        let deep = self.random.percent(15);
        let frames = self.random.between(1, if deep { 63 } else { 7 });
        let worker = self.busy_worker();
        for _ in 0..frames {
            self.accepted(Step::Spawn { worker });
            self.read_or_write(worker);
        }
        let sparing = self.random.pick(&[0, 5, 30]);
        let enough = self.random.pick(&[0, 5, 20]);
        while let Some(steal) = self.accepted_steal() {
            self.push(steal.encode());
            self.leave_stolen(steal.worker(), sparing);
            if self.random.percent(enough) {
                break;
            }
        }
        for _ in 0..self.random.below(4) {
            let worker = self.busy_worker();
            self.read_or_write(worker);
            self.end_a_child();
        }
    }

    /// What a thief does with the frame that it has stolen: a return, and
    /// more seldom a sync, a further child or nothing yet.
    fn leave_stolen(&mut self, worker: u8, sparing: usize) {
        self.read_or_write(worker);
        let step = match self.random.below(100 + 3 * sparing) {
            0..=99 => Step::Return { worker },
            choice if choice < 100 + sparing => Step::Sync { worker },
            choice if choice < 100 + 2 * sparing => Step::Spawn { worker },
            _ => return,
        };
        if !self.ends_main(step.encode()) {
            self.accepted(step);
        }
    }

    /// A read, a write or a fold, one time in two.
    fn read_or_write(&mut self, worker: u8) {
        let step = match self.random.below(6) {
            0 => self.read(worker),
            1 => self.write(worker),
            2 => self.fold(worker),
            _ => return,
        };
        self.push(step.encode());
    }

    /// A write that finds a certain number of its path's nodes shared, with
    /// none free, one too few or just enough. It may miss. Of 100 frames that
    /// are stolen on the way, so many are returned.
    fn aim(&mut self, waits: usize) {
        let path = shape::path_nodes(self.machine.splitters());
        let rest = self.random.between(0, path);
        let free = match rest {
            0 => self.random.pick(&[0, 0, path]),
            _ => self.random.pick(&[0, rest - 1, rest]),
        };
        if self.random.percent(70) {
            while self.end_a_child() {}
        }
        if self.random.percent(30) {
            if let Some(steal) = self.accepted_steal() {
                self.push(steal.encode());
                if self.random.percent(waits) {
                    self.leave_stolen(steal.worker(), 0);
                }
            }
        }
        // A new frame shares its whole path, and less of it after a write.
        let first = if rest < path { path } else { 0 };
        while self.machine.free_nodes() < first + free {
            if !self.end_a_child() {
                return;
            }
        }
        let worker = self.busy_worker();
        let surplus = self.machine.free_nodes() - first - free;
        if !self.take_nodes(worker, surplus) || !self.accepted(Step::Spawn { worker }) {
            return;
        }
        if first > 0 {
            self.write_taking(worker, path..=path);
        }
        self.write_taking(worker, rest..=rest);
    }

    /// A return by which a frame ends, and not Main; false if there is none.
    fn end_a_child(&mut self) -> bool {
        let ends: Vec<Record> = (0..self.machine.workers() as u8)
            .filter(|worker| {
                let stop = self.stop_of_return(*worker);
                stop.is_some_and(|stop| stop != Stop::Waits && stop != Stop::MainEnds)
            })
            .map(|worker| Step::Return { worker }.encode())
            .collect();
        if !ends.is_empty() {
            let end = self.random.pick(&ends);
            self.push(end);
        }
        !ends.is_empty()
    }

    /// Takes just so many nodes, by writes of the worker's bottom frame and
    /// of new frames below it; false if that does not come out.
    fn take_nodes(&mut self, worker: u8, count: usize) -> bool {
        let path = shape::path_nodes(self.machine.splitters());
        let mut count = count;
        while count > 0 {
            let before = self.machine.free_nodes();
            if self.write_taking(worker, 1..=count) {
                count -= before - self.machine.free_nodes();
            } else if count < path || !self.accepted(Step::Spawn { worker }) {
                return false;
            }
        }
        true
    }

    /// A write by the worker that finds so many nodes of its path shared;
    /// false if no splitter is such.
    fn write_taking(&mut self, worker: u8, rest: RangeInclusive<usize>) -> bool {
        let Some(bottom) = self.machine.bottom(worker.into()) else {
            return false;
        };
        let Some(splitter) = self.splitter_taking(bottom, rest) else {
            return false;
        };
        let step = self.write_to(worker, splitter);
        self.push(step.encode());
        true
    }

    fn splitter_taking(&mut self, frame: FrameId, rest: RangeInclusive<usize>) -> Option<u16> {
        let splitters = self.machine.splitters();
        let first = self.random.below(splitters);
        (0..splitters)
            .map(|place| (first + place) % splitters)
            .find(|splitter| rest.contains(&self.machine.shared_nodes(frame, *splitter)))
            .map(|splitter| splitter as u16)
    }

    /// Writes the step down if the machine accepts it.
    fn accepted(&mut self, step: Step) -> bool {
        let accepted = self.machine.check(step).is_ok();
        if accepted {
            self.push(step.encode());
        }
        accepted
    }

    fn stray_record(&mut self) -> Record {
        match self.random.below(10) {
            0 => std::array::from_fn(|_| self.random.byte()),
            1 => self.bad_kind(),
            2..=3 => self.unused_field_set(),
            _ => self.stray_step().encode(),
        }
    }

    fn bad_kind(&mut self) -> Record {
        let mut record = self.stray_step().encode();
        record[0] = self.random.pick(&[0, 8, 9, 128 + 1, 128 + 7, 255]);
        record
    }

    /// A step with one byte of an unused field not zero.
    fn unused_field_set(&mut self) -> Record {
        let worker = self.stray_worker();
        let kind = self.random.pick(&[1, 2, 3, 4, 5]);
        let mut record = self.stray_step_of_kind(kind, worker).encode();
        let first_unused = if kind == 3 || kind == 5 { 4 } else { 2 };
        let place = self.random.between(first_unused, RECORD_BYTES - 1);
        record[place] = 1 << self.random.below(8);
        record
    }

    fn stray_step(&mut self) -> Step {
        let kind = self.random.between(1, 7);
        let worker = self.stray_worker();
        self.stray_step_of_kind(kind, worker)
    }

    fn stray_step_of_kind(&mut self, kind: usize, worker: u8) -> Step {
        match kind {
            1 => Step::Spawn { worker },
            2 => Step::Return { worker },
            3 => Step::Steal {
                worker,
                victim: self.stray_victim(),
            },
            4 => Step::Sync { worker },
            5 => Step::Read {
                worker,
                splitter: self.stray_splitter(),
            },
            6 => Step::Write {
                worker,
                splitter: self.stray_splitter(),
                value: self.random.word(),
            },
            _ => Step::Fold {
                worker,
                reducer: self.stray_reducer(),
                value: self.random.word(),
            },
        }
    }

    /// Any worker, one time in ten one that does not exist.
    fn stray_worker(&mut self) -> u8 {
        let workers = self.machine.workers();
        if self.random.percent(10) {
            self.random.pick(&[workers as u8, 8, 9, 128, 255])
        } else {
            self.random.below(workers) as u8
        }
    }

    fn stray_victim(&mut self) -> u16 {
        let workers = self.machine.workers();
        if self.random.percent(15) {
            self.random.pick(&[workers as u16, 8, 255, 256, u16::MAX])
        } else {
            self.random.below(workers) as u16
        }
    }

    /// Any reducer, one time in three a number that names none.
    fn stray_reducer(&mut self) -> u16 {
        if self.random.percent(33) {
            self.random.pick(&[3, 4, 255, 256, 258, u16::MAX])
        } else {
            self.random.below(3) as u16
        }
    }

    /// Any splitter, one time in three one that is not below n.
    fn stray_splitter(&mut self) -> u16 {
        let splitters = self.machine.splitters() as u16;
        if self.random.percent(33) {
            self.random
                .pick(&[splitters, splitters + 1, splitters + 256, 256, u16::MAX])
        } else {
            self.splitter()
        }
    }
}

#[cfg(test)]
mod tests {
    use super::*;
    use crate::splitrun;

    #[test]
    fn a_seed_gives_the_same_input() {
        for seed in 0..20 {
            assert_eq!(input(seed), input(seed));
        }
    }

    #[test]
    fn two_thirds_bring_main_home() {
        let homes = (0..300)
            .map(|seed| splitrun::output(&input(seed), Counting::Cached))
            .filter(|output| output.contains("\n102 3\n"))
            .count();
        assert!(homes >= 200, "{homes} of 300 runs bring Main home");
    }

    /// The debug mode: every cached count equals a plain recount.
    #[test]
    fn cached_counts_are_right() {
        for seed in 0..60 {
            splitrun::output(&input(seed), Counting::Recounted);
        }
    }
}
