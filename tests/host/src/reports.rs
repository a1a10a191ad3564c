//! R-7 through the library: reports of random tapes in tables of any length, against plain.rs, against a start and a tape, and against
//! `clocks.rs`; reports that are refused; and the same frames' steps under other schedules.

use crate::call::{Call, Entry, Outcome, Reporting, BAD_STATE, CLOCK_WORDS, REPORT_WORDS};
use crate::clocks::{self, Machine, Name, Own, Start, Steps};
use crate::layouts::Older;
use crate::plain::{
    self, Refusal, State, FOLD, MAX_PLACES, NODE_WORDS, READ, RECORD_BYTES, RETURN, SPAWN, STEAL,
    SYNC, WRITE,
};
use crate::random::Random;
use crate::runs;
use crate::session::{Failure, Session};
use crate::sketch::Sketch;
use crate::soundness::expect;
use crate::steps::{self, Driver, StepWords};
use std::collections::{BTreeMap, BTreeSet};

const NO_SPAN: u32 = Refusal::NoSpan as u32;
/// The answers that a full comparison must meet, each so often.
const ANSWERS: [u32; 9] = [0, 1, 2, 3, 4, 5, 21, NO_SPAN, BAD_STATE];
const OFTEN: u64 = 50;
/// One report in so many is made of a program under several schedules.
const SCHEDULED_IN: usize = 4;
const SCHEDULES: usize = 4;

#[derive(Default)]
pub struct Counts {
    pub answers: BTreeMap<u32, u64>,
    /// Reports of runs whose Main returned with a span of 0.
    at_once: u64,
    /// Reports with words, by what their tapes had: a return that waits, a suspended sync that passed, a steal, a fold, a refused record.
    with: BTreeMap<&'static str, u64>,
    workers: BTreeSet<u32>,
    places: BTreeSet<usize>,
    /// Reports with words, by the quotient.
    quotients: BTreeMap<u64, u64>,
    largest: u64,
    /// Programs, and how often one schedule of a program was compared with another.
    programs: u64,
    schedules: u64,
}

impl Counts {
    /// What was not met as often as it must be.
    pub fn missing(&self) -> Option<String> {
        let seldom = |number: &&u32| self.answers.get(number).copied().unwrap_or(0) < OFTEN;
        if let Some(number) = ANSWERS.iter().find(seldom) {
            return Some(format!("a report seldom answered {number}"));
        }
        let few = EVENTS
            .iter()
            .find(|(what, _)| self.with.get(what).copied().unwrap_or(0) < OFTEN);
        if let Some((what, _)) = few {
            return Some(format!("reports seldom had {what}"));
        }
        let all = (1..=8).all(|workers| self.workers.contains(&workers))
            && [1, 2, 63, 64, 65, 255, 256]
                .iter()
                .all(|places| self.places.contains(places));
        if !all || self.at_once < OFTEN || self.quotients.range(5..).count() == 0 {
            return Some("reports of some workers, places or quotients were not met".to_string());
        }
        None
    }

    pub fn lines(&self) -> Vec<String> {
        let each = |(what, times): (&dyn std::fmt::Display, &u64)| format!("{what}: {times}");
        let answers: Vec<String> = self
            .answers
            .iter()
            .map(|(number, times)| each((number, times)))
            .collect();
        let with: Vec<String> = self
            .with
            .iter()
            .map(|(what, times)| each((what, times)))
            .collect();
        let quotients: Vec<String> = self
            .quotients
            .iter()
            .map(|(q, times)| each((q, times)))
            .collect();
        vec![
            format!("reports: {}; Main returned with a span of 0 in {}", answers.join(", "), self.at_once),
            format!(
                "  by the tables' lengths {}; by quotient {}; the most work {}; with {}",
                self.places.len(),
                quotients.join(", "),
                self.largest,
                with.join(", ")
            ),
            format!(
                "  {} programs, each under {SCHEDULES} schedules of 1 to 8 workers, {} reports: the same pair",
                self.programs, self.schedules
            ),
        ]
    }

    fn count(&mut self, asked: &Reporting, after: &Outcome) {
        *self.answers.entry(after.result[0]).or_default() += 1;
        if after.result[0] != 0 {
            return;
        }
        let (answers, _) = after.answers.as_chunks::<2>();
        let answers = &answers[..asked.bytes.len() / RECORD_BYTES];
        for (what, is) in EVENTS {
            *self.with.entry(what).or_default() += u64::from(answers.iter().any(is));
        }
        self.workers.insert(asked.workers);
        self.places.insert(asked.clocks.len() / CLOCK_WORDS);
        *self.quotients.entry(after.report[2]).or_default() += 1;
        self.largest = self.largest.max(after.report[0]);
    }
}

/// An answer that a tape with a report must have had now and then.
type Event = (&'static str, fn(&[u32; 2]) -> bool);

const EVENTS: [Event; 6] = [
    ("returns that wait", |answer| *answer == [102, 4]),
    ("syncs that suspend", |answer| *answer == [104, 1]),
    ("resumptions", |answer| *answer == [102, 2]),
    ("steals", |answer| answer[0] == 103),
    ("folds", |answer| answer[0] == 107),
    ("refused records", |answer| answer[0] < 100),
];

/// The reports of one seed.
pub fn report(seed: u64, session: &mut Session, counts: &mut Counts) -> Result<(), Failure> {
    let random = Random::new(seed);
    if random.one_in(SCHEDULED_IN) {
        return scheduled(&random, session, counts);
    }
    let mut call = drawn(&random);
    if random.one_in(3) {
        spoil(&mut call, &random);
    }
    compare(&call, session, counts).map(|_| ())
}

/// What a report left, and the frames' steps, if its tape ran.
struct Compared {
    after: Outcome,
    steps: Steps,
}

/// The call through both engines; if its tape ran, also as a start and a tape, and by names.
fn compare(call: &Call, session: &mut Session, counts: &mut Counts) -> Result<Compared, Failure> {
    let Entry::Report(asked) = &call.entry else {
        return Err("no report".to_string());
    };
    let after = session.both(call)?;
    Older::new().compare(call, &after, &mut session.layouts)?;
    counts.count(asked, &after);
    if !matches!(after.result[0], 0 | NO_SPAN) {
        check_left(call, &after)?;
        return Ok(Compared {
            after,
            steps: Steps::new(),
        });
    }
    as_start_and_tape(call, asked, &after, session)?;
    let machine = by_names(call, asked, &after)?;
    counts.at_once += u64::from(machine.main_returned() && after.result[0] == NO_SPAN);
    Ok(Compared {
        after,
        steps: machine.steps,
    })
}

/// "refused so it hands out a state of zeros", and changes nothing else; 99 changes nothing.
fn check_left(call: &Call, after: &Outcome) -> Result<(), Failure> {
    let mut left = call.untouched(after.result);
    if after.result[0] != BAD_STATE {
        left.state.clear();
    }
    expect(*after == left, "a refused report changed something")
}

/// State, table, pool, work and answers are those of the library's start and then its tape.
fn as_start_and_tape(
    call: &Call,
    asked: &Reporting,
    after: &Outcome,
    session: &mut Session,
) -> Result<(), Failure> {
    let start = Entry::Start {
        workers: asked.workers,
        values: asked.values.clone(),
    };
    let started = session.both(&Call {
        entry: start,
        ..call.clone()
    })?;
    let tape = Entry::Tape {
        bytes: asked.bytes.clone(),
        answers: asked.answers.clone(),
    };
    let ran = session.both(&Call {
        state: started.state,
        pool: started.pool,
        work: call.work.clone(),
        entry: tape,
    })?;
    expect(
        started.result[0] == 0 && ran.result[0] == 0,
        "a start or a tape is refused",
    )?;
    let same = after.state == ran.state
        && after.pool == ran.pool
        && after.work == ran.work
        && after.answers == ran.answers;
    expect(
        same,
        "a report leaves something else than a start and a tape",
    )
}

/// Answers, clocks, work and span as the plain machine by names has them; and the pair as the frames' steps alone give it.
fn by_names(call: &Call, asked: &Reporting, after: &Outcome) -> Result<Machine, Failure> {
    let mut machine = Machine::start(Start {
        workers: asked.workers,
        values: &asked.values,
        nodes: call.pool.len() / NODE_WORDS,
        places: call.state.places(),
    });
    let (records, _) = asked.bytes.as_chunks::<RECORD_BYTES>();
    let (answers, _) = after.answers.as_chunks::<2>();
    for (place, (record, answer)) in records.iter().zip(answers).enumerate() {
        let expected: [u32; 2] = machine.take(steps::words(*record)).into();
        if *answer != expected {
            return Err(format!(
                "record {place} answers {answer:?}, by names {expected:?}"
            ));
        }
    }
    expect(
        after.clocks == machine.words.as_flattened(),
        "other clocks by names",
    )?;
    let span = machine.span.unwrap_or(0);
    if span == 0 {
        expect(after.result[0] == NO_SPAN, "a report without a span")?;
        return Ok(machine);
    }
    let expected = [machine.work, span, machine.work / span, machine.work % span];
    if after.report != expected {
        return Err(format!(
            "the report is {:?}, by names {expected:?}",
            after.report
        ));
    }
    expect(span <= machine.work, "a span longer than the work")?;
    expect(
        clocks::pair_of(&machine.steps) == (machine.work, span),
        "another pair by the frames' steps",
    )?;
    Ok(machine)
}

/// A start of any kind, and a tape for it that suits what it leaves.
fn drawn(random: &Random) -> Call {
    let start = match random.below(4) {
        0 => runs::starting_wide(random),
        1 => runs::starting_tight(false, random),
        _ => runs::starting(random),
    };
    let Entry::Start { workers, values } = start.entry.clone() else {
        return start;
    };
    let begun = start.by_plain();
    let bytes = match begun.state.state() {
        Some(state) if begun.result[0] == 0 => tape(state, begun.pool, random),
        _ => random
            .words(random.below(4) * 2)
            .iter()
            .flat_map(|word| word.to_le_bytes())
            .collect(),
    };
    let nodes = start.pool.len() / NODE_WORDS;
    asking(start, (workers, values), nodes, bytes, random)
}

/// The report of this tape, with garbage in the memory and more of it than is needed, where there may be more.
fn asking(
    start: Call,
    (workers, values): (u32, Vec<u32>),
    nodes: usize,
    bytes: Vec<u8>,
    random: &Random,
) -> Call {
    let answers = bytes.len() / RECORD_BYTES * 2 + random.below(5);
    let long = |count: usize| (0..count).map(|_| random.next()).collect();
    let entry = Entry::Report(Reporting {
        workers,
        values,
        bytes,
        answers: random.words(answers),
        clocks: long(CLOCK_WORDS * start.state.places()),
        report: long(REPORT_WORDS),
    });
    Call {
        work: random.words(nodes + random.below(6)),
        entry,
        ..start
    }
}

/// Steps of any kind, lines of frames that wait and large families; then, mostly, the way home.
fn tape(state: State, pool: Vec<u32>, random: &Random) -> Vec<u8> {
    let mut sketch = Sketch::new(state, pool, random);
    let mut driver = Driver::new(15, 30);
    for _ in 0..random.below(6) {
        match random.below(6) {
            0 => sketch.chain(random.pick(&[1, 2, 3, 7, 20, 63, 255])),
            1 | 2 => sketch.family(),
            _ => {
                let most = random.pick(&[5, 20, 60]);
                for _ in 0..random.below(most) {
                    sketch.push(driver.next(&sketch.state, random));
                }
            }
        }
    }
    if !random.one_in(3) {
        let live = sketch
            .state
            .frames
            .iter()
            .filter(|frame| frame.live == 1)
            .count();
        runs::go_home(live + random.below(4), &mut sketch, &mut driver, random);
    }
    sketch.bytes()
}

/// Something is refused: one of the conditions, or several.
fn spoil(call: &mut Call, random: &Random) {
    loop {
        let nodes = call.pool.len() / NODE_WORDS;
        let Entry::Report(asked) = &mut call.entry else {
            return;
        };
        let other = |length: usize| match random.below(4) {
            0 => 0,
            1 => length.saturating_sub(1),
            2 => length + 1,
            _ => random.below(2 * length + 3),
        };
        match random.below(10) {
            0 => call.state.spoil_length(random),
            1 => asked.clocks.resize(other(asked.clocks.len()), 7),
            2 => asked.report.resize(other(asked.report.len()), 7),
            3 => asked.values.clear(),
            4 => asked.workers = random.pick(&[0, 9, u32::MAX]),
            5 => {
                call.state.resize_table(random.pick(&[0, 257, 300]), random);
                asked.clocks.resize(CLOCK_WORDS * call.state.places(), 7);
            }
            6 => {
                call.pool.truncate(random.below(
                    NODE_WORDS * plain::tree_nodes(asked.values.len().max(1) as u32) as usize,
                ))
            }
            7 => asked.bytes.extend(vec![7; 1 + random.below(7)]),
            8 => asked
                .answers
                .truncate(random.below(asked.bytes.len() / 4 + 1)),
            _ => call.work.truncate(random.below(nodes + 1)),
        }
        if !random.one_in(3) {
            return;
        }
    }
}

/// A frame's steps, each as the words of a record without its worker; a spawn has its child's.
struct Program(Vec<Item>);

enum Item {
    Spawn(Program),
    Sync,
    Other(u32, u32, u32),
}

/// What a program is like: its splitters, the most steps of a frame, its deepest frame, how many steps in eight are spawns, and one step in so
/// many is a sync.
struct Shape {
    splitters: u32,
    steps: usize,
    depth: usize,
    spawns: usize,
    syncs: usize,
}

impl Program {
    /// A frame of this depth, with so many frames left at most.
    fn any(depth: usize, left: &mut usize, shape: &Shape, random: &Random) -> Program {
        let mut items = Vec::new();
        for _ in 0..random.below(shape.steps) {
            if *left > 0 && depth < shape.depth && random.below(8) < shape.spawns {
                *left -= 1;
                let child = Program::any(depth + 1, left, shape, random);
                items.push(Item::Spawn(child));
                continue;
            }
            let splitter = random.word_below(shape.splitters);
            items.push(match random.below(6) {
                _ if random.one_in(shape.syncs) => Item::Sync,
                1 => Item::Other(WRITE, splitter, random.word()),
                2 => Item::Other(FOLD, random.word_below(3), random.word()),
                _ => Item::Other(READ, splitter, 0),
            });
        }
        Program(items)
    }

    fn frames(&self) -> usize {
        let children = self.0.iter().map(|item| match item {
            Item::Spawn(child) => child.frames(),
            _ => 0,
        });
        1 + children.sum::<usize>()
    }

    /// By names.
    fn steps(&self, name: Name, steps: &mut Steps) {
        let own = self.0.iter().map(|item| match item {
            Item::Spawn(_) => Own::Spawn,
            Item::Sync => Own::Sync,
            Item::Other(..) => Own::Other,
        });
        steps.insert(name.clone(), own.collect());
        for (number, child) in (1..).zip(self.children()) {
            child.steps([&name[..], &[number]].concat(), steps);
        }
    }

    fn children(&self) -> impl Iterator<Item = &Program> {
        self.0.iter().filter_map(|item| match item {
            Item::Spawn(child) => Some(child),
            _ => None,
        })
    }

    /// The frame of this name.
    fn named(&self, name: &[u32]) -> Option<&Program> {
        match name.split_first() {
            None => Some(self),
            Some((number, below)) => self.children().nth(*number as usize - 1)?.named(below),
        }
    }
}

/// A program under several schedules: each has its own workers, steals and refused records, and all have the pair of the program's steps.
fn scheduled(random: &Random, session: &mut Session, counts: &mut Counts) -> Result<(), Failure> {
    let shape = Shape {
        splitters: 1 + random.word_below(5),
        steps: random.pick(&[4, 14, 14, 40]),
        depth: random.pick(&[1, 2, 60]),
        spawns: random.pick(&[1, 3, 5]),
        syncs: random.pick(&[4, 12, 100]),
    };
    let mut left = random.pick(&[0, 1, 3, 10, 30, 60]);
    let program = Program::any(0, &mut left, &shape, random);
    let mut expected = Steps::new();
    program.steps(Name::new(), &mut expected);
    let pair = clocks::pair_of(&expected);
    counts.programs += 1;
    for _ in 0..SCHEDULES {
        let call = schedule(&program, shape.splitters, random);
        let Compared { after, steps } = compare(&call, session, counts)?;
        expect(
            steps == expected,
            "a schedule with other steps of the frames",
        )?;
        let got = match after.result[0] {
            0 => (after.report[0], after.report[1]),
            _ => (0, 0),
        };
        expect(got == pair, "another pair under another schedule")?;
        counts.schedules += 1;
    }
    Ok(())
}

/// The tape of one schedule: any worker takes the next step of its bottom frame, or steals; some records between are refused.
fn schedule(program: &Program, splitters: u32, random: &Random) -> Call {
    let frames = program.frames();
    let places = frames + random.below(MAX_PLACES + 1 - frames);
    let nodes = frames * plain::tree_nodes(splitters) as usize + random.below(9);
    let (workers, values) = (1 + random.word_below(8), random.words(splitters as usize));
    let start = Call {
        state: crate::parts::Parts::garbage(places, random),
        pool: random.words(NODE_WORDS * nodes + random.below(NODE_WORDS)),
        work: Vec::new(),
        entry: Entry::Step([0; 4]),
    };
    let mut machine = Machine::start(Start {
        workers,
        values: &values,
        nodes,
        places,
    });
    let mut taken: BTreeMap<Name, usize> = BTreeMap::new();
    let mut bytes = Vec::new();
    let mut push = |machine: &mut Machine, step: StepWords| {
        bytes.extend(steps::record(step));
        machine.take(step)
    };
    // a worker goes on for a while, or they take turns, or one is preferred
    let patience = random.pick(&[1, 1, 5, 40]);
    let mut worker = 0;
    while !machine.main_returned() {
        if random.one_in(patience) {
            worker = random.word_below(workers);
        }
        if random.one_in(30) {
            push(&mut machine, refused(workers, splitters, random));
        }
        let Some(name) = machine.bottom(worker as usize).cloned() else {
            push(&mut machine, [STEAL, worker, random.word_below(workers), 0]);
            worker = random.word_below(workers);
            continue;
        };
        let next = taken.entry(name.clone()).or_default();
        let item = program.named(&name).and_then(|frame| frame.0.get(*next));
        *next += 1;
        let step = match item {
            Some(Item::Spawn(_)) => [SPAWN, worker, 0, 0],
            Some(Item::Sync) => [SYNC, worker, 0, 0],
            Some(&Item::Other(kind, field, value)) => [kind, worker, field, value],
            None => [RETURN, worker, 0, 0],
        };
        push(&mut machine, step);
    }
    asking(start, (workers, values), nodes, bytes, random)
}

/// A record that no state accepts.
fn refused(workers: u32, splitters: u32, random: &Random) -> StepWords {
    let worker = random.word_below(workers);
    random.pick(&[
        [READ, worker, splitters, 0],
        [FOLD, worker, 3, 1],
        [SPAWN, workers, 0, 0],
        [SYNC, worker, 0, 1],
        [0, worker, 0, 0],
        [9, worker, 0, 0],
        [STEAL, worker, workers, 0],
    ])
}
