//! Seeded random runs: a start, then steps and tapes, each call made on both sides with what the call before left.

use crate::base;
use crate::call::{Call, Entry, Outcome};
use crate::changeover::{self, IN_RUNS};
use crate::family::Family;
use crate::layouts::Older;
use crate::parts::Parts;
use crate::plain::{self, Refusal, State, MAX_NODES, MAX_PLACES, NODE_WORDS, RECORD_BYTES, WRITE};
use crate::random::Random;
use crate::replay;
use crate::sentences;
use crate::session::{Failure, Session};
use crate::sharing::{self, Case};
use crate::sketch::Sketch;
use crate::steps::{self, Driver};

const POOL_FULL: u32 = Refusal::PoolFull as u32;
const WRITTEN: u32 = 106;
const SIZES: [usize; 12] = [1, 2, 3, 5, 7, 8, 16, 31, 64, 100, 255, 256];

/// The run of one seed: three of thirteen are aimed at R-2's cases, two at R-3's, four at R-5's. The lengths of the tables are R-6's.
pub fn run(seed: u64, session: &mut Session) -> Result<(), Failure> {
    let random = Random::new(seed);
    match random.below(13) {
        0..3 => aimed(random, session),
        3 | 4 => chained(random, session),
        5..9 => families(random, session),
        _ => mixed(random, session),
    }
}

fn mixed(random: Random, session: &mut Session) -> Result<(), Failure> {
    let Some(mut run) = Run::begin(starting(&random), random, session)? else {
        return Ok(());
    };
    for _ in 0..run.random.below(60) {
        run.vary_pool();
        let (call, cases) = run.next_call();
        run.make(&call, &cases, session)?;
        if !run.typed().main_lives() && run.random.one_in(3) {
            break;
        }
    }
    run.end(session)
}

/// Writes with none, some and all of their path shared, around the number of nodes that they take; one of thirty in a pool as large as can
/// be, filled before.
fn aimed(random: Random, session: &mut Session) -> Result<(), Failure> {
    let large = random.one_in(30);
    let Some(mut run) = Run::begin(starting_tight(large, &random), random, session)? else {
        return Ok(());
    };
    if large {
        run.make_tape(session, |sketch, _, _| sketch.fill(0))?;
    }
    let most = if large { 8 } else { 40 };
    for _ in 0..run.random.below(most) {
        run.vary_pool();
        let aim = |sketch: &mut Sketch, _: &mut Driver, random: &Random| {
            for _ in 0..1 + random.below(6) {
                sketch.aim(!large && !random.one_in(3));
            }
        };
        if !large && run.random.one_in(4) {
            run.make_steps(session, aim)?;
        } else {
            run.make_tape(session, aim)?;
        }
    }
    run.end(session)
}

/// Lines of frames that wait one for the other, and the returns that end them.
fn chained(random: Random, session: &mut Session) -> Result<(), Failure> {
    let Some(mut run) = Run::begin(starting_wide(&random), random, session)? else {
        return Ok(());
    };
    for _ in 0..1 + run.random.below(6) {
        run.vary_pool();
        let draw = |sketch: &mut Sketch, driver: &mut Driver, random: &Random| {
            for _ in 0..random.below(12) {
                sketch.push(driver.next(&sketch.state, random));
            }
            sketch.chain(random.pick(&[1, 2, 3, 4, 7, 20, 63, 255]));
        };
        if run.random.one_in(4) {
            run.make_steps(session, draw)?;
        } else {
            run.make_tape(session, draw)?;
        }
    }
    run.end(session)
}

/// Frames with several live children, folds by all of them, ends in any order.
fn families(random: Random, session: &mut Session) -> Result<(), Failure> {
    let Some(mut run) = Run::begin(starting_wide(&random), random, session)? else {
        return Ok(());
    };
    for _ in 0..1 + run.random.below(6) {
        run.vary_pool();
        let draw = |sketch: &mut Sketch, driver: &mut Driver, random: &Random| {
            for _ in 0..random.below(12) {
                sketch.push(driver.next(&sketch.state, random));
            }
            sketch.family();
        };
        if run.random.one_in(4) {
            run.make_steps(session, draw)?;
        } else {
            run.make_tape(session, draw)?;
        }
    }
    run.end(session)
}

/// A start with two workers or more and room for a path in each frame, or in some.
pub fn starting_wide(random: &Random) -> Call {
    let splitters = random.pick(&SIZES);
    let places = wide_places(random);
    let path = plain::height(splitters as u32) as usize + 1;
    let nodes = plain::tree_nodes(splitters as u32) as usize + random.below(places + 6) * path;
    let pool_words = NODE_WORDS * nodes + random.below(NODE_WORDS);
    Call {
        state: Parts::garbage(places, random),
        pool: random.words(pool_words),
        work: Vec::new(),
        entry: Entry::Start {
            workers: 2 + random.word_below(7),
            values: random.words(splitters),
        },
    }
}

/// A table with room for long lines of frames, mostly.
fn wide_places(random: &Random) -> usize {
    match random.below(8) {
        0 => base::any_places(random),
        1..6 => random.pick(&[63, 64, 65, 100]),
        _ => random.pick(&[255, MAX_PLACES]),
    }
}

/// A start with the tree and a few paths in the pool, or with just room for a few large trees.
pub fn starting_tight(large: bool, random: &Random) -> Call {
    let (splitters, nodes) = if large {
        let splitters = random.pick(&[129, 200, 255, 255, 256, 256]);
        (splitters, MAX_NODES - random.below(3))
    } else {
        // the longer the path, the more cases
        let path = |n: u32| plain::height(n) as usize + 1;
        let sizes: Vec<u32> = sharing::every_n().flat_map(|n| vec![n; path(n)]).collect();
        let n = random.pick(&sizes);
        let paths = random.pick(&[0, 1, 2, 3, 3, 3, 3, 3]) * path(n) + random.below(path(n) + 1);
        (n as usize, plain::tree_nodes(n) as usize + paths)
    };
    let pool_words = NODE_WORDS * nodes + random.below(NODE_WORDS);
    Call {
        state: Parts::garbage(wide_places(random), random),
        pool: random.words(pool_words),
        work: Vec::new(),
        entry: Entry::Start {
            workers: 1 + random.word_below(8),
            values: random.words(splitters),
        },
    }
}

pub fn starting(random: &Random) -> Call {
    let splitters = match random.below(40) {
        0 => 0,
        1 => 257 + random.below(40),
        2..8 => 1 + random.below(256),
        _ => random.pick(&SIZES),
    };
    let workers = match random.below(30) {
        0 => 0,
        1 => random.pick(&[9, 10, 256, 257, u32::MAX]),
        _ => 1 + random.word_below(8),
    };
    let places = match random.below(20) {
        0 => 0,
        1 => random.pick(&[257, 258, 300, 512, 513]),
        _ => base::any_places(random),
    };
    let nodes = nodes_for(splitters, random);
    let pool_words = NODE_WORDS * nodes + random.below(NODE_WORDS);
    let mut state = Parts::garbage(places, random);
    if random.one_in(20) {
        state.spoil_length(random);
    }
    Call {
        state,
        pool: random.words(pool_words),
        work: Vec::new(),
        entry: Entry::Start {
            workers,
            values: random.words(splitters),
        },
    }
}

/// Pools from too small to large; the tight ones are the most instructive.
fn nodes_for(splitters: usize, random: &Random) -> usize {
    let tree = plain::tree_nodes(splitters as u32) as usize;
    match random.below(20) {
        0 => tree.saturating_sub(2) + random.below(3),
        1..6 => tree + random.below(14),
        6..12 => tree + random.below(1 + 3 * tree),
        12..18 => tree + random.below(400),
        18 => tree + random.below(1 + 12 * tree),
        _ => random.pick(&[2_000, 5_000, 16_383, 16_384, 16_385, 16_390]),
    }
}

struct Run {
    state: Parts,
    pool: Vec<u32>,
    older: Older,
    family: Family,
    driver: Driver,
    random: Random,
}

impl Run {
    /// None if the start was refused.
    fn begin(call: Call, random: Random, session: &mut Session) -> Result<Option<Run>, Failure> {
        let after = session.both(&call)?;
        let mut older = Older::new();
        older.compare(&call, &after, &mut session.layouts)?;
        let run = Run {
            state: after.state,
            pool: after.pool,
            older,
            family: Family::of_main(),
            driver: Driver::new(12, 30),
            random,
        };
        Ok((after.result[0] == 0).then_some(run))
    }

    /// Half of the runs go home.
    fn end(&mut self, session: &mut Session) -> Result<(), Failure> {
        if self.random.one_in(2) {
            let live = self.typed().frames.iter().filter(|f| f.live == 1).count();
            self.make_tape(session, |sketch, driver, random| {
                go_home(live + 4, sketch, driver, random)
            })?;
        }
        session.families.end_run(&self.family);
        Ok(())
    }

    /// Makes the call on both sides and takes over what it left. The cases are those of its writes.
    fn make(&mut self, call: &Call, cases: &[Case], session: &mut Session) -> Result<(), Failure> {
        let after = session.both(call)?;
        self.older.compare(call, &after, &mut session.layouts)?;
        if matches!(after.result[0], 0 | POOL_FULL | WRITTEN) {
            cases.iter().for_each(|case| session.sharing.add(case));
        }
        replay::each(call, &after, |taken| {
            session.waits.count(&taken);
            session.tables.count(&taken);
            self.family.take(&taken, &mut session.families);
        });
        self.adopt(after)?;
        self.family.check(&self.typed())?;
        self.change_over(session)
    }

    /// Now and then, the older layout's run is changed over, and goes on beside this one; it has random numbers of its own.
    fn change_over(&self, session: &mut Session) -> Result<(), Failure> {
        let random = Random::new(session.calls);
        if !random.one_in(IN_RUNS) {
            return Ok(());
        }
        let (old, new) = (self.older.words(), &self.pool);
        changeover::in_a_run(&self.typed(), old, new, &random, session)
    }

    /// A tape of what is sketched.
    fn make_tape(
        &mut self,
        session: &mut Session,
        draw: impl FnOnce(&mut Sketch, &mut Driver, &Random),
    ) -> Result<(), Failure> {
        let (bytes, cases) = self.sketched(draw, |sketch| (sketch.bytes(), sketch.cases()));
        let entry = self.tape(bytes);
        let call = self.call(entry);
        self.make(&call, &cases, session)
    }

    /// The same, each step entered from outside.
    fn make_steps(
        &mut self,
        session: &mut Session,
        draw: impl FnOnce(&mut Sketch, &mut Driver, &Random),
    ) -> Result<(), Failure> {
        let steps = self.sketched(draw, |sketch| sketch.steps);
        for (step, case) in steps {
            let call = self.call(Entry::Step(step));
            self.make(&call, case.as_slice(), session)?;
        }
        Ok(())
    }

    /// What follows from the present state by what is drawn.
    fn sketched<T>(
        &mut self,
        draw: impl FnOnce(&mut Sketch, &mut Driver, &Random),
        take: impl FnOnce(Sketch) -> T,
    ) -> T {
        let mut sketch = Sketch::new(self.typed(), self.pool.clone(), &self.random);
        draw(&mut sketch, &mut self.driver, &self.random);
        take(sketch)
    }

    fn typed(&self) -> State {
        self.state
            .state()
            .unwrap_or_else(|| State::zero(Vec::new()))
    }

    /// The recorded nodes.
    fn nodes(&self) -> usize {
        self.typed().nodes as usize
    }

    /// Now and then the host lends a longer pool.
    fn vary_pool(&mut self) {
        if self.random.one_in(12) {
            let more = self.random.below(10);
            self.pool.truncate(NODE_WORDS * self.nodes());
            self.pool.extend(self.random.words(more));
        }
    }

    /// A step or a tape; one in some has a slice of a wrong length, or several.
    fn next_call(&mut self) -> (Call, Vec<Case>) {
        let (entry, cases) = if self.random.one_in(3) {
            self.next_step()
        } else {
            let most = self.random.pick(&[1, 6, 40, 40, 200]);
            let records = self.random.below(most + 1);
            let draw = |sketch: &mut Sketch, driver: &mut Driver, random: &Random| {
                for _ in 0..records {
                    sketch.push(driver.next(&sketch.state, random));
                }
            };
            let (bytes, cases) = self.sketched(draw, |sketch| (sketch.bytes(), sketch.cases()));
            (self.tape(bytes), cases)
        };
        let mut call = self.call(entry);
        if self.random.one_in(16) {
            self.spoil_length(&mut call);
            while self.random.one_in(3) {
                self.spoil_length(&mut call);
            }
        }
        (call, cases)
    }

    fn next_step(&mut self) -> (Entry, Vec<Case>) {
        let state = self.typed();
        let step = self.driver.next(&state, &self.random);
        let mut work = vec![0; state.nodes as usize];
        let free = match step {
            [WRITE, ..] => plain::sound(&state, &self.pool, &mut work),
            _ => None,
        };
        let case = free.and_then(|free| Case::of(step, &state, &self.pool, free));
        (Entry::Step(step), case.into_iter().collect())
    }

    fn call(&mut self, entry: Entry) -> Call {
        let work = self.nodes() + self.random.below(6);
        Call {
            state: self.state.clone(),
            pool: self.pool.clone(),
            work: self.random.words(work),
            entry,
        }
    }

    fn tape(&mut self, bytes: Vec<u8>) -> Entry {
        let answers = bytes.len() / RECORD_BYTES * 2 + self.random.below(5);
        Entry::Tape {
            bytes,
            answers: self.random.words(answers),
        }
    }

    fn spoil_length(&mut self, call: &mut Call) {
        let random = &self.random;
        let nodes = self.nodes();
        match random.below(6) {
            0 => call.state.spoil_length(random),
            5 => call.state.spoil_table(random),
            1 => call.work.truncate(random.below(nodes)),
            2 => call.pool.truncate(random.below(NODE_WORDS * nodes)),
            _ => {
                if let Entry::Tape { bytes, answers } = &mut call.entry {
                    if random.one_in(2) {
                        bytes.extend(random.words(1 + random.below(7)).iter().map(|&w| w as u8));
                    } else if bytes.len() >= RECORD_BYTES {
                        answers.truncate(random.below(bytes.len() / RECORD_BYTES * 2));
                    }
                }
            }
        }
    }

    /// Takes over what a call left, if it was not refused whole. The state must go on being sound by the sentences, seen now and then.
    fn adopt(&mut self, after: Outcome) -> Result<(), Failure> {
        if after.result[0] == 0 || after.result[0] > 100 {
            self.state = after.state;
            self.pool = after.pool;
        }
        if self.random.one_in(8 + self.nodes() / 50) {
            let broken = sentences::broken(&self.state, &self.pool);
            if let Some(&first) = broken.first() {
                return Err(format!(
                    "a call left: not {}",
                    sentences::SENTENCES[first].text
                ));
            }
        }
        Ok(())
    }
}

/// Brings Main's return, with some steps after it.
pub fn go_home(steps: usize, sketch: &mut Sketch, driver: &mut Driver, random: &Random) {
    for _ in 0..steps {
        let step = if sketch.state.main_lives() {
            steps::homeward(&sketch.state)
        } else {
            driver.next(&sketch.state, random)
        };
        sketch.push(step);
    }
}
