//! Corrupted states: the sentences, plain.rs and the library must agree on each, and go on alike from the sound ones.

use crate::base;
use crate::call::{Call, Entry, Outcome};
use crate::corrupt::words::TURNS;
use crate::corrupt::{self, Expected, Pair, KINDS};
use crate::layouts::Older;
use crate::order;
use crate::parts::Parts;
use crate::plain::{Refusal, State, NODE_WORDS, NONE, RETURN, SPAWN, WRITE};
use crate::random::Random;
use crate::replay;
use crate::sentences::{self, SENTENCES};
use crate::session::{Failure, Session};
use crate::sharing::Case;
use crate::steps::{self, StepWords};

/// Pairs made from one base: as many as are judged under one seed.
pub const PER_SEED: usize = 40;

/// Pairs of one kind of change, by how they were judged. The last are those whose recorded nodes are more than any work slice has.
#[derive(Clone, Copy, Default)]
pub struct Judged {
    pub sound: u64,
    pub unsound: u64,
    pub short_work: u64,
}

pub struct Counts {
    pub kinds: [Judged; KINDS.len()],
    /// How often each sentence was the only one broken.
    pub alone: [u64; SENTENCES.len()],
    /// How often each word of numbers and deques was the one changed.
    pub turns: [u64; TURNS],
    /// The writes from sound pairs, by the part of the path that is shared; and those by the only frame, with a node that stands in
    /// several places of its tree.
    pub writes: [u64; 3],
    pub beside_itself: u64,
    /// From sound pairs: returns of a frame that has its parent above it and a younger sibling, which no run leads to; spawns by a frame
    /// with a live child.
    pub younger_within: u64,
    pub further_children: u64,
}

impl Counts {
    fn count_family(&mut self, state: &State, [kind, worker, ..]: StepWords) {
        let within = kind == RETURN && younger_within(state, worker);
        let deque = state.deques.get(worker as usize);
        let bottom = deque.and_then(|deque| deque.bottom());
        let outstanding = bottom.map_or(0, |place| state.frames[place as usize].outstanding);
        self.younger_within += u64::from(within);
        self.further_children += u64::from(kind == SPAWN && outstanding > 0);
    }
}

/// Whether the worker's bottom frame has its parent above it in the deque and a younger sibling.
fn younger_within(state: &State, worker: u32) -> bool {
    let deque = state.deques.get(worker as usize);
    let deque = deque.filter(|deque| deque.length > 1);
    let bottom = deque.and_then(|deque| deque.bottom());
    bottom.is_some_and(|place| state.frames[place as usize].younger != NONE)
}

impl Default for Counts {
    fn default() -> Counts {
        Counts {
            kinds: [Judged::default(); KINDS.len()],
            alone: [0; SENTENCES.len()],
            turns: [0; TURNS],
            writes: [0; 3],
            beside_itself: 0,
            younger_within: 0,
            further_children: 0,
        }
    }
}

/// Up to PER_SEED corrupted pairs from one base.
pub fn group(
    seed: u64,
    pairs: usize,
    session: &mut Session,
    counts: &mut Counts,
) -> Result<(), Failure> {
    let random = Random::new(!seed);
    let base = base::any(&random);
    let mut judged = 0;
    while judged < pairs.min(PER_SEED) {
        let mut pair = base.clone();
        pair.turn = (seed as usize % TURNS * PER_SEED + judged) % TURNS;
        while random.one_in(2) {
            corrupt::keep_sound(&mut pair, &random);
        }
        let kind = corrupt::choose(&random);
        if (KINDS[kind].change)(&mut pair, &random).is_some() {
            counts.turns[pair.turn] += u64::from(kind == 0);
            judge(&pair, kind, &random, session, counts)
                .map_err(|failure| format!("{}, {failure}", KINDS[kind].name))?;
            judged += 1;
        }
    }
    Ok(())
}

fn judge(
    pair: &Pair,
    kind: usize,
    random: &Random,
    session: &mut Session,
    counts: &mut Counts,
) -> Result<(), Failure> {
    let call = asking(pair, random);
    let after = session.both(&call)?;
    expect_unchanged(&call, &after)?;
    let counted = &mut counts.kinds[kind];
    if pair.state.nodes as usize > call.work.len() {
        counted.short_work += 1;
        return expect(
            after.result[0] == Refusal::ShortWork as u32,
            "not refused 5",
        );
    }
    let broken = sentences::broken(&call.state, &call.pool);
    if let [alone] = broken[..] {
        counts.alone[alone] += 1;
    }
    match broken.first() {
        None => counted.sound += 1,
        Some(_) => counted.unsound += 1,
    }
    expect_agreement(&broken, KINDS[kind].expected, after.result[0])?;
    if broken.is_empty() {
        go_on(call, pair, random, session, counts)?;
    }
    Ok(())
}

/// An empty tape asks for nothing but the check.
fn asking(pair: &Pair, random: &Random) -> Call {
    let held = pair.pool.len() / NODE_WORDS;
    let recorded = pair.state.nodes as usize;
    let work = if recorded > 20_000 {
        held
    } else {
        recorded.max(held)
    };
    let (work, answers) = (work + random.below(4), random.below(3));
    Call {
        state: Parts::of(&pair.state),
        pool: pair.pool.clone(),
        work: random.words(work),
        entry: Entry::Tape {
            bytes: Vec::new(),
            answers: random.words(answers),
        },
    }
}

pub fn expect(right: bool, otherwise: &str) -> Result<(), Failure> {
    right.then_some(()).ok_or_else(|| otherwise.to_string())
}

/// Only the work slice has changed, as document 01 says: "its first words, one per recorded node, are zero and the others are unchanged".
fn expect_unchanged(call: &Call, after: &Outcome) -> Result<(), Failure> {
    expect(after.state == call.state, "the state has changed")?;
    expect(after.pool == call.pool, "the pool has changed")?;
    expect(after.answers == call.answers(), "the answers have changed")?;
    let mut work = call.work.clone();
    if let Some(first) = work.get_mut(..call.state.numbers[2] as usize) {
        first.fill(0);
    }
    expect(after.work == work, "the work slice is not as it should be")
}

fn expect_agreement(broken: &[usize], expected: Expected, result: u32) -> Result<(), Failure> {
    let sound = broken.is_empty();
    let by_change = match expected {
        Expected::Sound => sound,
        Expected::Unsound => !sound,
        Expected::Either => true,
    };
    let sentence = broken.first().map_or("sound".to_string(), |&first| {
        format!("not: {}", SENTENCES[first].text)
    });
    expect(
        by_change,
        &format!("not judged as the change was meant ({sentence})"),
    )?;
    let right = if sound { 0 } else { Refusal::Unsound as u32 };
    expect(
        result == right,
        &format!("refused {result} instead of {right} ({sentence})"),
    )
}

/// One likely step from a sound pair, often a write or a return; what it leaves must be sound.
fn go_on(
    call: Call,
    pair: &Pair,
    random: &Random,
    session: &mut Session,
    counts: &mut Counts,
) -> Result<(), Failure> {
    let kind = match random.below(6) {
        0 | 1 => WRITE,
        2 => RETURN,
        _ => SPAWN + random.word_below(7),
    };
    let within = (0..pair.state.workers).find(|&worker| younger_within(&pair.state, worker));
    let step = match within {
        Some(worker) if random.one_in(2) => [RETURN, worker, 0, 0],
        _ => steps::plausible(&pair.state, kind, random),
    };
    counts.count_family(&pair.state, step);
    if let Some(case) = Case::of(step, &pair.state, &pair.pool, 0) {
        counts.writes[case.part()] += 1;
        let alone = pair.live().len() == 1;
        counts.beside_itself += u64::from(alone && case.part() > 0);
    }
    let step = Call {
        entry: Entry::Step(step),
        ..call
    };
    let after = session.both(&step)?;
    let mut older = Older::of(&pair.state, &pair.pool)?;
    older.compare(&step, &after, &mut session.layouts)?;
    let broken = sentences::broken(&after.state, &after.pool);
    expect(broken.is_empty(), "a step left an unsound state")?;
    let mut ordered = Ok(());
    replay::each(&step, &after, |taken| {
        if taken.accepted() {
            ordered = order::check(&taken);
        }
    });
    ordered
}
