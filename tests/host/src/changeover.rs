//! R-9's change-over from four-word nodes to two-word nodes, by the library and by plain.rs: in the middle of runs that plain.rs's older layout
//! makes, and on corrupted pairs of such nodes. What it decides and leaves is also asked of code that shares nothing with plain.rs: the
//! sentences, with four-word nodes, and unpacking by levels.

use crate::base;
use crate::call::{Call, Entry, Outcome, BAD_STATE};
use crate::corrupt::words::TURNS;
use crate::corrupt::{self, Expected, Kind, Pair};
use crate::layouts::{self, Older};
use crate::parts::Parts;
use crate::plain::{self, OldNode, Refusal, State, NODE_WORDS, OLD_NODE_WORDS, RECORD_BYTES};
use crate::random::Random;
use crate::runs;
use crate::sentences::{self, SENTENCES};
use crate::session::{Failure, Session};
use crate::sketch::Sketch;
use crate::soundness::{expect, Judged};
use crate::steps::Driver;
use std::collections::BTreeMap;

/// Pairs made from one base: as many as are judged under one seed.
pub const PER_SEED: usize = 40;
/// One accepted call of a run in so many is followed by a change-over.
pub const IN_RUNS: usize = 8;

const SHORT_WORK: u32 = Refusal::ShortWork as u32;
const UNSOUND: u32 = Refusal::Unsound as u32;
const RESULTS: [u32; 4] = [0, SHORT_WORK, UNSOUND, BAD_STATE];

#[derive(Default)]
pub struct Counts {
    /// All change-overs, by their results.
    results: BTreeMap<u32, u64>,
    /// The accepted ones in the middle of runs; those after Main's return; and the nodes of all.
    in_runs: u64,
    returned: u64,
    nodes: u64,
    /// The tapes that followed, and those that brought Main's return.
    tapes: u64,
    ended: u64,
    /// A second one: refused by 6, or accepted and the pool as it was.
    again_refused: u64,
    again_unchanged: u64,
    /// Pools of four-word nodes that are sound as two-word nodes too: without a change-over a call would take them.
    taken_for_two: u64,
    /// Corrupted pairs, by kind, and how often each sentence was the only one broken.
    kinds: Vec<Judged>,
    alone: [u64; SENTENCES.len()],
    /// Corrupted and with a slice of another length too.
    spoilt: u64,
}

impl Counts {
    pub fn lines(&self) -> Vec<String> {
        let results: Vec<String> = self
            .results
            .iter()
            .map(|(r, n)| format!("{r}: {n}"))
            .collect();
        let mut lines = vec![
            format!("change-overs: {}", results.join(", ")),
            format!(
                "accepted: {} in the middle of runs, {} after Main's return, {} nodes; then {} tapes in both layouts, {} up to Main's return",
                self.in_runs, self.returned, self.nodes, self.tapes, self.ended
            ),
            format!(
                "a second one: {} refused by 6, {} accepted with the pool as it was; four-word nodes that are sound as two-word nodes: {}",
                self.again_refused, self.again_unchanged, self.taken_for_two
            ),
        ];
        if !self.kinds.is_empty() {
            lines.push("corrupted pairs of four-word nodes: kind, sound, unsound:".to_string());
            let kinds = corrupt::kinds_of_four_words();
            let entry = |(kind, judged): (&Kind<OldNode>, &Judged)| {
                format!("{:20}{:6}{:6}", kind.name, judged.sound, judged.unsound)
            };
            let entries: Vec<String> = kinds.iter().zip(&self.kinds).map(entry).collect();
            lines.extend(
                entries
                    .chunks(4)
                    .map(|line| format!("  {}", line.join("   "))),
            );
            lines.push(format!(
                "and {} with a slice of another length",
                self.spoilt
            ));
        }
        lines
    }

    /// What a full comparison must have met, and has not.
    pub fn missing(&self) -> Option<String> {
        let kinds = corrupt::kinds_of_four_words();
        let never = |(_, judged): &(&Kind<OldNode>, &Judged)| judged.sound + judged.unsound == 0;
        if let Some((kind, _)) = kinds.iter().zip(&self.kinds).find(never) {
            return Some(format!("never judged, of four-word nodes: {}", kind.name));
        }
        let few = |result: &u32| self.results.get(result).is_none_or(|&times| times < 300);
        if let Some(result) = RESULTS.iter().find(|result| few(result)) {
            return Some(format!("few change-overs that answer {result}"));
        }
        // in four words no node can be on two levels with a tree of the shape on both
        let alone = SENTENCES.iter().zip(self.alone);
        let never = |(sentence, times): &(&sentences::Sentence, u64)| {
            *times == 0 && sentence.text != "no node is reached on two levels"
        };
        if let Some((sentence, _)) = alone.into_iter().find(never) {
            return Some(format!(
                "never broken alone, of four-word nodes: {}",
                sentence.text
            ));
        }
        let counts = [self.in_runs, self.returned, self.ended, self.again_refused];
        let rare = [self.again_unchanged, self.taken_for_two, self.spoilt];
        let met = counts.iter().all(|&count| count >= 300) && rare.iter().all(|&count| count > 0);
        (!met).then(|| "a case of a change-over was met too rarely".to_string())
    }
}

/// In the middle of a run: the older layout's pool, changed over, must be the run's own; then both go on.
pub fn in_a_run(
    state: &State,
    old: &[u32],
    new: &[u32],
    random: &Random,
    session: &mut Session,
) -> Result<(), Failure> {
    let call = asking(state, old.to_vec(), random);
    let after = session.both(&call)?;
    expect_accepted(&call, &after, state, random, session)?;
    let front = NODE_WORDS * state.nodes as usize;
    expect(
        after.pool[..front] == new[..front],
        "changed over, the older layout's pool is not the run's",
    )?;
    session.changeovers.in_runs += 1;
    go_on(&call, &after, state, random, session)
}

/// With words past the nodes, and a work slice that is long enough.
fn asking(state: &State, mut pool: Vec<u32>, random: &Random) -> Call {
    pool.extend(random.words(random.pick(&[0, 1, 2, 3, random.below(40)])));
    let work = state.nodes as usize + random.below(6);
    Call {
        state: Parts::of(state),
        pool,
        work: random.words(work),
        entry: Entry::Convert,
    }
}

/// "turn it into two-word nodes in the front of the same slice, the old nodes' remaining words zero"; "Words past the old nodes never
/// change."; the state, with its table, is only read; the work slice's "first words, one per recorded node, are zero and the others are
/// unchanged".
fn expect_accepted(
    call: &Call,
    after: &Outcome,
    state: &State,
    random: &Random,
    session: &mut Session,
) -> Result<(), Failure> {
    count(call, after, session);
    let nodes = state.nodes as usize;
    let [front, end] = [NODE_WORDS, OLD_NODE_WORDS].map(|words| words * nodes);
    expect(after.result[0] == 0, "a change-over was refused")?;
    expect(after.state == call.state, "the state has changed")?;
    let unpacked = layouts::unpack(state, &after.pool).ok_or("a new pool is not unpacked")?;
    let as_before = unpacked == call.pool[..end];
    expect(as_before, "unpacked, the new pool is not the old one")?;
    let zero = after.pool[front..end].iter().all(|&word| word == 0);
    expect(zero, "the old nodes' other words are not zero")?;
    let past = after.pool[end..] == call.pool[end..];
    expect(past, "words past the old nodes have changed")?;
    expect_work(call, after, nodes)?;
    if random.one_in(8 + nodes / 50) {
        let broken = sentences::broken(&after.state, &after.pool);
        expect(broken.is_empty(), "changed over, it is not sound")?;
    }
    let counts = &mut session.changeovers;
    counts.nodes += u64::from(state.nodes);
    counts.returned += u64::from(!state.main_lives());
    let mut work = vec![0; nodes];
    let taken = plain::sound(state, &call.pool, &mut work).is_some();
    counts.taken_for_two += u64::from(taken);
    again(call, after, session)
}

fn expect_work(call: &Call, after: &Outcome, zeros: usize) -> Result<(), Failure> {
    let (first, others) = after.work.split_at(zeros);
    let right = first.iter().all(|&word| word == 0) && others == &call.work[zeros..];
    expect(right, "the work slice is not as it should be")
}

fn count(call: &Call, after: &Outcome, session: &mut Session) {
    if let Entry::Convert = call.entry {
        *session
            .changeovers
            .results
            .entry(after.result[0])
            .or_default() += 1;
    }
}

/// A second change-over is refused, or changes nothing.
fn again(call: &Call, after: &Outcome, session: &mut Session) -> Result<(), Failure> {
    let second = Call {
        pool: after.pool.clone(),
        ..call.clone()
    };
    let left = session.both(&second)?;
    expect(
        left.pool == after.pool,
        "a second change-over changed the pool",
    )?;
    match left.result[0] {
        UNSOUND => session.changeovers.again_refused += 1,
        0 => session.changeovers.again_unchanged += 1,
        _ => return Err("a second change-over was refused otherwise".to_string()),
    }
    Ok(())
}

/// A tape from what a change-over left, by the library and by plain.rs, and from the old pool by the older layout; one in three up to Main's
/// return. The later calls are lent the whole slice, or its front.
fn go_on(
    call: &Call,
    after: &Outcome,
    state: &State,
    random: &Random,
    session: &mut Session,
) -> Result<(), Failure> {
    let mut pool = after.pool.clone();
    if random.one_in(2) {
        pool.truncate(NODE_WORDS * state.nodes as usize + random.below(3));
    }
    let mut sketch = Sketch::new(state.clone(), pool.clone(), random);
    let mut driver = Driver::new(20, 30);
    for _ in 0..random.below(30) {
        sketch.push(driver.next(&sketch.state, random));
    }
    if random.one_in(3) {
        let live = sketch.state.frames.iter().filter(|f| f.live == 1).count();
        runs::go_home(live + 2, &mut sketch, &mut driver, random);
    }
    let bytes = sketch.bytes();
    let answers = bytes.len() / RECORD_BYTES * 2 + random.below(3);
    let tape = Call {
        state: after.state.clone(),
        pool,
        work: random.words(state.nodes as usize),
        entry: Entry::Tape {
            bytes,
            answers: random.words(answers),
        },
    };
    let gone_on = session.both(&tape)?;
    let end = OLD_NODE_WORDS * state.nodes as usize;
    let mut older = Older::with(call.pool[..end].to_vec());
    older.compare(&tape, &gone_on, &mut session.layouts)?;
    session.changeovers.tapes += 1;
    let lived = state.main_lives();
    let Some(state) = gone_on
        .state
        .state()
        .filter(|state| lived && !state.main_lives())
    else {
        return Ok(());
    };
    session.changeovers.ended += 1;
    let mut work = vec![0; state.nodes as usize];
    let free = plain::sound(&state, &gone_on.pool, &mut work);
    expect(free == Some(state.nodes), "a node is not free")
}

/// Up to PER_SEED corrupted pairs of four-word nodes from one base, after a change-over of the base itself.
pub fn group(seed: u64, pairs: usize, session: &mut Session) -> Result<(), Failure> {
    let random = Random::new(!seed ^ 0x0909_0909);
    let kinds = corrupt::kinds_of_four_words();
    session
        .changeovers
        .kinds
        .resize(kinds.len(), Judged::default());
    let base = base::of_four_words(&random);
    sound(&base, &random, session)?;
    let mut judged = 0;
    while judged < pairs.min(PER_SEED) {
        let mut pair = base.clone();
        pair.turn = (seed as usize % TURNS * PER_SEED + judged) % TURNS;
        while random.one_in(2) {
            corrupt::keep_sound(&mut pair, &random);
        }
        let kind = corrupt::choose_of(&kinds, &random);
        if (kinds[kind].change)(&mut pair, &random).is_some() {
            judge(&pair, kind, kinds[kind].expected, &random, session)
                .map_err(|failure| format!("{}, {failure}", kinds[kind].name))?;
            judged += 1;
        }
    }
    Ok(())
}

/// A change-over of a sound pair, and what follows.
fn sound(pair: &Pair<OldNode>, random: &Random, session: &mut Session) -> Result<(), Failure> {
    let end = OLD_NODE_WORDS * pair.state.nodes as usize;
    let call = asking(&pair.state, pair.pool[..end].to_vec(), random);
    let after = session.both(&call)?;
    expect_accepted(&call, &after, &pair.state, random, session)?;
    go_on(&call, &after, &pair.state, random, session)
}

fn judge(
    pair: &Pair<OldNode>,
    kind: usize,
    expected: Expected,
    random: &Random,
    session: &mut Session,
) -> Result<(), Failure> {
    let mut call = Call {
        state: Parts::of(&pair.state),
        pool: pair.pool.clone(),
        work: random.words(work_for(pair) + random.below(4)),
        entry: Entry::Convert,
    };
    if random.one_in(8) {
        spoil(&mut call, random);
        session.changeovers.spoilt += 1;
        return spoilt(&call, session);
    }
    let after = session.both(&call)?;
    if pair.state.nodes as usize > call.work.len() {
        session.changeovers.kinds[kind].short_work += 1;
        return expect_refused(&call, &after, SHORT_WORK, session);
    }
    let broken = sentences::broken_four_words(&call.state, &call.pool);
    if let [alone] = broken[..] {
        session.changeovers.alone[alone] += 1;
    }
    let sentence = broken
        .first()
        .map_or("sound", |&first| SENTENCES[first].text);
    let judged = &mut session.changeovers.kinds[kind];
    let as_meant = match expected {
        Expected::Sound => broken.is_empty(),
        Expected::Unsound => !broken.is_empty(),
        Expected::Either => true,
    };
    expect(
        as_meant,
        &format!("not judged as the change was meant ({sentence})"),
    )?;
    if broken.is_empty() {
        judged.sound += 1;
        expect_accepted(&call, &after, &pair.state, random, session)?;
        return go_on(&call, &after, &pair.state, random, session);
    }
    judged.unsound += 1;
    expect_refused(&call, &after, UNSOUND, session)
        .map_err(|failure| format!("{failure} (not: {sentence})"))
}

/// As many words as are recorded, or fewer where no slice has so many.
fn work_for(pair: &Pair<OldNode>) -> usize {
    let held = pair.pool.len() / OLD_NODE_WORDS;
    match pair.state.nodes as usize {
        recorded if recorded > 20_000 => held,
        recorded => recorded.max(held),
    }
}

/// "a state refused so is left, and its pool too"; by 6 the work slice's first words are zero, else it is as it was.
fn expect_refused(
    call: &Call,
    after: &Outcome,
    wanted: u32,
    session: &mut Session,
) -> Result<(), Failure> {
    count(call, after, session);
    let result = after.result[0];
    expect(
        result == wanted,
        &format!("answered {result} instead of {wanted}"),
    )?;
    expect(after.state == call.state, "the state has changed")?;
    expect(after.pool == call.pool, "the pool has changed")?;
    let zeros = match wanted {
        UNSOUND => call.state.numbers[2] as usize,
        _ => 0,
    };
    expect_work(call, after, zeros)
}

/// Something else wrong: a short work slice, a shorter pool, a table or a part of another length; or several.
fn spoil(call: &mut Call, random: &Random) {
    let (pool, work) = (call.pool.len(), call.work.len());
    if random.one_in(3) {
        call.pool.truncate(random.pick(&[
            0,
            pool / 2,
            pool.saturating_sub(1),
            random.below(pool + 1),
        ]));
    }
    if random.one_in(3) {
        call.state.spoil_table(random);
    }
    if random.one_in(2) {
        call.work
            .truncate(random.pick(&[0, work.saturating_sub(4), random.below(work + 1)]));
    }
    if random.one_in(3) {
        call.state.spoil_length(random);
    }
}

/// In the checking order: 99, 5, then 6 as the sentences tell.
fn spoilt(call: &Call, session: &mut Session) -> Result<(), Failure> {
    let after = session.both(call)?;
    let Some(state) = call.state.state() else {
        return expect_refused(call, &after, BAD_STATE, session);
    };
    if call.work.len() < state.nodes as usize {
        return expect_refused(call, &after, SHORT_WORK, session);
    }
    if sentences::broken_four_words(&call.state, &call.pool).is_empty() {
        count(call, &after, session);
        return expect(after.result[0] == 0, "a sound pair was refused");
    }
    expect_refused(call, &after, UNSOUND, session)
}
