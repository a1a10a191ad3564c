//! Images through the library and through image.rs: saved, refused, read back and gone on with; then damaged ones.

use crate::base;
use crate::call::{Call, Entry, Outcome, BAD_STATE};
use crate::corrupt::words::TURNS;
use crate::corrupt::{self, Expected, Pair, KINDS};
use crate::damage::{self, Source, DAMAGES, MOST_NODES, MOST_PLACES};
use crate::image::{self, Size, SHORT_TARGET};
use crate::parts::Parts;
use crate::plain::{self, Refusal, State, MAX_NODES, NODE_WORDS, SPAWN};
use crate::random::Random;
use crate::sentences;
use crate::session::{Failure, Session};
use crate::sketch::Sketch;
use crate::soundness::expect;
use crate::steps;
use std::collections::BTreeMap;

/// Damaged images made from one base: as many as are read under one seed.
pub const PER_SEED: usize = 40;

const SHORT_WORK: u32 = Refusal::ShortWork as u32;
const UNSOUND: u32 = Refusal::Unsound as u32;
/// The answers that a full comparison must meet, each often.
const OF_SAVES: [u32; 5] = [0, 5, 6, 19, 99];
const OF_LOADS: [u32; 6] = [0, 5, 6, 17, 18, 99];
const OFTEN: u64 = 300;

/// How often each answer was given.
pub type Answers = BTreeMap<u32, u64>;

#[derive(Default)]
pub struct Counts {
    pub saves: Answers,
    pub loads: Answers,
    /// Images with frames that wait as returning, read back and gone on with until Main ended; the frames ended by one return, at most.
    pub waiting: u64,
    pub longest: usize,
    /// Readings of damaged images, by the damage and by the kind of the corrupted pair they were made from.
    pub damages: BTreeMap<usize, Answers>,
    pub kinds: BTreeMap<usize, Answers>,
}

impl Counts {
    /// What was not met as often as it must be.
    pub fn missing(&self) -> Option<String> {
        let seldom = |met: &Answers, all: &[u32]| {
            let few = |number: &&u32| met.get(number).copied().unwrap_or(0) < OFTEN;
            all.iter().find(few).copied()
        };
        if let Some(number) = seldom(&self.saves, &OF_SAVES) {
            return Some(format!("a save seldom answered {number}"));
        }
        if let Some(number) = seldom(&self.loads, &OF_LOADS) {
            return Some(format!("a load seldom answered {number}"));
        }
        if self.waiting < OFTEN || self.longest < 3 {
            return Some("images with waiting frames were seldom met".to_string());
        }
        let damage = (0..DAMAGES.len()).find(|damage| !self.damages.contains_key(damage));
        let kind = (0..KINDS.len()).find(|kind| !self.kinds.contains_key(kind));
        damage
            .map(|damage| format!("never damaged: {}", DAMAGES[damage].name))
            .or(kind.map(|kind| format!("never saved corrupted: {}", KINDS[kind].name)))
    }

    pub fn lines(&self) -> Vec<String> {
        let answers = |met: &Answers| {
            let each = met
                .iter()
                .map(|(number, times)| format!("{number}: {times}"));
            each.collect::<Vec<_>>().join(", ")
        };
        let mut lines = vec![
            format!("saves: {}", answers(&self.saves)),
            format!("loads: {}", answers(&self.loads)),
            format!(
                "images with waiting frames, gone on with until Main ended: {}; one return ended at most {} frames",
                self.waiting, self.longest
            ),
        ];
        for (&damage, met) in &self.damages {
            lines.push(format!("  {:24}{}", DAMAGES[damage].name, answers(met)));
        }
        let mut corrupted = Answers::new();
        for (&number, &times) in self.kinds.values().flatten() {
            *corrupted.entry(number).or_default() += times;
        }
        let name = format!("{} kinds of corruption", self.kinds.len());
        lines.push(format!("  {name:24}{}", answers(&corrupted)));
        lines
    }
}

fn count(answers: &mut Answers, after: &Outcome) {
    *answers.entry(after.result[0]).or_default() += 1;
}

/// The bytes of images: every number of nodes and of places that a run can have, some beyond, and those where arithmetic of 32 bits would go
/// round.
pub fn compare_sizes() -> Result<(), Failure> {
    let powers = (8..32).flat_map(|power| (0..5).map(move |near| (1u32 << power) - 2 + near));
    let wraps = (0..=128).map(|times: u32| times.wrapping_mul(127 << 18));
    let wraps = wraps
        .flat_map(|nodes| [0, 5, 19, 227, 325, 649, 2_569].map(|less| nodes.wrapping_sub(less)));
    let far: Vec<u32> = powers
        .chain(wraps)
        .chain([u32::MAX - 1, u32::MAX])
        .collect();
    let most_nodes = (0..=MOST_NODES as u32).chain(far.iter().copied());
    let nodes = most_nodes.flat_map(|nodes| [1, 2, 64, 255, 256].map(|places| (places, nodes)));
    let most_places = (0..=MOST_PLACES as u32).chain(far.iter().copied());
    let places = most_places.flat_map(|places| [0, 1, 20, MOST_NODES as u32].map(|n| (places, n)));
    let both = far.iter().flat_map(|&p| far.iter().map(move |&n| (p, n)));
    let mut sizes = nodes.chain(places).chain(both);
    let wrong = sizes.find(|&(places, nodes)| {
        let bytes = image::bytes(Size { places, nodes });
        splitter::image_bytes(places, nodes) != bytes
            || image::literal::image_bytes(places, nodes) != bytes
    });
    wrong.map_or(Ok(()), |(places, nodes)| {
        Err(format!(
            "the bytes for {places} places and {nodes} nodes differ"
        ))
    })
}

fn size_of(state: &State) -> Size {
    Size {
        places: state.places,
        nodes: state.nodes,
    }
}

/// One image: saved, read back, gone on with, and read again; and saves that are refused.
pub fn image(seed: u64, session: &mut Session, counts: &mut Counts) -> Result<(), Failure> {
    let random = Random::new(seed ^ 0x1333_5777);
    let pair = pair(&random);
    let save = saving(&pair, &random);
    let saved = session.both(&save)?;
    count(&mut counts.saves, &saved);
    expect(saved.result[0] == 0, "a save was refused")?;
    let length = image::bytes(size_of(&pair.state)) as usize;
    let untouched = saved.bytes[length..] == save.bytes()[length..];
    expect(untouched, "bytes past the image have changed")?;
    for _ in 0..3 {
        refused_save(&pair, &random, session, counts)?;
    }
    let load = loading(saved.bytes[..length].to_vec(), &random);
    let loaded = session.both(&load)?;
    count(&mut counts.loads, &loaded);
    expect_read(&pair, &load, &loaded)?;
    let last = go_on(&pair, &loaded, &random, session)?;
    if pair.state.frames.iter().any(|frame| frame.returning == 1) {
        go_home(&loaded, &random, session, counts)?;
    }
    let again = Call {
        state: last.state,
        pool: last.pool,
        ..load
    };
    let loaded = session.both(&again)?;
    count(&mut counts.loads, &loaded);
    expect_read(&pair, &again, &loaded)
}

/// Mostly small; often with blocks that are just full, or just begun; now and then as large as can be.
fn pair(random: &Random) -> Pair {
    match random.below(400) {
        0 => {
            let splitters = random.pick(&[1, 5, 200, 256]);
            base::played(splitters, (MAX_NODES - random.below(3)) as u32, random)
        }
        1..100 => {
            let places = base::any_places(random);
            let nodes = full(places as u32) + random.word_below(4) + 127 * random.word_below(4);
            let splitters = 1 + random.below(if nodes < 105 { 11 } else { 50 });
            base::played_in(places, splitters, nodes, random)
        }
        _ => base::any(random),
    }
}

/// One node less than fill some blocks, with so many places: 25 or more.
fn full(places: u32) -> u32 {
    let fills = |nodes: &u32| (18 + 20 * places + 2 * nodes).is_multiple_of(127);
    (26..26 + 127).find(fills).map_or(25, |nodes| nodes - 1)
}

fn saving(pair: &Pair, random: &Random) -> Call {
    let nodes = pair.state.nodes as usize;
    let more = random.pick(&[0, 0, 1, 7, 512, random.below(1_200)]);
    let target = image::bytes(size_of(&pair.state)) as usize + more;
    let mut pool = pair.pool.clone();
    pool.extend(random.words(random.below(9)));
    Call {
        state: Parts::of(&pair.state),
        pool,
        work: random.words(nodes + random.below(6)),
        entry: Entry::Save {
            target: (0..target).map(|_| random.word() as u8).collect(),
        },
    }
}

/// A save with something wrong.
fn refused_save(
    pair: &Pair,
    random: &Random,
    session: &mut Session,
    counts: &mut Counts,
) -> Result<(), Failure> {
    let mut call = saving(pair, random);
    let meant = spoil_save(&mut call, pair, random);
    let after = session.both(&call)?;
    count(&mut counts.saves, &after);
    let right = meant.is_none_or(|number| number == after.result[0]);
    expect(right, &format!("{call}: not answered {meant:?}"))
}

/// The answer that is meant, if it is known. What is wrong is made in the reverse of the checking order, so that the last made decides.
fn spoil_save(call: &mut Call, pair: &Pair, random: &Random) -> Option<u32> {
    let mut meant = Some(0);
    if random.one_in(2) {
        let whole = image::bytes(size_of(&pair.state)) as usize;
        let left = random.pick(&[whole - 1, 0, random.below(whole)]);
        if let Entry::Save { target } = &mut call.entry {
            target.truncate(left);
        }
        meant = Some(SHORT_TARGET);
    }
    if random.one_in(3) {
        let mut pair = pair.clone();
        let kind = corrupt::choose(random);
        if (KINDS[kind].change)(&mut pair, random).is_some() {
            (call.state, call.pool) = (Parts::of(&pair.state), pair.pool);
            let short = (call.bytes().len() as u64) < image::bytes(size_of(&pair.state));
            meant = match KINDS[kind].expected {
                Expected::Sound => Some(if short { SHORT_TARGET } else { 0 }), // a table may have grown
                Expected::Unsound => Some(UNSOUND),
                Expected::Either => None,
            };
        }
    }
    if random.one_in(4) {
        let nodes = pair.state.nodes as usize;
        let left = random.pick(&[nodes - 1, 0, random.below(nodes)]);
        call.work.truncate(left);
        if call.state.numbers[image::NODES] as usize > left {
            meant = Some(SHORT_WORK);
        }
    }
    if random.one_in(12) {
        call.state.spoil_length(random);
        meant = Some(BAD_STATE);
    }
    meant
}

/// A reading into other memory, long enough for what the image records, in a table as it records.
fn loading(image: Vec<u8>, random: &Random) -> Call {
    let recorded = image::recorded(&image);
    let (places, nodes) = recorded.map_or((1, 0), |size| (size.places, size.nodes as usize));
    let nodes = if nodes <= MOST_NODES { nodes } else { 30 };
    let places = if places as usize <= MOST_PLACES {
        places
    } else {
        30
    };
    let pool = NODE_WORDS * nodes + random.pick(&[0, 1, 2, 3, 4, random.below(60)]);
    Call {
        state: Parts::garbage(places as usize, random),
        pool: random.words(pool),
        work: random.words(nodes + random.below(6)),
        entry: Entry::Load { image },
    }
}

/// "Reading back gives the same state", the same table too, and words past the nodes are as they were.
fn expect_read(pair: &Pair, call: &Call, after: &Outcome) -> Result<(), Failure> {
    expect(after.result[0] == 0, "a good image was refused")?;
    expect(after.state == Parts::of(&pair.state), "another state")?;
    let (nodes, past) = after.pool.split_at(pair.pool.len());
    expect(nodes == pair.pool, "another pool")?;
    let as_before = past == &call.pool[pair.pool.len()..];
    expect(as_before, "words past the nodes have changed")
}

/// A tape and a step from what was read, on both sides; the same tape from what was saved gives the same answers.
fn go_on(
    pair: &Pair,
    loaded: &Outcome,
    random: &Random,
    session: &mut Session,
) -> Result<Outcome, Failure> {
    let step = || steps::plausible(&pair.state, SPAWN + random.word_below(7), random);
    let bytes: Vec<u8> = (0..1 + random.below(6))
        .flat_map(|_| steps::record(step()))
        .collect();
    let tape = Call {
        state: loaded.state.clone(),
        pool: loaded.pool.clone(),
        work: random.words(pair.state.nodes as usize),
        entry: Entry::Tape {
            answers: random.words(bytes.len() / plain::RECORD_BYTES * 2),
            bytes,
        },
    };
    let after = session.both(&tape)?;
    let before = Call {
        state: Parts::of(&pair.state),
        pool: pair.pool.clone(),
        ..tape.clone()
    };
    let (saved, length) = (before.by_plain(), pair.pool.len());
    let alike = saved.result == after.result
        && saved.answers == after.answers
        && saved.state == after.state
        && saved.pool == after.pool[..length];
    expect(alike, "the run goes on otherwise than from its save")?;
    session.both(&Call {
        state: after.state,
        pool: after.pool,
        entry: Entry::Step(step()),
        ..tape
    })
}

/// From what was read, as many returns as bring Main's end; then every node is free.
fn go_home(
    loaded: &Outcome,
    random: &Random,
    session: &mut Session,
    counts: &mut Counts,
) -> Result<(), Failure> {
    let Some(state) = loaded.state.state() else {
        return Err("a part of another length was read".to_string());
    };
    let live = |state: &State| state.frames.iter().filter(|frame| frame.live == 1).count();
    let mut sketch = Sketch::new(state, loaded.pool.clone(), random);
    while sketch.state.main_lives() {
        let before = live(&sketch.state);
        let accepted = sketch.push(steps::homeward(&sketch.state));
        expect(accepted, "a return of the deepest frame was refused")?;
        counts.longest = counts.longest.max(before - live(&sketch.state));
    }
    let bytes = sketch.bytes();
    let nodes = sketch.state.nodes;
    let answers = bytes.len() / plain::RECORD_BYTES * 2;
    let after = session.both(&Call {
        state: loaded.state.clone(),
        pool: loaded.pool.clone(),
        work: random.words(nodes as usize),
        entry: Entry::Tape {
            answers: random.words(answers),
            bytes,
        },
    })?;
    counts.waiting += 1;
    expect(after.answers.ends_with(&[102, 3]), "Main has not ended")?;
    let ended = after.state.state().is_some_and(|state| !state.main_lives());
    expect(ended && sketch.free_nodes == nodes, "a node is not free")
}

/// Up to PER_SEED damaged images from one base.
pub fn group(
    seed: u64,
    images: usize,
    session: &mut Session,
    counts: &mut Counts,
) -> Result<(), Failure> {
    let random = Random::new(!seed ^ 0x1333_5777);
    let mut pair = base::any(&random);
    let older = damage::image_of(&pair);
    base::play(&mut pair, random.below(30), &random);
    let source = Source {
        image: damage::image_of(&pair),
        before: damage::image_before(&pair, random.word_below(3)),
        third: damage::image_before(&pair, 3),
        older,
        other: damage::image_of(&base::any(&random)),
    };
    let mut read = 0;
    while read < images.min(PER_SEED) {
        let made = if random.one_in(3) {
            corrupted(&pair, &random)
        } else {
            damaged(&source, &random)
        };
        if let Some(made) = made {
            read_damaged(made, &source, &random, session, counts)?;
            read += 1;
        }
    }
    Ok(())
}

/// A damaged image: what was done to it, and what a reading with long enough slices may answer (nothing listed: anything).
struct Made {
    image: Vec<u8>,
    damage: Option<usize>,
    kind: Option<usize>,
    answers: &'static [u32],
}

/// Changes that an image may lose: it has all its nodes and places, and no deque places past the table's.
const NOT_IN_THE_IMAGE: [&str; 4] = [
    "pool cut off",
    "past the end",
    "table lengthened",
    "table cut off",
];

/// The image of a corrupted pair.
fn corrupted(pair: &Pair, random: &Random) -> Option<Made> {
    let mut pair = pair.clone();
    pair.turn = random.below(TURNS);
    let kind = corrupt::choose(random);
    (KINDS[kind].change)(&mut pair, random)?;
    let outside = NOT_IN_THE_IMAGE.contains(&KINDS[kind].name);
    Some(Made {
        image: damage::image_of(&pair),
        damage: None,
        kind: Some(kind),
        answers: match KINDS[kind].expected {
            _ if pair.state.places as usize > MOST_PLACES => &[17], // it has the table's places
            Expected::Sound => &[0],
            Expected::Unsound if !outside => &[6],
            _ => &[],
        },
    })
}

fn damaged(source: &Source, random: &Random) -> Option<Made> {
    let damage = random.below(DAMAGES.len());
    let mut image = source.image.clone();
    (DAMAGES[damage].change)(&mut image, source, random)?;
    Some(Made {
        image,
        damage: Some(damage),
        kind: None,
        answers: DAMAGES[damage].answers,
    })
}

fn read_damaged(
    mut made: Made,
    source: &Source,
    random: &Random,
    session: &mut Session,
    counts: &mut Counts,
) -> Result<(), Failure> {
    if random.one_in(8) {
        let more = &DAMAGES[random.below(DAMAGES.len())];
        let mut image = made.image.clone();
        if (more.change)(&mut image, source, random).is_some() {
            (made.image, made.answers) = (image, &[]);
        }
    }
    let mut call = loading(made.image, random);
    if random.one_in(4) {
        spoil(&mut call, random);
    }
    let what = made.damage.map(|damage| DAMAGES[damage].name);
    let what = what
        .or(made.kind.map(|kind| KINDS[kind].name))
        .unwrap_or("");
    let after = session
        .both(&call)
        .map_err(|failure| format!("{what}, {failure}"))?;
    count(&mut counts.loads, &after);
    if let Some(damage) = made.damage {
        count(counts.damages.entry(damage).or_default(), &after);
    }
    if let Some(kind) = made.kind {
        count(counts.kinds.entry(kind).or_default(), &after);
    }
    expect_answer(&call, made.answers, after.result[0])
        .and_then(|()| expect_sound(&after, random, session))
        .map_err(|failure| format!("{what}, {call}: {failure}"))
}

/// Something else wrong with a reading: a table of another length, a pool or a work slice that is too short, a part of another length; or
/// several.
fn spoil(call: &mut Call, random: &Random) {
    let (pool, work) = (call.pool.len(), call.work.len());
    if random.one_in(2) {
        let left = random.pick(&[0, pool.saturating_sub(NODE_WORDS), random.below(pool + 1)]);
        call.pool.truncate(left);
    }
    if random.one_in(3) {
        let left = random.pick(&[0, work.saturating_sub(6), random.below(work + 1)]);
        call.work.truncate(left);
    }
    if random.one_in(3) {
        call.state.spoil_table(random);
    }
    if random.one_in(6) {
        call.state.spoil_length(random);
    }
}

/// The answer is one that the damage may lead to, or one that a slice leads to, in the checking order.
fn expect_answer(call: &Call, answers: &[u32], result: u32) -> Result<(), Failure> {
    let recorded = image::recorded(call.bytes());
    let (places, nodes) = recorded.map_or((0, 0), |size| (size.places, size.nodes as usize));
    let may = |number| answers.is_empty() || answers.contains(&number);
    let by_bytes = matches!(result, 17 | 18) && may(result);
    let right = if call.state.state().is_none() {
        result == BAD_STATE
    } else if call.work.len() < nodes {
        by_bytes || result == SHORT_WORK
    } else if call.pool.len() / NODE_WORDS < nodes || call.state.places() != places as usize {
        by_bytes || result == UNSOUND
    } else {
        OF_LOADS.contains(&result) && may(result) && !matches!(result, SHORT_WORK | BAD_STATE)
    };
    expect(right, &format!("answered {result}"))
}

/// What was read is sound by the sentences, seen now and then, and the run goes on alike.
fn expect_sound(after: &Outcome, random: &Random, session: &mut Session) -> Result<(), Failure> {
    if after.result[0] != 0 || !random.one_in(4) {
        return Ok(());
    }
    let broken = sentences::broken(&after.state, &after.pool);
    expect(broken.is_empty(), "what was read is not sound")?;
    let Some(state) = after.state.state() else {
        return Err("a part of another length was read".to_string());
    };
    let step = Call {
        state: after.state.clone(),
        pool: after.pool.clone(),
        work: random.words(state.nodes as usize),
        entry: Entry::Step(steps::plausible(
            &state,
            SPAWN + random.word_below(7),
            random,
        )),
    };
    session.both(&step).map(|_| ())
}
