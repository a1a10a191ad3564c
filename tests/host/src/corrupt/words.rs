//! Words changed without regard to what they mean.

use super::Pair;
use crate::plain::{self, Layout, View, Words, DEQUES_WORDS, FRAME_WORDS, NONE, NUMBERS_WORDS};
use crate::random::Random;
use crate::steps;
use std::array;

/// The words of numbers and deques, which have their turns.
pub const TURNS: usize = NUMBERS_WORDS + DEQUES_WORDS;

/// A word that is not the old one, near it or far.
fn another(old: u32, random: &Random) -> u32 {
    let word = match random.below(10) {
        0 => 0,
        1 => 1,
        2 => NONE,
        3 => NONE - 1,
        4 => random.word(),
        5 => random.word_below(260),
        6 => old ^ 1 << random.below(32),
        7 => old.wrapping_add(random.word_below(4)),
        8 => old.wrapping_sub(random.word_below(4)),
        _ => old.wrapping_add(1),
    };
    if word == old {
        old.wrapping_sub(1)
    } else {
        word
    }
}

/// The state word whose turn it is.
pub fn state_word<N: Layout>(pair: &mut Pair<N>, random: &Random) -> Option<()> {
    change_state(pair, pair.turn, random);
    Some(())
}

/// Any word of any record.
pub fn record_word<N: Layout>(pair: &mut Pair<N>, random: &Random) -> Option<()> {
    let words = pair.state.frames.len() * FRAME_WORDS;
    change_state(pair, TURNS + random.below(words), random);
    Some(())
}

fn change_state<N: Layout>(pair: &mut Pair<N>, position: usize, random: &Random) {
    let mut words = plain::to_words(&pair.state);
    let mut all = (words.numbers.iter_mut())
        .chain(&mut words.deques)
        .chain(&mut words.frames);
    if let Some(word) = all.nth(position) {
        *word = another(*word, random);
    }
    pair.state = plain::from_words(&words);
}

pub fn pool_word<N: Layout>(pair: &mut Pair<N>, random: &Random) -> Option<()> {
    let position = random.below(pair.pool.len());
    pair.pool[position] = another(pair.pool[position], random);
    Some(())
}

pub fn two_words<N: Layout>(pair: &mut Pair<N>, random: &Random) -> Option<()> {
    for _ in 0..2 {
        if random.one_in(2) {
            let words = TURNS + pair.state.frames.len() * FRAME_WORDS;
            change_state(pair, random.below(words), random);
        } else {
            pool_word(pair, random)?;
        }
    }
    Some(())
}

/// All words random, but often with numbers that lead the check on.
pub fn garbage<N: Layout>(pair: &mut Pair<N>, random: &Random) -> Option<()> {
    fill(pair, random, |random| random.word());
    Some(())
}

pub fn small_garbage<N: Layout>(pair: &mut Pair<N>, random: &Random) -> Option<()> {
    let limit = random.pick(&[2, 3, 10, 64, 257]);
    fill(pair, random, |random| match random.below(12) {
        0 => NONE,
        _ => random.word_below(limit),
    });
    Some(())
}

fn fill<N: Layout>(pair: &mut Pair<N>, random: &Random, word: impl Fn(&Random) -> u32) {
    let old = pair.state.clone();
    let words = Words {
        numbers: array::from_fn(|_| word(random)),
        deques: array::from_fn(|_| word(random)),
        frames: (0..old.frames.len() * FRAME_WORDS)
            .map(|_| word(random))
            .collect(),
    };
    pair.state = plain::from_words(&words);
    pair.pool.fill_with(|| word(random));
    if random.one_in(2) {
        pair.state.workers = old.workers;
        pair.state.splitters = old.splitters;
        pair.state.nodes = old.nodes;
        pair.state.places = old.places;
    }
}

/// Some records replaced by random ones, the pool as it was.
pub fn garbage_frames<N: Layout>(pair: &mut Pair<N>, random: &Random) -> Option<()> {
    let places = pair.state.places;
    for frame in &mut pair.state.frames {
        if random.one_in(4) {
            frame.live = random.word_below(3);
            frame.parent = random.pick(&[NONE, random.word_below(places)]);
            frame.depth = random.word_below(4);
            frame.outstanding = random.word_below(3);
            frame.suspended = random.word_below(2);
            frame.root = random.word_below(pair.state.head.nodes + 1);
            frame.returning = random.pick(&[0, 0, 1]);
            frame.view = random.pick(&[View::of_words([0; 4]), View::IDENTITY]);
            frame.younger = random.pick(&[0, NONE, random.word_below(places)]);
        }
    }
    Some(())
}

/// The state as it was, the pool full of links that may lead anywhere.
pub fn garbage_pool<N: Layout>(pair: &mut Pair<N>, random: &Random) -> Option<()> {
    let nodes = pair.state.nodes;
    let values = random.one_in(2);
    for node in pair.pool.chunks_mut(N::WORDS) {
        node.fill_with(|| match random.below(4) {
            0 if values => random.word_below(nodes + 1),
            _ if N::NO_LINK == NONE => random.pick(&[NONE, random.word_below(nodes)]),
            _ => steps::like_links(nodes, random),
        });
        node[0] = random.word_below(3);
    }
    Some(())
}

/// The lent pool has fewer nodes than are recorded.
pub fn pool_cut_off<N: Layout>(pair: &mut Pair<N>, random: &Random) -> Option<()> {
    let whole = N::WORDS * pair.state.nodes as usize;
    let left = random.pick(&[0, whole - 1, whole - 2, random.below(whole)]);
    pair.pool.truncate(left);
    Some(())
}

/// Words after the recorded nodes are nobody's.
pub fn pool_lengthened<N: Layout>(pair: &mut Pair<N>, random: &Random) -> Option<()> {
    let more = 1 + random.below(9);
    pair.pool.extend(random.words(more));
    Some(())
}
