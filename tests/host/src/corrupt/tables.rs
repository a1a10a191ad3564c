//! Changes of the frame table's length, and of what is recorded of it (document 02, R-6).

use super::Pair;
use crate::plain::{of_record, Frame, Layout, FRAME_WORDS, MAX_PLACES, NONE};
use crate::random::Random;

/// The free places, from the first.
fn vacant<N: Layout>(pair: &Pair<N>) -> Vec<u32> {
    let next = |place: u32| pair.state.frames.get(place as usize).map(|f| f.parent);
    std::iter::successors(Some(pair.state.vacant), |&place| next(place))
        .take_while(|&place| place != NONE)
        .collect()
}

/// Makes these places free and the chain of free places, in this order.
fn rechain<N: Layout>(pair: &mut Pair<N>, chain: &[u32]) {
    let mut next = NONE;
    for &place in chain.iter().rev() {
        pair.state.frames[place as usize] = Frame {
            parent: next,
            ..Frame::default()
        };
        next = place;
    }
    pair.state.vacant = next;
}

/// So many places, recorded too; the new ones are free.
fn grow<N: Layout>(pair: &mut Pair<N>, places: usize, random: &Random) {
    let mut chain = vacant(pair);
    chain.extend(pair.state.frames.len() as u32..places as u32);
    if random.one_in(2) {
        random.shuffle(&mut chain);
    }
    pair.state.frames.resize(places, Frame::default());
    pair.state.places = places as u32;
    rechain(pair, &chain);
}

pub fn grown<N: Layout>(pair: &mut Pair<N>, random: &Random) -> Option<()> {
    let places = pair.state.frames.len();
    let room = MAX_PLACES.checked_sub(places + 1)?;
    let more = 1 + random.pick(&[0, room, random.below(room + 1), room.min(random.below(20))]);
    grow(pair, places + more, random);
    Some(())
}

/// More places than a table has, all in order.
pub fn too_long<N: Layout>(pair: &mut Pair<N>, random: &Random) -> Option<()> {
    let places = MAX_PLACES + random.pick(&[1, 1, 2, 1 + random.below(40)]);
    grow(pair, places, random);
    Some(())
}

/// Some of the last places, if they are free, are given up and recorded no more; one place stays.
pub fn shrunk<N: Layout>(pair: &mut Pair<N>, random: &Random) -> Option<()> {
    let last_live = pair.live().last().map_or(0, |place| place + 1).max(1);
    let free = pair.state.frames.len() - last_live;
    let places = last_live + random.below((free > 0).then_some(free)?);
    let mut chain = vacant(pair);
    chain.retain(|&place| (place as usize) < places);
    pair.state.frames.truncate(places);
    pair.state.places = places as u32;
    rechain(pair, &chain);
    Some(())
}

/// No place at all, all in order: no frame lives.
pub fn none_left<N: Layout>(pair: &mut Pair<N>, _: &Random) -> Option<()> {
    if pair.state.main_lives() {
        return None;
    }
    pair.state.frames.clear();
    (pair.state.places, pair.state.vacant) = (0, NONE);
    Some(())
}

/// The lent table is longer than recorded; what it has more holds anything.
pub fn lengthened<N: Layout>(pair: &mut Pair<N>, random: &Random) -> Option<()> {
    let more = random.pick(&[1, 1, 2, 1 + random.below(300)]);
    for _ in 0..more {
        let words = [0; FRAME_WORDS].map(|_| random.word());
        let frame = random.pick(&[of_record(&words), Frame::default()]);
        pair.state.frames.push(frame);
    }
    Some(())
}

/// The lent table is shorter than recorded.
pub fn cut_off<N: Layout>(pair: &mut Pair<N>, random: &Random) -> Option<()> {
    let places = pair.state.frames.len();
    let left = random.pick(&[0, places - 1, places - 1, random.below(places)]);
    pair.state.frames.truncate(left);
    Some(())
}

/// Another length is recorded than the table has.
pub fn length_recorded<N: Layout>(pair: &mut Pair<N>, random: &Random) -> Option<()> {
    let old = pair.state.places;
    let others = [
        0,
        old - 1,
        old + 1,
        256,
        257,
        NONE,
        old ^ 1 << random.below(32),
        random.word_below(300),
        random.word(),
    ];
    pair.state.places = random.pick(&others);
    (pair.state.places != old).then_some(())
}

/// The last places are given up and recorded no more, whatever they hold: a frame, or a link of the free chain, is missed.
pub fn cut_and_recorded<N: Layout>(pair: &mut Pair<N>, random: &Random) -> Option<()> {
    let last = pair
        .state
        .frames
        .len()
        .checked_sub(1)
        .filter(|&last| last > 0)?;
    let places = random.pick(&[last, last, 1 + random.below(last)]);
    pair.state.frames.truncate(places);
    pair.state.places = places as u32;
    Some(())
}

/// A number that no place of the table has, in a deque, as a parent, as a sibling, or on the free chain: the next after the last, or further
/// on, up to where the longest table would have it.
pub fn number_past_it<N: Layout>(pair: &mut Pair<N>, random: &Random) -> Option<()> {
    let places = pair.state.places;
    let longest = MAX_PLACES as u32;
    let past = random.pick(&[
        places,
        places,
        longest.max(places),
        longest - 1,
        places + random.word_below(longest),
    ]);
    if past < places {
        return None;
    }
    let frame = random.below(pair.state.frames.len());
    let state = &mut pair.state;
    match random.below(5) {
        0 => state.vacant = past,
        1 | 2 => state.frames[frame].parent = past,
        3 if state.frames[frame].live == 1 => state.frames[frame].younger = past,
        _ => {
            let worker = random.below(state.workers as usize);
            let deque = &mut state.deques[worker];
            let length = (deque.length > 0).then_some(deque.length as usize)?;
            deque.places[random.below(length)] = past;
        }
    }
    Some(())
}
