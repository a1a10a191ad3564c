//! Changes of what R-5 adds: views, totals, the links to the next younger sibling. A link of a sound pair that leads anywhere else makes
//! it unsound: the frames of two chains are one chain by just one link.

use super::frames::free_places;
use super::Pair;
use crate::plain::{Layout, View, NONE};
use crate::random::Random;

/// The live children of some frame, eldest first: at least so many.
fn family<N: Layout>(pair: &Pair<N>, random: &Random, least: usize) -> Option<Vec<u32>> {
    let parents = pair.live().into_iter().map(|place| place as u32);
    let mut families: Vec<Vec<u32>> = parents.map(|parent| pair.children(parent)).collect();
    families.retain(|children| children.len() >= least);
    let choice = (!families.is_empty()).then(|| random.below(families.len()))?;
    Some(families.swap_remove(choice))
}

fn link<N: Layout>(pair: &mut Pair<N>, from: u32, to: u32) {
    pair.state.frames[from as usize].younger = to;
}

/// Other words than the old ones, in one place or in all.
fn other_words(old: View, random: &Random) -> View {
    let mut words = old.words();
    let place = random.below(4);
    words[place] = random.pick(&[
        0,
        1,
        NONE,
        words[place] ^ 1 << random.below(32),
        random.word(),
    ]);
    random.pick(&[
        View::of_words(words),
        View::of_words([0; 4]),
        View::IDENTITY,
    ])
}

/// Words that are not all zero.
fn not_zero(random: &Random) -> View {
    let mut words = [0; 4];
    words[random.below(4)] = random.pick(&[1, NONE, 1 << 31, random.word() | 1]);
    let any = View::of_words([0; 4].map(|_| random.word() | 1));
    random.pick(&[
        View::of_words(words),
        View::of_words(words),
        View::IDENTITY,
        any,
    ])
}

/// Every other time the child that its parent has below it in a deque, and that is the youngest in every run, is the eldest.
pub fn reordered<N: Layout>(pair: &mut Pair<N>, random: &Random) -> Option<()> {
    let queued_below = |pair: &Pair<N>, place: u32| {
        let deques = pair.state.deques.iter();
        let below = deques.map(|deque| &deque.places[..deque.length as usize]);
        below
            .into_iter()
            .any(|frames| frames.iter().skip(1).any(|&frame| frame == place))
    };
    let mut children = family(pair, random, 2)?;
    random.shuffle(&mut children);
    if random.one_in(2) {
        children.sort_by_key(|&child| !queued_below(pair, child));
    }
    pair.chain_siblings(&children);
    Some(())
}

/// Nothing is asked of a live frame's view.
pub fn view_words<N: Layout>(pair: &mut Pair<N>, random: &Random) -> Option<()> {
    let place = random.some(&pair.live())?;
    let view = &mut pair.state.frames[place].view;
    *view = other_words(*view, random);
    Some(())
}

/// Nothing is asked of the totals if no frame lives.
pub fn totals_after_main<N: Layout>(pair: &mut Pair<N>, random: &Random) -> Option<()> {
    if pair.state.main_lives() {
        return None;
    }
    pair.state.totals = other_words(pair.state.totals, random);
    Some(())
}

pub fn totals_too_early<N: Layout>(pair: &mut Pair<N>, random: &Random) -> Option<()> {
    if !pair.state.main_lives() {
        return None;
    }
    pair.state.totals = not_zero(random);
    Some(())
}

/// The youngest links to an elder sibling.
pub fn cycle<N: Layout>(pair: &mut Pair<N>, random: &Random) -> Option<()> {
    let children = family(pair, random, 2)?;
    let last = children.len() - 1;
    link(pair, children[last], children[random.below(last)]);
    Some(())
}

/// Some of the siblings are a chain that ends, the others go round.
pub fn chain_and_cycle<N: Layout>(pair: &mut Pair<N>, random: &Random) -> Option<()> {
    let children = family(pair, random, 3)?;
    let (chain, round) = children.split_at(1 + random.below(children.len() - 2));
    pair.chain_siblings(chain);
    pair.chain_siblings(round);
    link(pair, round[round.len() - 1], round[0]);
    Some(())
}

pub fn link_to_itself<N: Layout>(pair: &mut Pair<N>, random: &Random) -> Option<()> {
    let place = random.some(&pair.live())? as u32;
    link(pair, place, place);
    Some(())
}

/// None too early: two chains.
pub fn cut_in_two<N: Layout>(pair: &mut Pair<N>, random: &Random) -> Option<()> {
    let children = family(pair, random, 2)?;
    link(pair, children[random.below(children.len() - 1)], NONE);
    Some(())
}

/// A link goes past a sibling, which has its own link as before, or none.
pub fn skipped<N: Layout>(pair: &mut Pair<N>, random: &Random) -> Option<()> {
    let children = family(pair, random, 3)?;
    let place = random.below(children.len() - 2);
    link(pair, children[place], children[place + 2]);
    if random.one_in(2) {
        link(pair, children[place + 1], NONE);
    }
    Some(())
}

/// A link leads to a frame that is no sibling, to a free place or to none of the table.
pub fn link_to_a_stranger<N: Layout>(pair: &mut Pair<N>, random: &Random) -> Option<()> {
    let children = family(pair, random, 1)?;
    let places = pair.state.places;
    let others = (0..places).filter(|place| !children.contains(place));
    let mut strangers: Vec<u32> = others.collect();
    strangers.extend([
        places,
        places + 1,
        256,
        1 << 31,
        NONE - 1,
        random.word() | 256,
    ]);
    let from = random.some(&children)?;
    let to = match random.below(3) {
        0 => pair.state.frames[from as usize].parent,
        _ => random.pick(&strangers),
    };
    let old = pair.state.frames[from as usize].younger;
    link(pair, from, to);
    (old != to).then_some(())
}

pub fn main_linked<N: Layout>(pair: &mut Pair<N>, random: &Random) -> Option<()> {
    let mut mains = pair.live();
    mains.retain(|&place| pair.state.frames[place].parent == NONE);
    let main = random.some(&mains)? as u32;
    let any = random.some(&pair.live())? as u32;
    let places = pair.state.places;
    let to = [0, main, any, random.word_below(places), places, NONE - 1];
    link(pair, main, random.pick(&to));
    Some(())
}

/// Two frames of two families have each other's link.
pub fn links_exchanged<N: Layout>(pair: &mut Pair<N>, random: &Random) -> Option<()> {
    let live = pair.live();
    let (one, two) = (random.some(&live)?, random.some(&live)?);
    let [first, second] = [one, two].map(|place| pair.state.frames[place]);
    if first.parent == second.parent || first.younger == second.younger {
        return None;
    }
    pair.state.frames[one].younger = second.younger;
    pair.state.frames[two].younger = first.younger;
    Some(())
}

/// A free place has view words, or a link: also those that a frame begins with.
pub fn free_place_view<N: Layout>(pair: &mut Pair<N>, random: &Random) -> Option<()> {
    let place = random.some(&free_places(pair))?;
    let frame = &mut pair.state.frames[place];
    match random.below(3) {
        0 => frame.view = not_zero(random),
        1 => frame.younger = random.pick(&[1, NONE, 63, place as u32 | 1]),
        _ => (frame.view, frame.younger) = (View::IDENTITY, NONE),
    }
    Some(())
}
