//! Changes of frames and deques.

use super::Pair;
use crate::plain::{Deque, Frame, Layout, View, MAX_PLACES, MAX_WORKERS, NONE};
use crate::random::Random;

/// Words that no flag can have.
const OVER_1: [u32; 5] = [2, 3, 256, NONE, 1 << 31];

fn workers<N: Layout>(pair: &Pair<N>, test: impl Fn(&Deque) -> bool) -> Vec<usize> {
    (0..pair.state.workers as usize)
        .filter(|&worker| test(&pair.state.deques[worker]))
        .collect()
}

fn idle<N: Layout>(pair: &Pair<N>, random: &Random) -> Option<usize> {
    random.some(&workers(pair, |deque| deque.length == 0))
}

fn busy<N: Layout>(pair: &Pair<N>, random: &Random) -> Option<usize> {
    random.some(&workers(pair, |deque| deque.length > 0))
}

pub fn free_places<N: Layout>(pair: &Pair<N>) -> Vec<usize> {
    (0..pair.state.frames.len())
        .filter(|&place| pair.state.frames[place].live == 0)
        .collect()
}

fn suspended<N: Layout>(pair: &Pair<N>) -> Vec<usize> {
    let mut frames = pair.live();
    frames.retain(|&place| pair.state.frames[place].suspended != 0);
    frames
}

fn deque_of(frames: &[u32]) -> Deque {
    let mut deque = Deque::EMPTY;
    frames.iter().for_each(|&frame| deque.push(frame));
    deque
}

fn queued(deque: &Deque) -> Vec<u32> {
    deque.places[..deque.length as usize].to_vec()
}

pub fn past_the_end<N: Layout>(pair: &mut Pair<N>, random: &Random) -> Option<()> {
    let deque = &mut pair.state.deques[random.below(MAX_WORKERS)];
    let past = &mut deque.places[deque.length as usize..];
    let place = (!past.is_empty()).then(|| random.below(past.len()))?;
    past[place] = random.pick(&[1, NONE, 1 + random.word_below(255)]);
    Some(())
}

/// A worker that has frames is no longer one of the workers.
pub fn absent_worker<N: Layout>(pair: &mut Pair<N>, random: &Random) -> Option<()> {
    let worker = busy(pair, random)?;
    if worker > 0 && random.one_in(2) {
        pair.state.workers = worker as u32;
        return Some(());
    }
    let absent: Vec<usize> = (pair.state.workers as usize..MAX_WORKERS).collect();
    pair.state.deques.swap(worker, random.some(&absent)?);
    Some(())
}

/// A length that no deque can have. A full deque is the place for it, if there is one.
pub fn deque_too_long<N: Layout>(pair: &mut Pair<N>, random: &Random) -> Option<()> {
    let places = pair.state.places;
    let full = workers(pair, |deque| deque.length == places);
    let worker = random
        .some(&full)
        .unwrap_or_else(|| random.below(MAX_WORKERS));
    let lengths = [
        places + 1,
        places + 2,
        257,
        1 << 31,
        NONE,
        random.word() | 512,
    ];
    pair.state.deques[worker].length = random.pick(&lengths);
    Some(())
}

pub fn deques_swapped<N: Layout>(pair: &mut Pair<N>, random: &Random) -> Option<()> {
    let (a, b) = (random.below(MAX_WORKERS), random.below(MAX_WORKERS));
    pair.state.deques.swap(a, b);
    Some(())
}

pub fn workers_swapped<N: Layout>(pair: &mut Pair<N>, random: &Random) -> Option<()> {
    let workers = pair.state.workers as usize;
    let (a, b) = (random.below(workers), random.below(workers));
    pair.state.deques.swap(a, b);
    Some(())
}

/// Another link in the chain of free places.
pub fn place_relinked<N: Layout>(pair: &mut Pair<N>, random: &Random) -> Option<()> {
    let places = pair.state.places;
    let next = random.pick(&[NONE, places, random.word_below(places), random.word()]);
    let link = match random.some(&free_places(pair)) {
        Some(place) if !random.one_in(8) => &mut pair.state.frames[place].parent,
        _ => &mut pair.state.vacant,
    };
    let old = std::mem::replace(link, next);
    (old != next).then_some(())
}

pub fn place_not_zero<N: Layout>(pair: &mut Pair<N>, random: &Random) -> Option<()> {
    let place = random.some(&free_places(pair))?;
    let word = random.pick(&[1, NONE, random.word() | 1]);
    let frame = &mut pair.state.frames[place];
    match random.below(6) {
        0 => frame.depth = word,
        1 => frame.outstanding = word,
        2 => frame.suspended = word,
        3 => frame.root = word,
        4 => frame.returning = word,
        _ => frame.younger = word,
    }
    Some(())
}

/// Moves frame places about, with all links to them put right.
pub fn places_renumbered<N: Layout>(pair: &mut Pair<N>, random: &Random) -> Option<()> {
    let mut places: Vec<u32> = (0..pair.state.places).collect();
    random.shuffle(&mut places);
    let place = |link: u32| match link {
        NONE => NONE,
        old => places[old as usize],
    };
    let old = pair.state.frames.clone();
    for (number, mut frame) in (0..).zip(old) {
        frame.parent = place(frame.parent);
        if frame.live != 0 {
            frame.younger = place(frame.younger);
        }
        pair.state.frames[place(number) as usize] = frame;
    }
    pair.state.vacant = place(pair.state.vacant);
    for deque in &mut pair.state.deques {
        let length = deque.length as usize;
        deque.places[..length]
            .iter_mut()
            .for_each(|frame| *frame = place(*frame));
    }
    Some(())
}

/// A frame is also in the deque of a worker that was idle, or twice in its own.
pub fn in_two_places<N: Layout>(pair: &mut Pair<N>, random: &Random) -> Option<()> {
    let from = busy(pair, random)?;
    let frame = random.some(&queued(&pair.state.deques[from]))?;
    let to = idle(pair, random).unwrap_or(from);
    if pair.state.deques[to].length as usize == MAX_PLACES {
        return None;
    }
    pair.state.deques[to].push(frame);
    Some(())
}

pub fn dead_frame_queued<N: Layout>(pair: &mut Pair<N>, random: &Random) -> Option<()> {
    let free = random.some(&free_places(pair))? as u32;
    let frame = random.pick(&[free, free, pair.state.places, NONE, random.word() | 256]);
    let worker = idle(pair, random)?;
    pair.state.deques[worker].push(frame);
    Some(())
}

/// A worker's only frame leaves its deque, suspended or not. This is sound for a suspended frame with a child.
pub fn put_to_sleep<N: Layout>(pair: &mut Pair<N>, random: &Random) -> Option<()> {
    let worker = random.some(&workers(pair, |deque| deque.length == 1))?;
    let frame = pair.state.deques[worker].take_top();
    pair.state.frames[frame as usize].suspended = u32::from(!random.one_in(4));
    pair.state.frames[frame as usize].returning = random.word_below(2);
    Some(())
}

/// A suspended frame goes on, on an idle worker. This is sound if it is no longer called suspended, nor returning.
pub fn woken<N: Layout>(pair: &mut Pair<N>, random: &Random) -> Option<()> {
    let frame = random.some(&suspended(pair))?;
    let worker = idle(pair, random)?;
    pair.state.frames[frame].suspended = u32::from(random.one_in(4));
    if !random.one_in(4) {
        pair.state.frames[frame].returning = 0;
    }
    pair.state.deques[worker].push(frame as u32);
    Some(())
}

/// One deque is put below another. This is sound if its top is a child of the other's bottom and both may lie so.
pub fn deques_joined<N: Layout>(pair: &mut Pair<N>, random: &Random) -> Option<()> {
    let upper = busy(pair, random)?;
    let bottom = pair.state.deques[upper].bottom()?;
    let parent =
        |worker: usize| pair.state.frames[pair.state.deques[worker].places[0] as usize].parent;
    let mut lowers = workers(pair, |deque| deque.length > 0);
    lowers.retain(|&worker| worker != upper);
    let of_the_bottom: Vec<usize> = lowers
        .iter()
        .copied()
        .filter(|&worker| parent(worker) == bottom)
        .collect();
    let lower = match random.some(&of_the_bottom) {
        Some(worker) if !random.one_in(3) => worker,
        _ => random.some(&lowers)?,
    };
    let mut frames = queued(&pair.state.deques[upper]);
    frames.extend(queued(&pair.state.deques[lower]));
    pair.state.deques[upper] = deque_of(&frames);
    pair.state.deques[lower] = Deque::EMPTY;
    Some(())
}

/// All but a deque's top go to an idle worker.
pub fn top_left_alone<N: Layout>(pair: &mut Pair<N>, random: &Random) -> Option<()> {
    cut(pair, random, 1)
}

/// The same, but two or more frames stay, and so the last of them has a child elsewhere.
pub fn cut_below_the_top<N: Layout>(pair: &mut Pair<N>, random: &Random) -> Option<()> {
    cut(pair, random, 2)
}

/// At least so many frames stay, just one if it is the top that stays.
fn cut<N: Layout>(pair: &mut Pair<N>, random: &Random, least: usize) -> Option<()> {
    let longer = |deque: &Deque| deque.length as usize > least;
    let from = random.some(&workers(pair, longer))?;
    let to = idle(pair, random)?;
    let frames = queued(&pair.state.deques[from]);
    let stay = match least {
        1 => 1,
        _ => least + random.below(frames.len() - least),
    };
    let (upper, lower) = frames.split_at(stay);
    pair.state.deques[from] = deque_of(upper);
    pair.state.deques[to] = deque_of(lower);
    Some(())
}

pub fn deque_out_of_order<N: Layout>(pair: &mut Pair<N>, random: &Random) -> Option<()> {
    let worker = random.some(&workers(pair, |deque| deque.length >= 2))?;
    let deque = &mut pair.state.deques[worker];
    let length = deque.length as usize;
    let (a, b) = (random.below(length), random.below(length));
    deque.places.swap(a, b);
    (a != b).then_some(())
}

/// A live frame gets another parent, with the outstanding counts put right, and mostly the links. This is sound if depths and deques allow
/// it.
pub fn another_parent<N: Layout>(pair: &mut Pair<N>, random: &Random) -> Option<()> {
    let live = pair.live();
    let mut children = live.clone();
    children.retain(|&place| pair.state.frames[place].parent != NONE);
    let child = random.some(&children)?;
    let old = pair.state.frames[child].parent as usize;
    let depth = pair.state.frames[old].depth;
    let mut level = live.clone();
    level.retain(|&place| pair.state.frames[place].depth == depth && place != old);
    let new = match random.some(&level) {
        Some(place) if !random.one_in(3) => place,
        _ => random.some(&live)?,
    };
    pair.state.frames[old].outstanding -= 1;
    pair.state.frames[new].outstanding += 1;
    if random.one_in(5) {
        pair.state.frames[child].parent = new as u32;
        return Some(());
    }
    leave_siblings(pair, child as u32);
    let mut siblings = pair.children(new as u32);
    siblings.insert(random.below(siblings.len() + 1), child as u32);
    pair.state.frames[child].parent = new as u32;
    pair.chain_siblings(&siblings);
    Some(())
}

/// The links go past this frame.
fn leave_siblings<N: Layout>(pair: &mut Pair<N>, place: u32) {
    let mut siblings = pair.children(pair.state.frames[place as usize].parent);
    siblings.retain(|&sibling| sibling != place);
    pair.chain_siblings(&siblings);
}

pub fn depth_changed<N: Layout>(pair: &mut Pair<N>, random: &Random) -> Option<()> {
    let live = pair.live();
    let one = random.some(&live)?;
    if random.one_in(4) {
        for place in live {
            pair.state.frames[place].depth += 1;
        }
        return Some(());
    }
    let depth = &mut pair.state.frames[one].depth;
    *depth = random.pick(&[depth.wrapping_add(1), depth.wrapping_sub(1), NONE]);
    Some(())
}

pub fn outstanding_moved<N: Layout>(pair: &mut Pair<N>, random: &Random) -> Option<()> {
    let live = pair.live();
    let (more, fewer) = (random.some(&live)?, random.some(&live)?);
    let (a, b) = (
        &pair.state.frames[more].outstanding,
        &pair.state.frames[fewer].outstanding,
    );
    let (a, b) = (a.wrapping_add(1), b.wrapping_sub(1));
    pair.state.frames[more].outstanding = a;
    pair.state.frames[fewer].outstanding = b;
    Some(())
}

/// A frame without a child gets depth 0 and no parent.
pub fn second_main<N: Layout>(pair: &mut Pair<N>, random: &Random) -> Option<()> {
    let mut frames = pair.live();
    frames.retain(|&place| {
        let frame = &pair.state.frames[place];
        frame.parent != NONE && frame.outstanding == 0
    });
    let place = random.some(&frames)?;
    let parent = pair.state.frames[place].parent as usize;
    leave_siblings(pair, place as u32);
    pair.state.frames[parent].outstanding -= 1;
    pair.state.frames[place].parent = NONE;
    pair.state.frames[place].depth = 0;
    pair.state.frames[place].younger = NONE;
    Some(())
}

/// A new frame, child of any live one, alone on an idle worker. This is sound if the parent may have a child elsewhere.
pub fn child_by_hand<N: Layout>(pair: &mut Pair<N>, random: &Random) -> Option<()> {
    let parent = random.some(&pair.live())?;
    let worker = idle(pair, random)?;
    let place = pair.state.vacant;
    let next = pair.state.frames.get(place as usize)?.parent;
    let mut siblings = pair.children(parent as u32);
    let above = &mut pair.state.frames[parent];
    above.outstanding += 1;
    let child = Frame {
        live: 1,
        parent: parent as u32,
        depth: above.depth + 1,
        outstanding: 0,
        suspended: 0,
        root: above.root,
        returning: 0,
        view: View::IDENTITY,
        younger: NONE,
    };
    pair.retain(child.root);
    pair.state.frames[place as usize] = child;
    siblings.insert(random.below(siblings.len() + 1), place);
    pair.chain_siblings(&siblings);
    pair.state.vacant = next;
    pair.state.deques[worker].push(place);
    Some(())
}

pub fn flag_over_1<N: Layout>(pair: &mut Pair<N>, random: &Random) -> Option<()> {
    let place = random.some(&pair.live())?;
    let word = random.pick(&OVER_1);
    let frame = &mut pair.state.frames[place];
    if random.one_in(2) {
        frame.live = word;
    } else {
        frame.suspended = word;
    }
    Some(())
}

/// A frame in a deque is called returning.
pub fn returning_awake<N: Layout>(pair: &mut Pair<N>, random: &Random) -> Option<()> {
    let mut frames = pair.live();
    frames.retain(|&place| pair.state.frames[place].suspended == 0);
    pair.state.frames[random.some(&frames)?].returning = 1;
    Some(())
}

/// A suspended frame, or any live one, has a word that is neither 0 nor 1 there.
pub fn returning_over_1<N: Layout>(pair: &mut Pair<N>, random: &Random) -> Option<()> {
    let live = random.some(&pair.live())?;
    let place = random.some(&suspended(pair)).unwrap_or(live);
    pair.state.frames[place].returning = random.pick(&OVER_1);
    Some(())
}

/// A free place is called returning, and perhaps suspended too.
pub fn free_place_returning<N: Layout>(pair: &mut Pair<N>, random: &Random) -> Option<()> {
    let place = random.some(&free_places(pair))?;
    pair.state.frames[place].returning = random.pick(&[1, 1, 2, NONE]);
    pair.state.frames[place].suspended = random.word_below(2);
    Some(())
}

/// A frame that waits at a sync waits as returning, or the other way round.
pub fn wait_turned<N: Layout>(pair: &mut Pair<N>, random: &Random) -> Option<()> {
    let place = random.some(&suspended(pair))?;
    pair.state.frames[place].returning ^= 1;
    Some(())
}
