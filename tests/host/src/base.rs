//! Sound pairs of a state, with its table, and a pool, as runs of plain.rs leave them.

use crate::corrupt::Pair;
use crate::layouts;
use crate::plain::{self, Frame, Layout, OldNode, State, SPAWN};
use crate::random::Random;
use crate::sketch::Sketch;
use crate::steps::{self, Driver, StepWords};

/// Mostly a small one.
pub fn any(random: &Random) -> Pair {
    let (splitters, nodes) = any_size(random);
    played(splitters, nodes, random)
}

fn any_size(random: &Random) -> (usize, u32) {
    let splitters = match random.below(120) {
        0 => random.pick(&[100, 255, 256]),
        1..12 => 1 + random.below(40),
        _ => 1 + random.below(9),
    };
    let tree = plain::tree_nodes(splitters as u32);
    (splitters, tree + random.word_below(5 * tree))
}

/// A pair of four-word nodes, as a run of plain.rs's older layout leaves it; one in three is what a pair of two-word nodes unpacks to.
pub fn of_four_words(random: &Random) -> Pair<OldNode> {
    if random.one_in(3) {
        let pair = any(random);
        let pool = layouts::unpack(&pair.state, &pair.pool).unwrap_or_default();
        return Pair::new(pair.state, pool);
    }
    let (splitters, nodes) = match random.below(40) {
        0 => (1, 1 + random.word_below(3)),
        1 => (random.pick(&[1, 5, 256]), plain::MAX_NODES as u32),
        _ => any_size(random),
    };
    let places = any_places(random);
    let mut pair = begun::<OldNode>(places, splitters, nodes, random);
    play(&mut pair, random.below(150), random);
    if random.one_in(8) {
        take(&mut pair, places, steps::homeward);
    }
    pair
}

/// The length of a table: mostly short, and every length is met.
pub fn any_places(random: &Random) -> usize {
    match random.below(16) {
        0 => random.pick(&[1, 2, 3]),
        1 => random.pick(&[63, 64, 65]),
        2 => random.pick(&[255, 256]),
        3 | 4 => 1 + random.below(256),
        _ => 2 + random.below(40),
    }
}

/// With so many splitters and nodes.
pub fn played(splitters: usize, nodes: u32, random: &Random) -> Pair {
    played_in(any_places(random), splitters, nodes, random)
}

/// The same in a table of so many places.
pub fn played_in(places: usize, splitters: usize, nodes: u32, random: &Random) -> Pair {
    let mut pair = begun(places, splitters, nodes, random);
    play(&mut pair, random.below(150), random);
    let homeward = |state: &State| steps::homeward(state);
    match random.below(24) {
        0 | 1 => take(&mut pair, places, homeward),
        2 => take(&mut pair, places, |_| [SPAWN, 0, 0, 0]),
        3 => sketch(&mut pair, random, |sketch| {
            sketch.line(random.pick(&[3, 10, places]));
        }),
        4..8 => sketch(&mut pair, random, |sketch| sketch.family()),
        _ => {}
    }
    pair
}

/// After a start.
fn begun<N: Layout>(places: usize, splitters: usize, nodes: u32, random: &Random) -> Pair<N> {
    let workers = 1 + random.word_below(8);
    let mut pool = vec![0; N::WORDS * nodes as usize];
    let table = vec![Frame::default(); places];
    let (state, _) = plain::start_of::<N>(workers, &random.words(splitters), table, &mut pool);
    Pair::new(state, pool)
}

/// Frames that wait one for the other, or with several children.
fn sketch(pair: &mut Pair, random: &Random, draw: impl FnOnce(&mut Sketch)) {
    let mut sketch = Sketch::new(pair.state.clone(), pair.pool.clone(), random);
    draw(&mut sketch);
    (pair.state, pair.pool) = (sketch.state, sketch.pool);
}

/// Goes on with so many steps.
pub fn play<N: Layout>(pair: &mut Pair<N>, steps: usize, random: &Random) {
    let mut driver = Driver::new(200, 100);
    take(pair, steps, |state| driver.next(state, random));
}

fn take<N: Layout>(pair: &mut Pair<N>, steps: usize, mut choose: impl FnMut(&State) -> StepWords) {
    let mut work = vec![0; pair.state.nodes as usize];
    let mut free_nodes = plain::sound_of::<N>(&pair.state, &pair.pool, &mut work).unwrap_or(0);
    for _ in 0..steps {
        let record = steps::record(choose(&pair.state));
        free_nodes = plain::run_tape_of::<N>(
            &mut pair.state,
            free_nodes,
            &mut pair.pool,
            &record,
            &mut [0; 2],
        );
    }
}
