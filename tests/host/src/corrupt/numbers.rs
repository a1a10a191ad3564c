//! Changes of the recorded numbers, with everything else put right.

use super::trees::renumber;
use super::Pair;
use crate::plain::{Layout, MAX_NODES};
use crate::random::Random;

/// Enough for 257 splitters, were there such a tree.
const ENOUGH_NODES: usize = 521;

/// Other numbers of workers, splitters or nodes, which the state may or may not stand.
pub fn moved<N: Layout>(pair: &mut Pair<N>, random: &Random) -> Option<()> {
    match random.below(4) {
        0 => pair.state.workers = random.word_below(10),
        1 => {
            record_nodes(pair, (pair.state.nodes as usize).max(ENOUGH_NODES));
            pair.state.splitters = random.pick(&[0, 256, 257, random.word_below(20)]);
        }
        2 => {
            let more = 1 + random.below(20);
            record_nodes(pair, pair.state.nodes as usize + more);
        }
        _ => {
            let used = pair.standings().len();
            let fewer = used + random.below(pair.state.nodes as usize - used + 1);
            record_nodes(pair, fewer);
        }
    }
    Some(())
}

/// Just as many nodes as a pool may have, or one more.
pub fn brink<N: Layout>(pair: &mut Pair<N>, random: &Random) -> Option<()> {
    record_nodes(pair, MAX_NODES + random.below(2));
    Some(())
}

/// Another recorded number of nodes, at least those in use: these are numbered first, the others are free.
fn record_nodes<N: Layout>(pair: &mut Pair<N>, nodes: usize) {
    let old = pair.state.nodes;
    let used: Vec<u32> = pair.standings().iter().map(|at| at.node).collect();
    let mut numbers = vec![0; old as usize];
    let order = used.iter().copied().chain(pair.chain());
    for (new, old) in (0..).zip(order) {
        numbers[old as usize] = new;
    }
    renumber(pair, &numbers);
    pair.pool.resize((N::WORDS * nodes).max(pair.pool.len()), 0);
    pair.state.nodes = nodes as u32;
    let free: Vec<u32> = (used.len() as u32..nodes as u32).collect();
    pair.rechain(&free);
}
