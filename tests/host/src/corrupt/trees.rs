//! Changes of nodes: links, reference counts, values, the free chain.

use super::{Pair, Standing, LEFT, NEXT, RIGHT};
use crate::plain::{self, Layout, Node, HOLDERS, MAX_NODES, NONE};
use crate::random::Random;
use crate::steps;

/// A link of an inner node, not none: whose, its side, and what stands there.
fn some_link<N: Layout>(pair: &Pair<N>, random: &Random) -> Option<(Standing, u32, Standing)> {
    let from = random.some(&pair.inner())?;
    let side = random.pick(&[LEFT, RIGHT]);
    Some((from, side, pair.below(from, side)?))
}

/// An inner node with nothing on the right.
fn some_single<N: Layout>(pair: &Pair<N>, random: &Random) -> Option<Standing> {
    some_standing(pair, random, |&at| {
        at.level > 0 && pair.below(at, RIGHT).is_none()
    })
}

/// A node in use to which the test says yes.
fn some_standing<N: Layout>(
    pair: &Pair<N>,
    random: &Random,
    test: impl Fn(&Standing) -> bool,
) -> Option<Standing> {
    let mut standings = pair.standings();
    standings.retain(test);
    random.some(&standings)
}

pub fn links_swapped<N: Layout>(pair: &mut Pair<N>, random: &Random) -> Option<()> {
    let inner = pair.inner();
    let (a, b) = (random.some(&inner)?, random.some(&inner)?);
    let (side_a, side_b) = (random.pick(&[LEFT, RIGHT]), random.pick(&[LEFT, RIGHT]));
    let (link_a, link_b) = (pair.link(a.node, side_a), pair.link(b.node, side_b));
    pair.set_link(a.node, side_a, link_b);
    pair.set_link(b.node, side_b, link_a);
    (link_a != link_b).then_some(())
}

pub fn free_chain_cycle<N: Layout>(pair: &mut Pair<N>, random: &Random) -> Option<()> {
    let chain = pair.chain();
    let from = (!chain.is_empty()).then(|| random.below(chain.len()))?;
    *pair.word(chain[from], NEXT) = chain[random.below(from + 1)];
    Some(())
}

/// On the way down from a frame's root, a node links to itself or to one above it.
pub fn tree_cycle<N: Layout>(pair: &mut Pair<N>, random: &Random) -> Option<()> {
    let height = plain::height(pair.state.splitters) as usize;
    let mut path = vec![pair.state.frames[random.some(&pair.live())?].root];
    for _ in 1..random.below(height.max(1)) + 1 {
        path.push(pair.link(*path.last()?, LEFT));
    }
    let from = (height > 0).then(|| random.below(path.len()))?;
    let to = path[random.below(from + 1)];
    pair.set_link(path[from], random.pick(&[LEFT, RIGHT]), to);
    if random.one_in(2) {
        pair.retain(to);
    }
    Some(())
}

pub fn wrong_holders<N: Layout>(pair: &mut Pair<N>, random: &Random) -> Option<()> {
    let node = random.word_below(pair.state.nodes);
    let holders = pair.word(node, HOLDERS);
    let old = *holders;
    *holders = match random.below(5) {
        0 => old.wrapping_sub(1),
        1 => 0,
        2 => old + 65_536,
        3 => random.word(),
        _ => old + 1,
    };
    (*holders != old).then_some(())
}

/// Of a node in use.
pub fn holders_off_by_one<N: Layout>(pair: &mut Pair<N>, random: &Random) -> Option<()> {
    let node = random.some(&pair.standings())?.node;
    let holders = pair.word(node, HOLDERS);
    *holders = random.pick(&[*holders - 1, *holders + 1]);
    Some(())
}

pub fn holders_moved<N: Layout>(pair: &mut Pair<N>, random: &Random) -> Option<()> {
    let more = random.word_below(pair.state.nodes);
    let fewer = some_standing(pair, random, |at| at.node != more)?.node;
    *pair.word(more, HOLDERS) += 1;
    *pair.word(fewer, HOLDERS) -= 1;
    Some(())
}

pub fn wrong_level<N: Layout>(pair: &mut Pair<N>, random: &Random) -> Option<()> {
    let (from, side, old) = some_link(pair, random)?;
    let to = some_standing(pair, random, |at| at.level != old.level)?;
    pair.relink(from, side, to.node);
    Some(())
}

pub fn wrong_size<N: Layout>(pair: &mut Pair<N>, random: &Random) -> Option<()> {
    let (from, side, old) = some_link(pair, random)?;
    let to = some_standing(pair, random, |at| {
        at.level == old.level && at.leaves != old.leaves
    })?;
    pair.relink(from, side, to.node);
    Some(())
}

/// A node stands in several places, even of one tree.
pub fn node_shared<N: Layout>(pair: &mut Pair<N>, random: &Random) -> Option<()> {
    let (from, side, old) = some_link(pair, random)?;
    let to = some_standing(pair, random, |at| {
        at.level == old.level && at.leaves == old.leaves && at.node != old.node
    })?;
    pair.relink(from, side, to.node);
    Some(())
}

/// A leaf gets the links of an inner node and stands in its place too: all is right but that it is reached on two levels.
pub fn leaf_as_inner_node<N: Layout>(pair: &mut Pair<N>, random: &Random) -> Option<()> {
    let (from, side, old) = some_link(pair, random)?;
    let leaf = some_standing(pair, random, |at| at.level == 0)?.node;
    if old.level == 0 {
        return None;
    }
    let mut links = pair.node(old.node);
    for link in [links.link(LEFT), links.link(RIGHT)] {
        if link != N::NO_LINK {
            pair.retain(link);
        }
    }
    *links.holders_mut() = pair.node(leaf).holders();
    pair.set(leaf, links);
    pair.relink(from, side, leaf);
    Some(())
}

/// An inner node stands in a leaf's place too, its links as the value: all is right but that it is reached on two levels.
pub fn inner_node_as_leaf<N: Layout>(pair: &mut Pair<N>, random: &Random) -> Option<()> {
    let (from, side, old) = some_link(pair, random)?;
    let inner = random.some(&pair.inner())?;
    if old.level > 0 {
        return None;
    }
    pair.relink(from, side, inner.node);
    Some(())
}

pub fn leaf_value<N: Layout>(pair: &mut Pair<N>, random: &Random) -> Option<()> {
    let leaf = some_standing(pair, random, |at| at.level == 0)?.node;
    pair.set_value(leaf, random.pick(&[0, NONE, random.word()]));
    Some(())
}

/// A value that would be links, also to the leaf itself or to an inner node's own.
pub fn leaf_value_as_links<N: Layout>(pair: &mut Pair<N>, random: &Random) -> Option<()> {
    let leaf = some_standing(pair, random, |at| at.level == 0)?.node;
    let value = match random.below(4) {
        0 => Node::inner(leaf, random.pick(&[leaf, Node::NO_LINK])).value(),
        1 => {
            let inner = pair.node(random.some(&pair.inner())?.node);
            Node::inner(inner.link(LEFT), inner.link(RIGHT) & Node::NO_LINK).value()
        }
        _ => steps::like_links(pair.state.nodes, random),
    };
    pair.set_value(leaf, value);
    Some(())
}

/// No link on a side where a child is due, with all reference counts put right.
fn link_missing<N: Layout>(pair: &mut Pair<N>, side: u32, random: &Random) -> Option<()> {
    let from = random.some(&pair.inner())?;
    pair.below(from, side)?;
    pair.relink(from, side, N::NO_LINK);
    Some(())
}

pub fn left_link_none<N: Layout>(pair: &mut Pair<N>, random: &Random) -> Option<()> {
    link_missing(pair, LEFT, random)
}

pub fn right_link_none<N: Layout>(pair: &mut Pair<N>, random: &Random) -> Option<()> {
    link_missing(pair, RIGHT, random)
}

/// A number that no node has, and that is none in neither layout.
fn no_node(nodes: u32, random: &Random) -> u32 {
    let past = nodes + random.word_below(Node::NO_LINK - nodes);
    random.pick(&[nodes, nodes + 1, MAX_NODES as u32, 32_768, 65_534, past])
}

/// A link past the recorded nodes where a child is due; the reference counts are put right, or not.
pub fn link_past_the_nodes<N: Layout>(pair: &mut Pair<N>, random: &Random) -> Option<()> {
    let (from, side, _) = some_link(pair, random)?;
    let to = no_node(pair.state.nodes, random);
    if random.one_in(2) {
        pair.relink(from, side, N::NO_LINK);
    }
    pair.set_link(from.node, side, to);
    Some(())
}

/// A right link where the tree has nothing on the right, with all reference counts put right.
pub fn link_too_many<N: Layout>(pair: &mut Pair<N>, random: &Random) -> Option<()> {
    let from = some_single(pair, random)?;
    let to = some_standing(pair, random, |at| at.level + 1 == from.level)?;
    pair.relink(from, RIGHT, to.node);
    Some(())
}

/// There, a link that is not none and leads past the nodes, or to any node that does not count it.
pub fn right_link_no_node<N: Layout>(pair: &mut Pair<N>, random: &Random) -> Option<()> {
    let from = some_single(pair, random)?;
    let nodes = pair.state.nodes;
    let to = match random.below(3) {
        0 => random.pick(&[0, random.word_below(nodes)]),
        _ => no_node(nodes, random),
    };
    pair.set_link(from.node, RIGHT, to);
    Some(())
}

pub fn free_node_not_zero<N: Layout>(pair: &mut Pair<N>, random: &Random) -> Option<()> {
    let node = random.some(&pair.chain())?;
    *pair.word(node, HOLDERS) = random.pick(&[1, 2, 65_536, NONE, random.word() | 1]);
    Some(())
}

/// A free node's second word is no node's number: also 65,535, which is none for an inner node only, and with links in its high half.
pub fn free_node_word<N: Layout>(pair: &mut Pair<N>, random: &Random) -> Option<()> {
    let node = random.some(&pair.chain())?;
    let nodes = pair.state.nodes;
    let old = *pair.word(node, NEXT);
    let news = [
        nodes,
        nodes + 1,
        65_535,
        65_535 << 16 | old & 0xFFFF,
        1 << 16 | old & 0xFFFF,
        1 << 31,
        NONE - 1,
    ];
    let new = random.pick(&news);
    *pair.word(node, NEXT) = new;
    (new != old).then_some(())
}

pub fn free_node_lost<N: Layout>(pair: &mut Pair<N>, random: &Random) -> Option<()> {
    let mut chain = pair.chain();
    let lost = (!chain.is_empty()).then(|| random.below(chain.len()))?;
    chain.remove(lost);
    pair.rechain(&chain);
    Some(())
}

/// The free chain ends with, or begins with, a node in use.
pub fn used_node_chained<N: Layout>(pair: &mut Pair<N>, random: &Random) -> Option<()> {
    let used = random.some(&pair.standings())?.node;
    match pair.chain().last() {
        Some(&last) if random.one_in(2) => *pair.word(last, NEXT) = used,
        _ => pair.state.free = used,
    }
    Some(())
}

/// A node is taken from the free chain and used for nothing.
pub fn node_leaked<N: Layout>(pair: &mut Pair<N>, random: &Random) -> Option<()> {
    let node = random.some(&pair.chain())?;
    let mut chain = pair.chain();
    chain.retain(|&free| free != node);
    pair.rechain(&chain);
    let word = random.pick(&[0, 1, NONE, random.word_below(pair.state.nodes)]);
    let mut words = N::free(word);
    *words.holders_mut() = random.word_below(2);
    pair.set(node, words);
    Some(())
}

/// A second root over the same trees, which no frame has.
pub fn tree_leaked<N: Layout>(pair: &mut Pair<N>, random: &Random) -> Option<()> {
    let node = random.some(&pair.chain())?;
    let root = pair.state.frames[random.some(&pair.live())?].root;
    let mut chain = pair.chain();
    chain.retain(|&free| free != node);
    pair.rechain(&chain);
    let mut words = pair.node(root);
    *words.holders_mut() = 1;
    pair.set(node, words);
    if plain::height(pair.state.splitters) > 0 && random.one_in(2) {
        for link in [LEFT, RIGHT].map(|side| pair.link(root, side)) {
            if link != N::NO_LINK {
                pair.retain(link);
            }
        }
    }
    Some(())
}

/// Gives a frame another root, with the reference counts put right.
fn give_root<N: Layout>(pair: &mut Pair<N>, place: usize, root: u32) {
    pair.retain(root);
    let old = std::mem::replace(&mut pair.state.frames[place].root, root);
    pair.release(old, plain::height(pair.state.splitters));
}

pub fn root_of_another<N: Layout>(pair: &mut Pair<N>, random: &Random) -> Option<()> {
    let live = pair.live();
    let (to, from) = (random.some(&live)?, random.some(&live)?);
    give_root(pair, to, pair.state.frames[from].root);
    Some(())
}

pub fn root_too_low<N: Layout>(pair: &mut Pair<N>, random: &Random) -> Option<()> {
    let place = random.some(&pair.live())?;
    let height = plain::height(pair.state.splitters);
    let low = some_standing(pair, random, |at| at.level < height)?;
    give_root(pair, place, low.node);
    Some(())
}

/// A frame's tree is released while the frame lives.
pub fn released_early<N: Layout>(pair: &mut Pair<N>, random: &Random) -> Option<()> {
    let place = random.some(&pair.live())?;
    let height = plain::height(pair.state.splitters);
    pair.release(pair.state.frames[place].root, height);
    Some(())
}

pub fn chain_reordered<N: Layout>(pair: &mut Pair<N>, random: &Random) -> Option<()> {
    let mut chain = pair.chain();
    random.shuffle(&mut chain);
    pair.rechain(&chain);
    Some(())
}

pub fn nodes_renumbered<N: Layout>(pair: &mut Pair<N>, random: &Random) -> Option<()> {
    let mut numbers: Vec<u32> = (0..pair.state.nodes).collect();
    random.shuffle(&mut numbers);
    renumber(pair, &numbers);
    Some(())
}

/// Moves node i to numbers[i], for all recorded nodes.
pub fn renumber<N: Layout>(pair: &mut Pair<N>, numbers: &[u32]) {
    let number = |node: u32| match node {
        NONE => NONE,
        node => numbers[node as usize],
    };
    let link = |link: u32| match link {
        none if none == N::NO_LINK => none,
        node => numbers[node as usize],
    };
    let old = pair.clone();
    for node in old.chain() {
        let next = old.node(node).next_free();
        pair.set(number(node), N::free(number(next)));
    }
    for at in old.standings() {
        let mut words = old.node(at.node);
        for side in [LEFT, RIGHT] {
            if at.level > 0 {
                words.set_link(side, link(words.link(side)));
            }
        }
        pair.set(number(at.node), words);
    }
    pair.state.free = number(pair.state.free);
    for frame in &mut pair.state.frames {
        if frame.live != 0 {
            frame.root = number(frame.root);
        }
    }
}
