//! Changes of nodes that only four words can have: document 01's inner value 0, leaves without links, free nodes of 0, the next one, 0, 0;
//! links of a whole word.

use super::{Pair, Standing, LEFT, RIGHT};
use crate::plain::{self, Layout, Node, OldNode, HOLDERS, NODE_WORDS, NONE, OLD_NODE_WORDS};
use crate::random::Random;

type Old = Pair<OldNode>;

/// The words of a node, after its holders and its left link.
const RIGHT_WORD: usize = 2;
const VALUE: usize = 3;

fn some_leaf(pair: &Old, random: &Random) -> Option<u32> {
    let mut standings = pair.standings();
    standings.retain(|at| at.level == 0);
    random.some(&standings).map(|at| at.node)
}

/// An inner node's link to a child that is due: whose, and its side.
fn some_link(pair: &Old, random: &Random) -> Option<(Standing, u32)> {
    let from = random.some(&pair.inner())?;
    let side = random.pick(&[LEFT, RIGHT]);
    pair.below(from, side).map(|_| (from, side))
}

pub fn inner_value(pair: &mut Old, random: &Random) -> Option<()> {
    let node = random.some(&pair.inner())?.node;
    *pair.word(node, VALUE) = random.pick(&[1, NONE, 1 << 31, random.word() | 1]);
    Some(())
}

/// A leaf's value stands where a link is, or an inner node's link where a value is.
pub fn value_moved(pair: &mut Old, random: &Random) -> Option<()> {
    let node = random.some(&pair.standings())?.node;
    let word = 1 + random.below(2);
    let (at, value) = (
        OLD_NODE_WORDS * node as usize,
        OLD_NODE_WORDS * node as usize + VALUE,
    );
    pair.pool.swap(at + word, value);
    (pair.pool[at + word] != pair.pool[value]).then_some(())
}

/// A leaf has a link, with all reference counts put right.
pub fn leaf_with_link(pair: &mut Old, random: &Random) -> Option<()> {
    let leaf = some_leaf(pair, random)?;
    let mut others = pair.standings();
    others.retain(|at| at.node != leaf);
    let to = random.some(&others)?.node;
    pair.set_link(leaf, random.pick(&[LEFT, RIGHT]), to);
    pair.retain(to);
    Some(())
}

/// A leaf has a right link alone, to any number: without a left link it would be packed as the leaf that it is not.
pub fn leaf_right_link(pair: &mut Old, random: &Random) -> Option<()> {
    let leaf = some_leaf(pair, random)?;
    let nodes = pair.state.nodes;
    let to = random.pick(&[0, random.word_below(nodes), nodes, 65_535, NONE - 1]);
    *pair.word(leaf, RIGHT_WORD) = to;
    Some(())
}

/// A leaf's links are 0, or 65,535, which is none for two words only.
pub fn leaf_without_none(pair: &mut Old, random: &Random) -> Option<()> {
    let leaf = some_leaf(pair, random)?;
    let none = random.pick(&[0, 65_535]);
    pair.set_link(leaf, LEFT, none);
    if random.one_in(2) {
        pair.set_link(leaf, RIGHT, none);
    }
    Some(())
}

/// A link, right in its low 16 bits, where a child is due: two words would not show the others.
pub fn link_high_half(pair: &mut Old, random: &Random) -> Option<()> {
    let (from, side) = some_link(pair, random)?;
    let high = random.pick(&[
        1,
        2,
        1 << 14,
        1 << 15,
        65_535,
        1 + random.word_below(65_535),
    ]);
    let to = pair.link(from.node, side) | high << 16;
    pair.set_link(from.node, side, to);
    Some(())
}

/// An inner node's left word has both links, as the second of two words would.
pub fn both_links_left(pair: &mut Old, random: &Random) -> Option<()> {
    let node = random.some(&pair.inner())?.node;
    let [left, right] = [LEFT, RIGHT].map(|side| pair.link(node, side));
    let both = Node::inner(left, right & Node::NO_LINK)[1];
    pair.set_link(node, LEFT, both);
    (both != left).then_some(())
}

/// A link past the nodes, near or far, where a child is due or where none is.
pub fn wild_link(pair: &mut Old, random: &Random) -> Option<()> {
    let from = random.some(&pair.inner())?;
    let nodes = pair.state.nodes;
    let past = nodes + random.word_below(NONE - nodes);
    let wild = [nodes, nodes + 1, 65_535, 65_536, 1 << 31, NONE - 1, past];
    pair.set_link(from.node, random.pick(&[LEFT, RIGHT]), random.pick(&wild));
    Some(())
}

/// A free node's third or fourth word is not zero.
pub fn free_node_rest(pair: &mut Old, random: &Random) -> Option<()> {
    let node = random.some(&pair.chain())?;
    let word = random.pick(&[RIGHT_WORD, VALUE]);
    *pair.word(node, word) = random.pick(&[1, NONE, 1 << 31, random.word() | 1]);
    Some(())
}

/// A free node has a leaf's links, and the next node as its value, or none; with holders or without.
pub fn free_node_as_leaf(pair: &mut Old, random: &Random) -> Option<()> {
    let node = random.some(&pair.chain())?;
    let next = pair.node(node).next_free();
    pair.set(node, OldNode::leaf(random.pick(&[next, 0, random.word()])));
    *pair.word(node, HOLDERS) = random.word_below(2);
    Some(())
}

/// The pool has two-word nodes already.
fn convert(pair: &mut Old) -> Option<()> {
    let mut work = vec![0; pair.state.nodes as usize];
    (plain::convert(&pair.state, &mut pair.pool, &mut work) == 0).then_some(())
}

/// With zeros after them, as a change-over leaves it. Only 1 or 2 nodes can be sound so, if no frame lives; they are left out.
pub fn two_word_nodes(pair: &mut Old, _: &Random) -> Option<()> {
    (pair.state.nodes > 2).then_some(())?;
    convert(pair)
}

/// With other words after them: any, or the old ones.
pub fn two_words_and_others(pair: &mut Old, random: &Random) -> Option<()> {
    let old = pair.pool.clone();
    convert(pair)?;
    let nodes = pair.state.nodes as usize;
    let rest = NODE_WORDS * nodes..OLD_NODE_WORDS * nodes;
    if random.one_in(2) {
        pair.pool[rest].fill_with(|| random.word());
    } else {
        pair.pool[rest.clone()].copy_from_slice(&old[rest]);
    }
    Some(())
}

/// As long as as many two-word nodes are, or more, but not as long as four-word ones.
pub fn room_for_two_words(pair: &mut Old, random: &Random) -> Option<()> {
    let nodes = pair.state.nodes as usize;
    let [two, four] = [NODE_WORDS * nodes, OLD_NODE_WORDS * nodes];
    pair.pool.truncate(random.pick(&[two, two + 1, four - 1]));
    Some(())
}
