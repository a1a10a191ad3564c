//! Changes of a sound state, its table and its pool: most break soundness, some keep it, and for some it depends.

mod four_words;
mod frames;
mod numbers;
mod siblings;
mod tables;
mod trees;
pub mod words;

use crate::plain::{self, Layout, Node, OldNode, State, HOLDERS, NONE};
use crate::random::Random;
use std::marker::PhantomData;
use Expected::{Either, Sound, Unsound};

/// The sides of an inner node's links; a free node's word for the next one, in either layout.
const LEFT: u32 = 0;
const RIGHT: u32 = 1;
const NEXT: usize = 1;

/// A state with its table, and a pool of two-word nodes, or of others.
#[derive(Clone)]
pub struct Pair<N = Node> {
    pub state: State,
    pub pool: Vec<u32>,
    /// The state word whose turn it is to be changed.
    pub turn: usize,
    layout: PhantomData<N>,
}

/// What a change must lead to, told without asking any of the three that decide.
#[derive(Clone, Copy, PartialEq)]
pub enum Expected {
    Sound,
    Unsound,
    Either,
}

/// Makes one change; None if the pair offers no place for it, and then nothing must be judged.
type Change<N> = fn(&mut Pair<N>, &Random) -> Option<()>;

pub struct Kind<N = Node> {
    pub name: &'static str,
    pub expected: Expected,
    /// How often the kind is chosen, compared with the others.
    pub share: usize,
    pub change: Change<N>,
}

const fn kind<N>(
    name: &'static str,
    expected: Expected,
    share: usize,
    change: Change<N>,
) -> Kind<N> {
    Kind {
        name,
        expected,
        share,
        change,
    }
}

pub const KINDS: [Kind; 89] = kinds();

/// Those that only pools of four-word nodes have.
pub const OF_FOUR_WORDS: [Kind<OldNode>; 13] = [
    kind("inner value", Unsound, 8, four_words::inner_value),
    kind("value moved", Unsound, 8, four_words::value_moved),
    kind("leaf with a link", Unsound, 8, four_words::leaf_with_link),
    kind("leaf, right link", Unsound, 8, four_words::leaf_right_link),
    kind("leaf, no none", Unsound, 8, four_words::leaf_without_none),
    kind("link's high half", Unsound, 12, four_words::link_high_half),
    kind("both links left", Unsound, 8, four_words::both_links_left),
    kind("wild link", Unsound, 12, four_words::wild_link),
    kind("free node's rest", Unsound, 12, four_words::free_node_rest),
    kind(
        "free node as leaf",
        Unsound,
        6,
        four_words::free_node_as_leaf,
    ),
    kind("two-word nodes", Unsound, 8, four_words::two_word_nodes),
    kind(
        "and other words",
        Either,
        8,
        four_words::two_words_and_others,
    ),
    kind(
        "room for two words",
        Unsound,
        8,
        four_words::room_for_two_words,
    ),
];

/// All kinds for such pools: those, and the kinds for nodes of either layout.
pub fn kinds_of_four_words() -> Vec<Kind<OldNode>> {
    kinds().into_iter().chain(OF_FOUR_WORDS).collect()
}

/// The kinds for nodes of either layout.
const fn kinds<N: Layout>() -> [Kind<N>; 89] {
    [
        kind("state word", Either, 200, words::state_word),
        kind("record word", Either, 80, words::record_word),
        kind("pool word", Either, 40, words::pool_word),
        kind("two words", Either, 10, words::two_words),
        kind("garbage", Either, 10, words::garbage),
        kind("small garbage", Either, 10, words::small_garbage),
        kind("garbage frames", Either, 6, words::garbage_frames),
        kind("garbage pool", Either, 6, words::garbage_pool),
        kind("pool cut off", Unsound, 4, words::pool_cut_off),
        kind("pool lengthened", Sound, 4, words::pool_lengthened),
        kind("links swapped", Either, 12, trees::links_swapped),
        kind("free chain cycle", Unsound, 6, trees::free_chain_cycle),
        kind("tree cycle", Unsound, 6, trees::tree_cycle),
        kind("wrong holders", Unsound, 6, trees::wrong_holders),
        kind("holders moved", Unsound, 6, trees::holders_moved),
        kind("wrong level", Unsound, 8, trees::wrong_level),
        kind("wrong size", Unsound, 8, trees::wrong_size),
        kind("node shared", Sound, 12, trees::node_shared),
        kind("holders off by one", Unsound, 6, trees::holders_off_by_one),
        kind("leaf as inner node", Unsound, 10, trees::leaf_as_inner_node),
        kind("inner node as leaf", Unsound, 10, trees::inner_node_as_leaf),
        kind("leaf value", Sound, 4, trees::leaf_value),
        kind("leaf value as links", Sound, 8, trees::leaf_value_as_links),
        kind("left link none", Unsound, 6, trees::left_link_none),
        kind("right link none", Unsound, 6, trees::right_link_none),
        kind(
            "link past the nodes",
            Unsound,
            8,
            trees::link_past_the_nodes,
        ),
        kind("link too many", Unsound, 5, trees::link_too_many),
        kind("right link, no node", Unsound, 8, trees::right_link_no_node),
        kind("free node not zero", Unsound, 6, trees::free_node_not_zero),
        kind("free node's word", Unsound, 8, trees::free_node_word),
        kind("free node lost", Unsound, 5, trees::free_node_lost),
        kind("used node chained", Unsound, 5, trees::used_node_chained),
        kind("node leaked", Unsound, 5, trees::node_leaked),
        kind("tree leaked", Unsound, 5, trees::tree_leaked),
        kind("root of another", Sound, 5, trees::root_of_another),
        kind("root too low", Unsound, 5, trees::root_too_low),
        kind("released early", Unsound, 5, trees::released_early),
        kind("chain reordered", Sound, 5, trees::chain_reordered),
        kind("nodes renumbered", Sound, 6, trees::nodes_renumbered),
        kind("past the end", Unsound, 6, frames::past_the_end),
        kind("absent worker", Unsound, 6, frames::absent_worker),
        kind("deques swapped", Either, 6, frames::deques_swapped),
        kind("deque too long", Unsound, 4, frames::deque_too_long),
        kind("workers swapped", Sound, 4, frames::workers_swapped),
        kind("free place relinked", Unsound, 6, frames::place_relinked),
        kind("free place not zero", Unsound, 6, frames::place_not_zero),
        kind("places renumbered", Sound, 6, frames::places_renumbered),
        kind("in two places", Unsound, 5, frames::in_two_places),
        kind("dead frame queued", Unsound, 5, frames::dead_frame_queued),
        kind("put to sleep", Either, 6, frames::put_to_sleep),
        kind("woken", Either, 6, frames::woken),
        kind("deques joined", Either, 8, frames::deques_joined),
        kind("top left alone", Sound, 5, frames::top_left_alone),
        kind("cut below the top", Unsound, 5, frames::cut_below_the_top),
        kind("deque out of order", Unsound, 5, frames::deque_out_of_order),
        kind("another parent", Either, 8, frames::another_parent),
        kind("depth changed", Unsound, 6, frames::depth_changed),
        kind("outstanding moved", Unsound, 5, frames::outstanding_moved),
        kind("second Main", Unsound, 5, frames::second_main),
        kind("child by hand", Either, 8, frames::child_by_hand),
        kind("flag over 1", Unsound, 5, frames::flag_over_1),
        kind("returning awake", Unsound, 6, frames::returning_awake),
        kind("returning over 1", Unsound, 6, frames::returning_over_1),
        kind("free, returning", Unsound, 6, frames::free_place_returning),
        kind("wait turned", Sound, 6, frames::wait_turned),
        kind("siblings reordered", Sound, 8, siblings::reordered),
        kind("view words", Sound, 6, siblings::view_words),
        kind("totals after Main", Sound, 40, siblings::totals_after_main),
        kind("totals, Main lives", Unsound, 6, siblings::totals_too_early),
        kind("sibling cycle", Unsound, 6, siblings::cycle),
        kind("chain and cycle", Unsound, 20, siblings::chain_and_cycle),
        kind("link to itself", Unsound, 5, siblings::link_to_itself),
        kind("chain cut in two", Unsound, 6, siblings::cut_in_two),
        kind("sibling skipped", Unsound, 20, siblings::skipped),
        kind(
            "link to a stranger",
            Unsound,
            8,
            siblings::link_to_a_stranger,
        ),
        kind("Main linked", Unsound, 5, siblings::main_linked),
        kind("links exchanged", Unsound, 8, siblings::links_exchanged),
        kind("free place's view", Unsound, 6, siblings::free_place_view),
        kind("table grown", Sound, 8, tables::grown),
        kind("table shrunk", Sound, 8, tables::shrunk),
        kind("table too long", Unsound, 6, tables::too_long),
        kind("no table left", Unsound, 30, tables::none_left),
        kind("table lengthened", Unsound, 6, tables::lengthened),
        kind("table cut off", Unsound, 6, tables::cut_off),
        kind("length recorded", Unsound, 8, tables::length_recorded),
        kind("cut and recorded", Unsound, 8, tables::cut_and_recorded),
        kind("number past it", Unsound, 10, tables::number_past_it),
        kind("numbers moved", Either, 10, numbers::moved),
        kind("16,384 nodes", Either, 1, numbers::brink),
    ]
}

/// A kind by its share.
pub fn choose(random: &Random) -> usize {
    choose_of(&KINDS, random)
}

pub fn choose_of<N>(kinds: &[Kind<N>], random: &Random) -> usize {
    let mut left = random.below(kinds.iter().map(|kind| kind.share).sum());
    for (number, kind) in kinds.iter().enumerate() {
        if left < kind.share {
            return number;
        }
        left -= kind.share;
    }
    0
}

/// Some change that keeps a pair sound, or none at all.
pub fn keep_sound<N: Layout>(pair: &mut Pair<N>, random: &Random) {
    let keeping: Vec<Change<N>> = kinds()
        .iter()
        .filter(|kind| kind.expected == Sound)
        .map(|kind| kind.change)
        .collect();
    random.pick(&keeping)(pair, random);
}

/// A node in use, and the tree that stands there: its level and its number of leaves.
#[derive(Clone, Copy, PartialEq)]
struct Standing {
    node: u32,
    level: u32,
    leaves: u32,
}

/// What the changes need of a sound pair.
impl<N: Layout> Pair<N> {
    pub fn new(state: State, pool: Vec<u32>) -> Pair<N> {
        Pair {
            state,
            pool,
            turn: 0,
            layout: PhantomData,
        }
    }

    fn node(&self, node: u32) -> N {
        N::nodes(&self.pool)[node as usize]
    }

    fn word(&mut self, node: u32, word: usize) -> &mut u32 {
        &mut self.pool[N::WORDS * node as usize + word]
    }

    fn set(&mut self, node: u32, words: N) {
        N::nodes_mut(&mut self.pool)[node as usize] = words;
    }

    fn set_value(&mut self, node: u32, value: u32) {
        N::nodes_mut(&mut self.pool)[node as usize].set_value(value);
    }

    /// An inner node's link.
    fn link(&self, node: u32, side: u32) -> u32 {
        self.node(node).link(side)
    }

    fn set_link(&mut self, node: u32, side: u32, to: u32) {
        N::nodes_mut(&mut self.pool)[node as usize].set_link(side, to);
    }

    pub fn live(&self) -> Vec<usize> {
        (0..self.state.frames.len())
            .filter(|&place| self.state.frames[place].live != 0)
            .collect()
    }

    /// The live children of a frame, eldest first by their links; those of a place that none is the child of are none.
    fn children(&self, parent: u32) -> Vec<u32> {
        let is_child = |&place: &usize| self.state.frames[place].parent == parent;
        let children: Vec<usize> = self.live().into_iter().filter(is_child).collect();
        let younger = |place: usize| self.state.frames[place].younger;
        let linked = |place: usize| children.iter().any(|&other| younger(other) == place as u32);
        let mut next = children
            .iter()
            .find(|&&place| !linked(place))
            .map_or(NONE, |&place| place as u32);
        let mut chain = Vec::new();
        while next != NONE {
            chain.push(next);
            next = younger(next as usize);
        }
        chain
    }

    /// Chains these frames by their links, in this order.
    fn chain_siblings(&mut self, siblings: &[u32]) {
        let mut next = NONE;
        for &place in siblings.iter().rev() {
            self.state.frames[place as usize].younger = next;
            next = place;
        }
    }

    /// Each node in use, once.
    fn standings(&self) -> Vec<Standing> {
        let mut seen = vec![false; self.state.nodes as usize];
        let mut standings = Vec::new();
        for place in self.live() {
            let root = Standing {
                node: self.state.frames[place].root,
                level: plain::height(self.state.splitters),
                leaves: self.state.splitters,
            };
            self.walk(root, &mut seen, &mut standings);
        }
        standings
    }

    fn walk(&self, at: Standing, seen: &mut [bool], standings: &mut Vec<Standing>) {
        if std::mem::replace(&mut seen[at.node as usize], true) {
            return;
        }
        standings.push(at);
        for side in [LEFT, RIGHT] {
            if let Some(below) = self.below(at, side) {
                self.walk(below, seen, standings);
            }
        }
    }

    /// What stands at a node's left or right.
    fn below(&self, at: Standing, side: u32) -> Option<Standing> {
        let half = 1 << at.level.checked_sub(1)?;
        let leaves = match side {
            LEFT => at.leaves.min(half),
            _ => at.leaves.checked_sub(half).filter(|&leaves| leaves > 0)?,
        };
        Some(Standing {
            node: self.link(at.node, side),
            level: at.level - 1,
            leaves,
        })
    }

    fn inner(&self) -> Vec<Standing> {
        let mut standings = self.standings();
        standings.retain(|at| at.level > 0);
        standings
    }

    /// The free chain, from its first node.
    fn chain(&self) -> Vec<u32> {
        let mut chain = Vec::new();
        let mut next = self.state.free;
        while next != NONE {
            chain.push(next);
            next = self.node(next).next_free();
        }
        chain
    }

    /// Makes these nodes free and the free chain, in this order.
    fn rechain(&mut self, chain: &[u32]) {
        let mut next = NONE;
        for &node in chain.iter().rev() {
            self.set(node, N::free(next));
            next = node;
        }
        self.state.free = next;
    }

    fn retain(&mut self, node: u32) {
        *self.word(node, HOLDERS) += 1;
    }

    /// A node of this level.
    fn release(&mut self, node: u32, level: u32) {
        let old = self.node(node);
        *self.word(node, HOLDERS) = old.holders() - 1;
        if old.holders() > 1 {
            return;
        }
        self.set(node, N::free(self.state.free));
        self.state.free = node;
        for link in [old.link(LEFT), old.link(RIGHT)] {
            if level > 0 && link != N::NO_LINK {
                self.release(link, level - 1);
            }
        }
    }

    /// Links an inner node to another, with all reference counts and the free chain put right.
    fn relink(&mut self, from: Standing, side: u32, to: u32) {
        let old = self.link(from.node, side);
        self.set_link(from.node, side, to);
        if to != N::NO_LINK {
            self.retain(to);
        }
        if old != N::NO_LINK {
            self.release(old, from.level - 1);
        }
    }
}
