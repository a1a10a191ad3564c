//! Document 01's "Soundness", with what of document 02 ask, sentence by sentence, over the words of a state, a table
//! and a pool: for clarity, not for speed. It shares nothing with plain.rs. Every sentence can be asked of every state, so that one can tell which
//! ones are broken. A node has R-8's two words or, for R-9's change-over, document 01's four.

use crate::parts::Parts;
use std::collections::{HashMap, HashSet};

const NONE: u32 = 4_294_967_295;
const MOST_PLACES: usize = 256;

/// R-1's layout with R-3's, R-5's and R-6's words: 5 numbers, 4 totals and the table's length; 8 deques, each with room for 256 places;
/// frame records of 12 words.
const DEQUE_WORDS: usize = 257;
const FRAME_WORDS: usize = 12;

/// A sentence and what it asks.
pub struct Sentence {
    pub text: &'static str,
    holds: fn(&Pair) -> bool,
}

pub const SENTENCES: [Sentence; 25] = [
    Sentence {
        text: "workers are 1 to 8",
        holds: workers_are_1_to_8,
    },
    Sentence {
        text: "n is 1 to 256",
        holds: n_is_1_to_256,
    },
    Sentence {
        text: "node count is T(n) to 16,384 and at most what the pool holds",
        holds: node_count_fits,
    },
    Sentence {
        text: "the recorded length of the table is 1 to 256",
        holds: length_is_1_to_256,
    },
    Sentence {
        text: "the table has the recorded length",
        holds: table_has_the_length,
    },
    Sentence {
        text: "live and suspended are 0 or 1",
        holds: flags_are_0_or_1,
    },
    Sentence {
        text: "returning is 1 on a suspended frame that waits so, else 0",
        holds: returning_is_1_or_0,
    },
    Sentence {
        text: "a deque has as many places as the table",
        holds: deques_have_the_places,
    },
    Sentence {
        text: "no frame and empty deques, or one of depth 0, parent none",
        holds: one_main_or_nothing,
    },
    Sentence {
        text: "every other live frame has a live parent one shallower",
        holds: others_have_a_live_parent,
    },
    Sentence {
        text: "outstanding counts are right",
        holds: outstanding_counts_are_right,
    },
    Sentence {
        text: "a live frame is in one place, or suspended with a child",
        holds: frames_are_queued_or_suspended,
    },
    Sentence {
        text: "deques hold live frames only",
        holds: deques_hold_live_frames,
    },
    Sentence {
        text: "a worker that does not exist has an empty deque",
        holds: absent_workers_are_empty,
    },
    Sentence {
        text: "places past a deque's frames are zero",
        holds: places_past_the_end_are_zero,
    },
    Sentence {
        text: "each frame in a deque is a child of the one above",
        holds: each_is_a_child_of_the_one_above,
    },
    Sentence {
        text: "a frame that is not a top has only the child below",
        holds: not_a_top_has_only_the_child_below,
    },
    Sentence {
        text: "walking from each live frame gives a tree of the shape",
        holds: walks_give_trees,
    },
    Sentence {
        text: "no node is reached on two levels",
        holds: no_node_on_two_levels,
    },
    Sentence {
        text: "nodes reached have right holders",
        holds: holders_are_right,
    },
    Sentence {
        text: "all other nodes are free and once on the free chain",
        holds: other_nodes_are_free,
    },
    Sentence {
        text: "free frame places are zero and once on their chain",
        holds: free_places_are_chained,
    },
    Sentence {
        text: "the totals are zero while Main lives",
        holds: totals_are_zero,
    },
    Sentence {
        text: "links chain the live children of each frame, each once",
        holds: links_chain_the_children,
    },
    Sentence {
        text: "Main's link is none",
        holds: mains_link_is_none,
    },
];

/// The numbers of the sentences that are broken, as indexes of SENTENCES. Sound means none.
pub fn broken(state: &Parts, pool: &[u32]) -> Vec<usize> {
    broken_of(state, read_nodes(pool))
}

/// The same of a pool with four-word nodes.
pub fn broken_four_words(state: &Parts, pool: &[u32]) -> Vec<usize> {
    broken_of(state, read_four_words(pool))
}

fn broken_of(state: &Parts, nodes: Vec<Node>) -> Vec<usize> {
    let pair = Pair::new(state, nodes);
    (0..SENTENCES.len())
        .filter(|&sentence| !(SENTENCES[sentence].holds)(&pair))
        .collect()
}

struct Frame {
    live: u32,
    parent: u32,
    depth: u32,
    outstanding: u32,
    suspended: u32,
    root: u32,
    returning: u32,
    /// The four view words.
    view: [u32; 4],
    next_younger: u32,
}

/// "A node becomes two words: holders, then .." what its level tells. Before, "A node is four words: holders, left, right, value."
struct Node {
    holders: u32,
    rest: Rest,
}

enum Rest {
    Second(u32),
    Words { left: u32, right: u32, value: u32 },
}

use Rest::{Second, Words};

impl Node {
    /// "left plus 65,536 times right for inner nodes with 65,535 for none"; of four words "None is 4,294,967,295."
    fn left(&self) -> Option<u32> {
        match self.rest {
            Second(second) => Some(second % 65_536).filter(|&left| left != 65_535),
            Words { left, .. } => Some(left).filter(|&left| left != NONE),
        }
    }

    fn right(&self) -> Option<u32> {
        match self.rest {
            Second(second) => Some(second / 65_536).filter(|&right| right != 65_535),
            Words { right, .. } => Some(right).filter(|&right| right != NONE),
        }
    }

    /// "Inner nodes have value 0, leaves have no links." Two words say neither, and a leaf has any value.
    fn may_be_inner(&self) -> bool {
        !matches!(self.rest, Words { value, .. } if value != 0)
    }

    fn may_be_leaf(&self) -> bool {
        matches!(self.rest, Second(_)) || self.left().is_none() && self.right().is_none()
    }

    /// "A free node holds 0, the next free node or none, 0, 0."; of two words, 0, then "the next free node or none".
    fn is_free(&self) -> bool {
        let others_zero = match self.rest {
            Second(_) => true,
            Words { right, value, .. } => right == 0 && value == 0,
        };
        self.holders == 0 && others_zero
    }

    fn next_free(&self) -> u32 {
        match self.rest {
            Second(second) => second,
            Words { left, .. } => left,
        }
    }
}

/// A state and a pool, read into records, and what walking from the live frames gives.
struct Pair {
    workers: u32,
    splitters: u32,
    recorded_nodes: u32,
    first_free_node: u32,
    first_free_place: u32,
    totals: [u32; 4],
    recorded_length: u32,
    /// The records of the lent table.
    lent_length: usize,
    /// Each deque's recorded length.
    lengths: Vec<u32>,
    /// Each deque's frames, from the top.
    queued: Vec<Vec<u32>>,
    /// Each deque's places past its frames.
    past: Vec<Vec<u32>>,
    /// The table's records, as many as are recorded and there.
    frames: Vec<Frame>,
    /// The lent pool's whole nodes.
    nodes: Vec<Node>,
    shaped: bool,
    /// The nodes reached, with the levels on which they are.
    reached: HashMap<u32, HashSet<u32>>,
}

impl Pair {
    fn new(state: &Parts, nodes: Vec<Node>) -> Pair {
        let numbers = &state.numbers;
        let deques: Vec<&[u32]> = state.deques.chunks(DEQUE_WORDS).collect();
        let places = (numbers[9] as usize).min(MOST_PLACES);
        let end = |deque: &&[u32]| (deque[0] as usize).min(places) + 1;
        let mut pair = Pair {
            workers: numbers[0],
            splitters: numbers[1],
            recorded_nodes: numbers[2],
            first_free_node: numbers[3],
            first_free_place: numbers[4],
            totals: [numbers[5], numbers[6], numbers[7], numbers[8]],
            recorded_length: numbers[9],
            lent_length: state.frames.len() / FRAME_WORDS,
            lengths: deques.iter().map(|deque| deque[0]).collect(),
            queued: deques.iter().map(|d| d[1..end(d)].to_vec()).collect(),
            past: deques.iter().map(|d| d[end(d)..].to_vec()).collect(),
            frames: read_frames(&state.frames, numbers[9] as usize),
            nodes,
            shaped: true,
            reached: HashMap::new(),
        };
        if pair.numbers_are_right() {
            pair.walk_from_live_frames();
        }
        pair
    }

    /// Asked before the trees are: without right numbers no shape is known.
    fn numbers_are_right(&self) -> bool {
        n_is_1_to_256(self) && node_count_fits(self)
    }

    fn live_frames(&self) -> impl Iterator<Item = (u32, &Frame)> {
        (0..).zip(&self.frames).filter(|(_, frame)| frame.live != 0)
    }

    fn is_live(&self, number: u32) -> bool {
        self.frame(number).is_some_and(|frame| frame.live != 0)
    }

    fn frame(&self, number: u32) -> Option<&Frame> {
        self.frames.get(number as usize)
    }

    fn children(&self, parent: u32) -> Vec<u32> {
        self.live_frames()
            .filter(|(_, frame)| frame.parent == parent)
            .map(|(number, _)| number)
            .collect()
    }

    /// A node among the recorded ones.
    fn node(&self, number: u32) -> Option<&Node> {
        (number < self.recorded_nodes).then(|| &self.nodes[number as usize])
    }

    fn walk_from_live_frames(&mut self) {
        let mut reached = HashMap::new();
        let mut shaped = true;
        for (_, frame) in self.live_frames() {
            let root = Some(frame.root);
            shaped &= walk(self, root, height(self.splitters), 0, &mut reached);
        }
        self.shaped = shaped;
        self.reached = reached;
    }
}

fn read_frames(words: &[u32], recorded: usize) -> Vec<Frame> {
    let records = words.chunks_exact(FRAME_WORDS).take(recorded);
    let read = |record: &[u32]| Frame {
        live: record[0],
        parent: record[1],
        depth: record[2],
        outstanding: record[3],
        suspended: record[4],
        root: record[5],
        returning: record[6],
        view: [record[7], record[8], record[9], record[10]],
        next_younger: record[11],
    };
    records.map(read).collect()
}

fn read_nodes(words: &[u32]) -> Vec<Node> {
    let read = |node: &[u32]| Node {
        holders: node[0],
        rest: Second(node[1]),
    };
    words.chunks_exact(2).map(read).collect()
}

fn read_four_words(words: &[u32]) -> Vec<Node> {
    let read = |node: &[u32]| Node {
        holders: node[0],
        rest: Words {
            left: node[1],
            right: node[2],
            value: node[3],
        },
    };
    words.chunks_exact(4).map(read).collect()
}

/// "H is the least number with 2^H at least n."
fn height(n: u32) -> u32 {
    (0..).find(|&h| 1u64 << h >= u64::from(n)).unwrap_or(0)
}

/// "Level l has n / 2^l nodes, rounded up."
fn width(n: u32, level: u32) -> u32 {
    (n + (1 << level) - 1) >> level
}

/// "T(n) is the sum over levels."
fn tree_nodes(n: u32) -> u32 {
    (0..=height(n)).map(|level| width(n, level)).sum()
}

/// Walks to every position of the tree that is under this one; whether the shape is right. A position is a level and a group, and its
/// left and right positions are the groups 2g and 2g + 1 one level below, where these exist.
fn walk(
    pair: &Pair,
    link: Option<u32>,
    level: u32,
    group: u32,
    reached: &mut HashMap<u32, HashSet<u32>>,
) -> bool {
    let Some((number, node)) = link.and_then(|number| Some((number, pair.node(number)?))) else {
        return false;
    };
    reached.entry(number).or_default().insert(level);
    if level == 0 {
        return node.may_be_leaf();
    }
    let left = walk(pair, node.left(), level - 1, 2 * group, reached);
    let right = if 2 * group + 1 < width(pair.splitters, level - 1) {
        walk(pair, node.right(), level - 1, 2 * group + 1, reached)
    } else {
        node.right().is_none()
    };
    node.may_be_inner() && left && right
}

/// "Workers are 1 to 8"
fn workers_are_1_to_8(pair: &Pair) -> bool {
    1 <= pair.workers && pair.workers <= 8
}

/// "n is 1 to 256."
fn n_is_1_to_256(pair: &Pair) -> bool {
    1 <= pair.splitters && pair.splitters <= 256
}

/// "The recorded node count is T(n) to 16,384 and at most what the lent pool holds." Nothing is asked if n has no tree.
fn node_count_fits(pair: &Pair) -> bool {
    let least = if n_is_1_to_256(pair) {
        tree_nodes(pair.splitters)
    } else {
        0
    };
    least <= pair.recorded_nodes
        && pair.recorded_nodes <= 16_384
        && pair.recorded_nodes as usize <= pair.nodes.len()
}

/// "a recorded length not 1 to 256 .. is unsound" (document 02, R-6)
fn length_is_1_to_256(pair: &Pair) -> bool {
    1 <= pair.recorded_length && pair.recorded_length <= 256
}

/// "or a table of another length" (document 02, R-6)
fn table_has_the_length(pair: &Pair) -> bool {
    pair.recorded_length as usize == pair.lent_length
}

/// "live and suspended are 0 or 1, and another word there is unsound" (document 02, R-1)
fn flags_are_0_or_1(pair: &Pair) -> bool {
    pair.frames
        .iter()
        .all(|frame| frame.live <= 1 && frame.suspended <= 1)
}

/// "1 on a frame waiting so, which is suspended, else 0; anything else there is unsound" (document 02, R-3)
fn returning_is_1_or_0(pair: &Pair) -> bool {
    pair.frames.iter().all(|frame| match frame.returning {
        0 => true,
        1 => frame.suspended == 1,
        _ => false,
    })
}

/// "images hold that many records and deque places" (document 02, R-6)
fn deques_have_the_places(pair: &Pair) -> bool {
    let most = pair.recorded_length.min(MOST_PLACES as u32);
    pair.lengths.iter().all(|&length| length <= most)
}

/// "Either no frame lives and all deques are empty, or just one live frame has depth 0, with parent none."
fn one_main_or_nothing(pair: &Pair) -> bool {
    if pair.live_frames().count() == 0 {
        return pair.lengths.iter().all(|&length| length == 0);
    }
    let mains: Vec<&Frame> = pair
        .live_frames()
        .map(|(_, frame)| frame)
        .filter(|frame| frame.depth == 0)
        .collect();
    mains.len() == 1 && mains[0].parent == NONE
}

/// "Every other live frame has a live parent one shallower."
fn others_have_a_live_parent(pair: &Pair) -> bool {
    pair.live_frames()
        .filter(|(_, frame)| frame.depth != 0)
        .all(|(_, frame)| {
            pair.is_live(frame.parent)
                && pair
                    .frame(frame.parent)
                    .is_some_and(|parent| parent.depth == frame.depth - 1)
        })
}

/// "Outstanding counts are right." The count is the number of the frame's live children.
fn outstanding_counts_are_right(pair: &Pair) -> bool {
    pair.live_frames()
        .all(|(number, frame)| frame.outstanding as usize == pair.children(number).len())
}

/// "Each live frame is either in just one place of one deque and not suspended, or in none and suspended with a live child."
fn frames_are_queued_or_suspended(pair: &Pair) -> bool {
    pair.live_frames().all(|(number, frame)| {
        let places = pair
            .queued
            .iter()
            .flatten()
            .filter(|&&queued| queued == number)
            .count();
        let suspended = frame.suspended != 0;
        (places == 1 && !suspended)
            || (places == 0 && suspended && !pair.children(number).is_empty())
    })
}

/// "Deques hold live frames only"
fn deques_hold_live_frames(pair: &Pair) -> bool {
    pair.queued
        .iter()
        .flatten()
        .all(|&queued| pair.is_live(queued))
}

/// "a worker that does not exist has an empty one"
fn absent_workers_are_empty(pair: &Pair) -> bool {
    (0..)
        .zip(&pair.lengths)
        .all(|(worker, &length)| worker < pair.workers || length == 0)
}

/// "deque places past a deque's frames are zero."
fn places_past_the_end_are_zero(pair: &Pair) -> bool {
    pair.past.iter().flatten().all(|&place| place == 0)
}

/// "Each frame in a deque is a child of the one above it."
fn each_is_a_child_of_the_one_above(pair: &Pair) -> bool {
    pair.queued.iter().all(|deque| {
        deque.windows(2).all(|two| {
            let (above, below) = (two[0], two[1]);
            pair.frame(below).is_some_and(|frame| frame.parent == above)
        })
    })
}

/// "A frame that is not a top has only the child below it, if any."
fn not_a_top_has_only_the_child_below(pair: &Pair) -> bool {
    pair.queued.iter().all(|deque| {
        (1..deque.len()).all(|place| {
            let below = deque.get(place + 1);
            pair.children(deque[place])
                .iter()
                .all(|child| Some(child) == below)
        })
    })
}

/// "Walking from each live frame gives a tree of the shape above, in which a node may stand in several places"
fn walks_give_trees(pair: &Pair) -> bool {
    !pair.numbers_are_right() || pair.shaped
}

/// "soundness asks that no node is reached on two levels" (document 02, R-8)
fn no_node_on_two_levels(pair: &Pair) -> bool {
    pair.reached.values().all(|levels| levels.len() == 1)
}

/// "nodes reached have right holders": holders counts links from nodes in use, the inner ones, and from live frames.
fn holders_are_right(pair: &Pair) -> bool {
    if !pair.numbers_are_right() {
        return true;
    }
    let mut links: HashMap<u32, u32> = HashMap::new();
    for (_, frame) in pair.live_frames() {
        *links.entry(frame.root).or_default() += 1;
    }
    for (&number, levels) in &pair.reached {
        let inner = levels.iter().any(|&level| level > 0);
        if let Some(node) = pair.node(number).filter(|_| inner) {
            for link in [node.left(), node.right()].into_iter().flatten() {
                *links.entry(link).or_default() += 1;
            }
        }
    }
    pair.reached.keys().all(|number| {
        pair.node(*number)
            .is_some_and(|node| links.get(number) == Some(&node.holders))
    })
}

/// "all others are free and lie once on the free chain."
fn other_nodes_are_free(pair: &Pair) -> bool {
    if !pair.numbers_are_right() {
        return true;
    }
    let others: HashSet<u32> = (0..pair.recorded_nodes)
        .filter(|number| !pair.reached.contains_key(number))
        .collect();
    let all_free = others
        .iter()
        .all(|&number| pair.node(number).is_some_and(Node::is_free));
    let next = |number| pair.node(number).map(Node::next_free);
    all_free && chained_once(pair.first_free_node, next) == Some(others)
}

/// "Free frame places lie once on theirs, all but the link to the next being zero."
fn free_places_are_chained(pair: &Pair) -> bool {
    let places = (0..).take(pair.frames.len());
    let free: HashSet<u32> = places.filter(|&p| !pair.is_live(p)).collect();
    let is_zero = |frame: &Frame| {
        let Frame {
            depth,
            outstanding,
            suspended,
            root,
            returning,
            view,
            next_younger,
            ..
        } = *frame;
        let others = [depth, outstanding, suspended, root, returning, next_younger];
        others == [0; 6] && view == [0; 4]
    };
    let all_zero = free
        .iter()
        .all(|&place| pair.frame(place).is_some_and(is_zero));
    let next = |place| pair.frame(place).map(|frame| frame.parent);
    all_zero && chained_once(pair.first_free_place, next) == Some(free)
}

/// "the four totals ... zero while Main lives"; "Soundness asks for those zeros" (document 02, R-5)
fn totals_are_zero(pair: &Pair) -> bool {
    pair.live_frames().count() == 0 || pair.totals == [0; 4]
}

/// "these links chain the live children of each frame, each once" (document 02, R-5): from one of them, the links lead to all of them.
fn links_chain_the_children(pair: &Pair) -> bool {
    let next = |number| pair.frame(number).map(|frame| frame.next_younger);
    pair.live_frames().all(|(parent, _)| {
        let children = pair.children(parent);
        let all: HashSet<u32> = children.iter().copied().collect();
        let chains_all = |&first: &u32| chained_once(first, next).as_ref() == Some(&all);
        all.is_empty() || children.iter().any(chains_all)
    })
}

/// "Main's being none" (document 02, R-5)
fn mains_link_is_none(pair: &Pair) -> bool {
    pair.live_frames()
        .filter(|(_, frame)| frame.depth == 0)
        .all(|(_, frame)| frame.next_younger == NONE)
}

/// What lies on a chain, if it ends with none and nothing lies on it twice.
fn chained_once(first: u32, next: impl Fn(u32) -> Option<u32>) -> Option<HashSet<u32>> {
    let mut met = HashSet::new();
    let mut link = first;
    while link != NONE {
        let following = next(link)?;
        if !met.insert(link) {
            return None;
        }
        link = following;
    }
    Some(met)
}
