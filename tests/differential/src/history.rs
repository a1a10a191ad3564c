//! Histories of writes, and the nodes in use that they give.

use super::shape;
use std::collections::BTreeSet;

/// A write's identity: its place among the run's accepted writes. The start
/// has identity 0.
pub type WriteId = u32;

const START: WriteId = 0;

#[derive(Clone, Copy)]
enum Target {
    EverySplitter,
    Splitter(usize),
}

#[derive(Clone, Copy)]
struct Write {
    id: WriteId,
    target: Target,
}

impl Write {
    /// Is this a write to a member of the group? A group is a "splitter
    /// number divided by 2^l, rounded down".
    fn is_to(self, level: usize, group: usize) -> bool {
        match self.target {
            Target::EverySplitter => true,
            Target::Splitter(splitter) => splitter >> level == group,
        }
    }
}

/// "A frame's history is its parent's history up to its spawn, then its own
/// writes." A clone of the parent's is the history of a new child.
#[derive(Clone)]
pub struct History {
    splitters: usize,
    writes: Vec<Write>,
    /// Cache of `last_write`: by level, then by group.
    last: Vec<Vec<WriteId>>,
}

impl History {
    /// "Main's begins with the start, which counts as a write to every
    /// splitter."
    pub fn of_main(splitters: usize) -> History {
        let start = Write {
            id: START,
            target: Target::EverySplitter,
        };
        let last = (0..=shape::height(splitters))
            .map(|level| vec![START; shape::level_nodes(splitters, level)])
            .collect();
        History {
            splitters,
            writes: vec![start],
            last,
        }
    }

    pub fn push(&mut self, id: WriteId, splitter: usize) {
        self.writes.push(Write {
            id,
            target: Target::Splitter(splitter),
        });
        for (level, groups) in self.last.iter_mut().enumerate() {
            groups[splitter >> level] = id;
        }
    }

    /// Is the last write to a member of the group the same in both?
    pub fn shares(&self, other: &History, level: usize, group: usize) -> bool {
        self.last[level][group] == other.last[level][group]
    }

    /// "The last write in that frame's history to a member of the group",
    /// searched for in the whole history.
    fn last_write(&self, level: usize, group: usize) -> WriteId {
        let last = self.writes.iter().rev().find(|w| w.is_to(level, group));
        last.expect("the start is a write to every splitter").id
    }
}

/// Every level with each of its groups.
fn groups(splitters: usize) -> impl Iterator<Item = (usize, usize)> {
    (0..=shape::height(splitters)).flat_map(move |level| {
        (0..shape::level_nodes(splitters, level)).map(move |group| (level, group))
    })
}

/// "Nodes in use are the distinct triples, over all live frames, of a level
/// l, a group and the last write in that frame's history to a member of the
/// group." Counted plainly, with no cache.
pub fn recount_nodes_in_use(live: &[&History]) -> usize {
    let mut triples = BTreeSet::new();
    for history in live {
        for (level, group) in groups(history.splitters) {
            triples.insert((level, group, history.last_write(level, group)));
        }
    }
    triples.len()
}

/// The same count from the cached last writes.
pub fn nodes_in_use(live: &[&History], splitters: usize) -> usize {
    let mut writes = Vec::new();
    let mut count = 0;
    for (level, group) in groups(splitters) {
        writes.clear();
        writes.extend(live.iter().map(|history| history.last[level][group]));
        writes.sort_unstable();
        writes.dedup();
        count += writes.len();
    }
    count
}
