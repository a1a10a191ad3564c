//! R-2's cases: how much of its path a write finds shared, and how many nodes are free then. Counted are the writes that come as far as
//! refusal 16.

use crate::plain::{self, Layout, State, WRITE};
use crate::steps::StepWords;
use std::collections::BTreeMap;

/// The splitters at which every case must be met.
pub fn every_n() -> impl Iterator<Item = u32> {
    (1..=40).chain([255, 256])
}

/// Pools of at least so many nodes are counted once more by themselves.
pub const LARGE: u32 = 16_380;

#[derive(Clone, Copy)]
pub struct Case {
    splitters: u32,
    nodes: u32,
    /// The nodes of the path from the first with more than one holder on.
    rest: u32,
    free: u32,
}

impl Case {
    /// None if the step is not a write, or is refused before 16.
    pub fn of(step: StepWords, state: &State, pool: &[u32], free: u32) -> Option<Case> {
        let [WRITE, worker, splitter, _] = step else {
            return None;
        };
        if worker >= state.workers || splitter >= state.splitters {
            return None;
        }
        let frame = state.deques[worker as usize].bottom()?;
        Some(Case {
            splitters: state.splitters,
            nodes: state.nodes,
            rest: rest(state, pool, frame, splitter),
            free,
        })
    }

    /// 0, 1 or 2: none, some or all of the path is shared.
    pub fn part(&self) -> usize {
        match self.rest {
            0 => 0,
            rest if rest <= plain::height(self.splitters) => 1,
            _ => 2,
        }
    }

    fn finds(&self) -> [bool; 4] {
        let Case { rest, free, .. } = *self;
        [free == 0, free + 1 == rest, free == rest, free > rest]
    }
}

/// How many nodes a write to the splitter takes in this frame.
pub fn rest(state: &State, pool: &[u32], frame: u32, splitter: u32) -> u32 {
    let height = plain::height(state.splitters);
    let path = path(state, pool, frame, splitter);
    let own = path.iter().take_while(|node| node.holders() == 1).count();
    height + 1 - own as u32
}

/// The value that the splitter has in this frame.
pub fn value(state: &State, pool: &[u32], frame: u32, splitter: u32) -> u32 {
    path(state, pool, frame, splitter)
        .last()
        .map_or(0, |leaf| leaf.value())
}

/// The nodes from the root to the leaf, in a sound pair.
fn path(state: &State, pool: &[u32], frame: u32, splitter: u32) -> Vec<plain::Node> {
    let nodes = plain::Node::nodes(pool);
    let mut node = nodes[state.frames[frame as usize].root as usize];
    let mut path = vec![node];
    for level in (0..plain::height(state.splitters)).rev() {
        node = nodes[node.link(splitter >> level & 1) as usize];
        path.push(node);
    }
    path
}

/// What a write may find free. It may count twice: with no node free, one that takes none has just enough, and one that takes one has one
/// too few.
const FREE: [&str; 4] = ["none free", "one too few", "just enough", "more"];
const PARTS: [&str; 3] = ["none shared", "some shared", "all shared"];

/// A write that takes no node has never too few, and just enough of them if none is free.
fn can_find(rest: u32, place: usize) -> bool {
    rest > 0 || place == 0 || place == 3
}

#[derive(Default)]
pub struct Sharing {
    /// By n and the nodes that the write takes, as `FREE` has them.
    counts: BTreeMap<(u32, u32), [u64; 4]>,
    /// By the part of the path: in all pools, and in large ones.
    parts: [[u64; 4]; 3],
    large: [[u64; 4]; 3],
}

impl Sharing {
    pub fn add(&mut self, case: &Case) {
        let mut counts = vec![
            self.counts.entry((case.splitters, case.rest)).or_default(),
            &mut self.parts[case.part()],
        ];
        if case.nodes >= LARGE {
            counts.push(&mut self.large[case.part()]);
        }
        for counts in counts {
            for (count, found) in counts.iter_mut().zip(case.finds()) {
                *count += u64::from(found);
            }
        }
    }

    /// A table of the parts, the large pools in brackets.
    pub fn lines(&self) -> Vec<String> {
        let mut lines = vec![format!(
            "writes, in brackets those in pools of {LARGE} nodes and more:"
        )];
        for (part, name) in PARTS.into_iter().enumerate() {
            let mut line = format!("  {name:14}");
            for (place, free) in FREE.into_iter().enumerate() {
                if can_find(part as u32, place) {
                    let (all, large) = (self.parts[part][place], self.large[part][place]);
                    line += &format!("{free}: {all} ({large})   ");
                }
            }
            lines.push(line.trim_end().to_string());
        }
        let (fewest, _) = self.at_every_n();
        lines.push(format!(
            "  at n 1 to 40, 255 and 256, for each number of shared nodes, each at least {fewest} times"
        ));
        lines
    }

    /// The cases that were never met.
    pub fn missing(&self) -> Vec<String> {
        let (_, mut missing) = self.at_every_n();
        for (part, name) in PARTS.into_iter().enumerate() {
            for (place, free) in FREE.into_iter().enumerate() {
                if can_find(part as u32, place) && self.large[part][place] == 0 {
                    missing.push(format!("a large pool, {name}, {free}"));
                }
            }
        }
        missing
    }

    /// The fewest times that a case was met, and those that never were.
    fn at_every_n(&self) -> (u64, Vec<String>) {
        let mut fewest = u64::MAX;
        let mut missing = Vec::new();
        for n in every_n() {
            for rest in 0..=plain::height(n) + 1 {
                let counts = self.counts.get(&(n, rest)).copied().unwrap_or_default();
                for (place, free) in FREE.into_iter().enumerate() {
                    if can_find(rest, place) {
                        fewest = fewest.min(counts[place]);
                        if counts[place] == 0 {
                            missing.push(format!("n {n}, {rest} nodes shared, {free}"));
                        }
                    }
                }
            }
        }
        (fewest, missing)
    }
}
