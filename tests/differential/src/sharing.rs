//! R-2's cases: how much of its path a write finds shared, and how many nodes
//! are free then. Counted are the writes that come as far as refusal 16.

use crate::machine::Machine;
use crate::record::{self, Record, Step};
use crate::shape;
use std::collections::BTreeMap;

/// The n at which random runs must meet every case.
pub fn every_n() -> impl Iterator<Item = usize> {
    (1..=40).chain([255, 256])
}

/// What a write may find free, beside the rest of the path that it takes. A
/// write may count twice: with no node free, one that takes none has just
/// enough, and one that takes one has one too few.
const FREE: [&str; 4] = ["none free", "one too few", "just enough", "more"];

fn finds(rest: usize, free: usize) -> [bool; 4] {
    [free == 0, free + 1 == rest, free == rest, free > rest]
}

/// A write that takes no node has never too few, and just enough of them if
/// none is free.
fn can_find(rest: usize, place: usize) -> bool {
    rest > 0 || place == 0 || place == 3
}

/// By n and the nodes of the path that are shared, as `FREE` has them.
#[derive(Default)]
pub struct Sharing(BTreeMap<(usize, usize), [usize; 4]>);

impl Sharing {
    /// Looks at a record that the machine is about to take.
    pub fn see(&mut self, machine: &Machine, record: Record) {
        let Ok(Step::Write {
            worker, splitter, ..
        }) = record::decode(record)
        else {
            return;
        };
        let (worker, splitter) = (usize::from(worker), usize::from(splitter));
        if worker >= machine.workers() || splitter >= machine.splitters() {
            return;
        }
        if let Some(bottom) = machine.bottom(worker) {
            let rest = machine.shared_nodes(bottom, splitter);
            let counts = self.0.entry((machine.splitters(), rest)).or_default();
            for (count, found) in counts.iter_mut().zip(finds(rest, machine.free_nodes())) {
                *count += usize::from(found);
            }
        }
    }

    fn count(&self, splitters: usize, rest: usize, place: usize) -> usize {
        self.0
            .get(&(splitters, rest))
            .map_or(0, |counts| counts[place])
    }

    /// Every case with its count at all n: none, some or all of the path
    /// shared, by what was free.
    pub fn cases(&self) -> Vec<(String, usize)> {
        let mut cases = Vec::new();
        for (part, shared) in ["none shared", "some shared", "all shared"]
            .into_iter()
            .enumerate()
        {
            for (place, free) in FREE.into_iter().enumerate() {
                if !can_find(part, place) {
                    continue;
                }
                let of_part = |(n, rest): &(usize, usize)| self::part(*n, *rest) == part;
                let counts = self.0.iter().filter(|(key, _)| of_part(key));
                let count = counts.map(|(_, counts)| counts[place]).sum();
                cases.push((format!("{shared}, {free}"), count));
            }
        }
        cases
    }

    /// At every n and for each number of shared nodes: the fewest times that
    /// a case occurred, and those that did not.
    pub fn at_every_n(&self) -> (usize, Vec<String>) {
        let mut fewest = usize::MAX;
        let mut missing = Vec::new();
        for n in every_n() {
            let path = shape::path_nodes(n);
            for rest in 0..=path {
                for (place, free) in FREE.into_iter().enumerate() {
                    if !can_find(rest, place) {
                        continue;
                    }
                    let count = self.count(n, rest, place);
                    fewest = fewest.min(count);
                    if count == 0 {
                        missing.push(format!("n {n}, {rest} of {path} nodes shared, {free}"));
                    }
                }
            }
        }
        (fewest, missing)
    }
}

/// 0, 1 or 2: none, some or all of the path.
fn part(splitters: usize, rest: usize) -> usize {
    if rest == 0 {
        0
    } else if rest < shape::path_nodes(splitters) {
        1
    } else {
        2
    }
}
