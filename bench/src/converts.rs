//! What R-9's change-over costs: the instructions of the call, by the nodes and by how many of them are in use, and those of a plain copy of
//! the old pool's bytes.

use crate::callgrind::count_all;
use crate::case::{path_nodes, tree_nodes, Case, Standing, MAX_PLACES, PLACES};
use crate::filling::{Filled, Filling};
use crate::job::Job;
use crate::measure;
use crate::peer::{left_by_plain, Conversion, Peer};
use crate::tape::{record, READ, RETURN, SPAWN, WRITE};
use host_tests::plain::{NODE_WORDS, NONE, OLD_NODE_WORDS};

/// Those that change over.
pub const CONVERT_PEERS: [Peer; 2] = [Peer::Library, Peer::Plain];
/// What an unsound state is refused by.
pub const UNSOUND: u32 = 6;
/// The words that are lent past the old nodes.
pub const PAST: [u32; 3] = [NONE, 0, 7];

/// What is counted.
#[derive(Clone, Copy, PartialEq, Eq, Debug)]
pub enum ConvertCall {
    /// Accepted, its soundness check included.
    Convert,
    /// Refused by the last test of the soundness check.
    Refused,
    /// Its pass over the nodes, without the soundness check.
    Pack,
    /// The soundness check of nodes of four words, and nothing else.
    Check,
    /// The bytes of the old nodes are copied to another place, and nothing else.
    Copy,
}

impl ConvertCall {
    const ALL: [ConvertCall; 5] = [
        ConvertCall::Convert,
        ConvertCall::Refused,
        ConvertCall::Pack,
        ConvertCall::Check,
        ConvertCall::Copy,
    ];

    pub fn name(self) -> &'static str {
        match self {
            ConvertCall::Convert => "convert",
            ConvertCall::Refused => "refused",
            ConvertCall::Pack => "pack",
            ConvertCall::Check => "check",
            ConvertCall::Copy => "copy",
        }
    }

    pub fn named(name: &str) -> Option<Self> {
        Self::ALL.into_iter().find(|call| call.name() == name)
    }
}

/// A pool of nodes of four words.
#[derive(Clone, Copy, PartialEq, Eq, Debug)]
pub enum OldPool {
    /// 1,024 nodes, n = 16: Main alone, without a write; or a line of frames, a write in each, until fewer nodes are free than the next one needs.
    SmallUntouched,
    SmallFull,
    /// 16,384 nodes, n = 256: two of the fillings.
    LargeUntouched,
    LargeFull,
}

pub const OLD_POOLS: [OldPool; 4] = [
    OldPool::SmallUntouched,
    OldPool::SmallFull,
    OldPool::LargeUntouched,
    OldPool::LargeFull,
];

/// The small pools' n and nodes.
const SMALL: (usize, usize) = (16, 1_024);

impl OldPool {
    pub fn name(self) -> &'static str {
        match self {
            OldPool::SmallUntouched => "small, untouched",
            OldPool::SmallFull => "small, full",
            OldPool::LargeUntouched => "large, untouched",
            OldPool::LargeFull => "large, full",
        }
    }

    pub fn named(name: &str) -> Option<Self> {
        OLD_POOLS.into_iter().find(|pool| pool.name() == name)
    }

    /// The run that makes it; its tape goes on after the change-over.
    pub fn case(self) -> Case {
        let mut case = match self {
            OldPool::SmallUntouched => Case::standing(small(PLACES, 1, 0)),
            OldPool::SmallFull => Case::standing(small(MAX_PLACES, frames_that_fit(), 1)),
            OldPool::LargeUntouched => Filled::new(Filling::Untouched).case(),
            OldPool::LargeFull => Filled::new(Filling::FullDeep).case(),
        };
        case.tape = tape(case.values.len());
        case
    }
}

/// Main's write takes no node, that of each other frame a path.
fn frames_that_fit() -> usize {
    let (n, nodes) = SMALL;
    1 + (nodes - tree_nodes(n)) / path_nodes(n)
}

fn small(places: usize, frames: usize, writes: usize) -> Standing {
    let (n, nodes) = SMALL;
    Standing {
        n,
        nodes,
        places,
        frames,
        writes,
        lines: 1,
    }
}

/// Worker 0 reads every splitter, spawns, writes, which a full pool refuses, reads again and returns.
fn tape(n: usize) -> Vec<u8> {
    let read = |place: usize| record(READ, 0, place as u16, 0);
    let reads = (0..n).map(read);
    let rest = [
        record(SPAWN, 0, 0, 0),
        record(WRITE, 0, 0, 5),
        read(0),
        record(RETURN, 0, 0, 0),
        read(0),
    ];
    reads.chain(rest).flatten().collect()
}

/// Of library and plain Rust.
pub struct ConvertCost {
    pool: OldPool,
    pub nodes: usize,
    /// Those in use.
    pub used: usize,
    pub places: usize,
    pub convert: [u64; 2],
    pub refused: [u64; 2],
    /// The pass alone: of the library, what is left of the call without the check.
    pub pack: [u64; 2],
    /// Plain Rust's check alone.
    pub check: u64,
    /// A plain copy.
    pub copy: u64,
}

impl ConvertCost {
    /// The library's against plain Rust's.
    pub fn ratio(&self) -> f64 {
        self.convert[0] as f64 / self.convert[1] as f64
    }

    pub fn per_node(&self, instructions: u64) -> f64 {
        instructions as f64 / self.nodes as f64
    }
}

pub fn count() -> Vec<ConvertCost> {
    OLD_POOLS.map(count_at).into()
}

fn count_at(pool: OldPool) -> ConvertCost {
    let of = |peer, call| (peer, Job::Convert(call, pool));
    let counts = count_all(&[
        of(Peer::Library, ConvertCall::Convert),
        of(Peer::Plain, ConvertCall::Convert),
        of(Peer::Library, ConvertCall::Refused),
        of(Peer::Plain, ConvertCall::Refused),
        of(Peer::Plain, ConvertCall::Pack),
        of(Peer::Plain, ConvertCall::Check),
        of(Peer::Plain, ConvertCall::Copy),
    ]);
    let [library, plain, library_refused, plain_refused, pack, check, copy] = counts[..] else {
        unreachable!("a count for each job");
    };
    let case = pool.case();
    ConvertCost {
        pool,
        nodes: case.nodes,
        used: used(&case),
        places: case.places,
        convert: [library, plain],
        refused: [library_refused, plain_refused],
        pack: [library.saturating_sub(library_refused), pack],
        check,
        copy,
    }
}

/// The library's instructions with the most nodes: in the untouched pool and in the full one.
pub fn large(costs: &[ConvertCost]) -> [u64; 2] {
    [OldPool::LargeUntouched, OldPool::LargeFull].map(|pool| {
        let found = costs.iter().find(|cost| cost.pool == pool);
        found.expect("it was counted").convert[0]
    })
}

/// Nodes in use: those with holders.
fn used(case: &Case) -> usize {
    let mut conversion = conversion(Peer::Plain, case);
    let (nodes, _) = conversion.pool().as_chunks::<OLD_NODE_WORDS>();
    nodes.iter().filter(|node| node[0] > 0).count()
}

/// A run with nodes of four words that has had the case's prelude.
pub fn conversion(peer: Peer, case: &Case) -> Box<dyn Conversion> {
    peer.conversion(case).expect("it changes over")
}

/// The last free node names node 0 and not none: the end of the free chain, which is tested last, is wrong.
pub fn end_chain_elsewhere(pool: &mut [u32]) {
    let (nodes, _) = pool.as_chunks_mut::<OLD_NODE_WORDS>();
    let last = nodes.iter_mut().find(|node| node[..2] == [0, NONE]);
    last.expect("a node is free")[1] = 0;
}

/// Library and plain Rust leave the pool of a run in the new layout, zeros after it and the words past the old nodes, and state and table as they
/// were; what follows is answered as in that run. A state that is refused is left, and its pool too.
pub fn compare() {
    for pool in OLD_POOLS {
        let case = pool.case();
        for peer in CONVERT_PEERS {
            compare_peer(peer, &case, pool.name());
        }
    }
}

pub fn compare_peer(peer: Peer, case: &Case, pool: &str) {
    let what = format!("change-over, {pool}: {}", peer.name());
    let mut refused = conversion(peer, case);
    end_chain_elsewhere(refused.pool());
    let before = (refused.parts(), refused.pool().to_vec());
    assert_eq!(refused.convert(), UNSOUND, "{what}: an unsound pool");
    let after = (refused.parts(), refused.pool().to_vec());
    assert!(before == after, "{what}: refused, it changes something");
    let mut changed = conversion(peer, case);
    let before = changed.parts();
    assert_eq!(changed.convert(), 0, "{what}: refused");
    let (parts, nodes) = left_by_plain(case);
    assert!(before == parts, "{what}: another state before it");
    assert!(changed.parts() == parts, "{what}: another state");
    let zeros = vec![0; (OLD_NODE_WORDS - NODE_WORDS) * case.nodes];
    let expected = [&nodes[..], &zeros, &PAST].concat();
    assert!(changed.pool() == expected, "{what}: another pool");
    let mut answers = vec![0; case.tape.len() / 4];
    let refusal = changed.go_on().tape(&case.tape, &mut answers);
    assert_eq!(refusal, 0, "{what}: the tape is refused");
    let as_begun = measure::answers(Peer::Plain, case);
    assert!(answers == as_begun, "{what}: other answers");
}
