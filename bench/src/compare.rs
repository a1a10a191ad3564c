//! Every peer must answer as the library does, before anything is measured.

use crate::case::{path_nodes, Case, Workload, SHARED_WRITES, WAITING};
use crate::converts;
use crate::filling::{Filled, FullStep, FILLINGS, FULL_STEPS, POOL_FULL, WRITTEN};
use crate::images;
use crate::job::FULL_CALLS;
use crate::kind::{Kind, CONTROLS, FOLDS};
use crate::measure::{answers, step_answers};
use crate::peer::{compared, Peer};
use crate::reports;
use crate::runs;
use crate::steps;

/// Peers with nodes: all words. Others: a write's second word, the free nodes, is left out.
fn assert_same_answers(case: &Case, what: &str) {
    let expected = answers(Peer::Library, case);
    assert!(
        expected.chunks(2).all(|pair| pair[0] > 100),
        "{what}: a record is refused"
    );
    for peer in compared() {
        let given = answers(peer, case);
        let same = expected.len() == given.len()
            && expected
                .chunks(2)
                .zip(given.chunks(2))
                .all(|(a, b)| agree(peer, a, b));
        assert!(
            same,
            "{what}: {} does not answer as the library does",
            peer.name()
        );
    }
}

fn agree(peer: Peer, expected: &[u32], given: &[u32]) -> bool {
    expected == given || (!peer.has_nodes() && expected[0] == WRITTEN && given[0] == WRITTEN)
}

/// Single steps answer as the tape does.
fn assert_same_steps(case: &Case, what: &str) {
    assert_same_answers(case, what);
    for peer in compared() {
        let same = step_answers(peer, case).as_flattened() == answers(peer, case);
        assert!(
            same,
            "{what}: {} answers single steps otherwise",
            peer.name()
        );
    }
}

/// Writes alone take no node, shared ones a whole path each, and the spawns among these are answered alike without them.
fn assert_nodes_taken(n: usize) {
    assert_same_answers(&Case::full_pool(n), &format!("writes in a full pool {n}"));
    let case = Case::records(Workload::WritesShared, n);
    let free = answers(Peer::Library, &case)
        .chunks(2)
        .filter(|pair| pair[0] == WRITTEN)
        .map(|pair| pair[1] as usize)
        .collect::<Vec<_>>();
    let expected = (0..SHARED_WRITES).rev().map(|left| left * path_nodes(n));
    assert!(
        free.into_iter().eq(expected),
        "writes shared {n}: not whole paths"
    );
    let rest = case.rest(Workload::WritesShared);
    assert_same_answers(&rest, &format!("spawns of writes shared {n}"));
}

/// A chain's frames wait, and its one record ends them all. No return of another tape waits.
fn assert_waits(workload: Workload, n: usize) {
    let mut case = Case::records(workload, n);
    if workload == Workload::Chain {
        assert_eq!(answers(Peer::Library, &case), [102, 3], "chain {n}");
        case.tape = case.prelude;
        case.prelude = Vec::new();
    }
    let answers = answers(Peer::Library, &case);
    let waits = answers.chunks(2).filter(|pair| *pair == [102, 4]).count();
    let expected = if workload == Workload::Chain {
        WAITING
    } else {
        0
    };
    assert_eq!(
        waits,
        expected,
        "{} {n}: returns that wait",
        workload.name()
    );
}

/// Library and plain Rust, on nodes of two and of four words, fill the pools alike, and the write after a full pool's is the only one that they refuse, by 16.
fn assert_filled() {
    for filling in FILLINGS {
        let case = Filled::new(filling).as_tape();
        let given = answers(Peer::Library, &case);
        let what = format!("pool {}", filling.name());
        for peer in [Peer::Plain, Peer::FourWords] {
            assert_eq!(given, answers(peer, &case), "{what}: {}", peer.name());
        }
        let mut refused = given.chunks(2).filter(|pair| pair[0] < 100);
        assert_eq!(
            refused.next(),
            filling.is_full().then_some(&[POOL_FULL, 0][..]),
            "{what}: the first refusal"
        );
        assert_eq!(refused.next(), None, "{what}: another refusal");
    }
}

/// Steps in a full pool: the tape's answers, and those of single steps, are the same; only `Refused` is refused, by 16.
fn assert_full_steps() {
    for step in FULL_STEPS {
        let case = step.case(FULL_CALLS);
        let given = answers(Peer::Library, &case);
        let what = format!("full pool, {}", step.name());
        let expected = |pair: &[u32]| match step {
            FullStep::Refused => *pair == [POOL_FULL, 0],
            _ => pair[0] > 100,
        };
        assert!(given.chunks(2).all(expected), "{what}: other answers");
        for peer in [Peer::Library, Peer::Plain, Peer::FourWords] {
            assert_eq!(given, answers(peer, &case), "{what}: {}", peer.name());
            let steps = step_answers(peer, &case);
            assert_eq!(given, steps.as_flattened(), "{what}: single steps");
        }
    }
    let last = answers(Peer::Library, &FullStep::EndAll.case(1));
    assert_eq!(last, [102, 3], "full pool: the return that ends all");
}

/// Records of one kind are answered as their names say.
fn assert_kind(kind: Kind) {
    let (case, what) = (kind.case(), kind.name());
    assert_same_answers(&case, what);
    assert_same_answers(&kind.rest(), what);
    let answers = answers(Peer::Library, &case);
    let mut counted = answers[2..].chunks(2);
    let right = |pair: &[u32]| {
        let mut words = pair.iter().zip(kind.answer());
        words.all(|(&word, expected)| expected.is_none_or(|expected| expected == word))
    };
    assert!(counted.all(right), "{what}: other answers");
}

/// Random runs with folds.
const RUNS: u64 = 300;

/// Every workload at every size, the kinds of records, the single steps, the filled pools, the images, the change-overs, the reports, and the totals
/// and pairs of random runs.
pub fn all(workloads: &[Workload], sizes: &[usize]) {
    runs::compare(&compared().collect::<Vec<_>>(), RUNS);
    FOLDS.into_iter().chain(CONTROLS).for_each(assert_kind);
    images::compare();
    converts::compare();
    reports::compare();
    assert_filled();
    assert_full_steps();
    for (workload, n, nodes) in steps::all() {
        let what = format!("single steps, {} {n}", workload.name());
        assert_same_steps(&Case::steps(workload, n, nodes), &what);
    }
    sizes.iter().for_each(|&n| assert_nodes_taken(n));
    for &workload in workloads {
        for &n in sizes {
            assert_same_answers(
                &Case::records(workload, n),
                &format!("{} {n}", workload.name()),
            );
            assert_waits(workload, n);
        }
    }
}
