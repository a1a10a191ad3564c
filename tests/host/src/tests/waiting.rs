//! returns that wait for a child, and the chains of ends, through plain.rs and the library.

use super::{answers, both, nodes, run, run_in, FIVE};
use crate::call::{Call, Entry, Outcome};
use crate::image;
use crate::parts::Parts;
use crate::plain::{self, Head, State, NONE, READ, RETURN, SPAWN, STEAL, SYNC, WRITE};
use crate::random::Random;
use crate::sentences;
use crate::steps;

type Entries = Vec<[u32; 4]>;

/// Main on worker 1, waiting; its child on worker 0.
fn main_waits() -> Entries {
    vec![[SPAWN, 0, 0, 0], [STEAL, 1, 0, 0], [RETURN, 1, 0, 0]]
}

fn then(begin: &Entries, more: &[[u32; 4]]) -> Entries {
    [&begin[..], more].concat()
}

pub fn typed(after: &Outcome) -> State {
    after.state.state().expect("a whole state")
}

/// The call that goes on with what another left.
pub fn next(after: &Outcome, entry: Entry) -> Call {
    let nodes = typed(after).nodes as usize;
    Call {
        state: after.state.clone(),
        pool: after.pool.clone(),
        work: vec![7; nodes],
        entry,
    }
}

pub fn tape(entries: &[[u32; 4]]) -> Entry {
    Entry::Tape {
        bytes: entries.iter().copied().flat_map(steps::record).collect(),
        answers: vec![7; 2 * entries.len()],
    }
}

pub fn sound(after: &Outcome) -> bool {
    sentences::broken(&after.state, &after.pool).is_empty()
}

/// No frame lives, all deques are empty, every place and every node is free.
pub fn assert_all_free(after: &Outcome) {
    assert!(sound(after));
    let state = typed(after);
    assert!(!state.main_lives());
    let free = plain::sound(&state, &after.pool, &mut vec![0; state.nodes as usize]);
    assert_eq!(free, Some(state.nodes));
}

/// A waiting frame keeps its record and its tree; its worker is idle; the child goes on, and Main ends with it.
#[test]
fn main_waits_and_ends() {
    let write = [WRITE, 0, 4, 99];
    let begin = then(&vec![write], &main_waits());
    let (_, after) = run(2, &FIVE, 20, &begin);
    assert_eq!(after.answers[6..8], [102, 4]);
    assert!(sound(&after));
    let record = &after.state.frames[..12];
    assert_eq!(record, [1, NONE, 0, 1, 1, 0, 1, 0, NONE, 1, 0, NONE]);
    assert_eq!(after.state.deques[257], 0);
    assert_eq!(nodes(&after)[0][0], 2); // the root is held by both
    let more = [
        [RETURN, 1, 0, 0],
        [SYNC, 1, 0, 0],
        [READ, 1, 4, 0],
        [STEAL, 1, 0, 0],
        [READ, 0, 4, 0],
        [RETURN, 0, 0, 0],
        [SPAWN, 0, 0, 0],
        [STEAL, 1, 0, 0],
    ];
    let ended = both(&next(&after, tape(&more)));
    let expected = [
        [10, 0],
        [10, 0],
        [10, 0],
        [12, 0],
        [105, 99],
        [102, 3],
        [9, 0],
        [9, 0],
    ];
    assert_eq!(ended.answers.as_chunks().0, expected);
    assert_all_free(&ended);
}

/// 9 is not given while Main waits, and 14 never.
#[test]
fn main_has_not_returned() {
    let more = [[RETURN, 1, 0, 0], [SPAWN, 0, 0, 0], [RETURN, 0, 0, 0]];
    let answers = answers(2, &FIVE, 20, &then(&main_waits(), &more));
    assert_eq!(answers[3..], [[10, 0], [101, 2], [102, 0]]);
}

/// Frame 1 waits as returning, below Main, which waits at a sync: the end of 2 ends 1 and resumes Main, with its own tree.
#[test]
fn stops_at_a_sync() {
    let entries = [
        [SPAWN, 0, 0, 0],
        [SPAWN, 0, 0, 0],
        [WRITE, 0, 0, 77],
        [STEAL, 1, 0, 0],
        [SYNC, 1, 0, 0],
        [STEAL, 1, 0, 0],
        [RETURN, 1, 0, 0],
        [RETURN, 0, 0, 0],
        [READ, 0, 0, 0],
        [READ, 1, 0, 0],
        [RETURN, 0, 0, 0],
    ];
    let (_, after) = run(2, &FIVE, 20, &entries);
    let (answers, _) = after.answers.as_chunks();
    let expected = [
        [104, 1],
        [103, 1],
        [102, 4],
        [102, 2],
        [105, 10],
        [10, 0],
        [102, 3],
    ];
    assert_eq!(answers[4..], expected);
    assert_all_free(&after);
}

/// The parent goes on, on another worker: 1, and it is not touched.
#[test]
fn stops_at_a_parent_that_goes_on() {
    let entries = [
        [SPAWN, 0, 0, 0],
        [SPAWN, 0, 0, 0],
        [STEAL, 1, 0, 0],
        [STEAL, 2, 0, 0],
        [RETURN, 2, 0, 0],
        [RETURN, 0, 0, 0],
        [READ, 0, 0, 0],
        [SYNC, 1, 0, 0],
        [RETURN, 1, 0, 0],
    ];
    let (_, after) = run(3, &FIVE, 20, &entries);
    let (answers, _) = after.answers.as_chunks();
    let expected = [[102, 4], [102, 1], [10, 0], [104, 0], [102, 3]];
    assert_eq!(answers[4..], expected);
    assert_all_free(&after);
}

/// Main waits for two children: the end of the first is 1, that of the second ends Main.
#[test]
fn stops_at_a_parent_with_another_child() {
    let entries = [
        [SPAWN, 0, 0, 0],
        [STEAL, 1, 0, 0],
        [SPAWN, 1, 0, 0],
        [STEAL, 2, 1, 0],
        [RETURN, 2, 0, 0],
        [RETURN, 1, 0, 0],
        [READ, 1, 0, 0],
        [READ, 0, 0, 0],
        [RETURN, 0, 0, 0],
    ];
    let (_, after) = run(3, &FIVE, 20, &entries);
    let (answers, _) = after.answers.as_chunks();
    let expected = [[102, 4], [102, 1], [10, 0], [105, 10], [102, 3]];
    assert_eq!(answers[4..], expected);
    assert_all_free(&after);
}

/// The end of 2 ends 1, which waits, and reaches Main, which waits in either way and has another child: 1. That child's end ends Main or
/// resumes it, on the child's worker.
#[test]
fn stops_further_up() {
    let ends = |wait: u32| {
        let entries = [
            [SPAWN, 0, 0, 0],
            [SPAWN, 0, 0, 0],
            [STEAL, 1, 0, 0],
            [SPAWN, 1, 0, 0],
            [STEAL, 2, 1, 0],
            [wait, 2, 0, 0],
            [STEAL, 2, 0, 0],
            [RETURN, 2, 0, 0],
            [RETURN, 0, 0, 0],
            [READ, 0, 0, 0],
            [RETURN, 1, 0, 0],
            [READ, 0, 0, 0],
            [READ, 1, 0, 0],
        ];
        answers(3, &FIVE, 20, &entries)[7..].to_vec()
    };
    let begin = [[102, 4], [102, 1], [10, 0]];
    let ended = [&begin[..], &[[102, 3], [9, 0], [9, 0]]].concat();
    assert_eq!(ends(RETURN), ended);
    let resumed = [&begin[..], &[[102, 2], [10, 0], [105, 10]]].concat();
    assert_eq!(ends(SYNC), resumed);
}

/// A chain that ends with a resumption goes on where its last child returned, not where the frame was before.
#[test]
fn resumed_on_the_childs_worker() {
    let entries = [
        [SPAWN, 0, 0, 0],
        [SPAWN, 0, 0, 0],
        [STEAL, 1, 0, 0],
        [SYNC, 1, 0, 0],
        [STEAL, 1, 0, 0],
        [SPAWN, 1, 0, 0],
        [STEAL, 2, 1, 0],
        [RETURN, 2, 0, 0],
        [RETURN, 0, 0, 0],
        [RETURN, 1, 0, 0],
        [READ, 0, 0, 0],
        [READ, 2, 0, 0],
        [READ, 1, 0, 0],
        [RETURN, 1, 0, 0],
    ];
    let expected = [
        [102, 4],
        [102, 1],
        [102, 2],
        [10, 0],
        [10, 0],
        [105, 10],
        [102, 3],
    ];
    assert_eq!(answers(3, &FIVE, 20, &entries)[7..], expected);
}

/// A child that still has its parent above it in the deque is 0, also where a frame further up waits.
#[test]
fn within_a_deque() {
    let more = [
        [SPAWN, 0, 0, 0],
        [SPAWN, 0, 0, 0],
        [RETURN, 0, 0, 0],
        [RETURN, 0, 0, 0],
        [RETURN, 0, 0, 0],
    ];
    let answers = answers(2, &FIVE, 20, &then(&main_waits(), &more));
    let expected = [[101, 2], [101, 3], [102, 0], [102, 0], [102, 3]];
    assert_eq!(answers[3..], expected);
}

/// Child first: the places are freed from the child up, so the last one freed, Main's, is the first to be taken.
#[test]
fn places_and_nodes_freed_child_first() {
    let begin = [
        [SPAWN, 0, 0, 0],
        [WRITE, 0, 0, 1],
        [SPAWN, 0, 0, 0],
        [WRITE, 0, 0, 2],
        [STEAL, 1, 0, 0],
        [RETURN, 1, 0, 0],
        [STEAL, 1, 0, 0],
        [RETURN, 1, 0, 0],
        [RETURN, 0, 0, 0],
    ];
    let (_, after) = run(2, &FIVE, 20, &begin);
    let (answers, _) = after.answers.as_chunks();
    let expected = [[102, 4], [103, 1], [102, 4], [102, 3]];
    assert_eq!(answers[5..], expected);
    let state = typed(&after);
    let chain = |first: u32, next: &dyn Fn(u32) -> u32| {
        std::iter::successors(Some(first), |&at| Some(next(at)).filter(|&to| to != NONE))
            .collect::<Vec<u32>>()
    };
    let places = chain(state.vacant, &|place| state.frames[place as usize].parent);
    assert_eq!(places[..4], [0, 1, 2, 3]);
    // Main's tree is 0; 1, 2; 3, 4, 5; 6 to 10, a child's path 11 to 14, its child's 15 to 18. Each tree is freed root first, left before
    // right; what another holds stays: 4 and 7 go with Main's.
    let free = chain(state.free, &|node| nodes(&after)[node as usize][1]);
    let in_order = [
        15, 16, 17, 18, 11, 12, 13, 14, 0, 1, 3, 6, 7, 4, 8, 9, 2, 5, 10,
    ];
    let newest_first: Vec<u32> = in_order.into_iter().rev().chain([19]).collect();
    assert_eq!(free, newest_first);
    assert_all_free(&after);
}

/// Main and so many below it, each but the last returned while its child lives.
fn line(below: u32) -> Entries {
    let mut entries = Vec::new();
    for value in 0..below {
        entries.extend([[SPAWN, 0, 0, 0], [WRITE, 0, value % 5, value]]);
    }
    for _ in 0..below {
        entries.extend([[STEAL, 1, 0, 0], [RETURN, 1, 0, 0]]);
    }
    entries
}

/// In tables of these lengths all frames but the last wait, 255 at most, and one return ends all.
#[test]
fn chains_that_fill_the_table() {
    for places in [2, 3, 63, 64, 65, 255, 256] {
        chain_that_fills(places);
    }
}

fn chain_that_fills(places: usize) {
    const NODES: usize = 1_200;
    let below = places - 1;
    let (_, before) = run_in(places, 2, &FIVE, NODES, &line(below as u32));
    let (given, _) = before.answers.as_chunks();
    let waits = given.iter().filter(|answer| **answer == [102, 4]);
    assert_eq!(waits.count(), below);
    assert!(sound(&before));
    let waiting = before.state.frames.chunks(12).filter(|frame| frame[6] == 1);
    assert_eq!(waiting.count(), below);
    let free = plain::sound(&typed(&before), &before.pool, &mut [0; NODES]);
    assert!(free.is_some_and(|free| (free as usize) < NODES - 11 - below));
    assert_eq!(next_answer(&before), [13, 0]);
    // by a tape, by a step, and by a tape after the image was saved and read
    for entry in [tape(&[[RETURN, 0, 0, 0]]), Entry::Step([RETURN, 0, 0, 0])] {
        let after = both(&next(&before, entry));
        let answer = match after.answers[..] {
            [] => after.result,
            [first, second] => [first, second],
            _ => panic!("two words"),
        };
        assert_eq!(answer, [102, 3]);
        assert_all_free(&after);
        assert_eq!(next_answer(&after), [9, 0]);
    }
    let read = saved_and_read(&before);
    let after = both(&next(&read, tape(&[[RETURN, 0, 0, 0], [RETURN, 1, 0, 0]])));
    assert_eq!(after.answers, [102, 3, 9, 0]);
    assert_all_free(&after);
}

fn next_answer(after: &Outcome) -> [u32; 2] {
    both(&next(after, Entry::Step([SPAWN, 0, 0, 0]))).result
}

pub fn saved_and_read(before: &Outcome) -> Outcome {
    let Head { places, nodes, .. } = typed(before).head;
    let target = image::bytes(image::Size { places, nodes }) as usize;
    let saved = both(&next(
        before,
        Entry::Save {
            target: vec![5; target],
        },
    ));
    assert_eq!(saved.result[0], 0);
    let load = Call {
        state: Parts::garbage(places as usize, &Random::new(5)),
        pool: vec![3; before.pool.len()],
        work: vec![7; nodes as usize],
        entry: Entry::Load { image: saved.bytes },
    };
    let read = both(&load);
    assert_eq!(read.result[0], 0);
    assert!(read.state == before.state && read.pool == before.pool);
    read
}

/// The 64 places serve again after the chain: a line of 64 within a run whose Main goes on.
#[test]
fn chain_of_62_below_main() {
    let mut entries = vec![[SPAWN, 0, 0, 0]; 63];
    entries.extend([[STEAL, 1, 0, 0], [SYNC, 1, 0, 0]]);
    for _ in 0..62 {
        entries.extend([[STEAL, 1, 0, 0], [RETURN, 1, 0, 0]]);
    }
    entries.push([RETURN, 0, 0, 0]);
    entries.extend([[SPAWN, 0, 0, 0]; 64]);
    let answers = answers(2, &FIVE, 20, &entries);
    let ends = 63 + 2 + 124;
    assert_eq!(answers[ends], [102, 2]);
    assert_eq!(answers[ends + 63], [101, 63]);
    assert_eq!(answers[ends + 64], [13, 0]);
}

/// A frame that waits is in no deque: it cannot be stolen, and its worker is no victim.
#[test]
fn not_stolen() {
    let more = [[STEAL, 2, 1, 0], [STEAL, 1, 0, 0], [STEAL, 2, 0, 0]];
    let answers = answers(3, &FIVE, 20, &then(&main_waits(), &more));
    assert_eq!(answers[3..], [[12, 0]; 3]);
}
