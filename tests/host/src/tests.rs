//! Document 01's example and edges, as change them, and R-7's and R-9's, through plain.rs and the library, and the sentences on
//! states corrupted by hand.

mod changeover;
mod reducers;
mod report;
mod tables;
mod waiting;

use crate::call::{Call, Entry, Outcome, BAD_STATE};
use crate::layouts::{self, Older};
use crate::parts::{Parts, LENGTHS};
use crate::plain::{self, State, NONE, READ, RETURN, SPAWN, STEAL, SYNC, WRITE};
use crate::random::Random;
use crate::sentences::{self, SENTENCES};
use crate::steps;

/// Places of the table in most tests.
const PLACES: usize = 64;

/// A start and one tape, by both and in both layouts, with the same outcome: the tape's call and what it left.
fn run(workers: u32, values: &[u32], nodes: usize, entries: &[[u32; 4]]) -> (Call, Outcome) {
    run_in(PLACES, workers, values, nodes, entries)
}

/// The same in a table of so many places.
fn run_in(
    places: usize,
    workers: u32,
    values: &[u32],
    nodes: usize,
    entries: &[[u32; 4]],
) -> (Call, Outcome) {
    let start = starting_in(places, workers, values, nodes);
    let begun = both(&start);
    let (mut older, mut counts) = (Older::new(), layouts::Counts::default());
    assert_eq!(older.compare(&start, &begun, &mut counts), Ok(()));
    if begun.result[0] != 0 {
        return (start, begun);
    }
    let tape = Call {
        state: begun.state,
        pool: begun.pool,
        work: vec![7; nodes + 1],
        entry: Entry::Tape {
            bytes: entries.iter().copied().flat_map(steps::record).collect(),
            answers: vec![7; 2 * entries.len() + 1],
        },
    };
    let ended = both(&tape);
    assert_eq!(older.compare(&tape, &ended, &mut counts), Ok(()));
    (tape, ended)
}

fn starting_in(places: usize, workers: u32, values: &[u32], nodes: usize) -> Call {
    Call {
        state: Parts::garbage(places, &Random::new(7)),
        pool: vec![7; 2 * nodes],
        work: Vec::new(),
        entry: Entry::Start {
            workers,
            values: values.to_vec(),
        },
    }
}

pub fn both(call: &Call) -> Outcome {
    let outcome = call.by_plain();
    assert!(call.by_library(3).as_ref() == Some(&outcome));
    outcome
}

/// The tape's answers, in pairs.
fn answers(workers: u32, values: &[u32], nodes: usize, entries: &[[u32; 4]]) -> Vec<[u32; 2]> {
    let (_, after) = run(workers, values, nodes, entries);
    assert_eq!(after.result, [0, 0]);
    after.answers.as_chunks().0.to_vec()
}

/// Zeros in the state beside a table of these words.
fn zeros(frames: Vec<u32>) -> Parts {
    let state = State::zero(Vec::new());
    Parts {
        frames,
        ..Parts::of(&state)
    }
}

/// A refused start leaves zeros in numbers and deques, and table and pool as they were.
fn start_refusal(workers: u32, splitters: usize, nodes: usize) -> u32 {
    start_refusal_in(PLACES, workers, splitters, nodes)
}

fn start_refusal_in(places: usize, workers: u32, splitters: usize, nodes: usize) -> u32 {
    let call = starting_in(places, workers, &vec![0; splitters], nodes);
    let after = both(&call);
    if after.result[0] != 0 {
        assert_eq!(after.state, zeros(call.state.frames));
        assert_eq!(after.pool, call.pool);
    }
    after.result[0]
}

const FIVE: [u32; 5] = [10, 20, 30, 40, 50];

#[test]
fn the_example() {
    let entries = [
        [SPAWN, 0, 0, 0],
        [STEAL, 1, 0, 0],
        [WRITE, 1, 4, 99],
        [READ, 0, 4, 0],
        [SYNC, 1, 0, 0],
        [READ, 1, 4, 0],
        [RETURN, 0, 0, 0],
        [READ, 0, 4, 0],
        [RETURN, 0, 0, 0],
    ];
    let expected = [
        [101, 1],
        [103, 0],
        [106, 5],
        [105, 50],
        [104, 1],
        [10, 0],
        [102, 2],
        [105, 99],
        [102, 3],
    ];
    assert_eq!(answers(2, &FIVE, 20, &entries), expected);
}

#[test]
fn small_pools() {
    let write = [[WRITE, 0, 0, 1]];
    assert_eq!(answers(1, &[5], 1, &write), [[106, 0]]);
    assert_eq!(answers(1, &[5], 2, &write), [[106, 1]]);
    assert_eq!(start_refusal(1, 5, 10), 3);
    assert_eq!(answers(1, &FIVE, 11, &write), [[106, 0]]);
    assert_eq!(answers(1, &FIVE, 14, &write), [[106, 3]]);
    assert_eq!(answers(1, &FIVE, 15, &write), [[106, 4]]);
}

#[test]
fn refused_starts() {
    assert_eq!(start_refusal(1, 0, 20), 1);
    assert_eq!(start_refusal(1, 257, 1_000), 1);
    assert_eq!(start_refusal(0, 5, 20), 2);
    assert_eq!(start_refusal(9, 5, 20), 2);
    assert_eq!(start_refusal(8, 256, 16_384), 0);
    assert_eq!(start_refusal(8, 256, 16_385), 3);
}

/// The call with each part in turn shorter and longer than it must be: refused by 99, and nothing changes.
fn assert_bad_state(call: &Call) {
    for (part, length) in LENGTHS.into_iter().enumerate() {
        for wrong in [0, 1, length - 1, length + 1, 2 * length] {
            let mut call = call.clone();
            call.state.each_mut()[part].resize(wrong, 7);
            let after = both(&call);
            assert_eq!(after.result, [BAD_STATE, 0], "{call}");
            assert!(after == call.untouched(after.result), "{call}");
        }
    }
}

/// 99 comes before 1, 2, 21 and 3.
#[test]
fn parts_of_another_length_at_a_start() {
    for (workers, splitters, nodes) in [(2, 5, 20), (2, 0, 20), (9, 5, 20), (2, 5, 10), (0, 0, 0)] {
        for places in [0, 1, PLACES, 257] {
            assert_bad_state(&starting_in(places, workers, &vec![0; splitters], nodes));
        }
    }
}

/// The call, then the same with a short work slice (5), with an unsound pool (6), and with both.
fn spoilt(call: Call) -> [Call; 4] {
    let short = Call {
        work: vec![7; 19],
        ..call.clone()
    };
    let unsound = |call: &Call| Call {
        pool: vec![7; call.pool.len()],
        ..call.clone()
    };
    [unsound(&short), unsound(&call), short, call]
}

/// 99 comes before 5, 6 and the refusals of one record.
#[test]
fn parts_of_another_length_at_a_step() {
    for step in [[SPAWN, 0, 0, 0], [READ, 0, 5, 0], [9, 9, 9, 9]] {
        let (mut call, _) = run(2, &FIVE, 20, &[]);
        call.entry = Entry::Step(step);
        spoilt(call).iter().for_each(assert_bad_state);
    }
}

/// 99 comes before 4, 5 and 6.
#[test]
fn parts_of_another_length_at_a_tape() {
    for (bytes, answers) in [(0, 0), (8, 2), (8, 1), (7, 2)] {
        let (mut call, _) = run(2, &FIVE, 20, &[]);
        call.entry = Entry::Tape {
            bytes: vec![1; bytes],
            answers: vec![7; answers],
        };
        spoilt(call).iter().for_each(assert_bad_state);
    }
}

/// The same calls with parts of the right lengths are refused by what else is wrong with them.
#[test]
fn spoilt_calls() {
    let (mut call, _) = run(2, &FIVE, 20, &[]);
    call.entry = Entry::Step([READ, 0, 5, 0]);
    let refusals = spoilt(call.clone()).map(|call| both(&call).result[0]);
    assert_eq!(refusals, [5, 6, 5, 15]);
    call.entry = Entry::Tape {
        bytes: vec![1; 7],
        answers: Vec::new(),
    };
    let refusals = spoilt(call).map(|call| both(&call).result[0]);
    assert_eq!(refusals, [4; 4]);
}

#[test]
fn empty_tape() {
    let (call, after) = run(2, &FIVE, 20, &[]);
    assert_eq!(after.result, [0, 0]);
    assert!(after.state == call.state && after.pool == call.pool);
    assert_eq!(after.answers, [7]);
    assert!(after.work[..20].iter().all(|&word| word == 0));
    assert_eq!(after.work[20], 7);
}

#[test]
fn steal_from_a_deque_of_one() {
    assert_eq!(answers(2, &FIVE, 20, &[[STEAL, 1, 0, 0]]), [[12, 0]]);
}

#[test]
fn return_by_main_while_its_child_runs_elsewhere() {
    let entries = [[SPAWN, 0, 0, 0], [STEAL, 1, 0, 0], [RETURN, 1, 0, 0]];
    assert_eq!(answers(2, &FIVE, 20, &entries)[2], [102, 4]);
}

#[test]
fn nested_spawns() {
    let mut entries = vec![[SPAWN, 0, 0, 0]; 64];
    entries.extend([[RETURN, 0, 0, 0], [SPAWN, 0, 0, 0]]);
    let answers = answers(1, &FIVE, 20, &entries);
    assert_eq!(answers[62..], [[101, 63], [13, 0], [102, 0], [101, 63]]);
}

/// An equal value takes what another takes: nothing of a path that nobody else holds, and all of one that the parent holds too.
#[test]
fn equal_value() {
    let write = [WRITE, 0, 0, 10];
    let (call, after) = run(1, &FIVE, 11, &[write]);
    assert_eq!(after.answers[..2], [106, 0]);
    assert!(after.state == call.state && after.pool == call.pool);
    let entries = [[SPAWN, 0, 0, 0], write, write];
    let expected = [[101, 1], [106, 0], [106, 0]];
    assert_eq!(answers(1, &FIVE, 15, &entries), expected);
    assert_eq!(answers(1, &FIVE, 14, &entries)[1..], [[16, 0], [16, 0]]);
    // the leaf beside it, alone of its path, is still the parent's too
    let entries = [[SPAWN, 0, 0, 0], write, [WRITE, 0, 1, 20]];
    let expected = [[101, 1], [106, 1], [106, 0]];
    assert_eq!(answers(1, &FIVE, 16, &entries), expected);
    assert_eq!(answers(1, &FIVE, 15, &entries)[1..], [[106, 0], [16, 0]]);
}

/// One frame needs no free node, whatever it writes.
#[test]
fn writes_of_one_frame() {
    let writes: Vec<[u32; 4]> = (0..10).map(|n| [WRITE, 0, n % 5, n]).collect();
    assert_eq!(answers(1, &FIVE, 11, &writes), [[106, 0]; 10]);
    assert_eq!(answers(1, &FIVE, 20, &writes), [[106, 9]; 10]);
    let writes: Vec<[u32; 4]> = (0..256).map(|n| [WRITE, 0, n, n]).collect();
    assert_eq!(answers(1, &[7; 256], 511, &writes), [[106, 0]; 256]);
}

/// After a spawn the first write of either frame takes a path, and then neither takes a node for this splitter.
#[test]
fn first_and_second_writes() {
    let begin = [[SPAWN, 0, 0, 0], [STEAL, 1, 0, 0]];
    let child = [WRITE, 0, 0, 1];
    let parent = [WRITE, 1, 0, 2];
    for [first, second] in [[child, parent], [parent, child]] {
        let entries = [&begin[..], &[first, first, second, second]].concat();
        assert_eq!(answers(2, &FIVE, 15, &entries)[2..], [[106, 0]; 4]);
        assert_eq!(answers(2, &FIVE, 14, &entries)[2..], [[16, 0]; 4]);
        assert_eq!(answers(2, &FIVE, 20, &entries)[2..], [[106, 5]; 4]);
    }
}

/// A child that has written to 0 takes one node more for 1, two for 2 or 3, and three for 4.
#[test]
fn rests_of_the_path() {
    let begin = [[SPAWN, 0, 0, 0], [WRITE, 0, 0, 1]];
    for (splitter, rest) in [(1, 1), (2, 2), (3, 2), (4, 3)] {
        let write = [WRITE, 0, splitter, 9];
        let entries = [&begin[..], &[write, write, [READ, 0, splitter, 0]]].concat();
        let enough = answers(1, &FIVE, 15 + rest, &entries);
        let rest = rest as u32;
        assert_eq!(enough[1..], [[106, rest], [106, 0], [106, 0], [105, 9]]);
        let few = answers(1, &FIVE, 14 + rest as usize, &entries);
        let old = FIVE[splitter as usize];
        assert_eq!(few[1..], [[106, rest - 1], [16, 0], [16, 0], [105, old]]);
        let none = answers(1, &FIVE, 15, &entries);
        assert_eq!(none[1..], [[106, 0], [16, 0], [16, 0], [105, old]]);
    }
}

/// The nodes of a call's end, two words each.
fn nodes(after: &Outcome) -> &[plain::Node] {
    after.pool.as_chunks().0
}

/// A link to no node.
const NO_LINK: u32 = 65_535;

/// An inner node; leaves and free nodes are told by their two words.
const fn inner(holders: u32, left: u32, right: u32) -> plain::Node {
    [holders, left + 65_536 * right]
}

/// Level by level the first tree is 0; 1, 2; 3, 4, 5; 6 to 10, and 11 to 19 are free. The child's first write takes 11 to 14, root first; that
/// to 1 takes the leaf 15; that to 4 takes 16, 17 and 18; then one node is free, and 2 would take two.
#[test]
fn nodes_of_a_child() {
    let entries = [
        [SPAWN, 0, 0, 0],
        [WRITE, 0, 0, 99],
        [WRITE, 0, 1, 98],
        [WRITE, 0, 4, 97],
        [WRITE, 0, 2, 96],
        [WRITE, 0, 0, 95],
    ];
    let (_, after) = run(1, &FIVE, 20, &entries);
    let expected = [[101, 1], [106, 5], [106, 4], [106, 1], [16, 0], [106, 1]];
    assert_eq!(after.answers.as_chunks().0, expected);
    let expected = [
        [1, 131_073],
        [1, 262_147],
        [1, 4_294_901_765],
        inner(1, 6, 7),
        inner(2, 8, 9),
        inner(1, 10, NO_LINK),
        [1, 10],
        [1, 20],
        [1, 30],
        [1, 40],
        [1, 50],
        inner(1, 12, 16),
        inner(1, 13, 4),
        inner(1, 14, 15),
        [1, 95],
        [1, 98],
        inner(1, 17, NO_LINK),
        inner(1, 18, NO_LINK),
        [1, 97],
        [0, NONE],
    ];
    assert_eq!(nodes(&after), expected);
    let state = after.state.state().expect("a whole state");
    assert_eq!([state.frames[0].root, state.frames[1].root], [0, 11]);
    assert_eq!(state.free, 19);
}

/// "unpacking the new pool gives the old one node for node", by hand: the same nodes in four words.
#[test]
fn unpacked() {
    let entries = [[SPAWN, 0, 0, 0], [WRITE, 0, 4, 131_073]];
    let (_, after) = run(1, &FIVE, 16, &entries);
    let state = after.state.state().expect("a whole state");
    let expected = [
        [1, 1, 2, 0],
        [2, 3, 4, 0],
        [1, 5, NONE, 0],
        [1, 6, 7, 0],
        [1, 8, 9, 0],
        [1, 10, NONE, 0],
        [1, NONE, NONE, 10],
        [1, NONE, NONE, 20],
        [1, NONE, NONE, 30],
        [1, NONE, NONE, 40],
        [1, NONE, NONE, 50],
        [1, 1, 12, 0],
        [1, 13, NONE, 0],
        [1, 14, NONE, 0],
        [1, NONE, NONE, 131_073],
        [0, NONE, 0, 0],
    ];
    let unpacked = layouts::unpack(&state, &after.pool).expect("a sound pool");
    assert_eq!(unpacked, expected.as_flattened());
}

/// Refused by 16 a write changes nothing; after a return it is accepted.
#[test]
fn refused_write() {
    let begin = [[SPAWN, 0, 0, 0], [WRITE, 0, 4, 1], [SPAWN, 0, 0, 0]];
    let (call, before) = run(1, &FIVE, 18, &begin);
    let write = [WRITE, 0, 4, 2];
    let step = |state, pool, entry| Call {
        state,
        pool,
        work: vec![7; 18],
        entry: Entry::Step(entry),
        ..call.clone()
    };
    let refused = both(&step(before.state.clone(), before.pool.clone(), write));
    assert_eq!(refused.result, [16, 0]);
    assert!(refused.state == before.state && refused.pool == before.pool);
    let read = both(&step(refused.state, refused.pool, [READ, 0, 4, 0]));
    assert_eq!(read.result, [105, 1]);
    let ended = both(&step(read.state, read.pool, [RETURN, 0, 0, 0]));
    assert_eq!(ended.result, [102, 0]);
    let written = both(&step(ended.state, ended.pool, write));
    assert_eq!(written.result, [106, 3]);
}

#[test]
fn tree_sizes() {
    let sizes = [1, 2, 3, 5, 8, 255, 256].map(plain::tree_nodes);
    assert_eq!(sizes, [1, 3, 6, 11, 15, 510, 511]);
    let heights = [1, 2, 3, 5, 8, 255, 256].map(plain::height);
    assert_eq!(heights, [0, 1, 2, 3, 3, 8, 8]);
}

#[test]
fn words_and_records() {
    let (call, _) = run(2, &FIVE, 20, &[]);
    let state = call.state.state().expect("a whole state");
    assert_eq!(Parts::of(&state), call.state);
    let garbage = Parts::garbage(65, &Random::new(1));
    assert_eq!(garbage.state().as_ref().map(Parts::of), Some(garbage));
}

/// The sentences broken after a change of a fresh start: 2 workers, 5 splitters, 20 nodes. Level by level its tree is 0; 1, 2; 3, 4, 5;
/// 6 to 10, and 11 to 19 are free. plain.rs must agree.
fn broken(change: fn(&mut Parts, &mut [u32])) -> Vec<&'static str> {
    let (mut call, _) = run(2, &FIVE, 20, &[]);
    change(&mut call.state, &mut call.pool);
    let broken = sentences::broken(&call.state, &call.pool);
    let state = call.state.state().expect("a whole state");
    let sound = plain::sound(&state, &call.pool, &mut [7; 40]).is_some();
    assert_eq!(sound, broken.is_empty());
    let text = |&sentence: &usize| SENTENCES[sentence].text;
    broken.iter().map(text).collect()
}

/// Word 0 of a worker's deque, of a frame record, of a node.
const DEQUE_1: usize = 257;
const FRAME_0: usize = 0;
const FRAME_1: usize = 12;
const NODE_3: usize = 6;
const NODE_7: usize = 14;

#[test]
fn corrupted_numbers() {
    assert!(broken(|_, _| {}).is_empty());
    assert_eq!(
        broken(|state, _| state.numbers[0] = 9),
        ["workers are 1 to 8"]
    );
    assert_eq!(broken(|state, _| state.numbers[1] = 257), ["n is 1 to 256"]);
    let nodes = "node count is T(n) to 16,384 and at most what the pool holds";
    assert_eq!(broken(|state, _| state.numbers[2] = 21), [nodes]);
    assert_eq!(broken(|state, _| state.numbers[2] = 10), [nodes]);
}

#[test]
fn corrupted_frames() {
    let alone = |text, change| assert_eq!(broken(change), [text]);
    alone("live and suspended are 0 or 1", |state, _| {
        state.frames[FRAME_0] = 2
    });
    let returning = "returning is 1 on a suspended frame that waits so, else 0";
    alone(returning, |state, _| state.frames[FRAME_0 + 6] = 1);
    alone(returning, |state, _| state.frames[FRAME_0 + 6] = NONE);
    alone("outstanding counts are right", |state, _| {
        state.frames[FRAME_0 + 3] = 1
    });
    let placed = "a live frame is in one place, or suspended with a child";
    alone(placed, |state, _| state.frames[FRAME_0 + 4] = 1);
    alone("deques hold live frames only", |state, _| {
        state.deques[DEQUE_1..DEQUE_1 + 2].copy_from_slice(&[1, 5]);
    });
    alone("places past a deque's frames are zero", |state, _| {
        state.deques[DEQUE_1 + 64] = 1;
    });
    alone("places past a deque's frames are zero", |state, _| {
        state.deques[DEQUE_1 + 256] = 1;
    });
    let places = "free frame places are zero and once on their chain";
    alone(places, |state, _| state.frames[FRAME_1 + 2] = 1);
    alone(places, |state, _| state.frames[FRAME_1 + 1] = 1);
    assert_eq!(
        broken(|state, _| state.frames[FRAME_1 + 6] = 1),
        [returning, places]
    );
    let main = "no frame and empty deques, or one of depth 0, parent none";
    alone(main, |state, _| state.frames[FRAME_0 + 1] = 5);
}

#[test]
fn corrupted_trees() {
    let alone = |text, change| assert_eq!(broken(change), [text]);
    let shape = "walking from each live frame gives a tree of the shape";
    // node 5 has leaf 10 and none on the right
    assert!(broken(|_, pool| pool[2 * 5 + 1] = 10).contains(&shape));
    alone(shape, |_, pool| pool[2 * 5 + 1] = 10 + 65_536 * 20);
    alone(shape, |_, pool| pool[2 * 5 + 1] = 10 + 65_536 * 65_534);
    alone("nodes reached have right holders", |_, pool| pool[0] = 2);
    let free = "all other nodes are free and once on the free chain";
    alone(free, |_, pool| pool[2 * 19] = 1);
    alone(free, |_, pool| pool[2 * 19 + 1] = 11);
    alone(free, |_, pool| pool[2 * 19 + 1] = 65_535);
    alone(free, |_, pool| pool[2 * 18 + 1] = 65_535 * 65_536 + 19);
    alone(free, |state, _| state.numbers[3] = 12);
    assert!(broken(|_, pool| pool[NODE_3 + 1] = 6 + 65_536 * 65_535).contains(&shape));
    assert!(broken(|_, pool| pool[NODE_3 + 1] = 65_535 + 65_536 * 7).contains(&shape));
    assert!(broken(|_, pool| pool[NODE_3 + 1] = 20 + 65_536 * 7).contains(&shape));
    assert!(broken(|_, pool| pool[NODE_3 + 1] = NONE).contains(&shape));
}

/// Nodes 6 and 7 are the leaves under node 3. One of them may stand in both places, and the other is free then.
#[test]
fn leaf_in_two_places() {
    let share = |state: &mut Parts, pool: &mut [u32]| {
        pool[NODE_3 + 1] = 6 + 65_536 * 6;
        pool[2 * 6] = 2;
        pool[NODE_7..NODE_7 + 2].copy_from_slice(&[0, 11]);
        state.numbers[3] = 7;
    };
    assert!(broken(share).is_empty());
}

const TWO_LEVELS: &str = "no node is reached on two levels";

/// Leaf 10 gets the links of node 5, to itself and to none, and stands in its place: all else is right.
#[test]
fn leaf_as_inner_node() {
    let stand = |state: &mut Parts, pool: &mut [u32]| {
        pool[2 * 2 + 1] = 10 + 65_536 * 65_535;
        pool[2 * 10..2 * 11].copy_from_slice(&[2, 10 + 65_536 * 65_535]);
        pool[2 * 5..2 * 6].copy_from_slice(&[0, 11]);
        state.numbers[3] = 5;
    };
    assert_eq!(broken(stand), [TWO_LEVELS]);
}

/// Node 4 stands in the place of leaf 7 too, and 7 is free.
#[test]
fn inner_node_as_leaf() {
    let stand = |state: &mut Parts, pool: &mut [u32]| {
        pool[NODE_3 + 1] = 6 + 65_536 * 4;
        pool[2 * 4] = 2;
        pool[NODE_7..NODE_7 + 2].copy_from_slice(&[0, 11]);
        state.numbers[3] = 7;
    };
    assert_eq!(broken(stand), [TWO_LEVELS]);
}

/// A leaf's value may be any word, also one that would be links, to itself, to another node or to none.
#[test]
fn leaves_with_any_value() {
    let values = [
        0,
        7,
        10,
        65_535,
        655_370,
        131_073,
        4_294_901_770,
        NONE - 1,
        NONE,
    ];
    for value in values {
        for leaf in 6..11 {
            let (mut call, _) = run(2, &FIVE, 20, &[]);
            call.pool[2 * leaf + 1] = value;
            assert!(sentences::broken(&call.state, &call.pool).is_empty());
            call.entry = Entry::Step([READ, 0, leaf as u32 - 6, 0]);
            assert_eq!(both(&call).result, [105, value]);
            call.entry = Entry::Step([RETURN, 0, 0, 0]);
            assert_eq!(both(&call).result, [102, 3]);
        }
    }
}

/// A write by one frame alone, in a tree that has a node in two places: it is left as it is in the other place. The start is one of four
/// splitters and nine nodes, 0; 1, 2; 3 to 6; 7 and 8 free. First leaf 3 stands in the places of 3 and 4, then node 1 in those of 1 and 2.
#[test]
fn write_beside_itself() {
    let write = |links: &[(usize, plain::Node)], free: u32| {
        let (mut call, _) = run(1, &[10, 20, 30, 40], 9, &[]);
        for &(node, words) in links {
            call.pool[2 * node..2 * node + 2].copy_from_slice(&words);
        }
        call.state.numbers[3] = free;
        call.entry = Entry::Step([WRITE, 0, 0, 99]);
        let after = both(&call);
        assert!(sentences::broken(&after.state, &after.pool).is_empty());
        after
    };
    let leaf = [1, 10];
    let after = write(&[(1, inner(1, 3, 3)), (3, [2, 10]), (4, [0, 7])], 4);
    assert_eq!(after.result, [106, 2]);
    assert_eq!(nodes(&after)[1], inner(1, 4, 3));
    assert_eq!(nodes(&after)[3..5], [leaf, [1, 99]]);
    let after = write(
        &[
            (0, inner(1, 1, 1)),
            (1, inner(2, 3, 4)),
            (2, [0, 5]),
            (5, [0, 6]),
            (6, [0, 7]),
        ],
        2,
    );
    assert_eq!(after.result, [106, 3]);
    let expected = [
        inner(1, 2, 1),
        inner(1, 3, 4),
        inner(1, 5, 4),
        leaf,
        [2, 20],
        [1, 99],
    ];
    assert_eq!(nodes(&after)[..6], expected);
}

/// Node 5 has one leaf, node 4 has two: it may not stand in the place of node 4, though both are of level 1.
#[test]
fn node_of_another_size() {
    let share = |state: &mut Parts, pool: &mut [u32]| {
        pool[2 + 1] = 3 + 65_536 * 5;
        pool[2 * 5] = 2;
        let freed = [(4, 8), (8, 9), (9, 11)];
        for (node, next) in freed {
            pool[2 * node..2 * node + 2].copy_from_slice(&[0, next]);
        }
        state.numbers[3] = 4;
    };
    let shape = "walking from each live frame gives a tree of the shape";
    assert_eq!(broken(share), [shape]);
}

/// Links out of range and cycles end the check, and nothing panics.
#[test]
fn links_to_nowhere() {
    assert!(!broken(|_, pool| pool[1] = 0).is_empty());
    assert!(!broken(|_, pool| pool[1] = 20).is_empty());
    assert!(!broken(|_, pool| pool[1] = NONE).is_empty());
    assert!(!broken(|state, _| state.frames[FRAME_0 + 5] = NONE).is_empty());
    assert!(!broken(|state, _| state.deques[1] = NONE).is_empty());
    assert!(!broken(|state, _| state.deques[0] = NONE).is_empty());
    assert!(!broken(|state, pool| {
        for part in state.each_mut() {
            part.fill(NONE);
        }
        state.frames.fill(NONE);
        state.numbers[..3].copy_from_slice(&[2, 5, 20]);
        state.numbers[9] = 64;
        pool.fill(NONE);
    })
    .is_empty());
}
