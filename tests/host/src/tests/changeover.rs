//! the change-over from four-word nodes to two-word nodes, through plain.rs and the library.

use super::{both, run_in, FIVE, PLACES};
use crate::call::{Call, Entry, Outcome, BAD_STATE};
use crate::layouts;
use crate::plain::{self, Frame, OldNode, NONE, READ, RETURN, SPAWN, STEAL, SYNC, WRITE};
use crate::sentences;

/// A change-over of these words, after the state and the table that this tape leaves, with a work slice that is long enough.
fn converting(call: &Call, after: &Outcome, pool: Vec<u32>) -> Call {
    Call {
        state: after.state.clone(),
        pool,
        work: vec![9; call.work.len() + 3],
        entry: Entry::Convert,
    }
}

/// Document 01's example after five records: Main, which has written, is suspended, its child runs.
fn example() -> (Call, Outcome) {
    let steps = [
        [SPAWN, 0, 0, 0],
        [STEAL, 1, 0, 0],
        [WRITE, 1, 4, 99],
        [READ, 0, 4, 0],
        [SYNC, 1, 0, 0],
    ];
    run_in(4, 2, &FIVE, 20, &steps)
}

/// Its nodes, as the library before had them (tests/recorded/old.txt).
#[rustfmt::skip]
const OLD: [OldNode; 20] = [
    [1, 1, 2, 0], [2, 3, 4, 0], [1, 5, NONE, 0], [1, 6, 7, 0], [1, 8, 9, 0], [1, 10, NONE, 0],
    [1, NONE, NONE, 10], [1, NONE, NONE, 20], [1, NONE, NONE, 30], [1, NONE, NONE, 40], [1, NONE, NONE, 50],
    [1, 1, 12, 0], [1, 13, NONE, 0], [1, 14, NONE, 0], [1, NONE, NONE, 99],
    [0, 16, 0, 0], [0, 17, 0, 0], [0, 18, 0, 0], [0, 19, 0, 0], [0, NONE, 0, 0],
];

/// And as they are in two words.
#[rustfmt::skip]
const NEW: [plain::Node; 20] = [
    [1, 131_073], [2, 262_147], [1, 4_294_901_765], [1, 458_758], [1, 589_832], [1, 4_294_901_770],
    [1, 10], [1, 20], [1, 30], [1, 40], [1, 50],
    [1, 786_433], [1, 4_294_901_773], [1, 4_294_901_774], [1, 99],
    [0, 16], [0, 17], [0, 18], [0, 19], [0, NONE],
];

/// Two-word nodes in the front, zeros up to the end of the old ones, the words past these as they were; state and table too.
#[test]
fn the_example_changed_over() {
    let (call, after) = example();
    assert_eq!(after.pool, NEW.concat());
    for past in [vec![], vec![7], vec![0; 3], vec![NONE; 9]] {
        let call = converting(&call, &after, [OLD.concat(), past.clone()].concat());
        let changed = both(&call);
        assert_eq!(changed.result, [0, 0]);
        assert_eq!(changed.state, call.state);
        assert_eq!(changed.pool, [NEW.concat(), vec![0; 40], past].concat());
        assert_eq!(changed.work, [vec![0; 20], vec![9; 4]].concat());
    }
}

/// What remains of the example, from the whole slice and from its front.
#[test]
fn the_example_goes_on() {
    let (call, after) = example();
    let changed = both(&converting(&call, &after, OLD.concat()));
    for words in [40, 41, 79, 80] {
        let mut pool = changed.pool[..words].to_vec();
        let mut state = changed.state.clone();
        let steps = [
            ([READ, 1, 4, 0], [10, 0]),
            ([RETURN, 0, 0, 0], [102, 2]),
            ([READ, 0, 4, 0], [105, 99]),
            ([RETURN, 0, 0, 0], [102, 3]),
        ];
        for (step, answer) in steps {
            let after = both(&Call {
                state,
                pool,
                work: vec![9; 20],
                entry: Entry::Step(step),
            });
            assert_eq!(after.result, answer);
            (state, pool) = (after.state, after.pool);
        }
    }
}

/// "The call checks 5, then 6", and 99 comes before; nothing changes but the work slice, by 6.
#[test]
fn refused_in_order() {
    let (call, after) = example();
    let whole = converting(&call, &after, OLD.concat());
    let short_work = |call: &mut Call| call.work.truncate(19);
    let short_pool = |call: &mut Call| call.pool.truncate(79);
    let short_numbers = |call: &mut Call| call.state.numbers.truncate(9);
    let short_table = |call: &mut Call| call.state.frames.truncate(36);
    let wrong_word = |call: &mut Call| call.pool[0] = 2;
    type Change = fn(&mut Call);
    let cases: [(&[Change], u32); 9] = [
        (&[short_work], 5),
        (&[short_pool], 6),
        (&[short_table], 6),
        (&[wrong_word], 6),
        (&[short_work, short_pool], 5),
        (&[short_work, wrong_word, short_table], 5),
        (&[short_numbers], BAD_STATE),
        (&[short_numbers, short_work], BAD_STATE),
        (&[short_numbers, wrong_word], BAD_STATE),
    ];
    for (changes, result) in cases {
        let mut call = whole.clone();
        changes.iter().for_each(|change| change(&mut call));
        let refused = both(&call);
        assert_eq!(refused.result, [result, 0]);
        assert!(refused.state == call.state && refused.pool == call.pool);
        let zeros = if result == 6 { 20 } else { 0 };
        let work = [vec![0; zeros], call.work[zeros..].to_vec()].concat();
        assert_eq!(refused.work, work);
    }
}

/// Each word of the old nodes changed, near and far: accepted just when the sentences find nothing wrong.
#[test]
fn every_word_changed() {
    let (call, after) = example();
    let mut taken = 0;
    for place in 0..80 {
        let old = OLD.concat()[place];
        let news = [
            0,
            1,
            2,
            15,
            20,
            65_535,
            65_536,
            NONE,
            NONE - 1,
            old ^ 1,
            old | 1 << 16,
            old ^ 1 << 31,
        ];
        for new in news {
            let mut pool = OLD.concat();
            pool[place] = new;
            let call = converting(&call, &after, pool);
            let changed = both(&call);
            let sound = sentences::broken_four_words(&call.state, &call.pool).is_empty();
            assert_eq!(
                changed.result[0],
                if sound { 0 } else { 6 },
                "{place}, {new}"
            );
            taken += u32::from(sound && new != old);
        }
    }
    assert!(taken > 0); // other values of leaves
}

/// All orders of so many nodes.
fn orders(nodes: &[u32]) -> Vec<Vec<u32>> {
    if nodes.is_empty() {
        return vec![Vec::new()];
    }
    let first = |at: usize| {
        let mut rest = nodes.to_vec();
        let node = rest.remove(at);
        orders(&rest).into_iter().map(move |mut order| {
            order.insert(0, node);
            order
        })
    };
    (0..nodes.len()).flat_map(first).collect()
}

/// A change-over of so many nodes with one splitter: Main's leaf with this value in a node, or no frame, and the others free in this order.
fn small_pool(nodes: usize, main: Option<(u32, u32)>, order: &[u32]) -> Call {
    let steps: &[_] = if main.is_some() {
        &[]
    } else {
        &[[RETURN, 0, 0, 0]]
    };
    let (call, after) = run_in(2, 1, &[7], nodes, steps);
    let mut call = converting(&call, &after, vec![0; 4 * nodes]);
    let mut next = NONE;
    for &node in order.iter().rev() {
        call.pool[4 * node as usize + 1] = next;
        next = node;
    }
    call.state.numbers[3] = next;
    if let Some((node, value)) = main {
        let at = 4 * node as usize;
        call.pool[at..at + 4].copy_from_slice(&[1, NONE, NONE, value]);
        call.state.frames[5] = node;
    }
    call
}

/// All small pools of up to five nodes, with some values.
fn small_pools() -> Vec<(usize, Option<(u32, u32)>, Call)> {
    let mut pools = Vec::new();
    for nodes in 1..=5 {
        let all: Vec<u32> = (0..nodes as u32).collect();
        let values = [0, 1, 7, 65_535, 65_536, 131_073, NONE - 1, NONE];
        let leaves = all
            .iter()
            .flat_map(|&node| values.map(|value| Some((node, value))));
        for main in leaves.chain([None]) {
            let taken = main.map(|(node, _)| node);
            let free: Vec<u32> = all
                .iter()
                .copied()
                .filter(|&node| Some(node) != taken)
                .collect();
            let pool = |order: Vec<u32>| (nodes, main, small_pool(nodes, main, &order));
            pools.extend(orders(&free).into_iter().map(pool));
        }
    }
    pools
}

/// A second change-over is refused by 6, or, of 1 or 2 nodes without a frame, changes nothing.
#[test]
fn small_pools_twice() {
    let (mut refused, mut unchanged) = (0, 0);
    for (nodes, main, call) in small_pools() {
        let changed = both(&call);
        assert_eq!(changed.result[0], 0);
        let pool = changed.pool.clone();
        let again = both(&Call { pool, ..call });
        assert_eq!(again.pool, changed.pool);
        match again.result[0] {
            0 if nodes <= 2 && main.is_none() => unchanged += 1,
            6 => refused += 1,
            other => panic!("answered {other}"),
        }
    }
    assert_eq!((refused, unchanged), (1_375, 2)); // 9 times the sum of k! for 1 to 5 nodes
}

/// Without a change-over the old words are sound as two-word nodes only of one node, or of two without a frame.
#[test]
fn small_pools_without_a_change_over() {
    for (nodes, main, mut call) in small_pools() {
        let sound = sentences::broken(&call.state, &call.pool).is_empty();
        assert!(!sound || nodes == 1 || nodes == 2 && main.is_none());
        call.entry = Entry::Step([SPAWN, 0, 0, 0]);
        assert_eq!(both(&call).result[0] == 6, !sound);
    }
}

/// As many nodes as a pool may have, and one more; with few splitters and with many.
#[test]
fn the_largest_pools() {
    for splitters in [1, 5, 256] {
        let values: Vec<u32> = (0..splitters).map(|i| i * 65_537).collect();
        let begin = |words: usize| {
            let (mut pool, table) = (vec![0; words * 16_384], vec![Frame::default(); PLACES]);
            let (state, result) = match words {
                2 => plain::start(8, &values, table, &mut pool),
                _ => plain::start_of::<OldNode>(8, &values, table, &mut pool),
            };
            assert_eq!(result, 0);
            (state, pool)
        };
        let ((state, new), (same, old)) = (begin(2), begin(4));
        assert_eq!(state, same);
        let mut call = Call {
            state: crate::parts::Parts::of(&state),
            pool: old.clone(),
            work: vec![9; 16_385],
            entry: Entry::Convert,
        };
        let changed = both(&call);
        assert_eq!(changed.result[0], 0);
        assert_eq!(changed.pool, [new, vec![0; 2 * 16_384]].concat());
        assert_eq!(layouts::unpack(&state, &changed.pool), Some(old));
        // the last free node's next is one more
        call.pool[4 * 16_383 + 1] = 16_384;
        call.pool.extend([0, NONE, 0, 0]);
        call.state.numbers[2] = 16_385;
        assert_eq!(both(&call).result[0], 6);
    }
}
