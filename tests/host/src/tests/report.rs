//! pairs counted by hand, through plain.rs, the library and the machine by names; what refused reports leave.

use super::waiting::{next, tape};
use super::{both, zeros, FIVE};
use crate::call::{Call, Entry, Outcome, Reporting, BAD_STATE};
use crate::clocks::{self, Machine, Start};
use crate::parts::Parts;
use crate::plain::{FOLD, READ, RETURN, SPAWN, STEAL, SYNC, WRITE};
use crate::random::Random;
use crate::steps;

const PLACES: usize = 64;
const NODES: usize = 40;
const WORKERS: u32 = 4;
/// What the words of a report hold before.
const BEFORE: [u64; 4] = [7, 8, 9, 10];

fn asking(places: usize, entries: &[[u32; 4]]) -> Call {
    Call {
        state: Parts::garbage(places, &Random::new(7)),
        pool: vec![7; 2 * NODES + 1],
        work: vec![7; NODES + 1],
        entry: Entry::Report(Reporting {
            workers: WORKERS,
            values: FIVE.to_vec(),
            bytes: entries.iter().copied().flat_map(steps::record).collect(),
            answers: vec![7; 2 * entries.len() + 1],
            clocks: vec![7; 2 * places],
            report: BEFORE.to_vec(),
        }),
    }
}

/// The report of these steps in a table of so many places; the machine by names has the same answers, clocks and pair.
fn reported_in(places: usize, entries: &[[u32; 4]]) -> Outcome {
    let after = both(&asking(places, entries));
    let mut machine = Machine::start(Start {
        workers: WORKERS,
        values: &FIVE,
        nodes: NODES,
        places,
    });
    let answers: Vec<u32> = entries
        .iter()
        .flat_map(|&entry| <[u32; 2]>::from(machine.take(entry)))
        .collect();
    assert_eq!(after.answers[..2 * entries.len()], answers);
    assert_eq!(after.clocks, machine.words.as_flattened());
    match machine.span {
        None | Some(0) => assert_eq!((after.result[0], &after.report[..]), (22, &BEFORE[..])),
        Some(span) => {
            assert_eq!(after.result[0], 0);
            assert_eq!((after.report[0], after.report[1]), (machine.work, span));
            assert_eq!(clocks::pair_of(&machine.steps), (machine.work, span));
        }
    }
    after
}

fn reported(entries: &[[u32; 4]]) -> Outcome {
    reported_in(PLACES, entries)
}

/// Work, span, quotient and remainder.
fn words(entries: &[[u32; 4]]) -> [u64; 4] {
    let after = reported(entries);
    assert_eq!(after.result[0], 0);
    after.report.try_into().expect("four words")
}

fn no_span(entries: &[[u32; 4]]) {
    assert_eq!(reported(entries).result[0], 22);
}

/// The worker spawns, and the thief takes the parent.
fn fork(worker: u32, thief: u32) -> [[u32; 4]; 2] {
    [[SPAWN, worker, 0, 0], [STEAL, thief, worker, 0]]
}

fn reads(worker: u32, times: usize) -> Vec<[u32; 4]> {
    vec![[READ, worker, 0, 0]; times]
}

const fn end(worker: u32) -> [u32; 4] {
    [RETURN, worker, 0, 0]
}

#[test]
fn the_example() {
    let entries = [
        [SPAWN, 0, 0, 0],
        [STEAL, 1, 0, 0],
        [WRITE, 1, 4, 99],
        [READ, 0, 4, 0],
        [SYNC, 1, 0, 0],
        [READ, 1, 4, 0],
        end(0),
        [READ, 0, 4, 0],
        end(0),
    ];
    let after = reported(&entries);
    assert_eq!(after.report, [5, 4, 1, 1]);
    assert_eq!(after.clocks[..6], [4, 2, 2, 0, 0, 0]);
    assert!(after.clocks[6..].iter().all(|&clock| clock == 0));
}

#[test]
fn without_a_span() {
    no_span(&[]);
    no_span(&[end(0)]);
    no_span(&[[STEAL, 1, 0, 0], [READ, 1, 0, 0], [READ, 0, 5, 0], end(0)]);
    no_span(&reads(0, 3));
    no_span(&[&fork(0, 1)[..], &[end(1)], &reads(0, 2)].concat());
    no_span(&[&fork(0, 1)[..], &[[SYNC, 1, 0, 0]], &reads(0, 2)].concat());
    assert_eq!(
        words(&[[READ, 0, 0, 0], end(0), [READ, 0, 0, 0]]),
        [1, 1, 1, 0]
    );
}

/// Each accepted spawn, sync, read, write and fold costs 1, whatever it does; a refused one costs nothing.
#[test]
fn costs() {
    for step in [
        [SYNC, 0, 0, 0],
        [READ, 0, 4, 0],
        [WRITE, 0, 4, 9],
        [FOLD, 0, 0, 9],
        [FOLD, 0, 2, 0],
    ] {
        assert_eq!(words(&[step, end(0)]), [1, 1, 1, 0]);
        assert_eq!(words(&[step, step, step, end(0)]), [3, 3, 1, 0]);
    }
    assert_eq!(words(&[[SPAWN, 0, 0, 0], end(0), end(0)]), [1, 1, 1, 0]);
    for refused in [
        [8, 0, 0, 0],
        [SPAWN, 4, 0, 0],
        [READ, 1, 0, 0],
        [STEAL, 0, 1, 0],
        [STEAL, 1, 0, 0],
        [WRITE, 0, 5, 9],
        [FOLD, 0, 3, 9],
    ] {
        assert_eq!(
            words(&[refused, [READ, 0, 0, 0], refused, end(0), refused]),
            [1, 1, 1, 0]
        );
    }
}

/// Each frame's write takes a path of four nodes, beside the eleven of the first tree; for the eighth there is no room: 16, and no cost.
#[test]
fn a_full_pool() {
    let writes = [[SPAWN, 0, 0, 0], [WRITE, 0, 0, 9]].repeat(8);
    let after = reported(&[&writes[..], &[end(0); 9]].concat());
    assert_eq!(after.answers[2 * writes.len() - 2..][..2], [16, 0]);
    assert_eq!(after.report, [8 + 7, 8 + 7, 1, 0]);
}

/// Frames one below the other, as many as the table has places, and one that is refused: nothing is parallel.
#[test]
fn chains() {
    for places in [2, 3, 63, 64, 65, 255, 256] {
        let spawns = vec![[SPAWN, 0, 0, 0]; places];
        let chain = [spawns, vec![end(0); places]].concat();
        let deepest = places as u64 - 1;
        assert_eq!(reported_in(places, &chain).report, [deepest, deepest, 1, 0]);
        let mut waiting = Vec::new();
        for _ in 1..places {
            waiting.extend(fork(0, 1));
            waiting.extend([[READ, 1, 0, 0], end(1)]);
        }
        waiting.push(end(0));
        let after = reported_in(places, &waiting);
        assert_eq!(after.answers[2 * waiting.len() - 2..][..2], [102, 3]);
        // the last frame begins at its depth; the one above it reads after that
        assert_eq!(after.report[..2], [2 * deepest, deepest + 1]);
    }
    assert_eq!(
        reported_in(1, &[[SPAWN, 0, 0, 0], [SYNC, 0, 0, 0], end(0)]).report,
        [1, 1, 1, 0]
    );
}

#[test]
fn fans() {
    let child = |reads_of| [vec![[SPAWN, 0, 0, 0]], reads(0, reads_of), vec![end(0)]].concat();
    let fan: Vec<[u32; 4]> = (0..10).flat_map(child).collect();
    assert_eq!(
        words(&[&fan[..], &[end(0)]].concat()),
        [10 + 45, 10 + 9, 2, 17]
    );
    assert_eq!(
        words(&[&fan[..], &[[SYNC, 0, 0, 0], end(0)]].concat()),
        [56, 20, 2, 16]
    );
    let falling: Vec<[u32; 4]> = (0..10).rev().flat_map(child).collect();
    assert_eq!(words(&[&falling[..], &[end(0)]].concat()), [55, 10, 5, 5]);
}

/// A sync that suspends is counted when it passes: after the latest child, whoever ends last.
#[test]
fn syncs() {
    let sync = [[SYNC, 1, 0, 0]];
    let long = [
        &fork(0, 1)[..],
        &sync,
        &reads(0, 10),
        &[end(0)],
        &reads(0, 1),
        &[end(0)],
    ]
    .concat();
    assert_eq!(words(&long), [13, 13, 1, 0]);
    let short = [
        &fork(0, 1)[..],
        &reads(1, 10),
        &sync,
        &reads(0, 1),
        &[end(0), end(0)],
    ]
    .concat();
    assert_eq!(words(&short), [13, 12, 1, 1]);
    let waits = [
        &fork(0, 1)[..],
        &fork(1, 2),
        &[[SYNC, 2, 0, 0]],
        &reads(0, 9),
        &reads(1, 4),
    ]
    .concat();
    for order in [[0, 1], [1, 0]] {
        let ends = order.map(end);
        let both = [&waits[..], &ends, &reads(order[1], 1), &[end(order[1])]].concat();
        assert_eq!(words(&both), [2 + 1 + 13 + 1, 1 + 9 + 1 + 1, 1, 5]);
    }
}

/// "A return likewise waits but adds nothing."
#[test]
fn returns() {
    let long = [
        &fork(0, 1)[..],
        &reads(1, 2),
        &[end(1)],
        &reads(0, 5),
        &[end(0)],
    ]
    .concat();
    assert_eq!(words(&long), [8, 6, 1, 2]);
    let short = [
        &fork(0, 1)[..],
        &reads(1, 9),
        &[end(1)],
        &reads(0, 5),
        &[end(0)],
    ]
    .concat();
    assert_eq!(words(&short), [15, 10, 1, 5]);
    // Main waits at a sync for a frame that waits in its return for its own child
    let below = [
        &fork(0, 1)[..],
        &fork(0, 2),
        &[[SYNC, 1, 0, 0]],
        &reads(2, 9),
        &[end(2)],
    ]
    .concat();
    assert_eq!(
        words(&[&below[..], &reads(0, 1), &[end(0), end(0)]].concat()),
        [13, 12, 1, 1]
    );
    assert_eq!(
        words(&[&below[..], &reads(0, 20), &[end(0), end(0)]].concat()),
        [32, 23, 1, 9]
    );
}

/// Where the ends of a chain stop at a frame that runs, it hears of them at its next sync.
#[test]
fn a_chain_below_a_running_frame() {
    let chain = [
        &fork(0, 1)[..],
        &fork(0, 2),
        &[end(2)],
        &reads(0, 20),
        &[end(0)],
    ]
    .concat();
    let after = reported(&chain);
    assert_eq!(
        (
            &after.answers[2 * chain.len() - 2..][..2],
            &after.clocks[..2]
        ),
        (&[102, 1][..], &[1, 22][..])
    );
    assert_eq!(
        words(&[&chain[..], &[[SYNC, 1, 0, 0], end(1)]].concat()),
        [23, 23, 1, 0]
    );
    assert_eq!(
        words(&[&chain[..], &reads(1, 30), &[end(1)]].concat()),
        [52, 31, 1, 21]
    );
}

/// A later frame in a place has clocks of its own. The words of one that has ended are those that its return found.
#[test]
fn clocks_of_places() {
    let twice = [
        &[[SPAWN, 0, 0, 0], [SPAWN, 0, 0, 0]][..],
        &reads(0, 20),
        &[end(0), end(0), [SPAWN, 0, 0, 0]],
    ]
    .concat();
    assert_eq!(reported(&twice).clocks[..6], [2, 22, 2, 0, 22, 0]);
    let chain = [
        &fork(0, 1)[..],
        &[end(1)],
        &fork(0, 1),
        &[end(1)],
        &reads(0, 5),
        &[end(0)],
    ]
    .concat();
    let after = reported(&chain);
    assert_eq!(
        (after.result[0], &after.clocks[..6]),
        (0, &[1, 0, 2, 0, 7, 0][..])
    );
}

/// After a 22 the run goes on as after a start and a tape.
#[test]
fn a_withheld_report_leaves_the_run() {
    let begun = [&fork(0, 1)[..], &[[WRITE, 1, 4, 99], [SYNC, 1, 0, 0]]].concat();
    let after = reported(&begun);
    assert_eq!(after.result[0], 22);
    let ended = both(&next(&after, tape(&[end(0), [READ, 0, 4, 0], end(0)])));
    assert_eq!(ended.answers[..6], [102, 2, 105, 99, 102, 3]);
}

/// A condition, and how a call gets it.
type Condition = (u32, fn(&mut Call));

fn asked(call: &mut Call) -> &mut Reporting {
    match &mut call.entry {
        Entry::Report(asked) => asked,
        _ => unreachable!("a report"),
    }
}

/// In the order in which they are looked for; the table before the clocks, which must have its length.
const CONDITIONS: [Condition; 10] = [
    (BAD_STATE, |call| call.state.numbers.truncate(9)),
    (BAD_STATE, |call| call.state.deques.push(7)),
    (BAD_STATE, |call| asked(call).clocks.push(7)),
    (BAD_STATE, |call| asked(call).report.truncate(3)),
    (1, |call| asked(call).values.clear()),
    (2, |call| asked(call).workers = 9),
    (21, |call| {
        call.state.frames.clear();
        asked(call).clocks.clear();
    }),
    (3, |call| call.pool.truncate(4)),
    (4, |call| asked(call).bytes.truncate(7)),
    (5, |call| call.work.clear()),
];

/// Every set of conditions is refused by the first of them, and leaves what it must.
#[test]
fn refused_in_order() {
    for set in 1..1_u32 << CONDITIONS.len() {
        let mut call = asking(PLACES, &[[READ, 0, 0, 0], end(0)]);
        let of_set = || (0..CONDITIONS.len()).filter(|place| set >> place & 1 == 1);
        // the last first: clearing the clocks with the table comes before a word too many
        of_set()
            .rev()
            .for_each(|place| CONDITIONS[place].1(&mut call));
        let expected = of_set().map(|place| CONDITIONS[place].0).next();
        let after = both(&call);
        assert_eq!(Some(after.result[0]), expected);
        let mut left = call.untouched(after.result);
        if expected != Some(BAD_STATE) {
            left.state = zeros(left.state.frames);
        }
        assert!(after == left);
    }
}

/// The clocks must have two words for each place of the lent table, also of one that is refused.
#[test]
fn lengths() {
    for places in [0, 1, 2, 64, 256, 257] {
        for (clocks, report) in [
            (2 * places, 4),
            (2 * places, 3),
            (2 * places, 5),
            (2 * places + 1, 4),
            (2 * places + 2, 4),
        ] {
            let mut call = asking(places, &[[READ, 0, 0, 0], end(0)]);
            asked(&mut call).clocks.resize(clocks, 7);
            asked(&mut call).report.resize(report, 7);
            let expected = match (clocks == 2 * places && report == 4, places) {
                (false, _) => BAD_STATE,
                (true, 1..=256) => 0,
                (true, _) => 21,
            };
            assert_eq!(both(&call).result[0], expected);
        }
    }
}
