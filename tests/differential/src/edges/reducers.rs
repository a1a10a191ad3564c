//! R-5 of document 02: folds, views and totals. Most of these edges fold maps
//! that multiply by ten and add a digit: the addend then shows the digits in
//! the order of the folds, and the multiplier how many they are.

use super::{fold, nested, read, ret, run, run_to, spawn, steal, sync, write};
use super::{Answered, Edge, Record, SPAWNED, TENS};

pub fn reducers() -> Vec<Edge> {
    let mut edges = one_frame();
    edges.extend(no_line());
    edges.extend(refusals());
    edges.extend(parent_and_child());
    edges.extend(two_children());
    edges.extend(frames_below_a_sibling());
    edges.extend(chains());
    edges.extend(seven_children());
    edges.extend(names());
    edges.extend(deep());
    edges
}

/// Edges that are also fed in pieces.
pub fn in_pieces() -> Vec<Edge> {
    let mut edges = one_frame();
    edges.extend(chains());
    edges
}

/// Times ten, plus a digit.
fn digit(worker: u8, digit: u32) -> Record {
    map(worker, 10, digit)
}

fn map(worker: u8, multiplier: u32, addend: u32) -> Record {
    fold(worker, 2, 65_536 * multiplier + addend)
}

const FOLDED: &str = "107 0";

fn one_frame() -> Vec<Edge> {
    vec![
        run_to(
            "folds into each reducer",
            (1, 20, &TENS),
            "1 5 20",
            &[
                (fold(0, 0, 5), FOLDED),
                (fold(0, 1, 9), FOLDED),
                (map(0, 2, 1), FOLDED),
                (fold(0, 1, 4), FOLDED),
                (fold(0, 0, 7), FOLDED),
                (map(0, 3, 4), FOLDED),
                (fold(0, 1, 6), FOLDED),
                (ret(0), "102 3"),
            ],
            &["free 20", "reduced 12 4 6 7"],
        ),
        run_to(
            "earlier map applied first",
            (1, 20, &TENS),
            "1 5 20",
            &[
                (digit(0, 1), FOLDED),
                (digit(0, 2), FOLDED),
                (digit(0, 3), FOLDED),
                (ret(0), "102 3"),
            ],
            &["free 20", "reduced 0 4294967295 1000 123"],
        ),
        run_to(
            "the sum and the map go round at 4,294,967,296",
            (1, 20, &TENS),
            "1 5 20",
            &[
                (fold(0, 0, u32::MAX), FOLDED),
                (fold(0, 0, 2), FOLDED),
                (fold(0, 1, u32::MAX), FOLDED),
                (map(0, 65_535, 65_535), FOLDED),
                (map(0, 65_535, 65_535), FOLDED),
                (map(0, 65_535, 65_535), FOLDED),
                (ret(0), "102 3"),
            ],
            &["free 20", "reduced 1 4294967295 196607 131071"],
        ),
        run_to(
            "the map that is always 5, then times three plus one; the minimum is 0",
            (1, 20, &TENS),
            "1 5 20",
            &[
                (map(0, 7, 1), FOLDED),
                (fold(0, 2, 5), FOLDED),
                (map(0, 3, 1), FOLDED),
                (fold(0, 1, 0), FOLDED),
                (fold(0, 1, 3), FOLDED),
                (fold(0, 0, 0), FOLDED),
                (ret(0), "102 3"),
            ],
            &["free 20", "reduced 0 0 0 16"],
        ),
        run_to(
            "values are 32 bits, little-endian; the identity map changes nothing",
            (1, 20, &TENS),
            "1 5 20",
            &[
                (fold(0, 0, 0x0102_0304), FOLDED),
                (fold(0, 1, 0x8000_0001), FOLDED),
                (map(0, 1, 0), FOLDED),
                (fold(0, 2, 0x0102_0304), FOLDED),
                (map(0, 1, 0), FOLDED),
                (ret(0), "102 3"),
            ],
            &["free 20", "reduced 16909060 2147483649 258 772"],
        ),
        run_to(
            "n 1, no node free: folds take none",
            (1, 1, &[7]),
            "1 1 1",
            &[
                (fold(0, 2, 65_537), FOLDED),
                (fold(0, 1, 8), FOLDED),
                (read(0, 0), "105 7"),
                (fold(0, 0, 9), FOLDED),
                (ret(0), "102 3"),
            ],
            &["free 1", "reduced 9 8 1 1"],
        ),
    ]
}

/// "Only then splitrun prints": not while Main lives.
fn no_line() -> Vec<Edge> {
    vec![
        run_to(
            "no line while Main lives",
            (1, 20, &TENS),
            "1 5 20",
            &[(fold(0, 0, 5), FOLDED), (map(0, 2, 1), FOLDED)],
            &["free 9"],
        ),
        run_to(
            "no line while Main waits",
            (2, 20, &TENS),
            "2 5 20",
            &[
                (fold(0, 0, 5), FOLDED),
                (spawn(0), "101 1"),
                (steal(1, 0), "103 0"),
                (ret(1), "102 4"),
                (fold(0, 0, 6), FOLDED),
            ],
            &["free 9"],
        ),
        run_to(
            "what follows Main's return is not folded",
            (2, 20, &TENS),
            "2 5 20",
            &[
                (fold(0, 0, 5), FOLDED),
                (ret(0), "102 3"),
                (fold(0, 0, 6), "9 0"),
                (fold(1, 1, 6), "9 0"),
                (map(0, 2, 1), "9 0"),
                (ret(0), "9 0"),
            ],
            &["free 20", "reduced 5 4294967295 1 0"],
        ),
    ]
}

/// 20, "in the place of 15".
fn refusals() -> Vec<Edge> {
    vec![
        run_to(
            "20: kind 7 names no reducer",
            (1, 20, &TENS),
            "1 5 20",
            &[
                (fold(0, 2, 65_537), FOLDED),
                (fold(0, 3, 1), "20 0"),
                (fold(0, 4, 1), "20 0"),
                (fold(0, 5, 0), "20 0"),
                (fold(0, 255, 1), "20 0"),
                (fold(0, 256, 1), "20 0"),
                (fold(0, 258, 65_537), "20 0"),
                (fold(0, 65_535, 1), "20 0"),
                (ret(0), "102 3"),
            ],
            &["free 20", "reduced 0 4294967295 1 1"],
        ),
        run_to(
            "reducers are no splitters: n 1 has three, n 256 has no more",
            (1, 1, &[7]),
            "1 1 1",
            &[
                (fold(0, 1, 6), FOLDED),
                (fold(0, 2, 65_536), FOLDED),
                (read(0, 1), "15 0"),
                (ret(0), "102 3"),
            ],
            &["free 1", "reduced 0 6 1 0"],
        ),
        run(
            "n 256: 20 from reducer 3 on",
            (1, 600, &[7; 256]),
            "1 256 600",
            &[
                (fold(0, 3, 6), "20 0"),
                (read(0, 3), "105 7"),
                (fold(0, 255, 6), "20 0"),
                (read(0, 256), "15 0"),
            ],
            "free 89",
        ),
        run(
            "8, 9 and 10 before 20",
            (2, 20, &TENS),
            "2 5 20",
            &[
                (fold(2, 3, 1), "8 0"),
                (fold(2, 0, 1), "8 0"),
                (fold(1, 3, 1), "10 0"),
                (fold(1, 0, 1), "10 0"),
                (fold(0, 3, 1), "20 0"),
                (ret(0), "102 3"),
                (fold(2, 3, 1), "8 0"),
                (fold(0, 3, 1), "9 0"),
                (fold(1, 2, 1), "9 0"),
            ],
            "free 20",
        ),
        run(
            "20 where no node is free and 64 frames live",
            (1, 1, &[7]),
            "1 1 1",
            &{
                let mut answered = nested(0, &SPAWNED);
                answered.extend([
                    (fold(0, 3, 1), "20 0"),
                    (spawn(0), "13 0"),
                    (write(0, 0, 1), "16 0"),
                    (fold(0, 2, 1), FOLDED),
                ]);
                answered
            },
            "free 0",
        ),
    ]
}

fn parent_and_child() -> Vec<Edge> {
    let totals = ["free 20", "reduced 0 4294967295 10000 1234"];
    vec![
        run_to(
            "one worker: child first",
            (1, 20, &TENS),
            "1 5 20",
            &[
                (digit(0, 1), FOLDED),
                (spawn(0), "101 1"),
                (digit(0, 2), FOLDED),
                (ret(0), "102 0"),
                (digit(0, 3), FOLDED),
                (spawn(0), "101 1"),
                (ret(0), "102 0"),
                (digit(0, 4), FOLDED),
                (ret(0), "102 3"),
            ],
            &totals,
        ),
        run_to(
            "the child inherits, the continuation begins with the identity",
            (2, 20, &TENS),
            "2 5 20",
            &[
                (fold(0, 0, 100), FOLDED),
                (fold(0, 1, 5), FOLDED),
                (spawn(0), "101 1"),
                (fold(0, 0, 20), FOLDED),
                (steal(1, 0), "103 0"),
                (fold(1, 0, 3), FOLDED),
                (ret(1), "102 4"),
                (ret(0), "102 3"),
            ],
            &["free 20", "reduced 123 5 1 0"],
        ),
        run_to(
            "the continuation folds before the child",
            (2, 20, &TENS),
            "2 5 20",
            &[
                (digit(0, 1), FOLDED),
                (spawn(0), "101 1"),
                (steal(1, 0), "103 0"),
                (digit(1, 3), FOLDED),
                (digit(1, 4), FOLDED),
                (digit(0, 2), FOLDED),
                (ret(0), "102 1"),
                (ret(1), "102 3"),
            ],
            &totals,
        ),
        run_to(
            "a frame goes on with its own view past its sync",
            (2, 20, &TENS),
            "2 5 20",
            &[
                (digit(0, 1), FOLDED),
                (spawn(0), "101 1"),
                (steal(1, 0), "103 0"),
                (digit(1, 3), FOLDED),
                (sync(1), "104 1"),
                (digit(1, 9), "10 0"),
                (digit(0, 2), FOLDED),
                (ret(0), "102 2"),
                (digit(0, 4), FOLDED),
                (ret(0), "102 3"),
            ],
            &totals,
        ),
        run_to(
            "a frame that has returned waits with its view",
            (2, 20, &TENS),
            "2 5 20",
            &[
                (digit(0, 1), FOLDED),
                (spawn(0), "101 1"),
                (steal(1, 0), "103 0"),
                (digit(1, 3), FOLDED),
                (digit(1, 4), FOLDED),
                (ret(1), "102 4"),
                (digit(0, 2), FOLDED),
                (ret(0), "102 3"),
            ],
            &totals,
        ),
        run_to(
            "younger children end within their deque while the eldest lives",
            (2, 20, &TENS),
            "2 5 20",
            &[
                (digit(0, 1), FOLDED),
                (spawn(0), "101 1"),
                (steal(1, 0), "103 0"),
                (digit(1, 3), FOLDED),
                (spawn(1), "101 1"),
                (digit(1, 4), FOLDED),
                (ret(1), "102 0"),
                (digit(1, 5), FOLDED),
                (spawn(1), "101 1"),
                (digit(1, 6), FOLDED),
                (ret(1), "102 0"),
                (ret(1), "102 4"),
                (digit(0, 2), FOLDED),
                (ret(0), "102 3"),
            ],
            &["free 20", "reduced 0 4294967295 1000000 123456"],
        ),
        run_to(
            "views go with frames and not with workers",
            (2, 20, &TENS),
            "2 5 20",
            &[
                (digit(0, 1), FOLDED),
                (spawn(0), "101 1"),
                (steal(1, 0), "103 0"),
                (digit(1, 3), FOLDED),
                (spawn(1), "101 1"),
                (digit(1, 4), FOLDED),
                (digit(0, 2), FOLDED),
                (ret(0), "102 1"),
                (steal(0, 1), "103 0"),
                (digit(0, 5), FOLDED),
                (ret(0), "102 4"),
                (ret(1), "102 3"),
            ],
            &["free 20", "reduced 0 4294967295 100000 12345"],
        ),
    ]
}

/// Main folds 1, spawns the elder child, folds 3, spawns the younger, folds 5;
/// the elder, on worker 0, folds 2, the younger, on worker 1, folds 4. They
/// end in each order.
fn two_children() -> Vec<Edge> {
    let orders = [
        ([0, 1, 2], ["102 1", "102 1", "102 3"]),
        ([1, 0, 2], ["102 1", "102 1", "102 3"]),
        ([0, 2, 1], ["102 1", "102 4", "102 3"]),
        ([1, 2, 0], ["102 1", "102 4", "102 3"]),
        ([2, 0, 1], ["102 4", "102 1", "102 3"]),
        ([2, 1, 0], ["102 4", "102 1", "102 3"]),
    ];
    let mut edges = Vec::new();
    for (workers, lines) in orders {
        let mut answered = vec![
            (digit(0, 1), FOLDED),
            (spawn(0), "101 1"),
            (steal(1, 0), "103 0"),
            (digit(1, 3), FOLDED),
            (spawn(1), "101 1"),
            (steal(2, 1), "103 0"),
            (digit(2, 5), FOLDED),
            (digit(1, 4), FOLDED),
            (digit(0, 2), FOLDED),
        ];
        answered.extend(workers.map(ret).into_iter().zip(lines));
        edges.push(run_to(
            format!("two children and Main return on workers {workers:?}"),
            (3, 20, &TENS),
            "3 5 20",
            &answered,
            &["free 20", "reduced 0 4294967295 100000 12345"],
        ));
    }
    edges
}

/// Main folds 1, the elder child 2, Main 3, the younger child 4, its child 5,
/// a frame below that 6; then these go on with 7, 8 and 9.
fn frames_below_a_sibling() -> Vec<Edge> {
    let begin = [
        (digit(0, 1), FOLDED),
        (spawn(0), "101 1"),
        (steal(1, 0), "103 0"),
        (digit(1, 3), FOLDED),
        (spawn(1), "101 1"),
        (steal(2, 1), "103 0"),
        (digit(2, 9), FOLDED),
        (digit(1, 4), FOLDED),
        (spawn(1), "101 2"),
        (digit(1, 5), FOLDED),
    ];
    let totals = ["free 20", "reduced 0 4294967295 1000000000 123456789"];
    let edge = |name: &str, more: &[Answered]| {
        let answered = [&begin[..], more].concat();
        run_to(name, (4, 20, &TENS), "4 5 20", &answered, &totals)
    };
    vec![
        edge(
            "the next view is one level below the younger sibling",
            &[
                (digit(0, 2), FOLDED),
                (ret(0), "102 1"),
                (spawn(1), "101 3"),
                (digit(1, 6), FOLDED),
                (ret(1), "102 0"),
                (digit(1, 7), FOLDED),
                (ret(1), "102 0"),
                (digit(1, 8), FOLDED),
                (ret(1), "102 1"),
                (ret(2), "102 3"),
            ],
        ),
        edge(
            "the next view is two levels below the younger sibling",
            &[
                (spawn(1), "101 3"),
                (digit(1, 6), FOLDED),
                (digit(0, 2), FOLDED),
                (ret(0), "102 1"),
                (ret(1), "102 0"),
                (digit(1, 7), FOLDED),
                (ret(1), "102 0"),
                (digit(1, 8), FOLDED),
                (ret(1), "102 1"),
                (ret(2), "102 3"),
            ],
        ),
        edge(
            "the frames above the next one are at a sync, or wait as returning",
            &[
                (spawn(1), "101 3"),
                (steal(3, 1), "103 1"),
                (digit(3, 8), FOLDED),
                (ret(3), "102 4"),
                (steal(3, 1), "103 2"),
                (sync(3), "104 1"),
                (ret(2), "102 4"),
                (digit(0, 2), FOLDED),
                (ret(0), "102 1"),
                (digit(1, 6), FOLDED),
                (ret(1), "102 2"),
                (digit(1, 7), FOLDED),
                (ret(1), "102 3"),
            ],
        ),
        elder_below(),
        middle_of_three(),
    ]
}

/// The first below the younger sibling is its eldest child, though another is
/// younger.
fn elder_below() -> Edge {
    run_to(
        "the next view is the eldest one's below the younger sibling",
        (5, 20, &TENS),
        "5 5 20",
        &[
            (digit(0, 1), FOLDED),
            (spawn(0), "101 1"),
            (steal(1, 0), "103 0"),
            (digit(1, 3), FOLDED),
            (spawn(1), "101 1"),
            (steal(2, 1), "103 0"),
            (digit(2, 8), FOLDED),
            // the younger sibling leaves a child on worker 1, one on worker 3
            (spawn(1), "101 2"),
            (steal(3, 1), "103 1"),
            (digit(3, 5), FOLDED),
            (spawn(3), "101 2"),
            (steal(4, 3), "103 1"),
            (digit(4, 7), FOLDED),
            (digit(3, 6), FOLDED),
            (digit(1, 4), FOLDED),
            (digit(0, 2), FOLDED),
            (ret(0), "102 1"),
            (ret(3), "102 1"),
            (ret(1), "102 1"),
            (ret(4), "102 1"),
            (ret(2), "102 3"),
        ],
        &["free 20", "reduced 0 4294967295 100000000 12345678"],
    )
}

/// Three siblings: the middle one ends first, its view goes to the youngest;
/// then the eldest's goes there too, in front of it.
fn middle_of_three() -> Edge {
    run_to(
        "the middle one of three siblings ends first, then the eldest",
        (4, 20, &TENS),
        "4 5 20",
        &[
            (digit(0, 1), FOLDED),
            (spawn(0), "101 1"),
            (steal(1, 0), "103 0"),
            (digit(1, 3), FOLDED),
            (spawn(1), "101 1"),
            (steal(2, 1), "103 0"),
            (digit(2, 5), FOLDED),
            (spawn(2), "101 1"),
            (steal(3, 2), "103 0"),
            (digit(3, 7), FOLDED),
            (digit(2, 6), FOLDED),
            (digit(1, 4), FOLDED),
            (digit(0, 2), FOLDED),
            (ret(1), "102 1"),
            (ret(0), "102 1"),
            (ret(3), "102 4"),
            (ret(2), "102 3"),
        ],
        &["free 20", "reduced 0 4294967295 10000000 1234567"],
    )
}

/// one return ends several frames, and each hands on its view.
fn chains() -> Vec<Edge> {
    // Frame below frame: 1, 2, 3 and 4 when each is made, 5, 6 and 7 by the
    // thief that returns them.
    let nested = [
        (digit(0, 1), FOLDED),
        (spawn(0), "101 1"),
        (digit(0, 2), FOLDED),
        (spawn(0), "101 2"),
        (digit(0, 3), FOLDED),
        (spawn(0), "101 3"),
        (steal(1, 0), "103 0"),
        (digit(1, 7), FOLDED),
    ];
    let waits = [
        (steal(1, 0), "103 1"),
        (digit(1, 6), FOLDED),
        (ret(1), "102 4"),
        (steal(1, 0), "103 2"),
        (digit(1, 5), FOLDED),
        (ret(1), "102 4"),
        (digit(0, 4), FOLDED),
    ];
    let all_wait = [
        &nested[..],
        &[(ret(1), "102 4")],
        &waits,
        &[(ret(0), "102 3")],
    ]
    .concat();
    let main_syncs = [
        &nested[..],
        &[(sync(1), "104 1")],
        &waits,
        &[(ret(0), "102 2"), (digit(0, 8), FOLDED), (ret(0), "102 3")],
    ]
    .concat();
    vec![
        run_to(
            "three frames wait, and one return ends all four",
            (2, 20, &TENS),
            "2 5 20",
            &all_wait,
            &["free 20", "reduced 0 4294967295 10000000 1234567"],
        ),
        run_to(
            "two frames wait below a sync, and one return ends three",
            (2, 20, &TENS),
            "2 5 20",
            &main_syncs,
            &["free 20", "reduced 0 4294967295 100000000 12345678"],
        ),
        chain_beside_a_sibling(),
        chain_of_the_younger(),
    ]
}

/// The chain's last frame has a younger sibling, with a frame below it.
fn chain_beside_a_sibling() -> Edge {
    run_to(
        "a chain's last view goes below the younger sibling",
        (4, 20, &TENS),
        "4 5 20",
        &[
            (digit(0, 1), FOLDED),
            (spawn(0), "101 1"),
            (digit(0, 2), FOLDED),
            (spawn(0), "101 2"),
            (digit(0, 3), FOLDED),
            (steal(1, 0), "103 0"),
            (digit(1, 5), FOLDED),
            (spawn(1), "101 1"),
            (steal(2, 1), "103 0"),
            (digit(2, 8), FOLDED),
            (spawn(1), "101 2"),
            (digit(1, 6), FOLDED),
            (steal(3, 0), "103 1"),
            (digit(3, 4), FOLDED),
            (ret(3), "102 4"),
            (ret(0), "102 1"),
            (ret(1), "102 0"),
            (digit(1, 7), FOLDED),
            (ret(1), "102 1"),
            (ret(2), "102 3"),
        ],
        &["free 20", "reduced 0 4294967295 100000000 12345678"],
    )
}

/// The chain's last frame has an elder sibling only: its view goes to Main's.
fn chain_of_the_younger() -> Edge {
    run_to(
        "a chain of the younger sibling, while the elder lives",
        (4, 20, &TENS),
        "4 5 20",
        &[
            (digit(0, 1), FOLDED),
            (spawn(0), "101 1"),
            (steal(1, 0), "103 0"),
            (digit(1, 3), FOLDED),
            (spawn(1), "101 1"),
            (spawn(1), "101 2"),
            (digit(1, 4), FOLDED),
            (steal(2, 1), "103 0"),
            (digit(2, 6), FOLDED),
            (ret(2), "102 4"),
            (steal(2, 1), "103 1"),
            (digit(2, 5), FOLDED),
            (ret(2), "102 4"),
            (ret(1), "102 1"),
            (digit(0, 2), FOLDED),
            (ret(0), "102 3"),
        ],
        &["free 20", "reduced 0 4294967295 1000000 123456"],
    )
}

/// Main goes from worker to worker and leaves a child on each, which folds its
/// number; Main folds 8. They end in several orders.
fn seven_children() -> Vec<Edge> {
    let orders: [[u8; 7]; 5] = [
        [0, 1, 2, 3, 4, 5, 6],
        [6, 5, 4, 3, 2, 1, 0],
        [3, 0, 6, 1, 5, 2, 4],
        [1, 3, 5, 0, 2, 4, 6],
        [5, 3, 1, 6, 4, 2, 0],
    ];
    let mut edges = Vec::new();
    for order in orders {
        let mut answered = vec![(spawn(0), "101 1")];
        for thief in 1..7 {
            let victim = u16::from(thief) - 1;
            answered.extend([(steal(thief, victim), "103 0"), (spawn(thief), "101 1")]);
        }
        answered.extend([(steal(7, 6), "103 0"), (digit(7, 8), FOLDED)]);
        answered.push((ret(7), "102 4"));
        let [first @ .., last] = order;
        for worker in first {
            answered.push((digit(worker, u32::from(worker) + 1), FOLDED));
            answered.push((ret(worker), "102 1"));
        }
        answered.push((digit(last, u32::from(last) + 1), FOLDED));
        answered.push((ret(last), "102 3"));
        edges.push(run_to(
            format!("seven children end on workers {order:?}"),
            (8, 20, &TENS),
            "8 5 20",
            &answered,
            &["free 20", "reduced 0 4294967295 100000000 12345678"],
        ));
    }
    edges
}

/// The second and the tenth child live at one time, and end in both orders.
fn names() -> Vec<Edge> {
    let mut begin = vec![
        (spawn(0), "101 1"),
        (ret(0), "102 0"),
        (spawn(0), "101 1"),
        (steal(1, 0), "103 0"),
    ];
    for _ in 3..10 {
        begin.extend([(spawn(1), "101 1"), (ret(1), "102 0")]);
    }
    begin.extend([
        (spawn(1), "101 1"),
        (steal(2, 1), "103 0"),
        (digit(2, 3), FOLDED),
        (digit(1, 2), FOLDED),
        (digit(0, 1), FOLDED),
    ]);
    let mut edges = Vec::new();
    for workers in [[0, 1], [1, 0]] {
        let mut answered = begin.clone();
        answered.extend(workers.map(|worker| (ret(worker), "102 1")));
        answered.push((ret(2), "102 3"));
        edges.push(run_to(
            format!("the second and the tenth child end on workers {workers:?}"),
            (3, 20, &TENS),
            "3 5 20",
            &answered,
            &["free 20", "reduced 0 4294967295 1000 123"],
        ));
    }
    edges
}

/// 64 frames: each folds 1 into the sum and, the k-th below Main, times three
/// plus k; a thief folds times three plus 100 + k when it returns them.
fn deep() -> Vec<Edge> {
    let mut answered = Vec::new();
    for (k, spawned) in (1..).zip(SPAWNED) {
        answered.extend([(spawn(0), spawned), (fold(0, 0, 1), FOLDED)]);
        answered.push((map(0, 3, k), FOLDED));
    }
    let down = answered.clone();
    answered.push((spawn(0), "13 0"));
    let mut returned = down;
    returned.extend([(ret(0), "102 0"); 63]);
    returned.push((ret(0), "102 3"));
    for (k, stolen) in (100..).zip(super::waiting::STOLEN) {
        answered.extend([(steal(1, 0), stolen), (map(1, 3, k), FOLDED)]);
        answered.push((ret(1), "102 4"));
    }
    answered.push((ret(0), "102 3"));
    vec![
        run_to(
            "64 frames, one worker",
            (1, 11, &TENS),
            "1 5 11",
            &returned,
            &["free 11", DOWN],
        ),
        run_to(
            "63 frames wait, and one return ends all 64",
            (2, 11, &TENS),
            "2 5 11",
            &answered,
            &["free 11", DOWN_AND_UP],
        ),
    ]
}

/// By arithmetic modulo 4,294,967,296 elsewhere: 3 to the 63rd, and the sum of
/// k times 3 to the (63 - k)th.
const DOWN: &str = "reduced 63 4294967295 2111105451 509587232";

/// The same and then 162 down to 100: 3 to the 126th.
const DOWN_AND_UP: &str = "reduced 63 4294967295 3598759993 2008469215";
