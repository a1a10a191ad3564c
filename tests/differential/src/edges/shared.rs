//! R-2 of document 02: a write takes only what is shared of its path. Of five
//! splitters 0 to 3 are under one node of level 2 and 4 under the other, and
//! on level 1 are 0 and 1, 2 and 3, and 4 alone. So a child that has written
//! to 0 has four nodes of its own, and it needs one more for a write to 1,
//! two for 2 or 3, three for 4, and none for 0.

use super::{read, ret, run, spawn, steal, sync, write, Answered, Edge, TENS};

pub fn shared() -> Vec<Edge> {
    let mut edges = again();
    edges.extend(rests_of_five());
    edges.extend(FIGURES.into_iter().flat_map(rests));
    edges.extend(SECONDS.into_iter().flat_map(around_the_rest));
    edges.extend(refused());
    edges.extend(several_frames());
    edges.extend(whole_trees());
    edges
}

/// Writes by frames that share nothing of the path any more.
fn again() -> Vec<Edge> {
    let mut one_frame: Vec<Answered> = Vec::new();
    for splitter in [0, 1, 2, 3, 4, 4, 0] {
        one_frame.push((write(0, splitter, 7), "106 0"));
        one_frame.push((read(0, splitter), "105 7"));
    }
    one_frame.push((ret(0), "102 3"));
    vec![
        run(
            "one frame writes as often as it likes with no node free",
            (1, 11, &TENS),
            "1 5 11",
            &one_frame,
            "free 11",
        ),
        run(
            "a child's second write to a splitter takes no node",
            (1, 15, &TENS),
            "1 5 15",
            &[
                (spawn(0), "101 1"),
                (write(0, 2, 1), "106 0"),
                (write(0, 2, 2), "106 0"),
                (read(0, 2), "105 2"),
                (ret(0), "102 0"),
                (read(0, 2), "105 30"),
                (write(0, 2, 3), "106 4"),
            ],
            "free 4",
        ),
        run(
            "the child writes first: a path; then neither takes a node",
            (2, 15, &TENS),
            "2 5 15",
            &[
                (spawn(0), "101 1"),
                (write(0, 0, 1), "106 0"),
                (write(0, 0, 2), "106 0"),
                (steal(1, 0), "103 0"),
                (write(1, 0, 3), "106 0"),
                (write(1, 0, 4), "106 0"),
                (read(0, 0), "105 2"),
                (read(1, 0), "105 4"),
            ],
            "free 0",
        ),
        run(
            "the parent writes first: a path; then neither takes a node",
            (2, 15, &TENS),
            "2 5 15",
            &[
                (spawn(0), "101 1"),
                (steal(1, 0), "103 0"),
                (write(1, 0, 1), "106 0"),
                (write(1, 0, 2), "106 0"),
                (write(0, 0, 3), "106 0"),
                (write(0, 0, 4), "106 0"),
                (read(0, 0), "105 4"),
                (read(1, 0), "105 2"),
            ],
            "free 0",
        ),
        run(
            "a resumed parent's own path is still its own",
            (2, 15, &TENS),
            "2 5 15",
            &[
                (spawn(0), "101 1"),
                (steal(1, 0), "103 0"),
                (write(1, 0, 5), "106 0"),
                (sync(1), "104 1"),
                (write(0, 0, 6), "106 0"),
                (write(0, 4, 6), "16 0"),
                (ret(0), "102 2"),
                (read(0, 0), "105 5"),
                (write(0, 0, 7), "106 4"),
                (write(0, 4, 8), "106 4"),
                (ret(0), "102 3"),
            ],
            "free 15",
        ),
    ]
}

/// n 5: after a write to 0, what a write to another splitter takes; its pool
/// has just that many nodes more, one too few, and none.
fn rests_of_five() -> Vec<Edge> {
    vec![
        run(
            "n 5, 1 for splitter 1, just enough",
            (1, 16, &TENS),
            "1 5 16",
            &[
                (spawn(0), "101 1"),
                (write(0, 0, 1), "106 1"),
                (write(0, 1, 9), "106 0"),
                (write(0, 1, 8), "106 0"),
                (read(0, 1), "105 8"),
                (ret(0), "102 0"),
                (read(0, 1), "105 20"),
            ],
            "free 5",
        ),
        run(
            "n 5, none for splitters 1 to 4",
            (1, 15, &TENS),
            "1 5 15",
            &[
                (spawn(0), "101 1"),
                (write(0, 0, 1), "106 0"),
                (write(0, 1, 9), "16 0"),
                (write(0, 2, 9), "16 0"),
                (write(0, 3, 9), "16 0"),
                (write(0, 4, 9), "16 0"),
                (read(0, 1), "105 20"),
                (read(0, 2), "105 30"),
                (read(0, 3), "105 40"),
                (read(0, 4), "105 50"),
                (write(0, 0, 2), "106 0"),
                (read(0, 0), "105 2"),
            ],
            "free 0",
        ),
        run(
            "n 5, 2 for splitter 2, just enough; the other leaf then takes 1",
            (1, 17, &TENS),
            "1 5 17",
            &[
                (spawn(0), "101 1"),
                (write(0, 0, 1), "106 2"),
                (write(0, 2, 9), "106 0"),
                (write(0, 2, 8), "106 0"),
                (write(0, 3, 8), "16 0"),
                (read(0, 2), "105 8"),
                (read(0, 3), "105 40"),
                (ret(0), "102 0"),
                (read(0, 2), "105 30"),
            ],
            "free 6",
        ),
        run(
            "n 5, 2 for splitter 3, one too few",
            (1, 16, &TENS),
            "1 5 16",
            &[
                (spawn(0), "101 1"),
                (write(0, 0, 1), "106 1"),
                (write(0, 3, 9), "16 0"),
                (read(0, 3), "105 40"),
                (write(0, 0, 2), "106 1"),
                (write(0, 1, 9), "106 0"),
            ],
            "free 0",
        ),
        run(
            "n 5, 3 for splitter 4, just enough",
            (1, 18, &TENS),
            "1 5 18",
            &[
                (spawn(0), "101 1"),
                (write(0, 0, 1), "106 3"),
                (write(0, 4, 9), "106 0"),
                (write(0, 4, 8), "106 0"),
                (read(0, 4), "105 8"),
                (ret(0), "102 0"),
                (read(0, 4), "105 50"),
            ],
            "free 7",
        ),
        run(
            "n 5, 3 for splitter 4, one too few",
            (1, 17, &TENS),
            "1 5 17",
            &[
                (spawn(0), "101 1"),
                (write(0, 0, 1), "106 2"),
                (write(0, 4, 9), "16 0"),
                (read(0, 4), "105 50"),
                (write(0, 0, 2), "106 2"),
                (write(0, 3, 9), "106 0"),
            ],
            "free 0",
        ),
        run(
            "n 5, an equal value takes 3 for splitter 4 too, and needs 1 for splitter 1",
            (1, 18, &TENS),
            "1 5 18",
            &[
                (spawn(0), "101 1"),
                (write(0, 0, 10), "106 3"),
                (write(0, 4, 50), "106 0"),
                (write(0, 4, 50), "106 0"),
                (write(0, 1, 20), "16 0"),
                (write(0, 0, 10), "106 0"),
            ],
            "free 0",
        ),
    ]
}

/// n, T(n) and H, by hand.
const FIGURES: [(usize, u32, u32); 13] = [
    (2, 3, 1),
    (3, 6, 2),
    (4, 7, 2),
    (5, 11, 3),
    (6, 12, 3),
    (7, 14, 3),
    (8, 15, 3),
    (9, 20, 4),
    (40, 81, 6),
    (128, 255, 7),
    (129, 264, 8),
    (255, 510, 8),
    (256, 511, 8),
];

/// Splitter 2^(r - 1) parts from splitter 0 on level r, so after a write to 0
/// it takes r nodes.
fn rests((n, tree, height): (usize, u32, u32)) -> Vec<Edge> {
    let rest = |rest| (n, tree, height, 0, 1_u16 << (rest - 1), rest);
    (1..=height).map(rest).flat_map(around_the_rest).collect()
}

/// n, T(n), H, two splitters, and what the second takes after the first.
type Second = (usize, u32, u32, u16, u16, u32);

const SECONDS: [Second; 14] = [
    (2, 3, 1, 1, 0, 1),
    (3, 6, 2, 2, 1, 2),
    (5, 11, 3, 4, 0, 3),
    (5, 11, 3, 3, 2, 1),
    (6, 12, 3, 5, 4, 1),
    (6, 12, 3, 5, 0, 3),
    (7, 14, 3, 6, 5, 2),
    (7, 14, 3, 4, 6, 2),
    (9, 20, 4, 8, 7, 4),
    (9, 20, 4, 7, 8, 4),
    (255, 510, 8, 254, 253, 2),
    (255, 510, 8, 254, 252, 2),
    (256, 511, 8, 255, 254, 1),
    (256, 511, 8, 255, 127, 8),
];

/// The child writes to the first splitter, H + 1 nodes, then to the second:
/// with just enough nodes, and with one too few.
fn around_the_rest((n, tree, height, first, second, rest): Second) -> [Edge; 2] {
    let values = vec![3; n];
    let enough = tree + height + 1 + rest;
    let short = enough - 1;
    [
        run(
            format!("n {n}, {enough} nodes: write to {first}, {rest} more for {second}"),
            (1, enough, &values),
            &format!("1 {n} {enough}"),
            &[
                (spawn(0), "101 1"),
                (write(0, first, 4), LEFT[rest as usize]),
                (write(0, second, 5), "106 0"),
                (write(0, second, 6), "106 0"),
                (read(0, first), "105 4"),
                (read(0, second), "105 6"),
                (ret(0), "102 0"),
                (read(0, second), "105 3"),
            ],
            &format!("free {}", enough - tree),
        ),
        run(
            format!("n {n}, {short} nodes: write to {first}, no {rest} more for {second}"),
            (1, short, &values),
            &format!("1 {n} {short}"),
            &[
                (spawn(0), "101 1"),
                (write(0, first, 4), LEFT[rest as usize - 1]),
                (write(0, second, 5), "16 0"),
                (read(0, first), "105 4"),
                (read(0, second), "105 3"),
                (write(0, first, 7), LEFT[rest as usize - 1]),
                (ret(0), "102 0"),
                (write(0, second, 5), LEFT[(height + rest) as usize]),
                (read(0, second), "105 5"),
            ],
            &format!("free {}", short - tree),
        ),
    ]
}

/// The answer to a write that leaves so many nodes free.
const LEFT: [&str; 17] = [
    "106 0", "106 1", "106 2", "106 3", "106 4", "106 5", "106 6", "106 7", "106 8", "106 9",
    "106 10", "106 11", "106 12", "106 13", "106 14", "106 15", "106 16",
];

/// A refused write changes nothing, and is accepted when nodes or the other
/// holders are gone.
fn refused() -> Vec<Edge> {
    vec![
        run(
            "n 1: a child's write is refused, Main's is not",
            (1, 1, &[7]),
            "1 1 1",
            &[
                (write(0, 0, 8), "106 0"),
                (spawn(0), "101 1"),
                (write(0, 0, 9), "16 0"),
                (read(0, 0), "105 8"),
                (ret(0), "102 0"),
                (write(0, 0, 9), "106 0"),
                (read(0, 0), "105 9"),
                (ret(0), "102 3"),
            ],
            "free 1",
        ),
        run(
            "n 5, 14 nodes: neither can write while both live, then one can",
            (2, 14, &TENS),
            "2 5 14",
            &[
                (spawn(0), "101 1"),
                (steal(1, 0), "103 0"),
                (write(1, 0, 1), "16 0"),
                (write(0, 0, 2), "16 0"),
                (write(0, 4, 2), "16 0"),
                (read(0, 0), "105 10"),
                (read(1, 0), "105 10"),
                (ret(0), "102 1"),
                (write(1, 0, 1), "106 3"),
                (read(1, 0), "105 1"),
                (read(1, 1), "105 20"),
            ],
            "free 3",
        ),
        run(
            "n 5, 15 nodes: a grandchild's write is refused, then its parent's is not",
            (1, 15, &TENS),
            "1 5 15",
            &[
                (spawn(0), "101 1"),
                (write(0, 4, 1), "106 0"),
                (spawn(0), "101 2"),
                (write(0, 4, 2), "16 0"),
                (write(0, 4, 1), "16 0"),
                (read(0, 4), "105 1"),
                (ret(0), "102 0"),
                (write(0, 4, 2), "106 0"),
                (read(0, 4), "105 2"),
                (ret(0), "102 0"),
                (read(0, 4), "105 50"),
                (write(0, 4, 3), "106 4"),
                (ret(0), "102 3"),
            ],
            "free 15",
        ),
        // Two children of Main, on two workers. The second one's path is
        // Main's until the first one's nodes are free.
        run(
            "n 5, 18 nodes: a write waits for a sibling's nodes",
            (2, 18, &TENS),
            "2 5 18",
            &[
                (spawn(0), "101 1"),
                (steal(1, 0), "103 0"),
                (spawn(1), "101 1"),
                (write(0, 0, 1), "106 3"),
                (write(1, 0, 2), "16 0"),
                (read(1, 0), "105 10"),
                (read(0, 0), "105 1"),
                (write(0, 4, 3), "106 0"),
                (write(1, 0, 2), "16 0"),
                (write(0, 0, 4), "106 0"),
                (ret(0), "102 1"),
                (write(1, 0, 2), "106 3"),
                (read(1, 0), "105 2"),
                (read(1, 4), "105 50"),
            ],
            "free 3",
        ),
        run(
            "n 5, 17 nodes: smaller rests fit after a refused one",
            (1, 17, &TENS),
            "1 5 17",
            &[
                (spawn(0), "101 1"),
                (write(0, 0, 1), "106 2"),
                (write(0, 4, 9), "16 0"),
                (read(0, 4), "105 50"),
                (write(0, 1, 9), "106 1"),
                (write(0, 3, 9), "16 0"),
                (read(0, 3), "105 40"),
                (write(0, 0, 2), "106 1"),
                (read(0, 1), "105 9"),
                (ret(0), "102 0"),
                (write(0, 4, 9), "106 6"),
                (read(0, 1), "105 20"),
            ],
            "free 6",
        ),
    ]
}

/// Nodes with three holders and more.
fn several_frames() -> Vec<Edge> {
    let three = |written: &[Answered]| {
        let mut answered = vec![
            (spawn(0), "101 1"),
            (spawn(0), "101 2"),
            (steal(1, 0), "103 0"),
            (steal(2, 0), "103 1"),
        ];
        answered.extend(written);
        answered
    };
    vec![
        run(
            "three frames share a root: two of them take a path, the last none",
            (3, 19, &TENS),
            "3 5 19",
            &three(&[
                (write(0, 0, 1), "106 4"),
                (write(2, 0, 2), "106 0"),
                (write(1, 0, 3), "106 0"),
                (write(0, 0, 4), "106 0"),
                (write(2, 0, 5), "106 0"),
                (write(1, 0, 6), "106 0"),
                (write(1, 1, 7), "16 0"),
                (read(0, 0), "105 4"),
                (read(2, 0), "105 5"),
                (read(1, 0), "105 6"),
            ]),
            "free 0",
        ),
        run(
            "three frames share a root: the second is refused until the first has ended",
            (3, 18, &TENS),
            "3 5 18",
            &three(&[
                (write(0, 0, 1), "106 3"),
                (write(2, 0, 2), "16 0"),
                (write(1, 0, 3), "16 0"),
                (write(0, 0, 4), "106 3"),
                (read(2, 0), "105 10"),
                (read(1, 0), "105 10"),
                (ret(0), "102 1"),
                (write(2, 0, 2), "106 3"),
                (write(1, 0, 3), "106 3"),
            ]),
            "free 3",
        ),
        // Of the path to 1 the leaf alone is then shared, by the other two.
        run(
            "a leaf with three holders is not altered in place",
            (3, 22, &TENS),
            "3 5 22",
            &three(&[
                (write(0, 0, 1), "106 7"),
                (write(2, 0, 2), "106 3"),
                (write(0, 1, 3), "106 2"),
                (write(2, 1, 4), "106 1"),
                (write(1, 1, 5), "106 1"),
                (read(0, 1), "105 3"),
                (read(2, 1), "105 4"),
                (read(1, 1), "105 5"),
                (read(1, 0), "105 10"),
            ]),
            "free 1",
        ),
        run(
            "a grandchild shares its parent's new path",
            (1, 19, &TENS),
            "1 5 19",
            &[
                (spawn(0), "101 1"),
                (write(0, 0, 1), "106 4"),
                (spawn(0), "101 2"),
                (write(0, 0, 2), "106 0"),
                (read(0, 0), "105 2"),
                (ret(0), "102 0"),
                (read(0, 0), "105 1"),
                (write(0, 0, 3), "106 4"),
                (read(0, 0), "105 3"),
                (ret(0), "102 0"),
                (read(0, 0), "105 10"),
            ],
            "free 8",
        ),
        run(
            "n 1: each of four nested frames writes, the deepest first",
            (1, 2, &[7]),
            "1 1 2",
            &[
                (spawn(0), "101 1"),
                (spawn(0), "101 2"),
                (spawn(0), "101 3"),
                (write(0, 0, 1), "106 0"),
                (write(0, 0, 2), "106 0"),
                (ret(0), "102 0"),
                (read(0, 0), "105 7"),
                (write(0, 0, 3), "106 0"),
                (ret(0), "102 0"),
                (write(0, 0, 4), "106 0"),
                (ret(0), "102 0"),
                (read(0, 0), "105 7"),
                (write(0, 0, 5), "106 1"),
                (read(0, 0), "105 5"),
            ],
            "free 1",
        ),
    ]
}

/// A child that writes to every splitter ends with a tree of its own, one
/// node after the other: 4, 1, 2, 1, 3 rising, and 4, 3, 1, 2, 1 falling.
fn whole_trees() -> Vec<Edge> {
    vec![
        run(
            "n 5, 22 nodes: every splitter, rising",
            (2, 22, &TENS),
            "2 5 22",
            &[
                (spawn(0), "101 1"),
                (write(0, 0, 1), "106 7"),
                (write(0, 1, 1), "106 6"),
                (write(0, 2, 1), "106 4"),
                (write(0, 3, 1), "106 3"),
                (write(0, 4, 1), "106 0"),
                (write(0, 2, 2), "106 0"),
                (steal(1, 0), "103 0"),
                (write(1, 3, 3), "106 0"),
                (spawn(1), "101 1"),
                (write(1, 3, 4), "16 0"),
                (read(0, 3), "105 1"),
                (read(1, 3), "105 3"),
            ],
            "free 0",
        ),
        run(
            "n 5, 22 nodes: every splitter, falling",
            (1, 22, &TENS),
            "1 5 22",
            &[
                (spawn(0), "101 1"),
                (write(0, 4, 1), "106 7"),
                (write(0, 3, 1), "106 4"),
                (write(0, 2, 1), "106 3"),
                (write(0, 1, 1), "106 1"),
                (write(0, 0, 1), "106 0"),
                (ret(0), "102 0"),
                (read(0, 0), "105 10"),
            ],
            "free 11",
        ),
        run(
            "n 5, 21 nodes: the last splitter is refused",
            (1, 21, &TENS),
            "1 5 21",
            &[
                (spawn(0), "101 1"),
                (write(0, 0, 1), "106 6"),
                (write(0, 1, 1), "106 5"),
                (write(0, 2, 1), "106 3"),
                (write(0, 3, 1), "106 2"),
                (write(0, 4, 1), "16 0"),
                (read(0, 4), "105 50"),
                (write(0, 3, 2), "106 2"),
            ],
            "free 2",
        ),
    ]
}
