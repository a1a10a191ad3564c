//! R-3 of document 02: a return waits for its children. In most of these
//! edges worker 0 spawns frame below frame, and a thief takes them from the
//! top, one after the other, and returns each while its child lives.

use super::{nested, read, ret, run, spawn, steal, sync, write, Answered, Edge, SPAWNED, TENS};

pub fn waiting() -> Vec<Edge> {
    let mut edges: Vec<Edge> = CHAINS.into_iter().flat_map(stops).collect();
    edges.extend(main_waits());
    edges.extend(trees_held());
    edges.extend(not_resumed());
    edges.extend(siblings());
    edges.extend(branches());
    edges.extend(deep_chains());
    edges
}

/// The answers of steals that take the frames from Main down.
pub const STOLEN: [&str; 63] = [
    "103 0", "103 1", "103 2", "103 3", "103 4", "103 5", "103 6", "103 7", "103 8", "103 9",
    "103 10", "103 11", "103 12", "103 13", "103 14", "103 15", "103 16", "103 17", "103 18",
    "103 19", "103 20", "103 21", "103 22", "103 23", "103 24", "103 25", "103 26", "103 27",
    "103 28", "103 29", "103 30", "103 31", "103 32", "103 33", "103 34", "103 35", "103 36",
    "103 37", "103 38", "103 39", "103 40", "103 41", "103 42", "103 43", "103 44", "103 45",
    "103 46", "103 47", "103 48", "103 49", "103 50", "103 51", "103 52", "103 53", "103 54",
    "103 55", "103 56", "103 57", "103 58", "103 59", "103 60", "103 61", "103 62",
];

/// The thief takes frames from worker 0, with these answers, and returns
/// each at once: its child lives.
fn taken_and_returned(thief: u8, stolen: &[&'static str]) -> Vec<Answered> {
    let pair = |line: &&'static str| [(steal(thief, 0), *line), (ret(thief), "102 4")];
    stolen.iter().flat_map(pair).collect()
}

/// How many frames wait in the chains that follow.
const CHAINS: [usize; 4] = [1, 2, 3, 9];

/// Each stop after a chain of so many waiting frames.
fn stops(waiting: usize) -> Vec<Edge> {
    vec![
        main_ends(waiting),
        sync_passes(waiting),
        parent_runs(waiting),
        parent_has_a_child_below(waiting),
        sibling_of_a_returning_frame(waiting),
        sibling_of_a_frame_at_a_sync(waiting),
    ]
}

fn main_ends(waiting: usize) -> Edge {
    let mut answered = nested(0, &SPAWNED[..waiting]);
    answered.extend(taken_and_returned(1, &STOLEN[..waiting]));
    answered.extend([(ret(1), "10 0"), (ret(0), "102 3"), (ret(0), "9 0")]);
    run(
        format!("{waiting} frames wait, Main among them: 102 3"),
        (2, 20, &TENS),
        "2 5 20",
        &answered,
        "free 20",
    )
}

/// Main is at a sync, with its child and so on waiting below it.
fn sync_passes(waiting: usize) -> Edge {
    let mut answered = vec![(write(0, 2, 5), "106 9")];
    answered.extend(nested(0, &SPAWNED[..=waiting]));
    answered.extend([(steal(1, 0), "103 0"), (sync(1), "104 1")]);
    answered.extend(taken_and_returned(1, &STOLEN[1..=waiting]));
    answered.extend([
        (ret(0), "102 2"),
        (read(1, 2), "10 0"),
        (read(0, 2), "105 5"),
        (sync(0), "104 0"),
        (ret(0), "102 3"),
    ]);
    run(
        format!("{waiting} frames wait below a sync: 102 2"),
        (2, 20, &TENS),
        "2 5 20",
        &answered,
        "free 20",
    )
}

fn parent_runs(waiting: usize) -> Edge {
    let mut answered = nested(0, &SPAWNED[..=waiting]);
    answered.push((steal(1, 0), "103 0"));
    answered.extend(taken_and_returned(2, &STOLEN[1..=waiting]));
    answered.extend([
        (ret(0), "102 1"),
        (read(0, 0), "10 0"),
        (read(2, 0), "10 0"),
        (sync(1), "104 0"),
        (ret(1), "102 3"),
    ]);
    run(
        format!("{waiting} frames wait below one that runs: 102 1"),
        (3, 20, &TENS),
        "3 5 20",
        &answered,
        "free 20",
    )
}

/// Main is in a deque with another child below it.
fn parent_has_a_child_below(waiting: usize) -> Edge {
    let mut answered = nested(0, &SPAWNED[..=waiting]);
    answered.extend([(steal(1, 0), "103 0"), (spawn(1), "101 1")]);
    answered.extend(taken_and_returned(2, &STOLEN[1..=waiting]));
    answered.extend([
        (ret(0), "102 1"),
        (steal(0, 1), "103 0"),
        (ret(0), "102 4"),
        (ret(1), "102 3"),
    ]);
    run(
        format!("{waiting} frames wait below one that has a child below it: 102 1"),
        (3, 20, &TENS),
        "3 5 20",
        &answered,
        "free 20",
    )
}

/// Main waits as returning for two children; one of them waits too.
fn sibling_of_a_returning_frame(waiting: usize) -> Edge {
    let mut answered = nested(0, &SPAWNED[..=waiting]);
    answered.extend([
        (steal(1, 0), "103 0"),
        (spawn(1), "101 1"),
        (steal(2, 1), "103 0"),
        (ret(2), "102 4"),
    ]);
    answered.extend(taken_and_returned(2, &STOLEN[1..=waiting]));
    answered.extend([
        (ret(0), "102 1"),
        (read(0, 0), "10 0"),
        (steal(0, 1), "12 0"),
        (read(1, 0), "105 10"),
        (ret(1), "102 3"),
        (ret(0), "9 0"),
    ]);
    run(
        format!("{waiting} frames wait below one that returns, and a sibling lives: 102 1"),
        (3, 20, &TENS),
        "3 5 20",
        &answered,
        "free 20",
    )
}

/// Main is at a sync and has two children; one of them waits.
fn sibling_of_a_frame_at_a_sync(waiting: usize) -> Edge {
    let mut answered = nested(0, &SPAWNED[..=waiting]);
    answered.extend([
        (steal(1, 0), "103 0"),
        (spawn(1), "101 1"),
        (steal(2, 1), "103 0"),
        (sync(2), "104 1"),
    ]);
    answered.extend(taken_and_returned(2, &STOLEN[1..=waiting]));
    answered.extend([
        (ret(0), "102 1"),
        (read(0, 0), "10 0"),
        (ret(1), "102 2"),
        (read(1, 0), "105 10"),
        (ret(1), "102 3"),
    ]);
    run(
        format!("{waiting} frames wait below a sync, and a sibling lives: 102 1"),
        (3, 20, &TENS),
        "3 5 20",
        &answered,
        "free 20",
    )
}

/// "Main has returned once it has ended, with outcome 3, and not while it
/// waits."
fn main_waits() -> Vec<Edge> {
    vec![run(
        "Main waits: steps go on, and no 9 before 102 3",
        (3, 20, &TENS),
        "3 5 20",
        &[
            (spawn(0), "101 1"),
            (steal(1, 0), "103 0"),
            (ret(1), "102 4"),
            (spawn(1), "10 0"),
            (ret(1), "10 0"),
            (sync(1), "10 0"),
            (read(1, 0), "10 0"),
            (read(1, 5), "10 0"),
            (write(1, 0, 1), "10 0"),
            (ret(2), "10 0"),
            (ret(3), "8 0"),
            ([2, 0, 0, 0, 1, 0, 0, 0], "7 0"),
            (steal(1, 0), "12 0"),
            (steal(2, 1), "12 0"),
            (steal(1, 1), "12 0"),
            (steal(0, 1), "11 0"),
            (read(0, 4), "105 50"),
            (read(0, 5), "15 0"),
            (write(0, 4, 51), "106 5"),
            (sync(0), "104 0"),
            (spawn(0), "101 2"),
            (steal(1, 0), "103 1"),
            (sync(1), "104 1"),
            (ret(0), "102 2"),
            (spawn(0), "101 2"),
            (ret(0), "102 0"),
            (ret(0), "102 3"),
            (spawn(0), "9 0"),
            (ret(0), "9 0"),
            (ret(1), "9 0"),
            (steal(1, 0), "9 0"),
            (sync(0), "9 0"),
            (read(0, 4), "9 0"),
            (write(0, 4, 1), "9 0"),
            (ret(3), "8 0"),
        ],
        "free 20",
    )]
}

/// "Its tree is held" while a frame waits, and released when it ends.
fn trees_held() -> Vec<Edge> {
    vec![
        main_holds_its_tree(),
        tape_ends_while_main_waits(),
        small_tree_held(),
        two_trees_free_at_a_sync(),
        tree_free_below_one_that_runs(),
        tree_held_for_another_child(),
    ]
}

/// Main's path to 4 is its own, so the old one is the child's alone.
fn main_holds_its_tree() -> Edge {
    run(
        "Main's tree is held while it waits",
        (2, 20, &TENS),
        "2 5 20",
        &[
            (spawn(0), "101 1"),
            (steal(1, 0), "103 0"),
            (write(1, 4, 99), "106 5"),
            (ret(1), "102 4"),
            (write(0, 4, 51), "106 5"),
            (write(0, 0, 11), "106 2"),
            (spawn(0), "101 2"),
            (write(0, 4, 52), "16 0"),
            (ret(0), "102 0"),
            (ret(0), "102 3"),
        ],
        "free 20",
    )
}

fn tape_ends_while_main_waits() -> Edge {
    run(
        "a tape that ends while Main waits: its tree is not free",
        (2, 20, &TENS),
        "2 5 20",
        &[
            (spawn(0), "101 1"),
            (write(0, 4, 51), "106 5"),
            (steal(1, 0), "103 0"),
            (ret(1), "102 4"),
        ],
        "free 5",
    )
}

fn small_tree_held() -> Edge {
    run(
        "n 1: a child's tree is held while it waits, and free at its end",
        (2, 2, &[7]),
        "2 1 2",
        &[
            (spawn(0), "101 1"),
            (write(0, 0, 8), "106 0"),
            (spawn(0), "101 2"),
            (steal(1, 0), "103 0"),
            (sync(1), "104 1"),
            (steal(1, 0), "103 1"),
            (ret(1), "102 4"),
            (read(0, 0), "105 8"),
            (write(0, 0, 9), "16 0"),
            (ret(0), "102 2"),
            (read(0, 0), "105 7"),
            (write(0, 0, 9), "106 1"),
            (ret(0), "102 3"),
        ],
        "free 2",
    )
}

/// 11 nodes of Main, four of each frame below it.
fn two_trees_free_at_a_sync() -> Edge {
    run(
        "the trees of two waiting frames are free when a chain stops at a sync",
        (2, 26, &TENS),
        "2 5 26",
        &[
            (spawn(0), "101 1"),
            (write(0, 0, 1), "106 11"),
            (spawn(0), "101 2"),
            (write(0, 0, 2), "106 7"),
            (spawn(0), "101 3"),
            (write(0, 0, 3), "106 3"),
            (steal(1, 0), "103 0"),
            (sync(1), "104 1"),
            (steal(1, 0), "103 1"),
            (ret(1), "102 4"),
            (steal(1, 0), "103 2"),
            (ret(1), "102 4"),
            (write(0, 4, 4), "106 0"),
            (spawn(0), "101 4"),
            (write(0, 0, 5), "16 0"),
            (ret(0), "102 0"),
            (ret(0), "102 2"),
            (read(0, 0), "105 10"),
            (write(0, 0, 6), "106 15"),
            (spawn(0), "101 1"),
            (write(0, 0, 7), "106 11"),
            (ret(0), "102 0"),
            (ret(0), "102 3"),
        ],
        "free 26",
    )
}

fn tree_free_below_one_that_runs() -> Edge {
    run(
        "a waiting frame's tree is free when a chain stops at one that runs",
        (3, 19, &TENS),
        "3 5 19",
        &[
            (spawn(0), "101 1"),
            (write(0, 0, 1), "106 4"),
            (spawn(0), "101 2"),
            (write(0, 0, 2), "106 0"),
            (steal(1, 0), "103 0"),
            (write(1, 0, 3), "106 0"),
            (steal(2, 0), "103 1"),
            (ret(2), "102 4"),
            (write(1, 4, 3), "16 0"),
            (ret(0), "102 1"),
            (write(1, 4, 3), "106 8"),
            (read(1, 0), "105 3"),
        ],
        "free 8",
    )
}

fn tree_held_for_another_child() -> Edge {
    run(
        "a waiting frame's tree is held while another of its children lives",
        (3, 19, &TENS),
        "3 5 19",
        &[
            (spawn(0), "101 1"),
            (write(0, 0, 1), "106 4"),
            (spawn(0), "101 2"),
            (steal(1, 0), "103 0"),
            (steal(2, 0), "103 1"),
            (spawn(2), "101 2"),
            (sync(1), "104 1"),
            (steal(1, 2), "103 1"),
            (ret(1), "102 4"),
            (ret(0), "102 1"),
            (write(2, 0, 2), "106 0"),
            (write(2, 4, 2), "16 0"),
            (ret(2), "102 2"),
            (write(2, 0, 3), "106 8"),
        ],
        "free 8",
    )
}

/// A frame that waits as returning takes no step, is not stolen and is not
/// resumed.
fn not_resumed() -> Vec<Edge> {
    vec![
        not_stolen(),
        waits_after_a_resumption(),
        waiting_child_of_a_sync(),
        waiting_child_of_a_return(),
        outcome_0_below_a_waiting_frame(),
    ]
}

fn not_stolen() -> Edge {
    run(
        "a waiting frame cannot be stolen",
        (3, 20, &TENS),
        "3 5 20",
        &[
            (spawn(0), "101 1"),
            (spawn(0), "101 2"),
            (steal(1, 0), "103 0"),
            (ret(1), "102 4"),
            (steal(2, 1), "12 0"),
            (steal(2, 0), "103 1"),
            (ret(2), "102 4"),
            (steal(1, 0), "12 0"),
            (steal(1, 2), "12 0"),
            (steal(2, 1), "12 0"),
            (spawn(0), "101 3"),
            (steal(1, 0), "103 2"),
            (steal(2, 0), "12 0"),
        ],
        "free 9",
    )
}

fn waits_after_a_resumption() -> Edge {
    run(
        "a frame that was resumed once waits at its return",
        (2, 20, &TENS),
        "2 5 20",
        &[
            (spawn(0), "101 1"),
            (steal(1, 0), "103 0"),
            (sync(1), "104 1"),
            (ret(0), "102 2"),
            (spawn(0), "101 1"),
            (steal(1, 0), "103 0"),
            (ret(1), "102 4"),
            (ret(0), "102 3"),
        ],
        "free 20",
    )
}

fn waiting_child_of_a_sync() -> Edge {
    run(
        "a child that waits lives: its parent's sync waits",
        (3, 20, &TENS),
        "3 5 20",
        &[
            (spawn(0), "101 1"),
            (spawn(0), "101 2"),
            (steal(1, 0), "103 0"),
            (steal(2, 0), "103 1"),
            (ret(2), "102 4"),
            (sync(1), "104 1"),
            (read(1, 0), "10 0"),
            (ret(0), "102 2"),
            (read(0, 0), "105 10"),
        ],
        "free 9",
    )
}

fn waiting_child_of_a_return() -> Edge {
    run(
        "a child that waits lives: its parent's return waits",
        (3, 20, &TENS),
        "3 5 20",
        &[
            (spawn(0), "101 1"),
            (spawn(0), "101 2"),
            (steal(1, 0), "103 0"),
            (steal(2, 0), "103 1"),
            (ret(2), "102 4"),
            (ret(1), "102 4"),
            (read(1, 0), "10 0"),
            (ret(0), "102 3"),
        ],
        "free 20",
    )
}

fn outcome_0_below_a_waiting_frame() -> Edge {
    run(
        "outcome 0 below a frame that waits",
        (2, 20, &TENS),
        "2 5 20",
        &[
            (spawn(0), "101 1"),
            (spawn(0), "101 2"),
            (steal(1, 0), "103 0"),
            (ret(1), "102 4"),
            (ret(0), "102 0"),
            (read(0, 0), "105 10"),
            (ret(0), "102 3"),
        ],
        "free 20",
    )
}

/// Waiting frames with several children.
fn siblings() -> Vec<Edge> {
    // Main goes from worker to worker and leaves a child on each.
    let mut children = vec![(spawn(0), "101 1")];
    for thief in 1..7 {
        children.extend([
            (steal(thief, u16::from(thief) - 1), "103 0"),
            (spawn(thief), "101 1"),
        ]);
    }
    children.extend([(steal(7, 6), "103 0"), (ret(7), "102 4")]);
    let mut first_last = children.clone();
    for worker in [6, 5, 4, 3, 2, 1] {
        first_last.push((ret(worker), "102 1"));
    }
    first_last.push((ret(0), "102 3"));
    for worker in 0..6 {
        children.push((ret(worker), "102 1"));
    }
    children.extend([
        (spawn(6), "101 2"),
        (ret(5), "10 0"),
        (ret(6), "102 0"),
        (ret(6), "102 3"),
    ]);
    vec![
        run(
            "Main waits for seven children, the youngest ends last",
            (8, 20, &TENS),
            "8 5 20",
            &children,
            "free 20",
        ),
        run(
            "Main waits for seven children, the eldest ends last",
            (8, 20, &TENS),
            "8 5 20",
            &first_last,
            "free 20",
        ),
    ]
}

/// Chains that meet, and chains above one another.
fn branches() -> Vec<Edge> {
    vec![
        two_branches(),
        chain_above_a_chain(),
        resumed_on_the_childs_worker(),
    ]
}

/// Frames 1 and 1.1 on worker 0, then 2 and 2.1 on worker 1.
fn two_branches() -> Edge {
    run(
        "two branches wait below Main: the first stops at it, the second ends it",
        (3, 20, &TENS),
        "3 5 20",
        &[
            (spawn(0), "101 1"),
            (spawn(0), "101 2"),
            (steal(1, 0), "103 0"),
            (spawn(1), "101 1"),
            (spawn(1), "101 2"),
            (steal(2, 1), "103 0"),
            (ret(2), "102 4"),
            (steal(2, 0), "103 1"),
            (ret(2), "102 4"),
            (steal(2, 1), "103 1"),
            (ret(2), "102 4"),
            (ret(1), "102 1"),
            (spawn(1), "10 0"),
            (ret(0), "102 3"),
        ],
        "free 20",
    )
}

fn chain_above_a_chain() -> Edge {
    run(
        "a chain resumes a frame, whose return is a chain of its own",
        (2, 20, &TENS),
        "2 5 20",
        &[
            (spawn(0), "101 1"),
            (write(0, 3, 41), "106 5"),
            (spawn(0), "101 2"),
            (spawn(0), "101 3"),
            (spawn(0), "101 4"),
            (steal(1, 0), "103 0"),
            (ret(1), "102 4"),
            (steal(1, 0), "103 1"),
            (sync(1), "104 1"),
            (steal(1, 0), "103 2"),
            (ret(1), "102 4"),
            (steal(1, 0), "103 3"),
            (ret(1), "102 4"),
            (ret(0), "102 2"),
            (read(0, 3), "105 41"),
            (spawn(0), "101 2"),
            (steal(1, 0), "103 1"),
            (ret(1), "102 4"),
            (ret(0), "102 3"),
        ],
        "free 20",
    )
}

/// Frame 1 resumes on worker 2, where 1.1's chain began.
fn resumed_on_the_childs_worker() -> Edge {
    run(
        "a chain resumes a frame on the worker of the child that ended",
        (3, 20, &TENS),
        "3 5 20",
        &[
            (spawn(0), "101 1"),
            (spawn(0), "101 2"),
            (steal(2, 0), "103 0"),
            (sync(2), "104 1"),
            (spawn(0), "101 3"),
            (steal(2, 0), "103 1"),
            (spawn(2), "101 2"),
            (steal(1, 0), "103 2"),
            (ret(1), "102 4"),
            (ret(0), "102 1"),
            (steal(1, 2), "103 1"),
            (ret(1), "102 4"),
            (ret(2), "102 2"),
            (read(0, 0), "10 0"),
            (read(1, 0), "10 0"),
            (read(2, 0), "105 10"),
        ],
        "free 9",
    )
}

/// 64 frames: as many wait as can.
fn deep_chains() -> Vec<Edge> {
    vec![
        longest_chain(),
        longest_chain_with_trees(),
        longest_chains_below_a_sync(),
        longest_chain_by_all_workers(),
    ]
}

fn longest_chain() -> Edge {
    let mut answered = nested(0, &SPAWNED);
    answered.push((spawn(0), "13 0"));
    answered.extend(taken_and_returned(1, &STOLEN));
    answered.extend([
        (steal(1, 0), "12 0"),
        (spawn(0), "13 0"),
        (ret(0), "102 3"),
        (spawn(0), "9 0"),
        (ret(1), "9 0"),
    ]);
    run(
        "63 frames wait, and one return ends all 64",
        (2, 11, &TENS),
        "2 5 11",
        &answered,
        "free 11",
    )
}

/// Each frame below Main has a leaf of its own.
fn longest_chain_with_trees() -> Edge {
    let mut answered = Vec::new();
    for (spawned, free) in SPAWNED.into_iter().zip(FREE_OF_64) {
        answered.extend([(spawn(0), spawned), (write(0, 0, 1), free)]);
    }
    answered.extend(taken_and_returned(1, &STOLEN));
    answered.extend([(write(0, 0, 2), "106 0"), (ret(0), "102 3")]);
    run(
        "n 1: 63 frames wait, each with a tree, and one return frees all",
        (2, 64, &[7]),
        "2 1 64",
        &answered,
        "free 64",
    )
}

/// What writes leave of 64 nodes when Main has one and each takes one.
const FREE_OF_64: [&str; 63] = [
    "106 62", "106 61", "106 60", "106 59", "106 58", "106 57", "106 56", "106 55", "106 54",
    "106 53", "106 52", "106 51", "106 50", "106 49", "106 48", "106 47", "106 46", "106 45",
    "106 44", "106 43", "106 42", "106 41", "106 40", "106 39", "106 38", "106 37", "106 36",
    "106 35", "106 34", "106 33", "106 32", "106 31", "106 30", "106 29", "106 28", "106 27",
    "106 26", "106 25", "106 24", "106 23", "106 22", "106 21", "106 20", "106 19", "106 18",
    "106 17", "106 16", "106 15", "106 14", "106 13", "106 12", "106 11", "106 10", "106 9",
    "106 8", "106 7", "106 6", "106 5", "106 4", "106 3", "106 2", "106 1", "106 0",
];

/// The places that one chain frees serve the next.
fn longest_chains_below_a_sync() -> Edge {
    let mut answered = Vec::new();
    for _ in 0..3 {
        answered.extend(nested(0, &SPAWNED));
        answered.push((spawn(0), "13 0"));
        answered.extend([(steal(1, 0), "103 0"), (sync(1), "104 1")]);
        answered.extend(taken_and_returned(1, &STOLEN[1..]));
        answered.extend([
            (spawn(0), "13 0"),
            (ret(0), "102 2"),
            (write(0, 4, 5), "106 0"),
        ]);
    }
    answered.push((ret(0), "102 3"));
    run(
        "62 frames wait below a sync, and one return ends 63; three times",
        (2, 11, &TENS),
        "2 5 11",
        &answered,
        "free 11",
    )
}

/// Workers 1 to 7 take turns, and the frames are returned on each.
fn longest_chain_by_all_workers() -> Edge {
    let mut answered = nested(0, &SPAWNED);
    let thieves = (1..8).cycle();
    for (thief, line) in thieves.zip(STOLEN) {
        answered.extend([(steal(thief, 0), line), (ret(thief), "102 4")]);
    }
    answered.extend([(steal(7, 0), "12 0"), (ret(0), "102 3"), (ret(7), "9 0")]);
    run(
        "63 frames wait, returned by seven workers, and one return ends all 64",
        (8, 11, &TENS),
        "8 5 11",
        &answered,
        "free 11",
    )
}
