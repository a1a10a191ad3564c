//! The edges of document 01, as of document 02 change them,
//! starred or not, and the edges of its refusals and lines. Every expected
//! line is written by hand from the documents.

mod lengths;
mod reducers;
mod shared;
mod waiting;

use crate::record::{Record, Step};
use crate::splitrun::{header, Input, HEADER_BYTES};

pub struct Edge {
    pub name: String,
    pub input: Vec<u8>,
    pub expected: String,
}

/// Every edge.
pub fn all() -> Vec<Edge> {
    let mut edges = starred();
    edges.extend(frame_limit());
    edges.extend(starts());
    edges.extend(tree_sizes());
    edges.extend(unfit());
    edges.extend(cut_short());
    edges.extend(tapes());
    edges.extend(lengths::lengths());
    edges.extend(unused_fields());
    edges.extend(bad_kinds());
    edges.extend(refusals());
    edges.extend(checking_order());
    edges.extend(outcomes());
    edges.extend(traps());
    edges.extend(pools());
    edges.extend(shared::shared());
    edges.extend(waiting::waiting());
    edges.extend(reducers::reducers());
    edges
}

/// Edges that are also fed in pieces: a program that takes what its first
/// read gives for the whole input is caught by them.
pub fn in_pieces() -> Vec<Edge> {
    let mut edges = starred();
    edges.extend(lengths::telling_ends());
    edges.extend(reducers::in_pieces());
    edges
}

/// The initial values of the document's example.
const TENS: [u32; 5] = [10, 20, 30, 40, 50];

/// A record and the line it is answered with.
type Answered = (Record, &'static str);

fn spawn(worker: u8) -> Record {
    Step::Spawn { worker }.encode()
}

fn ret(worker: u8) -> Record {
    Step::Return { worker }.encode()
}

fn steal(worker: u8, victim: u16) -> Record {
    Step::Steal { worker, victim }.encode()
}

fn sync(worker: u8) -> Record {
    Step::Sync { worker }.encode()
}

fn read(worker: u8, splitter: u16) -> Record {
    Step::Read { worker, splitter }.encode()
}

fn write(worker: u8, splitter: u16, value: u32) -> Record {
    Step::Write {
        worker,
        splitter,
        value,
    }
    .encode()
}

fn fold(worker: u8, reducer: u16, value: u32) -> Record {
    Step::Fold {
        worker,
        reducer,
        value,
    }
    .encode()
}

fn edge(name: impl Into<String>, input: Vec<u8>, lines: &[&str]) -> Edge {
    let expected = lines.iter().map(|line| format!("{line}\n")).collect();
    Edge {
        name: name.into(),
        input,
        expected,
    }
}

fn bytes(workers: u16, nodes: u32, values: &[u32], tape: &[u8]) -> Vec<u8> {
    let input = Input {
        workers,
        nodes,
        values: values.to_vec(),
        tape: tape.to_vec(),
    };
    input.to_bytes()
}

/// what a run that folds nothing prints last, once Main has returned.
const IDENTITIES: &str = "reduced 0 4294967295 1 0";

/// A run that folds nothing and is not refused whole: its first line, its
/// answered records and `free`. If Main has returned, the identities follow.
fn run(
    name: impl Into<String>,
    start: (u16, u32, &[u32]),
    first: &str,
    answered: &[Answered],
    free: &str,
) -> Edge {
    let returned = answered.iter().any(|(_, line)| *line == "102 3");
    let last = [free, IDENTITIES];
    let last = if returned { &last[..] } else { &last[..1] };
    run_to(name, start, first, answered, last)
}

/// A run that is not refused whole: its first line, its answered records and
/// its last lines.
fn run_to(
    name: impl Into<String>,
    (workers, nodes, values): (u16, u32, &[u32]),
    first: &str,
    answered: &[Answered],
    last: &[&str],
) -> Edge {
    let tape: Vec<u8> = answered.iter().flat_map(|(record, _)| *record).collect();
    let mut lines = vec![first];
    lines.extend(answered.iter().map(|(_, line)| *line));
    lines.extend(last);
    edge(name, bytes(workers, nodes, values, &tape), &lines)
}

fn starred() -> Vec<Edge> {
    vec![
        run(
            "the example tape",
            (2, 20, &TENS),
            "2 5 20",
            &[
                (spawn(0), "101 1"),
                (steal(1, 0), "103 0"),
                (write(1, 4, 99), "106 5"),
                (read(0, 4), "105 50"),
                (sync(1), "104 1"),
                (read(1, 4), "10 0"),
                (ret(0), "102 2"),
                (read(0, 4), "105 99"),
                (ret(0), "102 3"),
            ],
            "free 20",
        ),
        run(
            "n 1, one node: 106 0",
            (1, 1, &[7]),
            "1 1 1",
            &[(write(0, 0, 8), "106 0"), (read(0, 0), "105 8")],
            "free 0",
        ),
        run(
            "n 1, two nodes: 106 1",
            (1, 2, &[7]),
            "1 1 2",
            &[(write(0, 0, 8), "106 1"), (read(0, 0), "105 8")],
            "free 1",
        ),
        edge(
            "n 5, 10 nodes: refused 3",
            bytes(1, 10, &TENS, &[]),
            &["1 5 10", "refused 3"],
        ),
        run(
            "n 5, 11 nodes: 106 0",
            (1, 11, &TENS),
            "1 5 11",
            &[(write(0, 2, 8), "106 0"), (read(0, 2), "105 8")],
            "free 0",
        ),
        run(
            "n 5, 14 nodes: 106 3",
            (1, 14, &TENS),
            "1 5 14",
            &[(write(0, 2, 8), "106 3"), (read(0, 2), "105 8")],
            "free 3",
        ),
        run(
            "n 5, 15 nodes: 106 4",
            (1, 15, &TENS),
            "1 5 15",
            &[(write(0, 2, 8), "106 4"), (read(0, 2), "105 8")],
            "free 4",
        ),
        edge(
            "n 0: refused 1",
            bytes(1, 20, &[], &[]),
            &["1 0 20", "refused 1"],
        ),
        edge(
            "n 257 with its values: unfit",
            bytes(1, 1_024, &[0; 257], &[]),
            &["unfit"],
        ),
        run("empty tape", (1, 20, &TENS), "1 5 20", &[], "free 9"),
        run(
            "stealing from a deque of one: 12",
            (2, 20, &TENS),
            "2 5 20",
            &[(steal(1, 0), "12 0")],
            "free 9",
        ),
        run(
            "return by Main while its child runs elsewhere: 102 4",
            (2, 20, &TENS),
            "2 5 20",
            &[
                (spawn(0), "101 1"),
                (steal(1, 0), "103 0"),
                (ret(1), "102 4"),
                (ret(1), "10 0"),
                (ret(0), "102 3"),
                (ret(1), "9 0"),
            ],
            "free 20",
        ),
    ]
}

/// The answers of a chain of spawns by one worker from Main on.
const SPAWNED: [&str; 63] = [
    "101 1", "101 2", "101 3", "101 4", "101 5", "101 6", "101 7", "101 8", "101 9", "101 10",
    "101 11", "101 12", "101 13", "101 14", "101 15", "101 16", "101 17", "101 18", "101 19",
    "101 20", "101 21", "101 22", "101 23", "101 24", "101 25", "101 26", "101 27", "101 28",
    "101 29", "101 30", "101 31", "101 32", "101 33", "101 34", "101 35", "101 36", "101 37",
    "101 38", "101 39", "101 40", "101 41", "101 42", "101 43", "101 44", "101 45", "101 46",
    "101 47", "101 48", "101 49", "101 50", "101 51", "101 52", "101 53", "101 54", "101 55",
    "101 56", "101 57", "101 58", "101 59", "101 60", "101 61", "101 62", "101 63",
];

/// Nested spawns whose answers are the given ones.
fn nested(worker: u8, answers: &[&'static str]) -> Vec<Answered> {
    answers.iter().map(|line| (spawn(worker), *line)).collect()
}

fn frame_limit() -> Vec<Edge> {
    vec![deep_frame_limit(), wide_frame_limit()]
}

fn deep_frame_limit() -> Edge {
    let mut answered = nested(0, &SPAWNED);
    answered.extend([
        (spawn(0), "13 0"),
        (spawn(1), "10 0"),
        (ret(0), "102 0"),
        (spawn(0), "101 63"),
        (spawn(0), "13 0"),
    ]);
    answered.extend([(ret(0), "102 0"); 63]);
    answered.push((ret(0), "102 3"));
    run(
        "the 63rd nested spawn gives 101 63, the 64th 13; after one return it is accepted",
        (2, 11, &TENS),
        "2 5 11",
        &answered,
        "free 11",
    )
}

/// 64 live frames on two deques, none deeper than 32.
fn wide_frame_limit() -> Edge {
    let mut answered = vec![(spawn(0), "101 1"), (steal(1, 0), "103 0")];
    answered.extend(nested(0, &SPAWNED[1..32]));
    answered.extend(nested(1, &SPAWNED[..31]));
    answered.extend([
        (spawn(0), "13 0"),
        (spawn(1), "13 0"),
        (ret(1), "102 0"),
        (spawn(0), "101 33"),
        (spawn(1), "13 0"),
    ]);
    run(
        "64 live frames on two deques: 13",
        (2, 11, &TENS),
        "2 5 11",
        &answered,
        "free 0",
    )
}

/// Refusals 1 to 3 and their order, and 4 after them.
fn starts() -> Vec<Edge> {
    let ragged = [1, 0, 0];
    vec![
        edge(
            "0 workers: refused 2",
            bytes(0, 20, &TENS, &[]),
            &["0 5 20", "refused 2"],
        ),
        edge(
            "9 workers: refused 2",
            bytes(9, 20, &TENS, &[]),
            &["9 5 20", "refused 2"],
        ),
        edge(
            "258 workers, both bytes of the field: refused 2",
            bytes(258, 20, &TENS, &[]),
            &["258 5 20", "refused 2"],
        ),
        edge(
            "65535 workers: refused 2",
            bytes(65_535, 20, &TENS, &[]),
            &["65535 5 20", "refused 2"],
        ),
        edge(
            "no nodes: refused 3",
            bytes(1, 0, &[7], &[]),
            &["1 1 0", "refused 3"],
        ),
        edge(
            "1 before 2 and 3",
            bytes(0, 0, &[], &[]),
            &["0 0 0", "refused 1"],
        ),
        edge(
            "2 before 3",
            bytes(9, 0, &TENS, &[]),
            &["9 5 0", "refused 2"],
        ),
        edge(
            "1 before 4",
            bytes(1, 20, &[], &ragged),
            &["1 0 20", "refused 1"],
        ),
        edge(
            "2 before 4",
            bytes(0, 20, &TENS, &ragged),
            &["0 5 20", "refused 2"],
        ),
        edge(
            "3 before 4",
            bytes(1, 10, &TENS, &ragged),
            &["1 5 10", "refused 3"],
        ),
        edge(
            "a refused start takes no record",
            bytes(1, 10, &TENS, &spawn(0)),
            &["1 5 10", "refused 3"],
        ),
        run(
            "8 workers",
            (8, 20, &TENS),
            "8 5 20",
            &[(spawn(0), "101 1"), (steal(7, 0), "103 0")],
            "free 9",
        ),
    ]
}

/// A pool of T(n) nodes is accepted and takes a write, one node fewer is
/// refused 3; a child's first write needs H + 1 nodes more.
fn tree_sizes() -> Vec<Edge> {
    // n, T(n) - 1, T(n), T(n) + H, T(n) + H + 1
    let figures = [
        (1, 0, 1, 1, 2),
        (2, 2, 3, 4, 5),
        (3, 5, 6, 8, 9),
        (4, 6, 7, 9, 10),
        (5, 10, 11, 14, 15),
        (6, 11, 12, 15, 16),
        (7, 13, 14, 17, 18),
        (8, 14, 15, 18, 19),
        (9, 19, 20, 24, 25),
        (128, 254, 255, 262, 263),
        (129, 263, 264, 272, 273),
        (255, 509, 510, 518, 519),
        (256, 510, 511, 519, 520),
    ];
    figures.into_iter().flat_map(tree_size).collect()
}

fn tree_size((n, short, tree, no_path, path): (usize, u32, u32, u32, u32)) -> [Edge; 4] {
    let values = vec![3; n];
    let last = n as u16 - 1;
    [
        edge(
            format!("n {n}, {short} nodes: refused 3"),
            bytes(1, short, &values, &[]),
            &[&format!("1 {n} {short}"), "refused 3"],
        ),
        run(
            format!("n {n}, {tree} nodes: write accepted"),
            (1, tree, &values),
            &format!("1 {n} {tree}"),
            &[
                (read(0, last), "105 3"),
                (write(0, last, 4), "106 0"),
                (read(0, last), "105 4"),
            ],
            "free 0",
        ),
        run(
            format!("n {n}, {no_path} nodes: a child's write refused 16"),
            (1, no_path, &values),
            &format!("1 {n} {no_path}"),
            &[
                (spawn(0), "101 1"),
                (write(0, last, 4), "16 0"),
                (read(0, last), "105 3"),
            ],
            &format!("free {}", no_path - tree),
        ),
        run(
            format!("n {n}, {path} nodes: a child's write accepted"),
            (1, path, &values),
            &format!("1 {n} {path}"),
            &[
                (spawn(0), "101 1"),
                (write(0, last, 4), "106 0"),
                (read(0, last), "105 4"),
                (ret(0), "102 0"),
                (read(0, last), "105 3"),
            ],
            &format!("free {}", path - tree),
        ),
    ]
}

fn unfit() -> Vec<Edge> {
    vec![
        run(
            "1,024 nodes",
            (1, 1_024, &[0; 256]),
            "1 256 1024",
            &[(write(0, 255, 1), "106 513")],
            "free 513",
        ),
        edge(
            "1,025 nodes: unfit",
            bytes(1, 1_025, &TENS, &[]),
            &["unfit"],
        ),
        edge(
            "16,384 nodes: unfit",
            bytes(1, 16_384, &TENS, &[]),
            &["unfit"],
        ),
        edge(
            "4,294,967,295 nodes: unfit",
            bytes(1, u32::MAX, &TENS, &[]),
            &["unfit"],
        ),
        edge(
            "n 257 without its values: unfit",
            header(1, 257, 1_024),
            &["unfit"],
        ),
        edge("n 65535: unfit", header(1, 65_535, 1_024), &["unfit"]),
        edge("unfit before 1", bytes(0, 1_025, &[], &[]), &["unfit"]),
        edge(
            "unfit before 2",
            bytes(0, 1_024, &[0; 257], &[]),
            &["unfit"],
        ),
        edge(
            "unfit before 3",
            bytes(1, 10, &TENS, &[0; 16_392]),
            &["unfit"],
        ),
    ]
}

/// Inputs cut short at every byte of the header and of the values.
fn cut_short() -> Vec<Edge> {
    let whole = bytes(1, 20, &TENS, &[]);
    (0..whole.len())
        .map(|length| {
            let part = if length < HEADER_BYTES {
                "header"
            } else {
                "values"
            };
            let name = format!("{part} cut short after {length} bytes: unfit");
            edge(name, whole[..length].to_vec(), &["unfit"])
        })
        .collect()
}

fn tapes() -> Vec<Edge> {
    let mut edges = vec![longest_tape()];
    let too_long = spawn(0).repeat(2_049);
    for length in [16_385, 16_391, 16_392] {
        edges.push(edge(
            format!("{length} bytes of records: unfit"),
            bytes(1, 1, &[7], &too_long[..length]),
            &["unfit"],
        ));
    }
    for length in (1..24).filter(|length| length % 8 != 0).chain([16_383]) {
        edges.push(edge(
            format!("{length} bytes of records: refused 4"),
            bytes(1, 1, &[7], &read(0, 0).repeat(2_048)[..length]),
            &["1 1 1", "refused 4"],
        ));
    }
    edges
}

fn longest_tape() -> Edge {
    run(
        "16,384 bytes of records",
        (1, 1, &[7]),
        "1 1 1",
        &[(read(0, 0), "105 7"); 2_048],
        "free 0",
    )
}

/// "Unused fields are zero": each byte of each unused field, alone not zero.
fn unused_fields() -> Vec<Edge> {
    let kinds = [
        ("spawn", spawn(0), 2),
        ("return", ret(0), 2),
        ("steal", steal(1, 0), 4),
        ("sync", sync(0), 2),
        ("read", read(0, 4), 4),
    ];
    let mut edges = Vec::new();
    for (kind, record, first_unused) in kinds {
        for place in first_unused..8 {
            for bit in [1, 128] {
                let mut spoilt = record;
                spoilt[place] = bit;
                edges.push(unused_field(kind, place, spoilt));
            }
        }
    }
    edges
}

/// The spoilt record comes where its step would be accepted.
fn unused_field(kind: &str, place: usize, spoilt: Record) -> Edge {
    run(
        format!("{kind} with byte {place} {}: 7", spoilt[place]),
        (2, 20, &TENS),
        "2 5 20",
        &[(spawn(0), "101 1"), (spoilt, "7 0"), (ret(0), "102 0")],
        "free 9",
    )
}

fn bad_kinds() -> Vec<Edge> {
    [0, 8, 9, 101, 106, 107, 129, 135, 255]
        .into_iter()
        .map(|kind| {
            run(
                format!("kind {kind}: 7"),
                (1, 20, &TENS),
                "1 5 20",
                &[([kind, 0, 0, 0, 0, 0, 0, 0], "7 0"), (ret(0), "102 3")],
                "free 20",
            )
        })
        .collect()
}

fn refusals() -> Vec<Edge> {
    vec![
        run(
            "8: the worker does not exist",
            (2, 20, &TENS),
            "2 5 20",
            &[
                (spawn(2), "8 0"),
                (ret(3), "8 0"),
                (steal(2, 0), "8 0"),
                (sync(8), "8 0"),
                (read(128, 0), "8 0"),
                (write(255, 0, 1), "8 0"),
            ],
            "free 9",
        ),
        run(
            "9: Main has returned",
            (2, 20, &TENS),
            "2 5 20",
            &[
                (ret(0), "102 3"),
                (spawn(0), "9 0"),
                (ret(0), "9 0"),
                (steal(1, 0), "9 0"),
                (sync(0), "9 0"),
                (read(0, 0), "9 0"),
                (write(0, 0, 1), "9 0"),
                (ret(1), "9 0"),
            ],
            "free 20",
        ),
        run(
            "10: the worker is idle",
            (2, 20, &TENS),
            "2 5 20",
            &[
                (spawn(1), "10 0"),
                (ret(1), "10 0"),
                (sync(1), "10 0"),
                (read(1, 0), "10 0"),
                (write(1, 0, 1), "10 0"),
            ],
            "free 9",
        ),
        run(
            "11: the thief is not idle",
            (3, 20, &TENS),
            "3 5 20",
            &[
                (spawn(0), "101 1"),
                (steal(0, 0), "11 0"),
                (steal(0, 1), "11 0"),
                (spawn(0), "101 2"),
                (steal(1, 0), "103 0"),
                (steal(1, 0), "11 0"),
                (steal(2, 0), "103 1"),
            ],
            "free 9",
        ),
        run(
            "12: the victim does not exist or has fewer than two frames",
            (2, 20, &TENS),
            "2 5 20",
            &[
                (spawn(0), "101 1"),
                (steal(1, 1), "12 0"),
                (steal(1, 2), "12 0"),
                (steal(1, 8), "12 0"),
                (steal(1, 256), "12 0"),
                (steal(1, 65_535), "12 0"),
                (steal(1, 0), "103 0"),
            ],
            "free 9",
        ),
        run(
            "15: the splitter is not below n",
            (1, 20, &TENS),
            "1 5 20",
            &[
                (read(0, 4), "105 50"),
                (read(0, 5), "15 0"),
                (read(0, 7), "15 0"),
                (read(0, 256), "15 0"),
                (read(0, 65_535), "15 0"),
                (write(0, 5, 1), "15 0"),
                (write(0, 260, 1), "15 0"),
                (read(0, 4), "105 50"),
            ],
            "free 9",
        ),
        run(
            "15 at n 256",
            (1, 1_024, &[9; 256]),
            "1 256 1024",
            &[
                (read(0, 255), "105 9"),
                (read(0, 256), "15 0"),
                (write(0, 256, 1), "15 0"),
                (write(0, 511, 1), "15 0"),
            ],
            "free 513",
        ),
    ]
}

/// Records that more than one refusal fits: the first in order is given.
fn checking_order() -> Vec<Edge> {
    vec![
        run(
            "7 before 8",
            (1, 20, &TENS),
            "1 5 20",
            &[
                ([0, 9, 0, 0, 0, 0, 0, 0], "7 0"),
                ([1, 9, 1, 0, 0, 0, 0, 0], "7 0"),
                ([5, 9, 0, 0, 0, 0, 0, 1], "7 0"),
            ],
            "free 9",
        ),
        run(
            "7 and 8 before 9",
            (1, 20, &TENS),
            "1 5 20",
            &[
                (ret(0), "102 3"),
                ([8, 0, 0, 0, 0, 0, 0, 0], "7 0"),
                ([2, 0, 0, 0, 1, 0, 0, 0], "7 0"),
                (ret(1), "8 0"),
                (steal(1, 0), "8 0"),
                (ret(0), "9 0"),
            ],
            "free 20",
        ),
        run(
            "9 before 10, 12 and 15",
            (2, 20, &TENS),
            "2 5 20",
            &[
                (ret(0), "102 3"),
                (sync(1), "9 0"),
                (steal(0, 7), "9 0"),
                (read(0, 5), "9 0"),
                (write(0, 5, 1), "9 0"),
            ],
            "free 20",
        ),
        run(
            "10 before 15, and with no node free",
            (2, 11, &TENS),
            "2 5 11",
            &[
                (read(1, 5), "10 0"),
                (write(1, 5, 1), "10 0"),
                (write(1, 4, 1), "10 0"),
            ],
            "free 0",
        ),
        run(
            "11 before 12",
            (2, 20, &TENS),
            "2 5 20",
            &[(steal(0, 1), "11 0"), (steal(0, 9), "11 0")],
            "free 9",
        ),
        run(
            "15 before 16",
            (1, 1, &[7]),
            "1 1 1",
            &[
                (spawn(0), "101 1"),
                (write(0, 1, 8), "15 0"),
                (write(0, 0, 8), "16 0"),
            ],
            "free 0",
        ),
    ]
}

fn outcomes() -> Vec<Edge> {
    vec![
        run(
            "a sync with no spawn before it, and a spawn directly followed by a sync",
            (1, 20, &TENS),
            "1 5 20",
            &[
                (sync(0), "104 0"),
                (spawn(0), "101 1"),
                (sync(0), "104 0"),
                (ret(0), "102 0"),
                (sync(0), "104 0"),
                (ret(0), "102 3"),
            ],
            "free 20",
        ),
        run(
            "the last of two children resumes the parent, on its own worker",
            (3, 20, &TENS),
            "3 5 20",
            &[
                (spawn(0), "101 1"),
                (steal(1, 0), "103 0"),
                (spawn(1), "101 1"),
                (steal(2, 1), "103 0"),
                (sync(2), "104 1"),
                (ret(2), "10 0"),
                (ret(0), "102 1"),
                (ret(1), "102 2"),
                (read(0, 0), "10 0"),
                (read(2, 0), "10 0"),
                (read(1, 0), "105 10"),
                (ret(1), "102 3"),
            ],
            "free 20",
        ),
        run(
            "a parent that runs elsewhere is not resumed",
            (2, 20, &TENS),
            "2 5 20",
            &[
                (spawn(0), "101 1"),
                (steal(1, 0), "103 0"),
                (ret(0), "102 1"),
                (sync(1), "104 0"),
                (ret(1), "102 3"),
            ],
            "free 20",
        ),
        run(
            "steals take tops, deeper each time; a wait and resumption below Main",
            (5, 20, &TENS),
            "5 5 20",
            &[
                (spawn(0), "101 1"),
                (spawn(0), "101 2"),
                (spawn(0), "101 3"),
                (steal(1, 0), "103 0"),
                (steal(2, 0), "103 1"),
                (steal(3, 0), "103 2"),
                (steal(4, 0), "12 0"),
                (sync(2), "104 1"),
                (ret(0), "102 1"),
                (spawn(3), "101 3"),
                (steal(4, 3), "103 2"),
                (ret(4), "102 4"),
                (ret(3), "102 2"),
                (ret(3), "102 1"),
                (ret(1), "102 3"),
            ],
            "free 20",
        ),
        run(
            "a resumed parent spawns and is stolen again",
            (2, 20, &TENS),
            "2 5 20",
            &[
                (spawn(0), "101 1"),
                (steal(1, 0), "103 0"),
                (sync(1), "104 1"),
                (ret(0), "102 2"),
                (spawn(0), "101 1"),
                (steal(1, 0), "103 0"),
                (sync(1), "104 1"),
                (ret(0), "102 2"),
                (ret(0), "102 3"),
            ],
            "free 20",
        ),
    ]
}

/// "Traps" of the edges.
fn traps() -> Vec<Edge> {
    vec![
        run(
            "a resumed parent keeps its own values (note B)",
            (2, 20, &TENS),
            "2 5 20",
            &[
                (spawn(0), "101 1"),
                (write(0, 4, 99), "106 5"),
                (steal(1, 0), "103 0"),
                (sync(1), "104 1"),
                (ret(0), "102 2"),
                (read(0, 4), "105 50"),
                (ret(0), "102 3"),
            ],
            "free 20",
        ),
        run(
            "an old path that another frame still holds is not freed",
            (1, 20, &TENS),
            "1 5 20",
            &[
                (spawn(0), "101 1"),
                (write(0, 0, 1), "106 5"),
                (write(0, 0, 2), "106 5"),
                (write(0, 1, 3), "106 4"),
                (read(0, 0), "105 2"),
                (ret(0), "102 0"),
                (read(0, 0), "105 10"),
                (read(0, 1), "105 20"),
                (write(0, 0, 3), "106 9"),
                (ret(0), "102 3"),
            ],
            "free 20",
        ),
        run(
            "the thief takes the top, the victim keeps the bottom",
            (2, 20, &TENS),
            "2 5 20",
            &[
                (spawn(0), "101 1"),
                (write(0, 0, 11), "106 5"),
                (spawn(0), "101 2"),
                (write(0, 0, 12), "106 1"),
                (steal(1, 0), "103 0"),
                (read(1, 0), "105 10"),
                (read(0, 0), "105 12"),
                (ret(0), "102 0"),
                (read(0, 0), "105 11"),
            ],
            "free 5",
        ),
        run(
            "children on other deques count for a sync",
            (2, 20, &TENS),
            "2 5 20",
            &[
                (spawn(0), "101 1"),
                (steal(1, 0), "103 0"),
                (sync(1), "104 1"),
                (ret(0), "102 2"),
            ],
            "free 9",
        ),
        run(
            "children on other deques count for a return",
            (2, 20, &TENS),
            "2 5 20",
            &[
                (spawn(0), "101 1"),
                (steal(1, 0), "103 0"),
                (ret(1), "102 4"),
                (read(1, 0), "10 0"),
                (read(0, 0), "105 10"),
            ],
            "free 9",
        ),
        // The child's path to 4 leaves the old one to Main alone; of Main's
        // path to 0 all but the root is then shared, of that to 1 the leaf,
        // of that to 2 two nodes.
        run(
            "a write of an equal value takes what is shared of the path",
            (2, 20, &TENS),
            "2 5 20",
            &[
                (spawn(0), "101 1"),
                (write(0, 4, 50), "106 5"),
                (steal(1, 0), "103 0"),
                (write(1, 4, 50), "106 5"),
                (write(1, 0, 10), "106 2"),
                (write(1, 0, 10), "106 2"),
                (write(1, 1, 20), "106 1"),
                (write(1, 2, 30), "16 0"),
            ],
            "free 1",
        ),
        run(
            "a write of an equal value needs what is shared of the path",
            (1, 14, &TENS),
            "1 5 14",
            &[
                (write(0, 4, 50), "106 3"),
                (spawn(0), "101 1"),
                (write(0, 4, 50), "16 0"),
            ],
            "free 3",
        ),
        run(
            "a child does not see its parent's later writes",
            (2, 20, &TENS),
            "2 5 20",
            &[
                (write(0, 1, 21), "106 9"),
                (spawn(0), "101 1"),
                (steal(1, 0), "103 0"),
                (write(1, 1, 22), "106 5"),
                (read(0, 1), "105 21"),
                (read(1, 1), "105 22"),
            ],
            "free 5",
        ),
    ]
}

fn pools() -> Vec<Edge> {
    vec![
        run(
            "freed nodes serve again",
            (1, 20, &TENS),
            "1 5 20",
            &[
                (spawn(0), "101 1"),
                (write(0, 4, 1), "106 5"),
                (spawn(0), "101 2"),
                (write(0, 0, 2), "106 1"),
                (write(0, 1, 3), "106 0"),
                (write(0, 2, 3), "16 0"),
                (read(0, 2), "105 30"),
                (ret(0), "102 0"),
                (spawn(0), "101 2"),
                (write(0, 0, 4), "106 1"),
                (ret(0), "102 0"),
                (ret(0), "102 0"),
                (write(0, 2, 5), "106 9"),
                (ret(0), "102 3"),
            ],
            "free 20",
        ),
        run(
            "nodes that only a suspended frame holds are in use",
            (2, 20, &TENS),
            "2 5 20",
            &[
                (spawn(0), "101 1"),
                (steal(1, 0), "103 0"),
                (write(1, 4, 99), "106 5"),
                (sync(1), "104 1"),
                (write(0, 4, 1), "106 5"),
                (spawn(0), "101 2"),
                (write(0, 4, 2), "106 1"),
                (write(0, 4, 3), "106 1"),
                (write(0, 0, 3), "16 0"),
                (ret(0), "102 0"),
                (ret(0), "102 2"),
                (read(0, 4), "105 99"),
                (write(0, 3, 4), "106 9"),
                (ret(0), "102 3"),
            ],
            "free 20",
        ),
        run(
            "words are 32 bits, little-endian",
            (1, 515, &[0x0102_0304, u32::MAX]),
            "1 2 515",
            &[
                (read(0, 0), "105 16909060"),
                (read(0, 1), "105 4294967295"),
                (write(0, 0, u32::MAX), "106 512"),
                (read(0, 0), "105 4294967295"),
                (write(0, 1, 0x8000_0001), "106 512"),
                (read(0, 1), "105 2147483649"),
            ],
            "free 512",
        ),
    ]
}

#[cfg(test)]
mod tests {
    use super::*;
    use crate::machine::Counting;
    use crate::splitrun;

    #[test]
    fn the_copying_program_meets_every_edge() {
        for edge in all() {
            let output = splitrun::output(&edge.input, Counting::Recounted);
            assert_eq!(output, edge.expected, "{}", edge.name);
        }
    }
}
