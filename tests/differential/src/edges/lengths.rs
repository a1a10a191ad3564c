//! The length of the input: the longest that fits, those around it, and far
//! longer ones. The longest input that is not unfit has 8 + 4 * 256 + 16,384 =
//! 17,416 bytes; a program that looks at no more than that many cannot tell
//! it from a longer one, which is unfit.

use super::{bytes, edge, ret, spawn, write, Edge, IDENTITIES};
use crate::record::{Step, RECORD_BYTES};
use crate::splitrun::header;

pub fn lengths() -> Vec<Edge> {
    let mut edges: Vec<Edge> = TREES.into_iter().flat_map(records_lengths).collect();
    edges.extend(INPUT_LENGTHS.into_iter().flat_map(input_length));
    edges.extend(refused_lengths());
    edges.extend(telling_ends());
    edges.extend(CUTS.into_iter().flat_map(cut_records));
    edges
}

/// n and T(n), by hand.
const TREES: [(u16, u32); 5] = [(1, 1), (2, 3), (5, 11), (255, 510), (256, 511)];

/// Reads of the last splitter, as many bytes as are asked; the last record
/// may be cut.
fn reads(n: u16, length: usize) -> Vec<u8> {
    let splitter = n.saturating_sub(1);
    let record = Step::Read {
        worker: 0,
        splitter,
    };
    let records = record.encode().repeat(length.div_ceil(RECORD_BYTES));
    records[..length].to_vec()
}

/// The header, n values of 3, and `length` bytes of reads.
fn with_reads(workers: u16, n: u16, nodes: u32, length: usize) -> Vec<u8> {
    bytes(workers, nodes, &vec![3; n.into()], &reads(n, length))
}

/// The lines of a run whose records are all answered the same.
fn all_answered<'a>(
    first: &'a str,
    count: usize,
    answer: &'static str,
    last: &'static str,
) -> Vec<&'a str> {
    let mut lines = vec![first];
    lines.extend([answer].repeat(count));
    lines.push(last);
    lines
}

/// By the bytes of records, for each n.
fn records_lengths((n, tree): (u16, u32)) -> Vec<Edge> {
    let first = format!("1 {n} {tree}");
    let named = |length: usize, lines: &[&str], outcome: &str| {
        edge(
            format!("n {n}, {length} bytes of records: {outcome}"),
            with_reads(1, n, tree, length),
            lines,
        )
    };
    let mut edges = vec![
        named(
            16_376,
            &all_answered(&first, 2_047, "105 3", "free 0"),
            "2,047 answers",
        ),
        named(
            16_384,
            &all_answered(&first, 2_048, "105 3", "free 0"),
            "2,048 answers",
        ),
    ];
    for length in [16_375, 16_377, 16_380, 16_383] {
        edges.push(named(length, &[&first, "refused 4"], "refused 4"));
    }
    for length in [
        16_385, 16_386, 16_388, 16_391, 16_392, 16_393, 16_400, 17_408, 32_768, 65_536, 81_920,
    ] {
        edges.push(named(length, &["unfit"], "unfit"));
    }
    edges
}

/// Lengths of whole inputs. The last three are small or fit if only the
/// lowest 16 bits of a length are looked at.
const INPUT_LENGTHS: [usize; 18] = [
    17_412, 17_413, 17_414, 17_415, 17_416, 17_417, 17_418, 17_423, 17_424, 19_999, 20_000, 20_001,
    20_008, 40_000, 1_000_000, 65_536, 65_556, 82_952,
];

/// The same lengths at several n. Of all these inputs only six are not
/// unfit: n 255 fits in 17,412 bytes, n 256 in 17,416.
fn input_length(length: usize) -> Vec<Edge> {
    let splitters = [0, 1, 5, 255, 256, 257, 65_535];
    splitters
        .into_iter()
        .map(|n| {
            let mut input = header(1, n, 520);
            let values = 3_u32.to_le_bytes().repeat(n.into());
            input.extend(values.into_iter().take(length - input.len()));
            input.extend(reads(n, length - input.len()));
            let lines = match (n, length) {
                (255, 17_412) => all_answered("1 255 520", 2_048, "105 3", "free 10"),
                (256, 17_416) => all_answered("1 256 520", 2_048, "105 3", "free 9"),
                (256, 17_412..=17_415) => vec!["1 256 520", "refused 4"],
                _ => vec!["unfit"],
            };
            let name = format!("n {n}, {length} bytes of input: {} lines", lines.len());
            edge(name, input, &lines)
        })
        .collect()
}

/// Calls refused whole, with the longest records and with one byte more.
fn refused_lengths() -> Vec<Edge> {
    let cases = [
        (1, 0, 520, "1 0 520", "refused 1"),
        (0, 256, 520, "0 256 520", "refused 2"),
        (9, 256, 520, "9 256 520", "refused 2"),
        (1, 256, 510, "1 256 510", "refused 3"),
        (1, 255, 509, "1 255 509", "refused 3"),
        (1, 1, 0, "1 1 0", "refused 3"),
    ];
    let mut edges = Vec::new();
    for (workers, n, nodes, first, refused) in cases {
        for length in [16_383, 16_384] {
            edges.push(edge(
                format!("{first} and {length} bytes of records: {refused}"),
                with_reads(workers, n, nodes, length),
                &[first, refused],
            ));
        }
        for length in [16_385, 16_392] {
            edges.push(edge(
                format!("{first} and {length} bytes of records: unfit"),
                with_reads(workers, n, nodes, length),
                &["unfit"],
            ));
        }
    }
    edges
}

/// The longest input, whose last records differ from all before them: no
/// record is lost at the end.
pub fn telling_ends() -> Vec<Edge> {
    let mut tape = reads(256, 8 * 2_045);
    tape.extend(write(0, 255, 4));
    tape.extend(reads(256, 8));
    let mut lines = vec!["1 256 520"];
    lines.extend(["105 3"; 2_045]);
    lines.extend(["106 9", "105 4"]);
    let mut returned = tape.clone();
    returned.extend(ret(0));
    let mut returned_lines = lines.clone();
    returned_lines.extend(["102 3", "free 520", IDENTITIES]);
    let mut spawned = tape;
    spawned.extend(spawn(0));
    let mut spawned_lines = lines;
    spawned_lines.extend(["101 1", "free 9"]);
    let values = [3; 256];
    let mut longer = returned.clone();
    longer.push(0);
    vec![
        edge(
            "17,416 bytes of input, Main returns by the last record",
            bytes(1, 520, &values, &returned),
            &returned_lines,
        ),
        edge(
            "17,416 bytes of input, a spawn by the last record",
            bytes(1, 520, &values, &spawned),
            &spawned_lines,
        ),
        edge(
            "Main returns by the 2,048th record, one byte follows: unfit",
            bytes(1, 520, &values, &longer),
            &["unfit"],
        ),
        edge(
            "n 256, 16,384 bytes of zero records: all 7",
            bytes(1, 511, &values, &[0; 16_384]),
            &all_answered("1 256 511", 2_048, "7 0", "free 0"),
        ),
        edge(
            "n 256, 16,385 bytes of zero records: unfit",
            bytes(1, 511, &values, &[0; 16_385]),
            &["unfit"],
        ),
    ]
}

/// n, nodes and the first line of the runs with a cut record.
const CUTS: [(usize, u32, &str); 4] = [
    (1, 2, "2 1 2"),
    (5, 20, "2 5 20"),
    (255, 520, "2 255 520"),
    (256, 520, "2 256 520"),
];

/// The last record cut after each of its bytes, behind records that would be
/// accepted: the call is refused whole, so nothing of them is printed.
fn cut_records((n, nodes, first): (usize, u32, &str)) -> Vec<Edge> {
    let whole = [spawn(0), write(0, 0, 4), ret(0)].concat();
    let cuts = (1..whole.len()).filter(|cut| cut % RECORD_BYTES != 0);
    cuts.map(|cut| {
        edge(
            format!("n {n}, three records cut after {cut} bytes: refused 4"),
            bytes(2, nodes, &vec![3; n], &whole[..cut]),
            &[first, "refused 4"],
        )
    })
    .collect()
}
