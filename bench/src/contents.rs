//! What the tapes hold, counted from their records and the library's answers.

use crate::case::{Case, WORKLOADS};
use crate::measure::answers;
use crate::peer::Peer;
use crate::table::Table;

const HEADER: [&str; 11] = [
    "workload",
    "reads",
    "writes",
    "folds",
    "spawns",
    "steals",
    "syncs",
    "of them suspend",
    "returns",
    "of them resume",
    "of them wait",
];

/// The tapes at one n; others differ in their random choices only.
pub fn table(n: usize) -> Table {
    let mut table = Table::new(HEADER.map(String::from).into());
    for workload in WORKLOADS {
        let case = Case::records(workload, n);
        let answers = answers(Peer::Library, &case);
        let count =
            |wanted: &dyn Fn(&[u32]) -> bool| answers.chunks(2).filter(|pair| wanted(pair)).count();
        let kind = |first: u32| count(&|pair| pair[0] == first);
        let outcome = |first: u32, second: u32| count(&|pair| *pair == [first, second]);
        let counts = [
            kind(105),
            kind(106),
            kind(107),
            kind(101),
            kind(103),
            kind(104),
            outcome(104, 1),
            kind(102),
            outcome(102, 2),
            outcome(102, 4),
        ];
        let numbers = counts.map(|count| count.to_string());
        table.row([vec![workload.name().to_string()], numbers.to_vec()].concat());
    }
    table
}
