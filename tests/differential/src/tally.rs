//! How often each accepted kind, outcome and refusal occurred, and each case
//! of a write, of a chain of ends and of a view that is handed on.

use crate::families::Families;
use crate::machine::Machine;
use crate::record::Record;
use crate::sharing::Sharing;
use crate::waiting::Waiting;
use std::collections::BTreeMap;

/// Each line that splitrun can show, by the words that tell it apart.
const EVENTS: [(&str, &str); 28] = [
    ("101", "spawn"),
    ("102 0", "return, outcome 0"),
    ("102 1", "return, outcome 1"),
    ("102 2", "return, outcome 2"),
    ("102 3", "return, outcome 3"),
    ("102 4", "return, outcome 4"),
    ("103", "steal"),
    ("104 0", "sync, outcome 0"),
    ("104 1", "sync, outcome 1"),
    ("105", "read"),
    ("106", "write"),
    ("107 0", "fold"),
    ("reduced", "reduced"),
    ("unfit", "unfit"),
    ("refused 1", "refusal 1"),
    ("refused 2", "refusal 2"),
    ("refused 3", "refusal 3"),
    ("refused 4", "refusal 4"),
    ("7 0", "refusal 7"),
    ("8 0", "refusal 8"),
    ("9 0", "refusal 9"),
    ("10 0", "refusal 10"),
    ("11 0", "refusal 11"),
    ("12 0", "refusal 12"),
    ("13 0", "refusal 13"),
    ("15 0", "refusal 15"),
    ("16 0", "refusal 16"),
    ("20 0", "refusal 20"),
];

#[derive(Default)]
pub struct Tally {
    counts: BTreeMap<String, usize>,
    pub sharing: Sharing,
    pub waiting: Waiting,
    pub families: Families,
}

impl Tally {
    /// Counts the lines of one output, its first line and `free` left out.
    pub fn add(&mut self, output: &str) {
        let first_is_event = output == "unfit\n";
        let skipped = if first_is_event { 0 } else { 1 };
        for line in output.lines().skip(skipped) {
            *self.counts.entry(event(line)).or_default() += 1;
        }
    }

    /// Looks at a record that the copying machine is about to take.
    pub fn see(&mut self, machine: &Machine, record: Record) {
        self.sharing.see(machine, record);
        self.waiting.see(machine, record);
        self.families.see(machine, record);
    }

    /// Every event and case by its name, with its count.
    fn rows(&self) -> Vec<(String, usize)> {
        let count = |key: &str| self.counts.get(key).copied().unwrap_or(0);
        let events = EVENTS
            .iter()
            .map(|(key, name)| (name.to_string(), count(key)));
        let cases = [
            self.sharing.cases(),
            self.waiting.cases(),
            self.families.cases(),
        ];
        events.chain(cases.concat()).collect()
    }
}

/// Numbers other than outcomes are left out of the event.
fn event(line: &str) -> String {
    match line.split_once(' ') {
        Some((word @ ("101" | "103" | "105" | "106" | "reduced"), _)) => word.to_string(),
        _ => line.to_string(),
    }
}

/// The table of both tallies, and the events and cases that one of them lacks.
pub fn table(edges: &Tally, random: &Tally) -> (String, Vec<String>) {
    let mut table = format!("{:30} {:>9} {:>9}\n", "", "edges", "random");
    let mut missing = Vec::new();
    for ((name, in_edges), (_, in_random)) in edges.rows().into_iter().zip(random.rows()) {
        table += &format!("{name:30} {in_edges:>9} {in_random:>9}\n");
        if in_edges == 0 || in_random == 0 {
            missing.push(name);
        }
    }
    (table, missing)
}
