//! What happened, counted: results of calls, answers and refusals of steps.

use std::collections::BTreeMap;

/// Everything that a full comparison must have met. Returns and syncs are told apart by their outcomes.
const EVENTS: [(u32, u32); 30] = [
    (1, 0),
    (2, 0),
    (3, 0),
    (4, 0),
    (5, 0),
    (6, 0),
    (7, 0),
    (8, 0),
    (9, 0),
    (10, 0),
    (11, 0),
    (12, 0),
    (13, 0),
    (15, 0),
    (16, 0),
    (20, 0),
    (21, 0),
    (99, 0),
    (101, 0),
    (102, 0),
    (102, 1),
    (102, 2),
    (102, 3),
    (102, 4),
    (103, 0),
    (104, 0),
    (104, 1),
    (105, 0),
    (106, 0),
    (107, 0),
];

#[derive(Default)]
pub struct Tally(BTreeMap<(u32, u32), u64>);

impl Tally {
    /// An answer's two words, or a call's result and 0.
    pub fn count(&mut self, [first, second]: [u32; 2]) {
        let outcome = if matches!(first, 102 | 104) {
            second
        } else {
            0
        };
        *self.0.entry((first, outcome)).or_default() += 1;
    }

    pub fn missing(&self) -> Vec<(u32, u32)> {
        let never = |event: &(u32, u32)| !self.0.contains_key(event);
        EVENTS.into_iter().filter(never).collect()
    }

    /// All events and how often each was met, in one line.
    pub fn line(&self) -> String {
        let entry = |(&(first, outcome), count): (&(u32, u32), &u64)| match first {
            0 => format!("ok: {count}"),
            102 | 104 => format!("{first} {outcome}: {count}"),
            _ => format!("{first}: {count}"),
        };
        self.0.iter().map(entry).collect::<Vec<_>>().join(", ")
    }
}
