//! Readable accounts of an input and of what was printed for it.

use crate::record::{self, Record, Step, RECORD_BYTES};
use crate::splitrun::Input;
use std::fmt::Write;

/// Lines shown after the first one that differs.
const LINES_AFTER: usize = 4;

/// One line per record: the step in words, what was expected and what came.
pub fn difference(input: &[u8], expected: &str, came: &str) -> String {
    let words = in_words(input);
    let expected: Vec<&str> = expected.lines().collect();
    let came: Vec<&str> = came.lines().collect();
    let lines = words.len().max(expected.len()).max(came.len());
    let Some(first) = (0..lines).find(|place| expected.get(*place) != came.get(*place)) else {
        return "the lines are equal; the line ends are not\n".to_string();
    };
    let shown = lines.min(first + 1 + LINES_AFTER);
    let mut text = String::new();
    for place in 0..shown {
        let step = words.get(place).map_or("", String::as_str);
        let expected = expected.get(place).unwrap_or(&"nothing");
        let came = came.get(place).unwrap_or(&"nothing");
        let mark = if expected == came { "    " } else { "--->" };
        writeln!(
            text,
            "{mark} {place:>4}  {step:40} expected {expected:14} came {came}"
        )
        .expect("a string takes every line");
    }
    if shown < lines {
        text += &format!("           and {} lines more\n", lines - shown);
    }
    text
}

/// The words for each line of the output: first line, records, last lines.
pub fn in_words(input: &[u8]) -> Vec<String> {
    let Some(input) = Input::parse(input) else {
        return vec![format!("unfit input of {} bytes", input.len())];
    };
    let mut words = vec![format!(
        "{} workers, {} splitters, {} nodes",
        input.workers,
        input.values.len(),
        input.nodes
    )];
    if !input.tape.len().is_multiple_of(RECORD_BYTES) {
        words.push(format!("a tape of {} bytes", input.tape.len()));
        return words;
    }
    words.extend(record::records(&input.tape).map(record_in_words));
    words.extend(["the end", "the totals, if Main has returned"].map(String::from));
    words
}

fn record_in_words(record: Record) -> String {
    match record::decode(record) {
        Ok(step) => step_in_words(step),
        Err(_) => format!("record {record:?}"),
    }
}

fn step_in_words(step: Step) -> String {
    match step {
        Step::Spawn { worker } => format!("worker {worker} spawns"),
        Step::Return { worker } => format!("worker {worker} returns"),
        Step::Steal { worker, victim } => format!("worker {worker} steals from {victim}"),
        Step::Sync { worker } => format!("worker {worker} syncs"),
        Step::Read { worker, splitter } => format!("worker {worker} reads {splitter}"),
        Step::Write {
            worker,
            splitter,
            value,
        } => format!("worker {worker} writes {value} to {splitter}"),
        Step::Fold {
            worker,
            reducer,
            value,
        } => format!("worker {worker} folds {value} into reducer {reducer}"),
    }
}
