//! "The program splitrun and its lines": its input and what it prints.

use super::machine::{Counting, Machine};
use super::record::{self, Record, RECORD_BYTES};
use super::reducer::View;
use super::refusal::Refusal;
use std::fmt::Write;

pub const HEADER_BYTES: usize = 8;
pub const MAX_SPLITTERS: usize = 256;
pub const MAX_NODES: u32 = 1_024;
pub const MAX_TAPE_BYTES: usize = 16_384;
/// "splitrun lends 64 places".
pub const PLACES: usize = 64;

/// An input that is not unfit.
#[derive(Clone)]
pub struct Input {
    pub workers: u16,
    pub nodes: u32,
    pub values: Vec<u32>,
    pub tape: Vec<u8>,
}

impl Input {
    /// "Workers and n (16 bits each), nodes (32 bits), n initial values, then
    /// records." None for an unfit input: "A header or values cut short, n
    /// over 256, nodes over 1,024 or more than 16,384 bytes of records".
    pub fn parse(bytes: &[u8]) -> Option<Input> {
        let (header, rest) = bytes.split_at_checked(HEADER_BYTES)?;
        let workers = u16::from_le_bytes([header[0], header[1]]);
        let splitters = usize::from(u16::from_le_bytes([header[2], header[3]]));
        let nodes = word(&header[4..]);
        if splitters > MAX_SPLITTERS || nodes > MAX_NODES {
            return None;
        }
        let (values, tape) = rest.split_at_checked(4 * splitters)?;
        if tape.len() > MAX_TAPE_BYTES {
            return None;
        }
        Some(Input {
            workers,
            nodes,
            values: values.chunks_exact(4).map(word).collect(),
            tape: tape.to_vec(),
        })
    }

    pub fn to_bytes(&self) -> Vec<u8> {
        let mut bytes = header(self.workers, self.values.len() as u16, self.nodes);
        for value in &self.values {
            bytes.extend(value.to_le_bytes());
        }
        bytes.extend(&self.tape);
        bytes
    }

    fn start(&self, counting: Counting) -> Result<Machine, Refusal> {
        let workers = usize::from(self.workers);
        let nodes = self.nodes as usize;
        Machine::start(workers, PLACES, nodes, &self.values, counting)
    }
}

pub fn header(workers: u16, splitters: u16, nodes: u32) -> Vec<u8> {
    let mut bytes = Vec::from(workers.to_le_bytes());
    bytes.extend(splitters.to_le_bytes());
    bytes.extend(nodes.to_le_bytes());
    bytes
}

fn word(bytes: &[u8]) -> u32 {
    u32::from_le_bytes(bytes.try_into().expect("four bytes"))
}

/// All that splitrun prints for this input.
pub fn output(bytes: &[u8], counting: Counting) -> String {
    watched_output(bytes, counting, &mut |_, _| {})
}

/// The same, with a look at the machine before it takes each record.
pub fn watched_output(bytes: &[u8], counting: Counting, watch: Watch) -> String {
    let Some(input) = Input::parse(bytes) else {
        return "unfit\n".to_string();
    };
    let mut lines = String::new();
    line(&mut lines, &[input.workers.into(), n(&input), input.nodes]);
    match run(&input, counting, watch, &mut lines) {
        Ok(end) => print_end(&mut lines, end),
        Err(refusal) => writeln!(lines, "refused {}", refusal.number()),
    }
    .expect("a string takes every line");
    lines
}

/// What is printed after the records' lines.
struct End {
    free: usize,
    totals: Option<View>,
}

/// "Last `free` and the free nodes." R-5: once Main has returned, "only then
/// splitrun prints, as a line after `free`, `reduced`, the sum, the minimum,
/// the multiplier and the addend".
fn print_end(lines: &mut String, end: End) -> std::fmt::Result {
    writeln!(lines, "free {}", end.free)?;
    if let Some(totals) = end.totals {
        let [sum, minimum, multiplier, addend] = totals.words();
        writeln!(lines, "reduced {sum} {minimum} {multiplier} {addend}")?;
    }
    Ok(())
}

fn n(input: &Input) -> u32 {
    input.values.len() as u32
}

/// What looks at the machine and at the record that it is about to take.
pub type Watch<'a> = &'a mut dyn FnMut(&Machine, Record);

/// The start and the tape: what there is at the end, or the refusal of a call
/// refused whole.
fn run(
    input: &Input,
    counting: Counting,
    watch: Watch,
    lines: &mut String,
) -> Result<End, Refusal> {
    let mut machine = input.start(counting)?;
    if !input.tape.len().is_multiple_of(RECORD_BYTES) {
        return Err(Refusal::RaggedTape);
    }
    for record in record::records(&input.tape) {
        watch(&machine, record);
        line(lines, &answer(&mut machine, record));
    }
    Ok(End {
        free: machine.free_nodes(),
        totals: machine.totals(),
    })
}

/// "Each record gives two answer words: 100 plus the kind, then a number." "A
/// refused record gives its refusal and 0, and the tape goes on."
fn answer(machine: &mut Machine, record: Record) -> [u32; 2] {
    let answered = record::decode(record)
        .and_then(|step| Ok([100 + u32::from(step.kind()), machine.step(step)?]));
    answered.unwrap_or_else(|refusal| [refusal.number(), 0])
}

/// "Fields are parted by one space."
fn line(lines: &mut String, fields: &[u32]) {
    let fields: Vec<String> = fields.iter().map(u32::to_string).collect();
    lines.push_str(&fields.join(" "));
    lines.push('\n');
}

#[cfg(test)]
mod tests {
    use super::*;
    use crate::record::Step;

    /// The example of "The program splitrun and its lines", written out here
    /// once more from the document's words.
    #[test]
    fn the_example() {
        let steps = [
            Step::Spawn { worker: 0 },
            Step::Steal {
                worker: 1,
                victim: 0,
            },
            Step::Write {
                worker: 1,
                splitter: 4,
                value: 99,
            },
            Step::Read {
                worker: 0,
                splitter: 4,
            },
            Step::Sync { worker: 1 },
            Step::Read {
                worker: 1,
                splitter: 4,
            },
            Step::Return { worker: 0 },
            Step::Read {
                worker: 0,
                splitter: 4,
            },
            Step::Return { worker: 0 },
        ];
        let input = Input {
            workers: 2,
            nodes: 20,
            values: vec![10, 20, 30, 40, 50],
            tape: steps.into_iter().flat_map(Step::encode).collect(),
        };
        let expected = "2 5 20\n101 1\n103 0\n106 5\n105 50\n104 1\n10 0\n102 2\n\
                        105 99\n102 3\nfree 20\nreduced 0 4294967295 1 0\n";
        assert_eq!(output(&input.to_bytes(), Counting::Recounted), expected);
    }
}
