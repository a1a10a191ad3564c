//! Calls and their outcomes written to a file, for sanitized.c to make them again. All but the bytes is little-endian words: the entry
//! (1 start, 2 step, 3 tape, 4 save, 5 load, 6 report, 7 convert), four words (the workers of a start or a report, or a step's entry), the two words of
//! the result, the values, the bytes (tape, target or image), then numbers, deques, frames, pool, work, answers, clocks and report, the last two of
//! 64 bits, as two words each. Each of these has its length in words of 32 bits first; all but the values are followed by what the call left
//! there. Calls with large pools are left out, for the file's size.

use crate::call::{Call, Entry, Outcome};
use std::fs::File;
use std::io::{BufWriter, Result, Write};

const LARGE_POOL: usize = 8_192;

pub struct Recorder(BufWriter<File>);

impl Recorder {
    pub fn create(path: &str) -> Result<Recorder> {
        Ok(Recorder(BufWriter::new(File::create(path)?)))
    }

    pub fn write(&mut self, call: &Call, after: &Outcome) -> Result<()> {
        if call.pool.len() > LARGE_POOL {
            return Ok(());
        }
        let (entry, arguments) = match call.entry {
            Entry::Start { workers, .. } => (1, [workers, 0, 0, 0]),
            Entry::Step(step) => (2, step),
            Entry::Tape { .. } => (3, [0; 4]),
            Entry::Save { .. } => (4, [0; 4]),
            Entry::Load { .. } => (5, [0; 4]),
            Entry::Report(ref asked) => (6, [asked.workers, 0, 0, 0]),
            Entry::Convert => (7, [0; 4]),
        };
        self.words(&[entry])?;
        self.words(&arguments)?;
        self.words(&after.result)?;
        self.slice(call.values())?;
        self.words(&[call.bytes().len() as u32])?;
        self.0.write_all(call.bytes())?;
        self.0.write_all(&after.bytes)?;
        let slices = [
            (call.state.numbers.as_slice(), &after.state.numbers),
            (&call.state.deques, &after.state.deques),
            (&call.state.frames, &after.state.frames),
            (&call.pool, &after.pool),
            (&call.work, &after.work),
            (call.answers(), &after.answers),
            (&halves(call.clocks()), &halves(&after.clocks)),
            (&halves(call.report()), &halves(&after.report)),
        ];
        for (before, after) in slices {
            self.slice(before)?;
            self.words(after)?;
        }
        Ok(())
    }

    fn slice(&mut self, words: &[u32]) -> Result<()> {
        self.words(&[words.len() as u32])?;
        self.words(words)
    }

    fn words(&mut self, words: &[u32]) -> Result<()> {
        words
            .iter()
            .try_for_each(|word| self.0.write_all(&word.to_le_bytes()))
    }

    pub fn finish(mut self) -> Result<()> {
        self.0.flush()
    }
}

/// Words of 64 bits, as words of 32.
fn halves(words: &[u64]) -> Vec<u32> {
    let both = |&word: &u64| [word as u32, (word >> 32) as u32];
    words.iter().flat_map(both).collect()
}
