//! A comparison under way: makes each call on both sides and stops at the first difference.

use crate::call::{Call, Entry, Outcome};
use crate::changeover;
use crate::family;
use crate::layouts;
use crate::plain::{Refusal, RECORD_BYTES};
use crate::record::Recorder;
use crate::sharing::Sharing;
use crate::tables::Tables;
use crate::tally::Tally;
use crate::waits::Waits;

const NO_SPAN: u32 = Refusal::NoSpan as u32;

/// Why a comparison stopped.
pub type Failure = String;

pub struct Session {
    /// Guard words on each side of a lent slice.
    pub guard: usize,
    pub recorder: Option<Recorder>,
    pub tally: Tally,
    pub sharing: Sharing,
    pub waits: Waits,
    pub tables: Tables,
    pub families: family::Counts,
    pub layouts: layouts::Counts,
    pub changeovers: changeover::Counts,
    pub calls: u64,
    pub records: u64,
}

impl Session {
    pub fn new(guard: usize, recorder: Option<Recorder>) -> Session {
        Session {
            guard,
            recorder,
            tally: Tally::default(),
            sharing: Sharing::default(),
            waits: Waits::default(),
            tables: Tables::default(),
            families: family::Counts::default(),
            layouts: layouts::Counts::default(),
            changeovers: changeover::Counts::default(),
            calls: 0,
            records: 0,
        }
    }

    /// The call through the library and through plain.rs: what both leave, or how they differ.
    pub fn both(&mut self, call: &Call) -> Result<Outcome, Failure> {
        let plain = call.by_plain();
        let library = call
            .by_library(self.guard)
            .ok_or_else(|| format!("{call}: a word outside a slice has changed"))?;
        if let Some(difference) = library.difference(&plain) {
            return Err(format!("{call}: {difference}"));
        }
        if let Some(recorder) = &mut self.recorder {
            recorder
                .write(call, &plain)
                .map_err(|error| error.to_string())?;
        }
        self.count(call, &plain);
        Ok(plain)
    }

    fn count(&mut self, call: &Call, after: &Outcome) {
        self.calls += 1;
        self.tally.count(after.result);
        let ran = match call.entry {
            Entry::Tape { .. } => after.result[0] == 0,
            Entry::Report(_) => matches!(after.result[0], 0 | NO_SPAN),
            _ => false,
        };
        if ran {
            let records = call.bytes().len() / RECORD_BYTES;
            self.records += records as u64;
            let (answers, _) = after.answers.as_chunks::<2>();
            for &answer in &answers[..records] {
                self.tally.count(answer);
            }
        }
    }
}
