//! R-6's cases: the lengths of the runs' tables, and which of them a spawn found full.

use crate::plain::{Refusal, SPAWN};
use crate::replay::Taken;
use std::collections::BTreeMap;

const FULL: u32 = Refusal::FramesFull as u32;
/// Tables of these lengths must be met, and met full.
const LENGTHS: [u32; 7] = [1, 2, 63, 64, 65, 255, 256];

/// By the table's length: steps taken, and spawns refused by 13.
#[derive(Default)]
pub struct Tables(BTreeMap<u32, [u64; 2]>);

impl Tables {
    pub fn count(&mut self, taken: &Taken) {
        let full = taken.step[0] == SPAWN && taken.answer[0] == FULL;
        let [steps, refused] = self.0.entry(taken.before.places).or_default();
        *steps += 1;
        *refused += u64::from(full);
    }

    pub fn line(&self) -> String {
        let full = |places: &u32| format!("{places} {}", self.refused(*places));
        let full: Vec<String> = LENGTHS.iter().map(full).collect();
        format!(
            "tables of {} lengths; spawns in full ones, by places: {}",
            self.0.len(),
            full.join(", ")
        )
    }

    /// The lengths that were not met, or never full.
    pub fn missing(&self) -> Vec<u32> {
        let never = |places: &u32| self.refused(*places) == 0;
        LENGTHS.into_iter().filter(never).collect()
    }

    fn refused(&self, places: u32) -> u64 {
        self.0.get(&places).map_or(0, |counts| counts[1])
    }
}
