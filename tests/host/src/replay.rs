//! The accepted and refused steps of a call, one by one: a tape's records are taken again by plain.rs.

use crate::call::{Call, Entry, Outcome};
use crate::plain::{self, State, RECORD_BYTES};
use crate::steps::{self, StepWords};

/// A step with its answer, and the states around it.
pub struct Taken<'a> {
    pub step: StepWords,
    pub answer: [u32; 2],
    pub before: &'a State,
    pub after: &'a State,
}

impl Taken<'_> {
    pub fn accepted(&self) -> bool {
        self.answer[0] > 100
    }
}

/// Each step of a call that was not refused whole. Saves and readings have none.
pub fn each(call: &Call, after: &Outcome, mut see: impl FnMut(Taken)) {
    let Some(before) = call.state.state() else {
        return;
    };
    match &call.entry {
        &Entry::Step(step) => {
            if let Some(state) = after.state.state() {
                see(Taken {
                    step,
                    answer: after.result,
                    before: &before,
                    after: &state,
                });
            }
        }
        Entry::Tape { bytes, .. } if after.result[0] == 0 => {
            take_again(before, &call.pool, bytes, see)
        }
        _ => {}
    }
}

fn take_again(mut state: State, pool: &[u32], bytes: &[u8], mut see: impl FnMut(Taken)) {
    let (mut pool, mut work) = (pool.to_vec(), vec![0; state.nodes as usize]);
    let mut free_nodes = plain::sound(&state, &pool, &mut work).unwrap_or(0);
    let (records, _) = bytes.as_chunks::<RECORD_BYTES>();
    for record in records {
        let before = state.clone();
        let mut answer = [0; 2];
        free_nodes = plain::run_tape(&mut state, free_nodes, &mut pool, record, &mut answer);
        see(Taken {
            step: steps::words(*record),
            answer,
            before: &before,
            after: &state,
        });
    }
}
