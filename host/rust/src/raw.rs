//! The library's ten functions, over slices of any length and with their numbers: for tests and
//! measurements. A product needs only [`Engine`](crate::Engine). The C functions are declared here and
//! nowhere else in Rust.
//!
//! A borrowed slice has all that the library asks of a pointer and its length: it is not null, aligned,
//! live for the call, and overlaps no other where one of them is written.
#![allow(unsafe_code)]

use crate::Frame;

/// The length of a slice: splitter.h's `splitter_len`, 64 bits on every machine.
pub type Len = u64;

mod c {
    use super::{Frame, Len};

    extern "C" {
        pub fn splitter_start(
            numbers: *mut u32,
            numbers_len: Len,
            deques: *mut u32,
            deques_len: Len,
            frames: *mut Frame,
            places: Len,
            workers: u32,
            values: *const u32,
            values_len: Len,
            pool: *mut u32,
            pool_len: Len,
        ) -> u32;

        pub fn splitter_step(
            numbers: *mut u32,
            numbers_len: Len,
            deques: *mut u32,
            deques_len: Len,
            frames: *mut Frame,
            places: Len,
            pool: *mut u32,
            pool_len: Len,
            work: *mut u32,
            work_len: Len,
            kind: u32,
            worker: u32,
            field: u32,
            value: u32,
        ) -> u64;

        pub fn splitter_tape(
            numbers: *mut u32,
            numbers_len: Len,
            deques: *mut u32,
            deques_len: Len,
            frames: *mut Frame,
            places: Len,
            pool: *mut u32,
            pool_len: Len,
            work: *mut u32,
            work_len: Len,
            tape: *const u8,
            tape_len: Len,
            answers: *mut u32,
            answers_len: Len,
        ) -> u32;

        pub fn splitter_report(
            numbers: *mut u32,
            numbers_len: Len,
            deques: *mut u32,
            deques_len: Len,
            frames: *mut Frame,
            places: Len,
            workers: u32,
            values: *const u32,
            values_len: Len,
            pool: *mut u32,
            pool_len: Len,
            work: *mut u32,
            work_len: Len,
            tape: *const u8,
            tape_len: Len,
            answers: *mut u32,
            answers_len: Len,
            clocks: *mut u64,
            clocks_len: Len,
            report: *mut u64,
            report_len: Len,
        ) -> u32;

        pub fn splitter_save(
            numbers: *const u32,
            numbers_len: Len,
            deques: *const u32,
            deques_len: Len,
            frames: *const Frame,
            places: Len,
            pool: *const u32,
            pool_len: Len,
            work: *mut u32,
            work_len: Len,
            target: *mut u8,
            target_len: Len,
        ) -> u32;

        pub fn splitter_load(
            numbers: *mut u32,
            numbers_len: Len,
            deques: *mut u32,
            deques_len: Len,
            frames: *mut Frame,
            places: Len,
            pool: *mut u32,
            pool_len: Len,
            work: *mut u32,
            work_len: Len,
            image: *const u8,
            image_len: Len,
        ) -> u32;

        pub fn splitter_convert(
            numbers: *const u32,
            numbers_len: Len,
            deques: *const u32,
            deques_len: Len,
            frames: *const Frame,
            places: Len,
            pool: *mut u32,
            pool_len: Len,
            work: *mut u32,
            work_len: Len,
        ) -> u32;

        pub fn splitter_image_bytes(places: u32, nodes: u32) -> u64;

        pub fn splitter_tree_nodes(n: u32) -> u64;

        pub fn splitter_free_nodes(numbers: *const u32, numbers_len: Len, pool: *const u32, pool_len: Len) -> u64;
    }
}

fn len<T>(slice: &[T]) -> Len {
    slice.len() as Len
}

/// The state's two parts, as they are lent. One of another length than
/// [`State`](crate::State) has is refused by 99.
pub struct Parts<'a> {
    pub numbers: &'a mut [u32],
    pub deques: &'a mut [u32],
}

/// 0, or a refusal.
pub fn start(state: Parts, frames: &mut [Frame], workers: u32, values: &[u32], pool: &mut [u32]) -> u32 {
    // SAFETY: each pointer and length is a borrowed slice's.
    unsafe {
        c::splitter_start(
            state.numbers.as_mut_ptr(),
            len(state.numbers),
            state.deques.as_mut_ptr(),
            len(state.deques),
            frames.as_mut_ptr(),
            len(frames),
            workers,
            values.as_ptr(),
            len(values),
            pool.as_mut_ptr(),
            len(pool),
        )
    }
}

/// The fields are kind, worker, field and value. Gives the two answer words, or a refusal and 0.
pub fn step(state: Parts, frames: &mut [Frame], pool: &mut [u32], work: &mut [u32], fields: [u32; 4]) -> [u32; 2] {
    let [kind, worker, field, value] = fields;
    // SAFETY: each pointer and length is a borrowed slice's.
    let both = unsafe {
        c::splitter_step(
            state.numbers.as_mut_ptr(),
            len(state.numbers),
            state.deques.as_mut_ptr(),
            len(state.deques),
            frames.as_mut_ptr(),
            len(frames),
            pool.as_mut_ptr(),
            len(pool),
            work.as_mut_ptr(),
            len(work),
            kind,
            worker,
            field,
            value,
        )
    };
    [both as u32, (both >> 32) as u32]
}

/// 0, with two answer words for each record, or a refusal.
pub fn tape(
    state: Parts,
    frames: &mut [Frame],
    pool: &mut [u32],
    work: &mut [u32],
    tape: &[u8],
    answers: &mut [u32],
) -> u32 {
    // SAFETY: each pointer and length is a borrowed slice's.
    unsafe {
        c::splitter_tape(
            state.numbers.as_mut_ptr(),
            len(state.numbers),
            state.deques.as_mut_ptr(),
            len(state.deques),
            frames.as_mut_ptr(),
            len(frames),
            pool.as_mut_ptr(),
            len(pool),
            work.as_mut_ptr(),
            len(work),
            tape.as_ptr(),
            len(tape),
            answers.as_mut_ptr(),
            len(answers),
        )
    }
}

/// What a report is asked: a start's workers and values, and the tape.
#[derive(Clone, Copy)]
pub struct Asked<'a> {
    pub workers: u32,
    pub values: &'a [u32],
    pub tape: &'a [u8],
}

/// What a report writes beside state, table, pool and work. Clocks of another length than two words for each place, and
/// a report of another length than four, are refused by 99.
pub struct Told<'a> {
    pub answers: &'a mut [u32],
    pub clocks: &'a mut [u64],
    pub report: &'a mut [u64],
}

/// 0, with work, span, quotient and remainder in the report, or a refusal; by 22 the tape has run.
pub fn report(state: Parts, frames: &mut [Frame], pool: &mut [u32], work: &mut [u32], asked: Asked, told: Told) -> u32 {
    // SAFETY: each pointer and length is a borrowed slice's.
    unsafe {
        c::splitter_report(
            state.numbers.as_mut_ptr(),
            len(state.numbers),
            state.deques.as_mut_ptr(),
            len(state.deques),
            frames.as_mut_ptr(),
            len(frames),
            asked.workers,
            asked.values.as_ptr(),
            len(asked.values),
            pool.as_mut_ptr(),
            len(pool),
            work.as_mut_ptr(),
            len(work),
            asked.tape.as_ptr(),
            len(asked.tape),
            told.answers.as_mut_ptr(),
            len(told.answers),
            told.clocks.as_mut_ptr(),
            len(told.clocks),
            told.report.as_mut_ptr(),
            len(told.report),
        )
    }
}

/// 0, with the image in the front of the target, or a refusal.
pub fn save(state: Parts, frames: &[Frame], pool: &[u32], work: &mut [u32], target: &mut [u8]) -> u32 {
    // SAFETY: each pointer and length is a borrowed slice's.
    unsafe {
        c::splitter_save(
            state.numbers.as_ptr(),
            len(state.numbers),
            state.deques.as_ptr(),
            len(state.deques),
            frames.as_ptr(),
            len(frames),
            pool.as_ptr(),
            len(pool),
            work.as_mut_ptr(),
            len(work),
            target.as_mut_ptr(),
            len(target),
        )
    }
}

/// 0, with the image's state, table and pool, or a refusal.
pub fn load(state: Parts, frames: &mut [Frame], pool: &mut [u32], work: &mut [u32], image: &[u8]) -> u32 {
    // SAFETY: each pointer and length is a borrowed slice's.
    unsafe {
        c::splitter_load(
            state.numbers.as_mut_ptr(),
            len(state.numbers),
            state.deques.as_mut_ptr(),
            len(state.deques),
            frames.as_mut_ptr(),
            len(frames),
            pool.as_mut_ptr(),
            len(pool),
            work.as_mut_ptr(),
            len(work),
            image.as_ptr(),
            len(image),
        )
    }
}

/// 0, with present nodes in the front of the pool instead of old ones, or a refusal.
pub fn convert(state: Parts, frames: &[Frame], pool: &mut [u32], work: &mut [u32]) -> u32 {
    // SAFETY: each pointer and length is a borrowed slice's.
    unsafe {
        c::splitter_convert(
            state.numbers.as_ptr(),
            len(state.numbers),
            state.deques.as_ptr(),
            len(state.deques),
            frames.as_ptr(),
            len(frames),
            pool.as_mut_ptr(),
            len(pool),
            work.as_mut_ptr(),
            len(work),
        )
    }
}

/// The bytes of an image of so many places and nodes, any numbers.
pub fn image_bytes(places: u32, nodes: u32) -> u64 {
    // SAFETY: the function takes and gives numbers only.
    unsafe { c::splitter_image_bytes(places, nodes) }
}

/// T(n), for any n.
pub fn tree_nodes(n: u32) -> u64 {
    // SAFETY: the function takes and gives numbers only.
    unsafe { c::splitter_tree_nodes(n) }
}

/// The free nodes; 0 of numbers of another length, or of a pool with fewer nodes than recorded.
pub fn free_nodes(numbers: &[u32], pool: &[u32]) -> u64 {
    // SAFETY: each pointer and length is a borrowed slice's.
    unsafe { c::splitter_free_nodes(numbers.as_ptr(), len(numbers), pool.as_ptr(), len(pool)) }
}
