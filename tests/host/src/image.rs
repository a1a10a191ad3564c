//! R-1's image, as change it, in plain Rust: what a save writes and what a reading accepts, refuses and leaves. Written from
//! documents 01 and 02 alone.

#[cfg(test)]
mod before;
pub mod literal;
#[cfg(test)]
mod tests;

use crate::call::BAD_STATE;
use crate::parts::Parts;
use crate::plain::{
    self, Refusal, DEQUE_WORDS, FRAME_WORDS, MAX_WORKERS, NODE_WORDS, NUMBERS_WORDS,
};

pub const BLOCK_BYTES: usize = 512;
/// A block's bytes of data; the check follows them.
pub const DATA_BYTES: usize = 508;
const DATA_WORDS: u64 = 127;
/// The words of the workers, with the version, of the recorded nodes and of the recorded length of the frame table.
pub const WORKERS: usize = 0;
pub const NODES: usize = 2;
pub const PLACES: usize = 9;
/// The first word has the version times this added.
pub const PER_VERSION: u32 = 256;
/// The version that a save writes, and the only one that a reading takes.
pub const VERSION: u32 = 4;

/// The image is not just as many whole blocks as its first block calls for, has no whole block, or a first word of no readable form.
pub const NOT_ITS_BLOCKS: u32 = 17;
/// A check is wrong or the rest of the last block is not zero.
pub const WRONG_CHECK: u32 = 18;
/// The target is too short.
pub const SHORT_TARGET: u32 = 19;

/// What an image records of its size: the length of the frame table and the nodes.
#[derive(Clone, Copy, Debug, PartialEq, Eq)]
pub struct Size {
    pub places: u32,
    pub nodes: u32,
}

/// The first word of the frame records: after the numbers and, for each worker, its deque's length and so many places.
pub fn records(places: u32) -> u64 {
    NUMBERS_WORDS as u64 + MAX_WORKERS as u64 * (1 + u64::from(places))
}

/// The first word of the nodes.
pub fn first_node(places: u32) -> u64 {
    records(places) + FRAME_WORDS as u64 * u64::from(places)
}

/// The words of an image of this size, any numbers.
pub fn words(size: Size) -> u64 {
    first_node(size.places) + NODE_WORDS as u64 * u64::from(size.nodes)
}

/// Its bytes.
pub fn bytes(size: Size) -> u64 {
    words(size).div_ceil(DATA_WORDS) * BLOCK_BYTES as u64
}

/// The sum of each byte times 256 raised to its offset modulo 4.
pub fn check(data: &[u8]) -> u32 {
    let terms = data
        .iter()
        .enumerate()
        .map(|(offset, &byte)| u32::from(byte) << (8 * (offset % 4)));
    terms.fold(0, u32::wrapping_add)
}

/// Writes the words into whole blocks, with zeros after them.
pub fn put(words: impl IntoIterator<Item = u32>, target: &mut [u8]) {
    let mut words = words.into_iter();
    for block in target.chunks_exact_mut(BLOCK_BYTES) {
        let (data, sum) = block.split_at_mut(DATA_BYTES);
        for place in data.chunks_exact_mut(4) {
            place.copy_from_slice(&words.next().unwrap_or(0).to_le_bytes());
        }
        sum.copy_from_slice(&check(data).to_le_bytes());
    }
}

/// The words of an image's whole blocks.
pub fn get(image: &[u8]) -> impl Iterator<Item = u32> + '_ {
    let (blocks, _) = image.as_chunks::<BLOCK_BYTES>();
    let data = blocks.iter().flat_map(|block| block.as_chunks::<4>().0);
    let words = data.map(|&word| u32::from_le_bytes(word));
    // 127 words of data and one of the check
    words
        .enumerate()
        .filter(|(at, _)| at % 128 != 127)
        .map(|(_, word)| word)
}

/// What is recorded, if there is a whole block.
pub fn recorded(image: &[u8]) -> Option<Size> {
    let (nodes, places) = (get(image).nth(NODES)?, get(image).nth(PLACES)?);
    Some(Size { places, nodes })
}

/// Whether there is a whole block and its first word is of the readable form.
pub fn readable(image: &[u8]) -> bool {
    let first = get(image).nth(WORKERS);
    first.is_some_and(|first| first / PER_VERSION == VERSION)
}

/// The words of an image of this size, from those of a state, its table and its pool; zero where these have none.
pub fn image_words(state: &Parts, size: Size, pool: &[u32]) -> Vec<u32> {
    let (places, nodes) = (size.places as usize, size.nodes as usize);
    let mut words = state.numbers.clone();
    words[WORKERS] = words[WORKERS].wrapping_add(VERSION * PER_VERSION);
    let mut add = |part: &[u32], length: usize| {
        words.extend(part.iter().chain(std::iter::repeat(&0)).take(length));
    };
    for deque in state.deques.chunks(DEQUE_WORDS) {
        add(deque, 1 + places);
    }
    add(&state.frames, FRAME_WORDS * places);
    add(pool, NODE_WORDS * nodes);
    words
}

/// 0 with the image in the front of the target, or 99, 5, 6, 19.
pub fn save(state: &Parts, pool: &[u32], work: &mut [u32], target: &mut [u8]) -> u32 {
    let Some(typed) = state.state() else {
        return BAD_STATE;
    };
    let nodes = typed.nodes as usize;
    if work.len() < nodes {
        return Refusal::ShortWork as u32;
    }
    if plain::sound(&typed, pool, work).is_none() {
        return Refusal::Unsound as u32;
    }
    let size = Size {
        places: typed.places,
        nodes: typed.nodes,
    };
    match target.get_mut(..bytes(size) as usize) {
        Some(front) => {
            put(image_words(state, size, pool), front);
            0
        }
        None => SHORT_TARGET,
    }
}

/// 0 with the state, the table and the pool as saved, or 99, 17, 18, 5, 6. Refused by 99 nothing changes, else the state is zeros.
pub fn load(state: &mut Parts, pool: &mut [u32], work: &mut [u32], image: &[u8]) -> u32 {
    if state.state().is_none() {
        return BAD_STATE;
    }
    let refusal = take(state, pool, work, image);
    if refusal != 0 {
        state.clear();
    }
    refusal
}

fn take(state: &mut Parts, pool: &mut [u32], work: &mut [u32], image: &[u8]) -> u32 {
    let Some(size) = recorded(image).filter(|_| readable(image)) else {
        return NOT_ITS_BLOCKS;
    };
    if bytes(size) != image.len() as u64 {
        return NOT_ITS_BLOCKS;
    }
    let mut rest = get(image).skip(words(size) as usize);
    if !checks_right(image) || rest.any(|word| word != 0) {
        return WRONG_CHECK;
    }
    if work.len() < size.nodes as usize {
        return Refusal::ShortWork as u32;
    }
    read(size, state, pool, image);
    let sound = state
        .state()
        .and_then(|state| plain::sound(&state, pool, work));
    if sound.is_none() {
        let whole = pool.len() / NODE_WORDS * NODE_WORDS;
        pool[..whole].fill(0);
        state.frames.fill(0);
        return Refusal::Unsound as u32;
    }
    0
}

/// The words of the image in state, table and pool. A table of another length and a pool with fewer nodes stay as they are: the numbers
/// alone make them unsound.
fn read(size: Size, state: &mut Parts, pool: &mut [u32], image: &[u8]) {
    let mut words = get(image);
    let mut fill = |part: &mut [u32]| part.fill_with(|| words.next().unwrap_or(0));
    let places = size.places as usize;
    fill(&mut state.numbers);
    state.numbers[WORKERS] -= VERSION * PER_VERSION;
    state.deques.fill(0);
    if state.places() != places || places >= DEQUE_WORDS {
        return;
    }
    for deque in state.deques.chunks_mut(DEQUE_WORDS) {
        fill(&mut deque[..1 + places]);
    }
    fill(&mut state.frames);
    if let Some(front) = pool.get_mut(..NODE_WORDS * size.nodes as usize) {
        fill(front);
    }
}

fn checks_right(image: &[u8]) -> bool {
    image.chunks_exact(BLOCK_BYTES).all(|block| {
        let (data, sum) = block.split_at(DATA_BYTES);
        sum == check(data).to_le_bytes()
    })
}

/// The checks of all whole blocks, put right.
pub fn repair(image: &mut [u8]) {
    for block in image.chunks_exact_mut(BLOCK_BYTES) {
        let (data, sum) = block.split_at_mut(DATA_BYTES);
        sum.copy_from_slice(&check(data).to_le_bytes());
    }
}

/// Another word in an image, at its place among the words of data; the checks as they were.
pub fn set_word(image: &mut [u8], word: usize, value: u32) {
    let at = word / DATA_WORDS as usize * BLOCK_BYTES + word % DATA_WORDS as usize * 4;
    image[at..at + 4].copy_from_slice(&value.to_le_bytes());
}
