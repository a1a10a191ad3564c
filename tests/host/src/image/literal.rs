//! The image once more, byte by byte as document 02 says it, for clarity and not for speed. It shares no code with image.rs: soundness is
//! asked sentence by sentence, numbers are wide, and each byte of an image is said by its place.

use crate::parts::{Parts, LENGTHS};
use crate::sentences;

/// "The first word of an image has 256 added". "Each later change of the image adds 256 again and reads only its own form": R-5's is
/// the first, R-6's the second, R-8's the third ("Images have the new nodes").
const ADDED: u32 = 256 + 256 + 256 + 256;

/// 5 words, R-5's 4 totals, R-6's "length as a word before the deques".
const NUMBERS: usize = 5 + 4 + 1;

/// The numbers, 8 times a length and "that many .. deque places", "that many records" of 6, R-3's 1 and R-5's 5 words; "then the pool's
/// nodes", of two words.
fn words_of(places: u32, nodes: u32) -> u128 {
    let (places, nodes) = (u128::from(places), u128::from(nodes));
    NUMBERS as u128 + 8 * (1 + places) + places * (6 + 1 + 5) + nodes * 2
}

/// "blocks of 512 bytes: 508 of data": the least number of blocks whose data has room.
fn blocks_of(places: u32, nodes: u32) -> u128 {
    let data = 4 * words_of(places, nodes);
    data / 508 + u128::from(data % 508 != 0)
}

/// The bytes of an image of so many places and nodes, as it is saved.
pub fn image_bytes(places: u32, nodes: u32) -> u64 {
    (512 * blocks_of(places, nodes)) as u64
}

/// "the sum modulo 4,294,967,296 of each data byte times 256 raised to its offset modulo 4"
fn check_of(data: &[u8]) -> u64 {
    let mut sum = 0;
    for offset in 0..508 {
        sum += u64::from(data[offset]) * 256u64.pow(offset as u32 % 4);
    }
    sum % 4_294_967_296
}

/// "little-endian words": the byte of the data at this place, 0 after the last word.
fn data_byte(words: &[u32], place: usize) -> u8 {
    let word = words.get(place / 4).copied().unwrap_or(0);
    (word / 256u32.pow(place as u32 % 4) % 256) as u8
}

/// A whole image of these words.
fn written(words: &[u32], blocks: usize) -> Vec<u8> {
    let mut image = Vec::new();
    for block in 0..blocks {
        let data: Vec<u8> = (0..508)
            .map(|offset| data_byte(words, 508 * block + offset))
            .collect();
        let check = check_of(&data);
        image.extend(data);
        image.extend((0..4).map(|byte| (check / 256u64.pow(byte) % 256) as u8));
    }
    image
}

/// An image's data, without the checks.
fn data_of(image: &[u8]) -> Vec<u8> {
    let in_data = |place: &usize| place % 512 < 508;
    (0..image.len())
        .filter(in_data)
        .map(|place| image[place])
        .collect()
}

/// A word of the data.
fn word_at(data: &[u8], word: usize) -> u32 {
    (0..4)
        .map(|byte| u32::from(data[4 * word + byte]) * 256u32.pow(byte as u32))
        .sum()
}

fn whole(state: &Parts) -> bool {
    [state.numbers.len(), state.deques.len()] == LENGTHS
}

/// Whether they are sound; the work slice's first words, one for each recorded node, are zero afterwards.
fn sound(state: &Parts, pool: &[u32], work: &mut [u32]) -> bool {
    for node in 0..state.numbers[2] {
        work[node as usize] = 0;
    }
    sentences::broken(state, pool).is_empty()
}

/// Saving "checks 5, 6, 19".
pub fn save(state: &Parts, pool: &[u32], work: &mut [u32], target: &mut [u8]) -> u32 {
    if !whole(state) {
        return 99;
    }
    let nodes = state.numbers[2];
    if (work.len() as u128) < u128::from(nodes) {
        return 5;
    }
    if !sound(state, pool, work) {
        return 6;
    }
    let places = state.numbers[9];
    let blocks = blocks_of(places, nodes);
    if (target.len() as u128) < 512 * blocks {
        return 19;
    }
    let mut words = state.numbers.clone();
    words[0] += ADDED;
    for worker in 0..8 {
        words.extend((0..=places as usize).map(|at| state.deques[257 * worker + at]));
    }
    words.extend(&state.frames);
    words.extend(&pool[..2 * nodes as usize]);
    let image = written(&words, blocks as usize);
    (0..image.len()).for_each(|place| target[place] = image[place]);
    0
}

/// 17 and 18: the data of an image that has neither. "A first word of no readable form gives 17."
fn accepted(image: &[u8]) -> Result<Vec<u8>, u32> {
    if image.len() < 512 {
        return Err(17);
    }
    let first = word_at(image, 0);
    if !(ADDED..ADDED + 256).contains(&first) {
        return Err(17);
    }
    let (nodes, places) = (word_at(image, 2), word_at(image, 9));
    if image.len() as u128 != 512 * blocks_of(places, nodes) {
        return Err(17);
    }
    for block in 0..image.len() / 512 {
        let check = word_at(&image[512 * block + 508..], 0);
        if u64::from(check) != check_of(&image[512 * block..]) {
            return Err(18);
        }
    }
    let data = data_of(image);
    let rest = 4 * words_of(places, nodes) as usize;
    if (rest..data.len()).any(|place| data[place] != 0) {
        return Err(18);
    }
    Ok(data)
}

/// "a recorded length not 1 to 256, or a table of another length, is unsound", whatever else the image has; else its words, one by one.
fn read(state: &mut Parts, pool: &mut [u32], data: &[u8]) {
    for at in 0..NUMBERS {
        state.numbers[at] = word_at(data, at) - if at == 0 { ADDED } else { 0 };
    }
    let places = state.numbers[9] as usize;
    if places == 0 || places > 256 || state.frames.len() != 12 * places {
        return;
    }
    for worker in 0..8 {
        for at in 0..1 + places {
            state.deques[257 * worker + at] = word_at(data, NUMBERS + (1 + places) * worker + at);
        }
    }
    let records = NUMBERS + 8 * (1 + places);
    for at in 0..12 * places {
        state.frames[at] = word_at(data, records + at);
    }
    let nodes = (state.numbers[2] as usize).min(pool.len() / 2);
    for at in 0..2 * nodes {
        pool[at] = word_at(data, records + 12 * places + at);
    }
}

/// "reading checks 17, 18, 5, 6".
pub fn load(state: &mut Parts, pool: &mut [u32], work: &mut [u32], image: &[u8]) -> u32 {
    if !whole(state) {
        return 99;
    }
    let zeros = |words: &mut [u32], count: usize| (0..count).for_each(|at| words[at] = 0);
    zeros(&mut state.numbers, LENGTHS[0]);
    zeros(&mut state.deques, LENGTHS[1]);
    let data = match accepted(image) {
        Ok(data) => data,
        Err(refusal) => return refusal,
    };
    if work.len() < word_at(&data, 2) as usize {
        return 5;
    }
    read(state, pool, &data);
    if sound(state, pool, work) {
        return 0;
    }
    let (records, held) = (state.frames.len(), pool.len() / 2);
    zeros(&mut state.numbers, LENGTHS[0]);
    zeros(&mut state.deques, LENGTHS[1]);
    zeros(&mut state.frames, records);
    zeros(pool, 2 * held);
    6
}
