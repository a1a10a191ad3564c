//! R-1's saving and reading, as change them, in fast plain Rust, over the state of plain.rs: words are moved a run at a time,
//! those of a whole block by arrays of fixed length, and a check is summed in one of two ways. `tests/host/src/image.rs` says the same
//! without a thought of speed; the bench compares the two.

use host_tests::image::{self, Size, DATA_BYTES};
use host_tests::plain::{
    of_record, record, sound, Frame, Head, Refusal, State, View, FRAME_WORDS, NUMBERS_WORDS,
};
use splitter::NODE_WORDS;

/// Added to the workers in the first word; only this form is read.
const VERSION: u32 = 4 * 256;
/// The image is not just as many whole blocks as its first block calls for, has no whole block, or a first word of another form.
const NOT_ITS_BLOCKS: u32 = 17;
/// A check is wrong or the rest of the last block is not zero.
pub const WRONG_CHECK: u32 = 18;
/// The target is too short.
const SHORT_TARGET: u32 = 19;

/// How the check of a block is summed.
#[derive(Clone, Copy)]
pub enum Sum {
    /// Over its words; a save does so while it stores them.
    ByWords,
    /// Over its bytes, as image.rs does it; a save does so after all words are stored.
    ByBytes,
}

/// 0 with the image in the front of the target, or 5, 6, 19. Only to be measured it is also made without the soundness check.
pub fn save<const CHECKED: bool>(
    state: &State,
    pool: &[u32],
    work: &mut [u32],
    target: &mut [u8],
    sum: Sum,
) -> u32 {
    if work.len() < state.nodes as usize {
        return Refusal::ShortWork as u32;
    }
    if CHECKED && sound(state, pool, work).is_none() {
        return Refusal::Unsound as u32;
    }
    let Some(image) = target.get_mut(..image::bytes(size(state)) as usize) else {
        return SHORT_TARGET;
    };
    match sum {
        Sum::ByWords => write(state, pool, image, store_and_sum),
        Sum::ByBytes => {
            write(state, pool, image, store);
            write_checks(image);
        }
    }
    0
}

fn size(state: &State) -> Size {
    Size {
        places: state.places,
        nodes: state.nodes,
    }
}

/// 0 with the state, its table and the pool as saved, or 17, 18, 5, 6 and a state of zeros. Without the soundness check as a save.
pub fn load<const CHECKED: bool>(
    state: &mut State,
    pool: &mut [u32],
    work: &mut [u32],
    image: &[u8],
    sum: Sum,
) -> u32 {
    match take::<CHECKED>(state, pool, work, image, sum) {
        Ok(()) => 0,
        Err(refusal) => {
            state.head = Head::ZERO;
            refusal
        }
    }
}

fn take<const CHECKED: bool>(
    state: &mut State,
    pool: &mut [u32],
    work: &mut [u32],
    image: &[u8],
    sum: Sum,
) -> Result<(), u32> {
    let size = recorded(image)
        .filter(|&size| image::bytes(size) == image.len() as u64)
        .ok_or(NOT_ITS_BLOCKS)?;
    let right = match sum {
        Sum::ByWords => checks_right(image, by_words),
        Sum::ByBytes => checks_right(image, by_bytes),
    };
    let rest = rest(image, image::words(size) as usize);
    if !right || rest.iter().any(|&place| place != [0; 4]) {
        return Err(WRONG_CHECK);
    }
    if work.len() < size.nodes as usize {
        return Err(Refusal::ShortWork as u32);
    }
    read(state, pool, size, image);
    if CHECKED && sound(state, pool, work).is_none() {
        pool.as_chunks_mut::<NODE_WORDS>()
            .0
            .as_flattened_mut()
            .fill(0);
        state.frames.fill(Frame::default());
        return Err(Refusal::Unsound as u32);
    }
    Ok(())
}

/// A word in an image.
type Place = [u8; 4];
/// A block's words of data; the check follows them.
const DATA_WORDS: usize = DATA_BYTES / 4;
type Data = [Place; DATA_WORDS];
type Block = [Place; DATA_WORDS + 1];

/// A block's words go by runs of so many: of longer ones the compiler makes calls of memcpy.
const RUN: usize = 32;

fn blocks(image: &[u8]) -> &[Block] {
    image.as_chunks().0.as_chunks().0
}

fn blocks_mut(image: &mut [u8]) -> &mut [Block] {
    image.as_chunks_mut().0.as_chunks_mut().0
}

fn write_checks(image: &mut [u8]) {
    for [data @ .., check] in blocks_mut(image) {
        *check = by_bytes(data).to_le_bytes();
    }
}

fn checks_right(image: &[u8], sum: impl Fn(&Data) -> u32) -> bool {
    let mut blocks = blocks(image).iter();
    blocks.all(|[data @ .., check]| sum(data).to_le_bytes() == *check)
}

fn by_words(data: &Data) -> u32 {
    data.chunks(RUN).map(total).fold(0, u32::wrapping_add)
}

fn total(places: &[Place]) -> u32 {
    let words = places.iter().map(|&place| u32::from_le_bytes(place));
    words.fold(0, u32::wrapping_add)
}

fn by_bytes(data: &Data) -> u32 {
    image::check(data.as_flattened())
}

/// The nodes in the third word and the places in the tenth, if there is a whole block and the first word is of this form.
fn recorded(image: &[u8]) -> Option<Size> {
    let block = blocks(image).first()?;
    let [version, nodes, places] =
        [0, image::NODES, image::PLACES].map(|word| u32::from_le_bytes(block[word]));
    (version & !0xFF == VERSION).then_some(Size { places, nodes })
}

/// The data after so many words, which end in the last block.
fn rest(image: &[u8], words: usize) -> &[Place] {
    let blocks = blocks(image);
    let rest = blocks.len() * DATA_WORDS - words;
    match blocks {
        [.., [data @ .., _]] => &data[DATA_WORDS - rest..],
        [] => &[],
    }
}

/// Stores words, as many as places.
fn store(words: &[u32], places: &mut [Place]) -> u32 {
    for (place, word) in places.iter_mut().zip(words) {
        *place = word.to_le_bytes();
    }
    0
}

/// The same; their sum.
fn store_and_sum(words: &[u32], places: &mut [Place]) -> u32 {
    let mut sum: u32 = 0;
    for (place, &word) in places.iter_mut().zip(words) {
        *place = word.to_le_bytes();
        sum = sum.wrapping_add(word);
    }
    sum
}

/// Writes the words of the state, its table and its nodes, and zeros after them.
fn write<S: Fn(&[u32], &mut [Place]) -> u32>(
    state: &State,
    pool: &[u32],
    image: &mut [u8],
    store: S,
) {
    let mut writer = Writer {
        blocks: blocks_mut(image),
        filled: 0,
        sum: 0,
        store,
    };
    writer.put(&numbers(state));
    for deque in &state.deques {
        writer.put(&[deque.length]);
        writer.put(&deque.places[..state.places as usize]);
    }
    for frames in state.frames.chunks(FRAMES) {
        let mut words = [[0; FRAME_WORDS]; FRAMES];
        for (words, frame) in words.iter_mut().zip(frames) {
            *words = record(frame);
        }
        writer.put(words[..frames.len()].as_flattened());
    }
    writer.put(&pool[..NODE_WORDS * state.nodes as usize]);
    writer.end();
}

/// Frame records go by so many.
const FRAMES: usize = 64;

/// The numbers of the state, in an image's order.
fn numbers(state: &State) -> [u32; NUMBERS_WORDS] {
    let [sum, min, multiplier, addend] = state.totals.words();
    [
        state.workers + VERSION,
        state.splitters,
        state.nodes,
        state.free,
        state.vacant,
        sum,
        min,
        multiplier,
        addend,
        state.places,
    ]
}

struct Writer<'a, S> {
    /// Those that are not full; so many as the words need.
    blocks: &'a mut [Block],
    /// The words of data in the first of them, and their sum.
    filled: usize,
    sum: u32,
    store: S,
}

impl<S: Fn(&[u32], &mut [Place]) -> u32> Writer<'_, S> {
    fn put(&mut self, words: &[u32]) {
        let open = (DATA_WORDS - self.filled) % DATA_WORDS;
        let (first, words) = words.split_at(open.min(words.len()));
        let (whole, last) = words.as_chunks();
        self.part(first);
        self.whole(whole);
        self.part(last);
    }

    fn whole(&mut self, whole: &[[u32; DATA_WORDS]]) {
        let blocks = self.blocks.split_off_mut(..whole.len());
        let blocks = blocks.expect("the image holds the words");
        for (words, [data @ .., check]) in whole.iter().zip(blocks) {
            let runs = words.chunks(RUN).zip(data.chunks_mut(RUN));
            let sums = runs.map(|(words, places)| (self.store)(words, places));
            *check = sums.fold(0, u32::wrapping_add).to_le_bytes();
        }
    }

    /// No more words than the first block has room for.
    fn part(&mut self, words: &[u32]) {
        if words.is_empty() {
            return;
        }
        let [data @ .., check] = &mut self.blocks[0];
        let sum = (self.store)(words, &mut data[self.filled..][..words.len()]);
        self.sum = self.sum.wrapping_add(sum);
        self.filled += words.len();
        if self.filled == DATA_WORDS {
            *check = self.sum.to_le_bytes();
            (self.filled, self.sum) = (0, 0);
            self.blocks.split_off_first_mut();
        }
    }

    /// Zeros after the words.
    fn end(self) {
        if let [[data @ .., check], ..] = self.blocks {
            data[self.filled..].fill([0; 4]);
            *check = self.sum.to_le_bytes();
        }
    }
}

/// Reads an image of this size. A table of another length and a pool with fewer nodes stay as they are: the numbers alone make them
/// unsound.
fn read(state: &mut State, pool: &mut [u32], size: Size, image: &[u8]) {
    let mut reader = Reader {
        blocks: blocks(image),
        taken: 0,
    };
    let mut words = [0; NUMBERS_WORDS];
    reader.take(&mut words);
    set_numbers(state, &words);
    let places = size.places as usize;
    if state.frames.len() != places {
        return;
    }
    for deque in &mut state.deques {
        let Some((front, past)) = deque.places.split_at_mut_checked(places) else {
            return;
        };
        let mut length = [0];
        reader.take(&mut length);
        [deque.length] = length;
        reader.take(front);
        past.fill(0);
    }
    for frames in state.frames.chunks_mut(FRAMES) {
        let mut words = [[0; FRAME_WORDS]; FRAMES];
        reader.take(words[..frames.len()].as_flattened_mut());
        for (frame, words) in frames.iter_mut().zip(&words) {
            *frame = of_record(words);
        }
    }
    if let Some(front) = pool.get_mut(..NODE_WORDS * size.nodes as usize) {
        reader.take(front);
    }
}

/// The state's numbers are these words.
fn set_numbers(state: &mut State, words: &[u32; NUMBERS_WORDS]) {
    let [workers, splitters, nodes, free, vacant, totals @ .., places] = *words;
    state.workers = workers - VERSION;
    state.splitters = splitters;
    state.nodes = nodes;
    state.free = free;
    state.vacant = vacant;
    state.totals = View::of_words(totals);
    state.places = places;
}

/// Takes the words that these places hold.
fn fetch(words: &mut [u32], places: &[Place]) {
    for (word, &place) in words.iter_mut().zip(places) {
        *word = u32::from_le_bytes(place);
    }
}

struct Reader<'a> {
    /// Those that are not all taken; so many as the words need.
    blocks: &'a [Block],
    /// The words taken from the first of them.
    taken: usize,
}

impl Reader<'_> {
    fn take(&mut self, words: &mut [u32]) {
        let open = (DATA_WORDS - self.taken) % DATA_WORDS;
        let (first, words) = words.split_at_mut(open.min(words.len()));
        let (whole, last) = words.as_chunks_mut();
        self.part(first);
        self.whole(whole);
        self.part(last);
    }

    fn whole(&mut self, whole: &mut [[u32; DATA_WORDS]]) {
        let blocks = self.blocks.split_off(..whole.len());
        let blocks = blocks.expect("the image holds the words");
        for (words, [data @ .., _]) in whole.iter_mut().zip(blocks) {
            let runs = words.chunks_mut(RUN).zip(data.chunks(RUN));
            runs.for_each(|(words, places)| fetch(words, places));
        }
    }

    /// No more words than the first block has left.
    fn part(&mut self, words: &mut [u32]) {
        if words.is_empty() {
            return;
        }
        fetch(words, &self.blocks[0][self.taken..]);
        self.taken += words.len();
        if self.taken == DATA_WORDS {
            self.taken = 0;
            self.blocks.split_off_first();
        }
    }
}
