//! Damaged images: bytes, blocks and words that are not what was saved, with checks that are wrong or put right again.
#![allow(clippy::ptr_arg)] // every damage has the type Change

use crate::corrupt::Pair;
use crate::image::{self, Size, BLOCK_BYTES, DATA_BYTES, PER_VERSION, VERSION, WORKERS};
use crate::layouts;
use crate::parts::Parts;
use crate::plain::{DEQUE_WORDS, FRAME_WORDS, MAX_NODES, MAX_PLACES, NODE_WORDS};
use crate::random::Random;

/// What a damaged image is made from.
pub struct Source {
    pub image: Vec<u8>,
    /// The same in a form from before R-6, and in that from before R-8.
    pub before: Vec<u8>,
    pub third: Vec<u8>,
    /// Saved some steps earlier in the same run.
    pub older: Vec<u8>,
    /// Saved in another run.
    pub other: Vec<u8>,
}

/// Damages an image; None if it offers no place for it.
type Change = fn(&mut Vec<u8>, &Source, &Random) -> Option<()>;

pub struct Damage {
    pub name: &'static str,
    /// What a reading may answer, with slices that are long enough; nothing listed: anything.
    pub answers: &'static [u32],
    pub change: Change,
}

const fn damage(name: &'static str, answers: &'static [u32], change: Change) -> Damage {
    Damage {
        name,
        answers,
        change,
    }
}

/// No images have more nodes than this, but where they record more than they have.
pub const MOST_NODES: usize = MAX_NODES + 100;
/// Nor more places.
pub const MOST_PLACES: usize = MAX_PLACES + 60;

pub const DAMAGES: [Damage; 58] = [
    damage("none", &[0], |_, _, _| Some(())),
    damage("a bit", &[17, 18], bit),
    damage("a byte", &[17, 18], byte),
    damage("bits", &[], bits),
    damage("a burst", &[], burst),
    damage("a check", &[18], check),
    damage("checks big-endian", &[0, 18], checks_big_endian),
    damage("checks without powers", &[0, 18], checks_without_powers),
    damage("checks over 512 bytes", &[0, 18], checks_over_512),
    damage("blocks cut", &[17], blocks_cut),
    damage("a block cut out", &[], block_cut_out),
    damage("bytes cut", &[17], bytes_cut),
    damage("a block added", &[17], block_added),
    damage("bytes added", &[17], bytes_added),
    damage("blocks swapped", &[], blocks_swapped),
    damage("a block repeated", &[], block_repeated),
    damage("stale blocks", &[0, 6], stale_blocks),
    damage("torn", &[0, 6], torn),
    damage("older", &[0], older),
    damage("another run", &[0], another_run),
    damage("another run's length", &[0, 17], another_length),
    damage("runs mixed", &[], runs_mixed),
    damage("garbage", &[17, 18], garbage),
    damage("garbage, right length", &[18], garbage_called_for),
    damage("garbage, right checks", &[6, 18], garbage_checked),
    damage("zeros", &[17], zeros),
    damage("zeros of the form", &[6, 17], zeros_of_the_form),
    damage("nodes lied", &[6, 17, 18], nodes_lied),
    damage("nodes lied wildly", &[17], nodes_lied_wildly),
    damage("nodes wrapped", &[17], nodes_wrapped),
    damage("nodes fewer", &[6], nodes_fewer),
    damage("nodes more", &[6], nodes_more),
    damage("places lied", &[6, 17, 18], places_lied),
    damage("places lied wildly", &[17], places_lied_wildly),
    damage("places wrapped", &[17], places_wrapped),
    damage("places fewer", &[6], places_fewer),
    damage("places more", &[6], places_more),
    damage("a word, right check", &[], word_checked),
    damage("words swapped", &[], words_swapped),
    damage("sum kept", &[0, 6], sum_kept),
    damage("sum kept, at an edge", &[0, 6, 17, 18], sum_kept_at_edge),
    damage("rest not zero", &[18], rest_not_zero),
    damage("big-endian", &[], big_endian),
    damage("no checks", &[17, 18], no_checks),
    damage("a form from before", &[17], form_from_before),
    damage("first word", &[0, 6, 17], first_word),
    damage("first word, no version", &[17], first_word_of_no_version),
    damage("version lied", &[6, 17, 18], version_lied),
    damage("version lied, fitting", &[6], version_lied_fitting),
    damage("four-word nodes", &[17], four_word_nodes),
    damage(
        "four-word nodes, lied",
        &[0, 6, 17, 18],
        four_word_nodes_lied,
    ),
    damage("four words, fitting", &[0, 6], four_word_nodes_fitting),
    damage("a node's first word", &[6], node_first_word),
    damage("a node's second word", &[0, 6], node_second_word),
    damage("a seventh word", &[0, 6], seventh_word),
    damage("a view word", &[0, 6], view_word),
    damage("a link", &[6], sibling_link),
    damage("a total", &[0, 6], total),
];

/// The image of a pair, sound or not: of as many places and nodes as it records, zero where table and pool have none. Of the table's places
/// and the pool's nodes, if it records far too many.
pub fn image_of(pair: &Pair) -> Vec<u8> {
    let (state, size) = (Parts::of(&pair.state), size_of(pair));
    let mut image = vec![0; image::bytes(size) as usize];
    image::put(image::image_words(&state, size, &pair.pool), &mut image);
    image
}

/// The places and nodes of a pair's image.
fn size_of(pair: &Pair) -> Size {
    let within = |recorded: u32, most: usize, there: usize| {
        if recorded as usize <= most {
            recorded
        } else {
            there as u32
        }
    };
    Size {
        places: within(pair.state.places, MOST_PLACES, pair.state.frames.len()),
        nodes: within(pair.state.nodes, MOST_NODES, pair.pool.len() / NODE_WORDS),
    }
}

/// Places of an image from before.
const PLACES_BEFORE: usize = 64;

/// Numbers, and words to a frame record, of the forms before: versions 0 to 3.
const BEFORE: [(usize, usize); 4] = [(5, 6), (5, 7), (9, 12), (10, 12)];
/// The last of them, with the length of the table.
const THIRD: u32 = 3;

/// The image of a sound pair in a form from before, with four words to a node; before R-6 with 64 places, zero where the table has none.
pub fn image_before(pair: &Pair, version: u32) -> Vec<u8> {
    let (numbers, frame_words) = BEFORE[version as usize];
    let mut state = Parts::of(&pair.state);
    let places = match version {
        THIRD => state.places(),
        _ => PLACES_BEFORE,
    };
    state.frames.resize(places * FRAME_WORDS, 0);
    let mut words = state.numbers[..numbers].to_vec();
    words[WORKERS] += version * PER_VERSION;
    for deque in state.deques.chunks(DEQUE_WORDS) {
        words.extend(&deque[..1 + places]);
    }
    for record in state.frames.chunks(FRAME_WORDS) {
        words.extend(&record[..frame_words]);
    }
    words.extend(layouts::unpack(&pair.state, &pair.pool).unwrap_or_default());
    let mut image = vec![0; words.len().div_ceil(127) * BLOCK_BYTES];
    image::put(words, &mut image);
    image
}

fn blocks(image: &[u8]) -> usize {
    image.len() / BLOCK_BYTES
}

fn block(image: &mut [u8], number: usize) -> &mut [u8] {
    &mut image[number * BLOCK_BYTES..][..BLOCK_BYTES]
}

fn some_block(image: &[u8], random: &Random) -> Option<usize> {
    (blocks(image) > 0).then(|| random.below(blocks(image)))
}

fn random_bytes(count: usize, random: &Random) -> Vec<u8> {
    (0..count).map(|_| random.word() as u8).collect()
}

fn some_byte<'a>(image: &'a mut [u8], random: &Random) -> Option<&'a mut u8> {
    let length = image.len();
    (length > 0).then(|| &mut image[random.below(length)])
}

fn bit(image: &mut Vec<u8>, _: &Source, random: &Random) -> Option<()> {
    *some_byte(image, random)? ^= 1 << random.below(8);
    Some(())
}

fn byte(image: &mut Vec<u8>, _: &Source, random: &Random) -> Option<()> {
    let byte = some_byte(image, random)?;
    *byte = byte.wrapping_add(1 + random.below(255) as u8);
    Some(())
}

fn bits(image: &mut Vec<u8>, source: &Source, random: &Random) -> Option<()> {
    (0..2 + random.below(5)).try_for_each(|_| bit(image, source, random))
}

fn burst(image: &mut Vec<u8>, _: &Source, random: &Random) -> Option<()> {
    let length = 2 + random.below(600);
    let first = random.below(image.len().checked_sub(length)? + 1);
    image[first..first + length].copy_from_slice(&random_bytes(length, random));
    Some(())
}

fn check(image: &mut Vec<u8>, _: &Source, random: &Random) -> Option<()> {
    let number = some_block(image, random)?;
    let check = &mut block(image, number)[DATA_BYTES..];
    let byte = random.below(4);
    check[byte] = check[byte].wrapping_add(1 + random.below(255) as u8);
    Some(())
}

fn each_check(image: &mut [u8], check: impl Fn(&[u8], [u8; 4]) -> [u8; 4]) -> Option<()> {
    let (blocks, _) = image.as_chunks_mut::<BLOCK_BYTES>();
    for block in blocks {
        let (data, old) = block.split_at_mut(DATA_BYTES);
        let new = check(data, old.try_into().ok()?);
        old.copy_from_slice(&new);
    }
    Some(())
}

fn checks_big_endian(image: &mut Vec<u8>, _: &Source, _: &Random) -> Option<()> {
    each_check(image, |_, [a, b, c, d]| [d, c, b, a])
}

fn checks_without_powers(image: &mut Vec<u8>, _: &Source, _: &Random) -> Option<()> {
    let sum = |data: &[u8]| data.iter().map(|&byte| u32::from(byte)).sum::<u32>();
    each_check(image, |data, _| sum(data).to_le_bytes())
}

/// A check that has itself among its bytes, as it was.
fn checks_over_512(image: &mut Vec<u8>, _: &Source, _: &Random) -> Option<()> {
    each_check(image, |data, old| {
        let sum = image::check(data).wrapping_add(u32::from_le_bytes(old));
        sum.to_le_bytes()
    })
}

fn blocks_cut(image: &mut Vec<u8>, _: &Source, random: &Random) -> Option<()> {
    let left = some_block(image, random)?;
    image.truncate(left * BLOCK_BYTES);
    Some(())
}

fn block_cut_out(image: &mut Vec<u8>, _: &Source, random: &Random) -> Option<()> {
    let first = some_block(image, random)? * BLOCK_BYTES;
    image.drain(first..first + BLOCK_BYTES);
    Some(())
}

fn bytes_cut(image: &mut Vec<u8>, _: &Source, random: &Random) -> Option<()> {
    let left = image.len().checked_sub(1 + random.below(BLOCK_BYTES - 1))?;
    image.truncate(left);
    Some(())
}

/// After the first block: a copy of another, zeros or garbage.
fn block_added(image: &mut Vec<u8>, _: &Source, random: &Random) -> Option<()> {
    let number = some_block(image, random)?;
    let new = match random.below(3) {
        0 => block(image, number).to_vec(),
        1 => vec![0; BLOCK_BYTES],
        _ => random_bytes(BLOCK_BYTES, random),
    };
    let at = (1 + random.below(blocks(image))) * BLOCK_BYTES;
    image.splice(at..at, new);
    Some(())
}

fn bytes_added(image: &mut Vec<u8>, _: &Source, random: &Random) -> Option<()> {
    let more = 1 + random.below(BLOCK_BYTES - 1);
    image.extend(random_bytes(more, random));
    Some(())
}

fn blocks_swapped(image: &mut Vec<u8>, _: &Source, random: &Random) -> Option<()> {
    let (one, two) = (some_block(image, random)?, some_block(image, random)?);
    let old = block(image, one).to_vec();
    image.copy_within(
        two * BLOCK_BYTES..(two + 1) * BLOCK_BYTES,
        one * BLOCK_BYTES,
    );
    block(image, two).copy_from_slice(&old);
    Some(())
}

fn block_repeated(image: &mut Vec<u8>, _: &Source, random: &Random) -> Option<()> {
    let (from, to) = (some_block(image, random)?, some_block(image, random)?);
    image.copy_within(
        from * BLOCK_BYTES..(from + 1) * BLOCK_BYTES,
        to * BLOCK_BYTES,
    );
    Some(())
}

/// Each block with one chance in so many from another image, where that has it.
fn mix(image: &mut [u8], from: &[u8], chances: usize, random: &Random) -> Option<()> {
    for number in 0..blocks(image).min(blocks(from)) {
        if random.one_in(chances) {
            let at = number * BLOCK_BYTES..(number + 1) * BLOCK_BYTES;
            image[at.clone()].copy_from_slice(&from[at]);
        }
    }
    Some(())
}

fn stale_blocks(image: &mut Vec<u8>, source: &Source, random: &Random) -> Option<()> {
    mix(image, &source.older, random.pick(&[2, 8]), random)
}

/// The front of one image, the rest of the other: a save that did not end.
fn torn(image: &mut Vec<u8>, source: &Source, random: &Random) -> Option<()> {
    let at = some_block(image, random)? * BLOCK_BYTES;
    let older = source.older.get(at..image.len())?;
    image[at..].copy_from_slice(older);
    Some(())
}

fn older(image: &mut Vec<u8>, source: &Source, _: &Random) -> Option<()> {
    image.clone_from(&source.older);
    Some(())
}

fn another_run(image: &mut Vec<u8>, source: &Source, _: &Random) -> Option<()> {
    image.clone_from(&source.other);
    Some(())
}

fn another_length(image: &mut Vec<u8>, source: &Source, random: &Random) -> Option<()> {
    let length = image.len();
    image.clone_from(&source.other);
    image.truncate(length);
    let more = length - image.len();
    image.extend(match random.below(2) {
        0 => vec![0; more],
        _ => random_bytes(more, random),
    });
    Some(())
}

fn runs_mixed(image: &mut Vec<u8>, source: &Source, random: &Random) -> Option<()> {
    mix(image, &source.other, random.pick(&[2, 8]), random)
}

fn garbage(image: &mut Vec<u8>, _: &Source, random: &Random) -> Option<()> {
    let lengths = [
        0,
        1,
        511,
        512,
        513,
        4_095,
        4_096,
        4_097,
        random.below(9_000),
    ];
    *image = random_bytes(random.pick(&lengths), random);
    Some(())
}

/// Random bytes, but just as many blocks as they call for.
fn garbage_called_for(image: &mut Vec<u8>, _: &Source, random: &Random) -> Option<()> {
    let size = Size {
        places: random.pick(&[0, 1, 2, 64, 256, 257, random.word_below(300)]),
        nodes: random.word_below(200),
    };
    *image = random_bytes(image::bytes(size) as usize, random);
    let workers = random.word_below(random.pick(&[9, PER_VERSION]));
    image::set_word(image, WORKERS, workers + VERSION * PER_VERSION);
    set_size(image, size);
    Some(())
}

fn garbage_checked(image: &mut Vec<u8>, source: &Source, random: &Random) -> Option<()> {
    garbage_called_for(image, source, random)?;
    if random.one_in(2) {
        clear_rest(image);
    }
    image::repair(image);
    Some(())
}

fn set_size(image: &mut [u8], size: Size) {
    image::set_word(image, image::PLACES, size.places);
    image::set_word(image, image::NODES, size.nodes);
}

/// Zeros in the words after the recorded nodes.
fn clear_rest(image: &mut [u8]) {
    let first = image::recorded(image).map_or(0, image::words) as usize;
    for word in first..blocks(image) * 127 {
        image::set_word(image, word, 0);
    }
}

fn zeros(image: &mut Vec<u8>, _: &Source, random: &Random) -> Option<()> {
    *image = vec![0; random.pick(&[0, 1, 8, 10, 11, 11, 12]) * BLOCK_BYTES];
    Some(())
}

/// Zeros but for the first word and its check.
fn zeros_of_the_form(image: &mut Vec<u8>, _: &Source, random: &Random) -> Option<()> {
    *image = vec![0; random.pick(&[1, 1, 2, 10, 11]) * BLOCK_BYTES];
    let workers = random.word_below(3);
    image::set_word(image, WORKERS, workers + VERSION * PER_VERSION);
    image::repair(image);
    Some(())
}

/// Records other numbers, with the checks right, and the length as it was.
fn record(image: &mut [u8], size: Size) -> Option<()> {
    let old = image::recorded(image)?;
    set_size(image, size);
    image::repair(image);
    (size != old).then_some(())
}

fn record_nodes(image: &mut [u8], nodes: u32) -> Option<()> {
    let old = image::recorded(image)?;
    record(image, Size { nodes, ..old })
}

fn record_places(image: &mut [u8], places: u32) -> Option<()> {
    let old = image::recorded(image)?;
    record(image, Size { places, ..old })
}

/// A number near the old one, or a small one.
fn lie(old: u32, random: &Random) -> u32 {
    let near = random.word_below(40);
    let (less, more) = (old.wrapping_sub(1), old.wrapping_add(1));
    random.pick(&[
        0,
        1,
        less,
        more,
        old.wrapping_sub(near),
        old.wrapping_add(near),
    ])
}

fn nodes_lied(image: &mut Vec<u8>, _: &Source, random: &Random) -> Option<()> {
    let old = image::recorded(image)?.nodes;
    record_nodes(image, lie(old, random))
}

fn places_lied(image: &mut Vec<u8>, _: &Source, random: &Random) -> Option<()> {
    let old = image::recorded(image)?.places;
    record_places(image, lie(old, random))
}

/// So many nodes take just 2^32 bytes of an image.
const WRAP_BYTES: u32 = 127 << 22;

/// Numbers that are not far from the truth in arithmetic of 32 bits.
fn nodes_lied_wildly(image: &mut Vec<u8>, _: &Source, random: &Random) -> Option<()> {
    let old = image::recorded(image)?.nodes;
    let wrapped = old.wrapping_add(random.pick(&[1 << 31, 1 << 31, 1 << 30, 3 << 30]));
    let wrapped_bytes = old.wrapping_add((1 + random.word_below(8)) * WRAP_BYTES);
    let far = 1 << 20 | random.word();
    let lies = [
        u32::MAX,
        u32::MAX - 1,
        1 << 31,
        wrapped,
        wrapped,
        wrapped_bytes,
        far,
    ];
    record_nodes(image, random.pick(&lies))
}

/// The same of the places, of 20 words each.
fn places_lied_wildly(image: &mut Vec<u8>, _: &Source, random: &Random) -> Option<()> {
    let old = image::recorded(image)?.places;
    let wrapped = old.wrapping_add((1 + random.word_below(3)) << 30);
    let far = 1 << 20 | random.word();
    let lies = [u32::MAX, u32::MAX - 1, 1 << 31, wrapped, wrapped, far];
    record_places(image, random.pick(&lies))
}

/// A few blocks, and a number of nodes that calls for as many if its words are counted modulo 2^32.
fn nodes_wrapped(image: &mut Vec<u8>, _: &Source, random: &Random) -> Option<()> {
    let size = recorded_within(image)?;
    let state = image::first_node(size.places) as u32; // even
    let words = 2 + 2 * random.word_below(state / 2 - 1);
    let half = random.word_below(2) << 31;
    let nodes = (words.wrapping_sub(state) / 2).wrapping_add(half);
    image.resize(words.div_ceil(127) as usize * BLOCK_BYTES, 0);
    record_nodes(image, nodes)
}

/// Times five it is 1, modulo 2^32.
const FIFTH: u32 = 0xCCCC_CCCD;

/// The same by a number of places: 20 times it, 18 and twice the nodes are a few words modulo 2^32.
fn places_wrapped(image: &mut Vec<u8>, _: &Source, random: &Random) -> Option<()> {
    let size = recorded_within(image)?;
    let others = 18 + 2 * size.nodes;
    let words = others % 4 + 4 * (1 + random.word_below(1_000));
    let fours = words.wrapping_sub(others) / 4;
    let quarter = random.word_below(4) << 30;
    let places = (fours.wrapping_mul(FIFTH) & 0x3FFF_FFFF).wrapping_add(quarter);
    image.resize(words.div_ceil(127) as usize * BLOCK_BYTES, 0);
    (places as usize > MOST_PLACES).then_some(())?;
    record_places(image, places)
}

/// What is recorded, if an image has as much.
fn recorded_within(image: &[u8]) -> Option<Size> {
    let within =
        |size: &Size| size.places as usize <= MOST_PLACES && size.nodes as usize <= MOST_NODES;
    image::recorded(image).filter(within)
}

/// The image with another size, and all else as it calls for: words are cut at the end or zeros come there.
fn fit(image: &mut Vec<u8>, size: Size) {
    image.resize(image::bytes(size) as usize, 0);
    set_size(image, size);
    clear_rest(image);
    image::repair(image);
}

/// Fewer nodes, and all else as they call for.
fn nodes_fewer(image: &mut Vec<u8>, _: &Source, random: &Random) -> Option<()> {
    let size = recorded_within(image).filter(|size| size.nodes > 0)?;
    let old = size.nodes;
    let nodes = random.pick(&[0, old - 1, random.word_below(old)]);
    fit(image, Size { nodes, ..size });
    Some(())
}

/// More nodes, of zeros or of any words, and all else as they call for.
fn nodes_more(image: &mut Vec<u8>, _: &Source, random: &Random) -> Option<()> {
    let size = recorded_within(image).filter(|size| (size.nodes as usize) < MOST_NODES)?;
    let nodes = match random.below(500) {
        0 => MAX_NODES as u32 + random.word_below(2),
        _ => (size.nodes + 1 + random.word_below(40)).min(MOST_NODES as u32),
    };
    let more = Size { nodes, ..size };
    let length = image::bytes(more) as usize;
    image.resize(length.max(image.len()), 0);
    if random.one_in(2) {
        let [from, to] = [
            image::words(size).min(image::words(more)),
            image::words(more),
        ];
        (from..to).for_each(|word| image::set_word(image, word as usize, random.word()));
    }
    image.truncate(length);
    record(image, more)
}

/// The words of an image of this size after the numbers, as those of another number of places: each deque and the table are cut at the
/// end, or zeros come there.
fn relaid(image: &[u8], old: Size, places: u32) -> Vec<u32> {
    let words: Vec<u32> = image::get(image).collect();
    let [from, to] = [old.places, places].map(|places| places as usize);
    let records = image::records(old.places) as usize;
    let (numbers, rest) = words[..image::words(old) as usize].split_at(image::PLACES + 1);
    let (deques, frames) = rest.split_at(records - numbers.len());
    let (frames, nodes) = frames.split_at(from * FRAME_WORDS);
    let fitted = |part: &[u32], length: usize| {
        let mut part = part.to_vec();
        part.resize(length, 0);
        part
    };
    let mut relaid = numbers.to_vec();
    for deque in deques.chunks(1 + from) {
        relaid.extend(fitted(deque, 1 + to));
    }
    relaid.extend(fitted(frames, to * FRAME_WORDS));
    relaid.extend(nodes);
    relaid[image::PLACES] = places;
    relaid
}

/// Another number of places, and all words where they belong then.
fn relay(image: &mut Vec<u8>, size: Size, places: u32) {
    let words = relaid(image, size, places);
    *image = vec![0; image::bytes(Size { places, ..size }) as usize];
    image::put(words, image);
}

/// What is recorded, if the image has it all.
fn recorded_there(image: &[u8]) -> Option<Size> {
    recorded_within(image).filter(|&size| image::bytes(size) == image.len() as u64)
}

/// Fewer places, all words where they belong then. What was in the others is missed: a frame, or a link of the free chain.
fn places_fewer(image: &mut Vec<u8>, _: &Source, random: &Random) -> Option<()> {
    let size = recorded_there(image).filter(|size| size.places > 0)?;
    let old = size.places;
    relay(
        image,
        size,
        random.pick(&[0, old - 1, random.word_below(old)]),
    );
    Some(())
}

/// More places, of zeros: they lie on no chain.
fn places_more(image: &mut Vec<u8>, _: &Source, random: &Random) -> Option<()> {
    let most = MOST_PLACES as u32;
    let size = recorded_there(image).filter(|size| size.places < most)?;
    let more = [1, 1, 1 + random.word_below(most - size.places)];
    relay(image, size, size.places + random.pick(&more));
    Some(())
}

fn word_checked(image: &mut Vec<u8>, _: &Source, random: &Random) -> Option<()> {
    let word = some_block(image, random)? * 127 + random.below(127);
    let old = image::get(image).nth(word)?;
    let news = [
        0,
        1,
        2,
        u32::MAX,
        old ^ 1 << random.below(32),
        random.word(),
    ];
    image::set_word(image, word, random.pick(&news));
    image::repair(image);
    Some(())
}

/// Two words of a block, which its check cannot tell.
fn words_swapped(image: &mut Vec<u8>, _: &Source, random: &Random) -> Option<()> {
    let number = some_block(image, random)?;
    let (words, _) = block(image, number)[..DATA_BYTES].as_chunks_mut::<4>();
    words.swap(random.below(127), random.below(127));
    Some(())
}

/// As much added to a word as is taken from another of its block, modulo 2^32: the block's check is still right.
fn keep_sum(image: &mut [u8], word: usize, other: usize, random: &Random) -> Option<()> {
    let much = random.pick(&[1, 2, 256, 1 << 31, u32::MAX, random.word()]);
    let old = [word, other].map(|word| image::get(image).nth(word));
    image::set_word(image, word, old[0]?.wrapping_add(much));
    image::set_word(image, other, old[1]?.wrapping_sub(much));
    (word != other && much != 0).then_some(())
}

/// The place of the first word in the rest of the last block, by the recorded nodes.
fn first_of_rest(image: &[u8]) -> Option<usize> {
    Some(image::words(image::recorded(image)?) as usize)
}

/// Neither word is the image's first, or records a number, or is in the rest of the last block.
fn sum_kept(image: &mut Vec<u8>, _: &Source, random: &Random) -> Option<()> {
    let (first, rest) = (some_block(image, random)? * 127, first_of_rest(image)?);
    let settled = [WORKERS, image::NODES, image::PLACES];
    let held = |&word: &usize| word < rest && !settled.contains(&word);
    let words: Vec<usize> = (first..first + 127).filter(held).collect();
    keep_sum(image, random.some(&words)?, random.some(&words)?, random)
}

/// One of the two is.
fn sum_kept_at_edge(image: &mut Vec<u8>, _: &Source, random: &Random) -> Option<()> {
    let rest: Vec<usize> = (first_of_rest(image)?..blocks(image) * 127).collect();
    let word = match random.below(4) {
        0 => WORKERS,
        1 => image::NODES,
        2 => image::PLACES,
        _ => random.some(&rest)?,
    };
    keep_sum(image, word, word / 127 * 127 + random.below(127), random)
}

fn rest_not_zero(image: &mut Vec<u8>, _: &Source, random: &Random) -> Option<()> {
    let first = first_of_rest(image)?;
    let rest = (blocks(image) * 127).checked_sub(first)?;
    let word = first + (rest > 0).then(|| random.below(rest))?;
    image::set_word(image, word, 1 << random.below(32));
    if !random.one_in(4) {
        image::repair(image);
    }
    Some(())
}

fn big_endian(image: &mut Vec<u8>, _: &Source, random: &Random) -> Option<()> {
    for block in image.chunks_exact_mut(BLOCK_BYTES) {
        block
            .as_chunks_mut::<4>()
            .0
            .iter_mut()
            .for_each(|word| word.reverse());
    }
    if random.one_in(2) {
        image::repair(image);
    }
    Some(())
}

/// The words one after the other, with no checks between them.
fn no_checks(image: &mut Vec<u8>, _: &Source, _: &Random) -> Option<()> {
    let length = image.len();
    *image = image::get(image).flat_map(u32::to_le_bytes).collect();
    image.resize(length, 0);
    Some(())
}

fn form_from_before(image: &mut Vec<u8>, source: &Source, _: &Random) -> Option<()> {
    image.clone_from(&source.before);
    Some(())
}

/// Another first word, with the checks right.
fn set_first(image: &mut [u8], first: u32) -> Option<()> {
    let old = image::get(image).nth(WORKERS)?;
    image::set_word(image, WORKERS, first);
    image::repair(image);
    (first != old).then_some(())
}

fn first_word(image: &mut Vec<u8>, _: &Source, random: &Random) -> Option<()> {
    let form = VERSION * PER_VERSION;
    let near = form + random.word_below(12);
    let edges = [
        8,
        255,
        256,
        264,
        511,
        512,
        513,
        520,
        767,
        768,
        769,
        776,
        777,
        1_023,
        1_024,
        1_032,
        1_033,
        1_279,
        1_280,
        1_288,
        1 << 31,
        near,
        near,
        near,
    ];
    set_first(image, random.pick(&edges))
}

/// The versions from before and to come, and words that are none.
fn first_word_of_no_version(image: &mut Vec<u8>, _: &Source, random: &Random) -> Option<()> {
    let old = image::get(image).nth(WORKERS)?;
    let workers = old % PER_VERSION;
    let words = [
        workers,
        256 + workers,
        512 + workers,
        768 + workers,
        1_023,
        1_280,
        1_280 + workers,
        1_536 + workers,
        65_536 + old,
        old.swap_bytes(),
        1 << 31,
        1 << 31 | old,
        u32::MAX,
        1_280 | random.word(),
    ];
    let word = random.pick(&words);
    (word / PER_VERSION != VERSION).then_some(())?;
    set_first(image, word)
}

/// The present form's first word before what a form from before has.
fn version_lied(image: &mut Vec<u8>, source: &Source, _: &Random) -> Option<()> {
    image.clone_from(&source.before);
    let old = image::get(image).nth(WORKERS)?;
    set_first(image, VERSION * PER_VERSION + old % PER_VERSION)
}

/// The same, and the length as the present form calls for.
fn version_lied_fitting(image: &mut Vec<u8>, source: &Source, random: &Random) -> Option<()> {
    version_lied(image, source, random)?;
    let size = recorded_within(image)?;
    fit(image, size);
    Some(())
}

/// R-7's form: four words to a node.
fn four_word_nodes(image: &mut Vec<u8>, source: &Source, _: &Random) -> Option<()> {
    image.clone_from(&source.third);
    Some(())
}

/// With the present first word.
fn four_word_nodes_lied(image: &mut Vec<u8>, source: &Source, _: &Random) -> Option<()> {
    image.clone_from(&source.third);
    let old = image::get(image).nth(WORKERS)?;
    set_first(image, VERSION * PER_VERSION + old % PER_VERSION)
}

/// And the length as the present form calls for: a pool of one node may be sound.
fn four_word_nodes_fitting(image: &mut Vec<u8>, source: &Source, random: &Random) -> Option<()> {
    four_word_nodes_lied(image, source, random)?;
    let size = recorded_within(image)?;
    fit(image, size);
    Some(())
}

/// Holders, of any node.
fn node_first_word(image: &mut Vec<u8>, _: &Source, random: &Random) -> Option<()> {
    let size = recorded_there(image).filter(|size| size.nodes > 0)?;
    let node = NODE_WORDS * random.below(size.nodes as usize);
    let word = image::first_node(size.places) as usize + node;
    let old = image::get(image).nth(word)?;
    let news = [0, 1, 2, old.wrapping_sub(1), old.wrapping_add(1), u32::MAX];
    set_checked(image, word, &news, random)
}

/// Links, a value or the next free node: only a leaf stands another word there.
fn node_second_word(image: &mut Vec<u8>, _: &Source, random: &Random) -> Option<()> {
    let size = recorded_there(image).filter(|size| size.nodes > 0)?;
    let node = NODE_WORDS * random.below(size.nodes as usize);
    let word = image::first_node(size.places) as usize + node + 1;
    let old = image::get(image).nth(word)?;
    let [low, high] = [old & 0xFFFF, old & !0xFFFF];
    let news = [
        old.rotate_left(16),
        high | 0xFFFF,
        low | 0xFFFF << 16,
        65_535,
        u32::MAX,
        high | size.nodes,
        low | size.nodes << 16,
        old ^ 1 << random.below(32),
    ];
    set_checked(image, word, &news, random)
}

/// A word of a place's record.
fn word_of(image: &[u8], place: usize, word: usize) -> Option<usize> {
    let records = image::records(recorded_there(image)?.places) as usize;
    Some(records + place * FRAME_WORDS + word)
}

/// Another value of a word of the image, with the checks right.
fn set_checked(image: &mut [u8], word: usize, news: &[u32], random: &Random) -> Option<()> {
    let old = image::get(image).nth(word)?;
    let new = random.pick(news);
    image::set_word(image, word, new);
    image::repair(image);
    (old != new).then_some(())
}

/// A place of a frame: two times in three one to whose record the test says yes.
fn some_place(image: &[u8], random: &Random, test: impl Fn(&[u32]) -> bool) -> Option<usize> {
    let places = recorded_there(image)?.places as usize;
    let words = image::get(image).skip(image::records(places as u32) as usize);
    let words: Vec<u32> = words.take(places * FRAME_WORDS).collect();
    let records = words.chunks_exact(FRAME_WORDS).enumerate();
    let such: Vec<usize> = records
        .filter(|(_, record)| test(record))
        .map(|(place, _)| place)
        .collect();
    match random.below(3) {
        0 => (places > 0).then(|| random.below(places)),
        _ => random.some(&such),
    }
}

/// R-3's word of a frame record.
fn seventh_word(image: &mut Vec<u8>, _: &Source, random: &Random) -> Option<()> {
    let place = some_place(image, random, |record| record[4] == 1)?;
    let word = word_of(image, place, 6)?;
    let old = image::get(image).nth(word)?;
    set_checked(
        image,
        word,
        &[old ^ 1, 1, 2, 3, 256, 1 << 31, u32::MAX],
        random,
    )
}

/// R-5's: any on a live frame, zero on a free place.
fn view_word(image: &mut Vec<u8>, _: &Source, random: &Random) -> Option<()> {
    let place = some_place(image, random, |record| record[0] == 1)?;
    let word = word_of(image, place, 7 + random.below(4))?;
    set_checked(image, word, &[0, 1, u32::MAX, random.word()], random)
}

/// The link to the next younger sibling, mostly of a frame that is not Main.
fn sibling_link(image: &mut Vec<u8>, _: &Source, random: &Random) -> Option<()> {
    let place = some_place(image, random, |record| record[0] == 1 && record[2] > 0)?;
    let word = word_of(image, place, 11)?;
    let places = recorded_there(image)?.places;
    let near = random.word_below(places);
    let news = [0, place as u32, near, near, places, 1 << 31, u32::MAX];
    set_checked(image, word, &news, random)
}

/// A total: any once Main has returned, zero before.
fn total(image: &mut Vec<u8>, _: &Source, random: &Random) -> Option<()> {
    let word = image::PLACES - 4 + random.below(4);
    set_checked(image, word, &[0, 1, u32::MAX, random.word()], random)
}
