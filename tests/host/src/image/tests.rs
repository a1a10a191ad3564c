//! image.rs, literal.rs and the library on images written by hand.

use super::*;
use crate::call::{Call, Entry, Outcome};
use crate::plain::NONE;
use crate::random::Random;

/// All three, with the same outcome.
pub fn both(call: &Call) -> Outcome {
    let outcome = call.by_plain();
    assert!(by_literal(call) == outcome, "{call}");
    assert!(call.by_library(3).as_ref() == Some(&outcome), "{call}");
    outcome
}

fn by_literal(call: &Call) -> Outcome {
    let mut after = call.untouched([0, 0]);
    let (state, pool, work) = (&mut after.state, &mut after.pool, &mut after.work);
    after.result[0] = match call.entry {
        Entry::Save { .. } => literal::save(state, pool, work, &mut after.bytes),
        _ => literal::load(state, pool, work, &after.bytes),
    };
    after
}

/// The records' first word, and that of the nodes, of a table of 64 places.
const RECORDS: usize = 10 + 8 * 65;
const NODE_WORDS: usize = RECORDS + 64 * 12;

/// A frame that has folded nothing and has no younger sibling: its last five words.
const IDENTITIES: [u32; 5] = [0, NONE, 1, 0, NONE];

/// One worker, one splitter of value 7, so many places and nodes: a start's words, by hand.
fn fresh(places: u32, nodes: u32) -> Vec<u32> {
    let next = |number, last| if number < last { number + 1 } else { NONE };
    let mut words = vec![1 + 1_024, 1, nodes]; // workers, splitters, nodes
    words.extend([next(0, nodes - 1), next(0, places - 1)]); // first free node and place
    words.extend([0; 4]); // the totals
    words.push(places);
    words.extend([1, 0]); // worker 0: one frame, in place 0
    words.resize(10 + 8 * (1 + places as usize), 0);
    words.extend([1, NONE, 0, 0, 0, 0, 0]); // Main, with root 0
    words.extend(IDENTITIES);
    for place in 1..places {
        words.extend([0, next(place, places - 1), 0, 0, 0, 0, 0, 0, 0, 0, 0, 0]);
    }
    words.extend([1, 7]); // the leaf
    for node in 1..nodes {
        words.extend([0, next(node, nodes - 1)]);
    }
    words
}

fn smallest() -> Vec<u32> {
    fresh(64, 1)
}

/// The same in the form from before R-3, version 0, that from before R-5, version 1, with no totals and records of six or seven words,
/// that from before R-6, version 2, without the table's length, or that from before R-8, version 3. The leaf has four words in all of them.
fn smallest_before(version: u32) -> Vec<u32> {
    let (numbers, kept) = [(5, 6), (5, 7), (9, 12), (10, 12)][version as usize];
    let words = smallest();
    let records = words[RECORDS..NODE_WORDS].chunks(12);
    let kept = records.flat_map(|record| &record[..kept]);
    let others = words[..numbers].iter().chain(&words[10..RECORDS]);
    let mut before: Vec<u32> = others
        .chain(kept)
        .chain(&[1, NONE, NONE, 7])
        .copied()
        .collect();
    before[0] = 1 + 256 * version;
    before
}

/// Words in blocks, with these checks.
fn blocks(words: Vec<u32>, checks: &[u32]) -> Vec<u8> {
    let mut bytes: Vec<u8> = words.into_iter().flat_map(u32::to_le_bytes).collect();
    bytes.resize(checks.len() * 508, 0);
    let blocks = bytes.chunks(508).zip(checks);
    blocks
        .flat_map(|(data, check)| [data, &check.to_le_bytes()].concat())
        .collect()
}

/// Its image: 1,300 words in 11 blocks, with checks that were summed apart.
fn smallest_image() -> Vec<u8> {
    let checks = [1_092, 0, 0, 0, 43, 165, 255, 396, 465, 627, 70];
    blocks(smallest(), &checks)
}

/// Words in as few blocks as hold them, with the checks right.
fn image_of(words: &[u32]) -> Vec<u8> {
    let mut image = blocks(words.to_vec(), &vec![0; words.len().div_ceil(127)]);
    repair(&mut image);
    image
}

/// The state and the table of an image's words.
fn parts_of(words: &[u32]) -> Parts {
    let places = words[9] as usize;
    let records = 10 + 8 * (1 + places);
    let mut numbers = words[..10].to_vec();
    numbers[0] -= 1_024;
    let mut deques = Vec::new();
    for deque in words[10..records].chunks(1 + places) {
        deques.extend(deque);
        deques.resize(deques.len().next_multiple_of(257), 0);
    }
    Parts {
        numbers,
        deques,
        frames: words[records..records + 12 * places].to_vec(),
    }
}

fn smallest_parts() -> Parts {
    parts_of(&smallest())
}

/// Zeros in the state beside a table of these words.
fn zeros(frames: Vec<u32>) -> Parts {
    Parts {
        numbers: vec![0; 10],
        deques: vec![0; 8 * 257],
        frames,
    }
}

fn saving(target: usize) -> Call {
    let mut pool = smallest()[NODE_WORDS..].to_vec();
    pool.extend([8, 8, 8, 8, 8]);
    Call {
        state: smallest_parts(),
        pool,
        work: vec![9; 3],
        entry: Entry::Save {
            target: vec![5; target],
        },
    }
}

/// Read into a table of 64 places and 5 words of pool: two nodes and a word more.
fn loading(image: Vec<u8>) -> Call {
    loading_into(64, image)
}

fn loading_into(places: usize, image: Vec<u8>) -> Call {
    Call {
        state: Parts::garbage(places, &Random::new(7)),
        pool: vec![8; 5],
        work: vec![9; 3],
        entry: Entry::Load { image },
    }
}

/// A load that is refused so leaves zeros in the state, and table, pool and work as they were; by 6 the table is zero.
fn refused(image: Vec<u8>) -> u32 {
    refused_into(64, image)
}

fn refused_into(places: usize, image: Vec<u8>) -> u32 {
    let call = loading_into(places, image);
    let after = both(&call);
    if after.result[0] == 6 {
        assert_eq!(after.state, zeros(vec![0; 12 * places]));
        assert_eq!(after.pool, [0, 0, 0, 0, 8]);
    } else {
        assert_eq!(after.state, zeros(call.state.frames.clone()));
        assert!(after.pool == call.pool && after.work == call.work);
    }
    assert_eq!(after.bytes, call.bytes());
    after.result[0]
}

fn changed(change: impl Fn(&mut Vec<u8>)) -> Vec<u8> {
    let mut image = smallest_image();
    change(&mut image);
    image
}

fn with_word(word: usize, value: u32) -> Vec<u8> {
    changed(|image| {
        set_word(image, word, value);
        repair(image);
    })
}

#[test]
fn sizes() {
    // 18 words and 20 for each place: 64 places take 11 blocks, with room for 49 nodes, 11 × 127 = 1,397 = 1,298 + 99
    let known = [
        (64, 0, 11),
        (64, 49, 11),
        (64, 50, 12),
        (1, 44, 1),
        (1, 45, 2),
        (0, 0, 1),
        (256, 1, 41),
        (256, 16_384, 299),
        (64, NONE, 67_637_291),
        (NONE, 0, 676_372_803),
        (NONE, NONE, 744_010_083),
    ];
    for (places, nodes, blocks) in known {
        assert_eq!(
            bytes(Size { places, nodes }),
            512 * blocks,
            "{places} {nodes}"
        );
        assert_eq!(literal::image_bytes(places, nodes), 512 * blocks);
        assert_eq!(splitter::image_bytes(places, nodes), 512 * blocks);
    }
}

#[test]
fn checks() {
    let single = |offset: usize, byte: u8| {
        let mut data = [0; DATA_BYTES];
        data[offset] = byte;
        check(&data)
    };
    assert_eq!(
        [0, 1, 2, 3].map(|o| single(o, 1)),
        [1, 256, 65_536, 16_777_216]
    );
    assert_eq!(
        [504, 505, 506, 507].map(|o| single(o, 2)),
        [2, 512, 131_072, 33_554_432]
    );
    // 508 bytes of 255 are 127 times none, which is minus 127
    assert_eq!(check(&[255; DATA_BYTES]), NONE - 126);
}

#[test]
fn saved() {
    let after = both(&saving(5_632 + 3));
    assert_eq!(after.result[0], 0);
    assert_eq!(after.bytes[..5_632], smallest_image());
    assert_eq!(after.bytes[5_632..], [5, 5, 5]);
    assert_eq!(after.work, [0, 9, 9]);
}

#[test]
fn saves_refused() {
    for target in [0, 1, 512, 5_631] {
        let call = saving(target);
        let after = both(&call);
        assert_eq!((after.result[0], &after.work[..]), (19, &[0, 9, 9][..]));
        assert_eq!(after.bytes, call.bytes());
    }
    let short_work = |call: &mut Call| call.work.clear();
    let unsound = |call: &mut Call| call.pool[0] = 2;
    let short_pool = |call: &mut Call| call.pool.truncate(1);
    let other_table = |call: &mut Call| call.state.frames.truncate(12 * 63);
    let bad_state = |call: &mut Call| call.state.deques.push(0);
    let changes: [(&dyn Fn(&mut Call), u32); 5] = [
        (&other_table, 6),
        (&short_pool, 6),
        (&unsound, 6),
        (&short_work, 5),
        (&bad_state, 99),
    ];
    let mut call = saving(5_631);
    for (change, number) in changes {
        change(&mut call);
        assert_eq!(both(&call).result[0], number);
    }
}

#[test]
fn loaded() {
    let after = both(&loading(smallest_image()));
    assert_eq!(after.result[0], 0);
    assert_eq!(after.state, smallest_parts());
    assert_eq!(after.pool, [1, 7, 8, 8, 8]);
    assert_eq!(after.work, [0, 9, 9]);
}

#[test]
fn blocks_not_called_for() {
    for length in [0, 1, 511, 512, 513, 4_096, 5_631, 5_633, 6_144] {
        assert_eq!(refused(changed(|image| image.resize(length, 0))), 17);
    }
    for nodes in [50, 51, 57, 16_384, 1 << 30, 1 << 31, (1 << 31) + 1, NONE] {
        assert_eq!(refused(with_word(2, nodes)), 17, "{nodes}");
    }
    // 11 blocks hold 63 to 68 places and a node
    for places in [
        0,
        1,
        58,
        62,
        69,
        128,
        256,
        257,
        1 << 30,
        (1 << 30) + 64,
        NONE,
    ] {
        assert_eq!(refused(with_word(9, places)), 17, "{places}");
    }
    // one block, if the number of words were taken modulo 2^32
    let one = |word, value| changed(|image| set_word(image, word, value))[..512].to_vec();
    for less in [649, 648, 640, 600] {
        assert_eq!(refused(one(2, (1 << 31) - less)), 17);
    }
    // 20 times it and 20 are 28 and 24 modulo 2^32
    for places in [0x9999_999A, 0xCCCC_CCCD] {
        assert_eq!(refused(one(9, places)), 17);
    }
}

/// Other recorded lengths in as many blocks, the checks right: 6, in a table of that length too, or 18 where the rest is not zero.
#[test]
fn lengths_lied() {
    for places in [65, 66, 67, 68] {
        assert_eq!(refused_into(64, with_word(9, places)), 6);
        assert_eq!(refused_into(places as usize, with_word(9, places)), 6);
    }
    assert_eq!(refused_into(63, with_word(9, 63)), 18);
}

/// An image of each table length is read into a table of this length and into no other; its save is the same.
#[test]
fn table_lengths() {
    for places in [1, 2, 3, 63, 64, 65, 127, 128, 255, 256] {
        for nodes in [1, 2] {
            let words = fresh(places, nodes);
            let after = both(&loading_into(places as usize, image_of(&words)));
            assert_eq!((places, after.result[0]), (places, 0));
            assert_eq!(after.state, parts_of(&words));
            let target = bytes(Size { places, nodes }) as usize;
            let save = Call {
                entry: Entry::Save {
                    target: vec![5; target],
                },
                state: after.state,
                pool: after.pool,
                work: after.work,
            };
            assert_eq!(both(&save).bytes, image_of(&words));
        }
        for other in [0, 1, 63, 64, 65, 255, 256, 257, 300] {
            if other != places as usize {
                assert_eq!(refused_into(other, image_of(&fresh(places, 2))), 6);
            }
        }
    }
}

/// Images of 0 places, of 257 and of 300, with all else right: 6, in tables of these lengths too.
#[test]
fn lengths_that_no_table_has() {
    for places in [257, 258, 300] {
        let image = image_of(&fresh(places, 2));
        for lent in [0, 1, 256, places as usize] {
            assert_eq!(refused_into(lent, image.clone()), 6);
        }
    }
    // no frame lives, no place is free: every node is
    let mut words = vec![1_025, 1, 2, 0, NONE, 5, 6, 7, 8, 0];
    words.extend([0; 8]);
    words.extend([0, 1, 0, NONE]);
    for lent in [0, 1, 64] {
        assert_eq!(refused_into(lent, image_of(&words)), 6);
    }
}

/// 17, 18 and 5 come before the table's length.
#[test]
fn other_tables_are_asked_last() {
    for lent in [0, 63, 65, 257] {
        let short = changed(|image| image.truncate(5_120));
        assert_eq!(refused_into(lent, short), 17);
        assert_eq!(refused_into(lent, changed(|image| image[0] ^= 2)), 18);
        let mut call = loading_into(lent, smallest_image());
        call.work.clear();
        let after = both(&call);
        assert_eq!(after.result[0], 5);
        assert_eq!(after.state, zeros(call.state.frames));
    }
}

/// 17 comes before 18, 18 before 5, 5 before 6.
#[test]
fn wrong_checks() {
    assert_eq!(refused(changed(|image| image[0] ^= 2)), 18);
    assert_eq!(refused(changed(|image| image[5_631] ^= 128)), 18);
    assert_eq!(refused(changed(|image| image[508..512].reverse())), 18);
    assert_eq!(refused(with_word(1_300, 1)), 18);
    assert_eq!(refused(with_word(1_396, 1 << 31)), 18);
    assert_eq!(refused(changed(|image| set_word(image, 2, 49))), 18);
    assert_eq!(refused(changed(|image| set_word(image, 2, 50))), 17);
    assert_eq!(refused(changed(|image| set_word(image, 9, 68))), 18);
    let mut call = loading(with_word(0, 1_024));
    call.work.clear();
    assert_eq!(both(&call).result[0], 5);
    assert_eq!(both(&loading(with_word(0, 1_024))).result[0], 6);
    call.entry = Entry::Load {
        image: changed(|image| image[0] ^= 2),
    };
    assert_eq!(both(&call).result[0], 18);
}

/// Not sound: every record of the lent table and every whole node of the lent pool is zero, and no word after them.
#[test]
fn unsound() {
    let unsound = [
        (0, 1_033),
        (1, 0),
        (5, 1),
        (RECORDS, 2),
        (RECORDS + 11, 0),
        (NODE_WORDS, 2),
        (NODE_WORDS, 0),
    ];
    for (word, value) in unsound {
        let after = both(&loading(with_word(word, value)));
        assert_eq!((word, after.result[0]), (word, 6));
        assert_eq!(after.pool, [0, 0, 0, 0, 8]);
        assert_eq!(after.work, [0, 9, 9]);
        assert_eq!(after.state, zeros(vec![0; 12 * 64]));
    }
    // a recorded node more, of zeros, is on no chain
    assert_eq!(both(&loading(with_word(2, 2))).work, [0, 0, 9]);
    assert_eq!(refused(with_word(2, 0)), 18);
    assert_eq!(refused(vec![0; 5_632]), 17);
    let mut zeros = vec![0; 18];
    zeros[0] = 1_024;
    assert_eq!(refused(image_of(&zeros)), 6);
}

#[test]
fn pools_too_short() {
    for words in 0..2 {
        let mut call = loading(smallest_image());
        call.pool.truncate(words);
        let after = both(&call);
        assert_eq!(after.result[0], 6);
        assert_eq!(after.pool, call.pool);
        assert_eq!(after.work, [0, 9, 9]);
    }
}

#[test]
fn parts_of_another_length() {
    for part in 0..2 {
        for image in [smallest_image(), Vec::new(), with_word(0, 0)] {
            let mut call = loading(image);
            call.state.each_mut()[part].pop();
            assert!(both(&call) == call.untouched([99, 0]));
        }
    }
}

/// "Each later change of the image adds 256 again and reads only its own form": no form from before is read, nor with other numbers of
/// workers, though length and checks are right.
#[test]
fn forms_from_before() {
    for version in [0, 1, 2, 3] {
        let words = smallest_before(version);
        assert_eq!(words.len(), [913, 977, 1_301, 1_302][version as usize]);
        for workers in [0, 1, 2, 8, 9, 255] {
            let mut words = words.clone();
            words[0] = workers + 256 * version;
            assert_eq!(refused(image_of(&words)), 17);
        }
        let mut words = words;
        words[0] = 1_025;
        if version == 3 {
            // as many blocks, and a rest that is not zero; without it the leaf has none as its value
            assert_eq!(refused(image_of(&words)), 18);
            words.truncate(1_300);
            assert_eq!(both(&loading(image_of(&words))).pool, [1, NONE, 8, 8, 8]);
            continue;
        }
        // the present form's first word: a length of 0 or 1, and 8 to 11 blocks are not 1; with one, 6
        let places = [0, 0, 1][version as usize];
        assert_eq!(words[9], places);
        assert_eq!(refused(image_of(&words)), 17);
        words.truncate(18 + 20 * places as usize + 2);
        assert_eq!(refused_into(places as usize, image_of(&words)), 6);
        assert_eq!(refused(image_of(&words)), 6);
    }
}

/// What a reading answers with another first word and the checks right.
fn with_first(first: u32) -> u32 {
    both(&loading(with_word(0, first))).result[0]
}

/// Words of forms from before and to come, and some that are none.
const NO_FORM: [u32; 19] = [
    0,
    1,
    8,
    255,
    256,
    257,
    513,
    520,
    767,
    768,
    769,
    776,
    1_023,
    1_280,
    1_281,
    65_536,
    66_049,
    1 << 31,
    NONE,
];

#[test]
fn first_words() {
    for first in 1_025..=1_032 {
        assert_eq!((first, with_first(first)), (first, 0));
    }
    for workers in [0, 9, 10, 16, 17, 129, 255] {
        assert_eq!((workers, with_first(1_024 + workers)), (workers, 6));
    }
    for first in NO_FORM {
        assert_eq!((first, with_first(first)), (first, 17));
    }
}

/// 17 for a first word of no form comes before 18 and 5, whatever the length.
#[test]
fn no_form() {
    for first in NO_FORM {
        for length in [512, 4_096, 5_632, 16 * 512] {
            let image = changed(|image| {
                image.resize(length, 0);
                set_word(image, 0, first);
            });
            let mut call = loading(image);
            call.work.clear();
            assert_eq!(both(&call).result[0], 17);
        }
    }
}

/// The words of a state in which Main waits as returning for its child, in place 1, which worker 0 has.
fn main_waits() -> Vec<u32> {
    let mut words = smallest();
    words[10 + 1] = 1;
    words[4] = 2;
    words[RECORDS..RECORDS + 7].copy_from_slice(&[1, NONE, 0, 1, 1, 0, 1]);
    words[RECORDS + 12..RECORDS + 19].copy_from_slice(&[1, 0, 1, 0, 0, 0, 0]);
    words[RECORDS + 19..RECORDS + 24].copy_from_slice(&IDENTITIES);
    words[NODE_WORDS] = 2;
    words
}

/// What a reading of these words answers.
fn answer(words: &[u32]) -> u32 {
    both(&loading(image_of(words))).result[0]
}

/// Read, and saved as it was.
fn read_and_saved(words: &[u32]) {
    let after = both(&loading(image_of(words)));
    assert_eq!(after.result[0], 0);
    assert_eq!(after.state.numbers[1..], words[1..10]);
    assert_eq!(after.state.frames, words[RECORDS..NODE_WORDS]);
    let save = Call {
        entry: Entry::Save {
            target: vec![5; 5_632],
        },
        state: after.state,
        pool: after.pool,
        work: after.work,
    };
    assert_eq!(both(&save).bytes, image_of(words));
}

/// The seventh word of every record: 1 is sound on a suspended frame only, and nothing but 0 and 1 is.
#[test]
fn seventh_words() {
    let words = main_waits();
    read_and_saved(&words);
    for place in 0..64 {
        for seventh in [0, 1, 2, 3, 256, 1 << 31, NONE] {
            let mut words = words.clone();
            words[RECORDS + 12 * place + 6] = seventh;
            let sound = seventh == 0 || (seventh == 1 && place == 0);
            let refusal = if sound { 0 } else { 6 };
            let result = answer(&words);
            assert_eq!((place, seventh, result), (place, seventh, refusal));
        }
    }
}

/// The view words of every record: any on a live frame, and they come back; zero on a free place.
#[test]
fn view_words() {
    for place in 0..64 {
        for word in 7..11 {
            for value in [0, 1, 256, 1 << 31, NONE] {
                let mut words = main_waits();
                words[RECORDS + 12 * place + word] = value;
                if place < 2 {
                    read_and_saved(&words);
                } else {
                    let refusal = if value == 0 { 0 } else { 6 };
                    assert_eq!((place, value, answer(&words)), (place, value, refusal));
                }
            }
        }
    }
}

/// The link of every record: none on Main and its only child, zero on a free place.
#[test]
fn links() {
    for place in 0..64 {
        for link in [0, 1, 2, 3, 63, 64, 256, 1 << 31, NONE - 1, NONE] {
            let mut words = main_waits();
            words[RECORDS + 12 * place + 11] = link;
            let right = if place < 2 { NONE } else { 0 };
            let refusal = if link == right { 0 } else { 6 };
            assert_eq!((place, link, answer(&words)), (place, link, refusal));
        }
    }
}

/// The totals: zero while Main lives, any words afterwards, and they come back.
#[test]
fn totals() {
    // no frame lives: place 0 is the first free one, and the leaf is free
    let mut ended = smallest();
    ended[3] = 0;
    ended[4] = 0;
    ended[10] = 0;
    ended[RECORDS..RECORDS + 12].copy_from_slice(&[0, 1, 0, 0, 0, 0, 0, 0, 0, 0, 0, 0]);
    ended[NODE_WORDS..].copy_from_slice(&[0, NONE]);
    read_and_saved(&ended);
    for word in 5..9 {
        for value in [0, 1, 65_536, 1 << 31, NONE] {
            let mut words = main_waits();
            words[word] = value;
            let refusal = if value == 0 { 0 } else { 6 };
            assert_eq!((word, value, answer(&words)), (word, value, refusal));
            ended[word] = value;
            read_and_saved(&ended);
        }
    }
}
