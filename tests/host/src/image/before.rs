//! A file that R-1's library wrote, before there were frames that wait as returning, views, totals, a lent frame table and nodes of two words:
//! data/README.md says how. It is no longer read, nor is it in the forms from before; the same run in the present form goes on
//! as it did.

use super::tests::both;
use super::*;
use crate::call::{Call, Entry, Outcome};
use crate::plain::NONE;
use crate::random::Random;
use crate::sentences;
use crate::steps;

const IMAGE: &[u8] = include_bytes!("../../data/r1_run.image");
const TEXT: &str = include_str!("../../data/r1_run.txt");
const NODE_COUNT: usize = 40;

/// The numbers of a text.
fn numbers(text: &str) -> Vec<u32> {
    let number = |word: &str| word.parse().expect("a number");
    text.split_whitespace().map(number).collect()
}

/// The lines between one heading and the next, or the end.
fn section(from: &str, to: &str) -> Vec<&'static str> {
    let lines = TEXT.lines().skip_while(|&line| line != from).skip(1);
    lines.take_while(|&line| line != to).collect()
}

/// Records and the answers of R-1's library.
fn records(lines: &[&str]) -> (Vec<[u32; 4]>, Vec<u32>) {
    let mut steps = Vec::new();
    let mut answers = Vec::new();
    for line in lines {
        let (step, answer) = line.split_once('=').expect("a record");
        steps.push(numbers(step).try_into().expect("four fields"));
        answers.extend(numbers(answer));
    }
    (steps, answers)
}

fn further() -> (Vec<[u32; 4]>, Vec<u32>) {
    records(&section("after the save", ""))
}

/// The file's words, without the checks.
fn file_words() -> Vec<u32> {
    let words = IMAGE.as_chunks::<4>().0;
    let blocks = words.chunks(128).flat_map(|block| &block[..127]);
    blocks.map(|&word| u32::from_le_bytes(word)).collect()
}

/// The same run in the present form: no totals, a table of 64 places, seventh words of zero, nothing folded. Of Main's children the elder is in place 1, the
/// younger in place 2; the frames in places 3 and 4 have no sibling.
fn present() -> (Parts, Vec<u32>) {
    let words = file_words();
    let mut frames: Vec<u32> = words[525..909]
        .chunks(6)
        .flat_map(|record| match record[0] {
            1 => [record, &[0, 0, NONE, 1, 0, NONE]].concat(),
            _ => [record, &[0; 6]].concat(),
        })
        .collect();
    frames[12 + 11] = 2;
    let mut deques = Vec::new();
    for deque in words[5..525].chunks(65) {
        deques.extend([deque, &[0; 192]].concat());
    }
    let parts = Parts {
        numbers: [&words[..5], &[0; 4], &[64]].concat(),
        deques,
        frames,
    };
    (parts, four_words().iter().flat_map(two_words).collect())
}

/// The file's nodes.
fn four_words() -> Vec<[u32; 4]> {
    let words = file_words();
    words[909..909 + 4 * NODE_COUNT].as_chunks().0.to_vec()
}

/// A node in two words: 65,535 for a link to none.
fn two_words(node: &[u32; 4]) -> [u32; 2] {
    let link = |link: u32| if link == NONE { 65_535 } else { link };
    match *node {
        [0, next, 0, 0] => [0, next],
        [holders, NONE, NONE, value] => [holders, value],
        [holders, left, right, _] => [holders, link(left) + 65_536 * link(right)],
    }
}

/// Its image, written here: 1,378 words in 11 blocks; the rest is zero.
fn present_image() -> Vec<u8> {
    let (state, nodes) = present();
    let deques = &file_words()[5..525];
    let mut words = [&state.numbers[..], deques, &state.frames, &nodes].concat();
    assert_eq!((words[0], words.len()), (4, 1_378));
    words[0] = 1_028;
    in_blocks(words)
}

fn in_blocks(mut words: Vec<u32>) -> Vec<u8> {
    words.resize(words.len().next_multiple_of(127), 0);
    let blocks = words.chunks(127).flat_map(|data| {
        let sum = data
            .iter()
            .fold(0, |sum: u32, &word| sum.wrapping_add(word));
        [data, &[sum]].concat()
    });
    blocks.flat_map(u32::to_le_bytes).collect()
}

fn loading(image: &[u8]) -> Call {
    let random = Random::new(3);
    Call {
        state: Parts::garbage(64, &random),
        pool: random.words(2 * NODE_COUNT + 6),
        work: random.words(NODE_COUNT + 2),
        entry: Entry::Load {
            image: image.to_vec(),
        },
    }
}

fn loaded(image: &[u8]) -> Outcome {
    let call = loading(image);
    let after = both(&call);
    assert_eq!(after.result, [0, 0]);
    let (state, nodes) = present();
    assert_eq!(after.state, state);
    assert_eq!(after.pool[..2 * NODE_COUNT], nodes);
    assert_eq!(after.pool[2 * NODE_COUNT..], call.pool[2 * NODE_COUNT..]);
    after
}

/// Both sides answer the further records as R-1's library did, on a tape and step by step.
fn goes_on(read: &Outcome) {
    let (steps, answers) = further();
    let call = |state: &Parts, pool: &[u32], entry| Call {
        state: state.clone(),
        pool: pool.to_vec(),
        work: vec![7; NODE_COUNT],
        entry,
    };
    let tape = Entry::Tape {
        bytes: steps.iter().copied().flat_map(steps::record).collect(),
        answers: vec![7; answers.len()],
    };
    let ended = crate::tests::both(&call(&read.state, &read.pool, tape));
    assert_eq!((ended.result[0], &ended.answers), (0, &answers));
    let (mut state, mut pool) = (read.state.clone(), read.pool.clone());
    for (step, answer) in steps.into_iter().zip(answers.chunks(2)) {
        let after = crate::tests::both(&call(&state, &pool, Entry::Step(step)));
        assert_eq!(after.result, answer, "{step:?}");
        (state, pool) = (after.state, after.pool);
    }
    assert!(state == ended.state && pool == ended.pool);
    assert!(!state.state().expect("a whole state").main_lives());
    assert_eq!(state.numbers[5..], [0, NONE, 1, 0, 64]); // nothing was folded
}

#[test]
fn the_file() {
    assert_eq!((IMAGE.len(), file_words()[0]), (4_608, 4));
    let lines = section("saved", "after the save");
    let words = file_words();
    let mut live = 0;
    for line in lines {
        let (name, numbers_of) = line.split_once('=').expect("a part");
        let (name, place) = name.split_once(' ').expect("a number");
        let (place, expected) = (numbers(place)[0] as usize, numbers(numbers_of));
        match name {
            "numbers" => assert_eq!(words[..5], expected),
            "deque" => {
                let deque = &words[5 + 65 * place..][..65];
                assert_eq!(
                    (deque[0] as usize, &deque[1..][..expected.len()]),
                    (expected.len(), &expected[..])
                );
            }
            _ => {
                live += 1;
                assert_eq!(words[525 + 6 * place..][..6], expected);
            }
        }
    }
    let suspended = words[525..909].chunks(6).filter(|record| record[4] == 1);
    assert_eq!((live, suspended.count()), (5, 2));
}

/// The same run in the form from before R-5: 256 more in the first word, seven words to a record.
fn second_form() -> Vec<u8> {
    let words = file_words();
    let records = words[525..909].chunks(6);
    let records: Vec<u32> = records.flat_map(|record| [record, &[0]].concat()).collect();
    let mut second = [&words[..525], &records, &words[909..909 + 4 * NODE_COUNT]].concat();
    assert_eq!(second.len(), 1_133);
    second[0] += 256;
    in_blocks(second)
}

/// And in that from before R-6: 512 more, the totals, twelve words to a record.
fn third_form() -> Vec<u8> {
    with_numbers(9, 512)
}

/// And in that from before R-8: 768 more, the table's length.
fn fourth_form() -> Vec<u8> {
    with_numbers(10, 768)
}

/// Twelve words to a record, four to a node.
fn with_numbers(numbers: usize, added: u32) -> Vec<u8> {
    let (state, nodes) = (present().0, four_words());
    let deques = &file_words()[5..525];
    let parts = [&state.numbers[..numbers], deques, &state.frames];
    let mut words = [&parts.concat(), nodes.as_flattened()].concat();
    assert_eq!(words.len(), 1_448 + numbers);
    words[0] += added;
    in_blocks(words)
}

/// The file is refused by 17, and so is the same run in the three forms after it.
#[test]
fn refused() {
    for image in [IMAGE.to_vec(), second_form(), third_form(), fourth_form()] {
        let call = loading(&image);
        let after = both(&call);
        assert_eq!(after.result, [17, 0]);
        let state = after.state.numbers.iter().chain(&after.state.deques);
        assert!(state.into_iter().all(|&word| word == 0));
        assert_eq!(after.state.frames, call.state.frames);
        assert!(after.pool == call.pool && after.work == call.work);
    }
}

#[test]
fn read_and_gone_on_with() {
    let read = loaded(&present_image());
    assert!(sentences::broken(&read.state, &read.pool).is_empty());
    goes_on(&read);
}

#[test]
fn saved_again() {
    let read = loaded(&present_image());
    let save = Call {
        state: read.state,
        pool: read.pool,
        work: vec![7; NODE_COUNT],
        entry: Entry::Save {
            target: vec![5; 11 * 512 + 1],
        },
    };
    let saved = both(&save);
    assert_eq!(saved.result, [0, 0]);
    assert_eq!(saved.bytes[..11 * 512], present_image());
    assert_eq!(saved.bytes[11 * 512], 5);
}

/// The further records end with Main's return, and no answer of R-1's library in the text is one that R-3 takes away.
#[test]
fn the_records() {
    let (_, before) = records(&section("before the save", "saved"));
    let (_, after) = further();
    assert!(before.chunks(2).any(|answer| answer == [104, 1]));
    assert!(after.ends_with(&[102, 3, 9, 0]));
    let answers = before.chunks(2).chain(after.chunks(2));
    assert!(answers
        .into_iter()
        .all(|answer| answer[0] != 14 && answer[0] != 16));
}
