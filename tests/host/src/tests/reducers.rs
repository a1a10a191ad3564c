//! folds, views, the links between siblings and the totals, through plain.rs and the library. Most folds are maps that multiply by
//! ten and add a digit: an addend then shows the digits in the order of the folds.

use super::waiting::{assert_all_free, next, saved_and_read, sound, tape, typed};
use super::{answers, both, broken, run, FIVE, FRAME_0, FRAME_1};
use crate::call::{Entry, Outcome};
use crate::plain::{FOLD, NONE, READ, RETURN, SPAWN, STEAL, SYNC, WRITE};
use crate::sentences;

/// Times ten, plus a digit.
fn digit(worker: u32, digit: u32) -> [u32; 4] {
    [FOLD, worker, 2, 10 << 16 | digit]
}

/// A frame's view words, and its link.
fn view(after: &Outcome, place: usize) -> [u32; 4] {
    typed(after).frames[place].view.words()
}

fn link(after: &Outcome, place: usize) -> u32 {
    typed(after).frames[place].younger
}

fn totals(after: &Outcome) -> [u32; 4] {
    after.state.numbers[5..9].try_into().expect("four words")
}

/// What so many digits leave, in this order.
fn digits(shown: u32) -> [u32; 4] {
    let count = shown.to_string().len() as u32;
    [0, NONE, 10u32.pow(count), shown]
}

const IDENTITIES: [u32; 4] = [0, NONE, 1, 0];

#[test]
fn a_start() {
    let (call, _) = run(2, &FIVE, 20, &[]);
    assert_eq!(call.state.numbers, [2, 5, 20, 11, 1, 0, 0, 0, 0, 64]);
    let main = [1, NONE, 0, 0, 0, 0, 0, 0, NONE, 1, 0, NONE];
    assert_eq!(call.state.frames[..12], main);
    assert_eq!(
        call.state.frames[12..24],
        [0, 2, 0, 0, 0, 0, 0, 0, 0, 0, 0, 0]
    );
    assert_eq!(
        call.state.frames[63 * 12..],
        [0, NONE, 0, 0, 0, 0, 0, 0, 0, 0, 0, 0]
    );
}

#[test]
fn folds_of_one_frame() {
    let entries = [
        [FOLD, 0, 0, NONE],
        [FOLD, 0, 1, 9],
        [FOLD, 0, 2, 2 << 16 | 1],
        [FOLD, 0, 0, 6],
        [FOLD, 0, 1, 12],
        [FOLD, 0, 2, 3 << 16 | 4],
        [FOLD, 0, 0, 0],
    ];
    let (_, after) = run(1, &FIVE, 11, &entries);
    assert_eq!(after.answers.as_chunks().0, [[107, 0]; 7]);
    assert_eq!(view(&after, 0), [5, 9, 6, 7]);
    assert_eq!(totals(&after), [0; 4]);
    let ended = both(&next(&after, Entry::Step([RETURN, 0, 0, 0])));
    assert_eq!((ended.result, totals(&ended)), ([102, 3], [5, 9, 6, 7]));
    assert_all_free(&ended);
    // the totals stay, whatever is refused then
    let more = [[FOLD, 0, 0, 1], [FOLD, 0, 3, 1], [RETURN, 0, 0, 0]];
    let later = both(&next(&ended, tape(&more)));
    assert_eq!(later.answers, [9, 0, 9, 0, 9, 0]);
    assert!(later.state == ended.state && later.pool == ended.pool);
}

/// 20 is in the place of 15; from outside no bit of the field is lost. Nothing changes.
#[test]
fn no_such_reducer() {
    let (_, after) = run(2, &FIVE, 20, &[digit(0, 7)]);
    let answer = |step| {
        let done = both(&next(&after, Entry::Step(step)));
        assert!(done.result[0] > 100 || done.state == after.state);
        done.result
    };
    for field in [3, 4, 255, 256, 258, 65_535, 65_536, 65_538, 1 << 31, NONE] {
        assert_eq!(answer([FOLD, 0, field, 1]), [20, 0]);
        assert_eq!(answer([FOLD, 1, field, 1]), [10, 0]);
        assert_eq!(answer([FOLD, 2, field, 1]), [8, 0]);
    }
    for field in 0..3 {
        assert_eq!(answer([FOLD, 0, field, NONE]), [107, 0]);
    }
    for kind in [0, 8, 7 + 256, 7 | 1 << 31] {
        assert_eq!(answer([kind, 0, 0, 1]), [7, 0]);
    }
    assert_eq!(answer([FOLD, 256, 0, 1]), [8, 0]);
}

/// Main folds 1, spawns a, folds 3, spawns b, folds 5, spawns c, folds 7; a, b and c, in the places 1, 2 and 3 and on the workers 0, 1 and
/// 2, fold 2, 4 and 6. Main is on worker 3.
fn three_children() -> Vec<[u32; 4]> {
    vec![
        digit(0, 1),
        [SPAWN, 0, 0, 0],
        [STEAL, 1, 0, 0],
        digit(1, 3),
        [SPAWN, 1, 0, 0],
        [STEAL, 2, 1, 0],
        digit(2, 5),
        [SPAWN, 2, 0, 0],
        [STEAL, 3, 2, 0],
        digit(3, 7),
        digit(2, 6),
        digit(1, 4),
        digit(0, 2),
    ]
}

fn family() -> Outcome {
    let (_, after) = run(8, &FIVE, 20, &three_children());
    assert!(sound(&after));
    after
}

/// The child inherits, the continuation begins with the identity; each new child is the next younger one of the last.
#[test]
fn views_and_links() {
    let after = family();
    assert_eq!(
        [1, 2, 3].map(|place| view(&after, place)),
        [12, 34, 56].map(digits)
    );
    assert_eq!(view(&after, 0), digits(7));
    assert_eq!(
        [0, 1, 2, 3].map(|place| link(&after, place)),
        [NONE, 2, 3, NONE]
    );
    assert_eq!(totals(&after), [0; 4]);
}

/// The views after the end of one of them, and the links past it.
#[test]
fn one_of_three_ends() {
    let ended = |worker| both(&next(&family(), Entry::Step([RETURN, worker, 0, 0])));
    let a = ended(0);
    assert_eq!((a.result, view(&a, 2)), ([102, 1], digits(1_234)));
    assert_eq!([2, 3].map(|place| link(&a, place)), [3, NONE]);
    assert_eq!(a.state.frames[12..24], [0, 4, 0, 0, 0, 0, 0, 0, 0, 0, 0, 0]);
    let b = ended(1);
    assert_eq!((b.result, view(&b, 3)), ([102, 1], digits(3_456)));
    assert_eq!([1, 3].map(|place| link(&b, place)), [3, NONE]);
    let c = ended(2);
    assert_eq!((c.result, view(&c, 0)), ([102, 1], digits(567)));
    assert_eq!([1, 2].map(|place| link(&c, place)), [2, NONE]);
    let main = ended(3);
    assert_eq!((main.result, view(&main, 0)), ([102, 4], digits(7)));
    assert_eq!([1, 2, 3].map(|place| link(&main, place)), [2, 3, NONE]);
    assert_eq!(totals(&main), [0; 4]);
    assert!([a, b, c, main].iter().all(sound));
}

/// All orders of their ends leave the same totals, on a tape, step by step, and after a save.
#[test]
fn every_order_of_ends() {
    let before = family();
    let orders = (0..256).map(|n| [n / 64, n / 16 % 4, n / 4 % 4, n % 4]);
    let permutations = orders.filter(|order| (0..4).all(|worker| order.contains(&worker)));
    let mut seen = 0;
    for order in permutations {
        let returns = order.map(|worker| [RETURN, worker, 0, 0]);
        let ended = both(&next(&before, tape(&returns)));
        assert_eq!(totals(&ended), digits(1_234_567), "{order:?}");
        assert_all_free(&ended);
        let mut after = before.clone();
        for step in returns {
            after = both(&next(&after, Entry::Step(step)));
            assert!(sound(&after));
        }
        assert!(after.state == ended.state);
        seen += 1;
    }
    assert_eq!(seen, 24);
}

/// A place that was freed serves again; the new child is the youngest, wherever it is.
#[test]
fn a_new_child_in_an_old_place() {
    let more = [[RETURN, 0, 0, 0], [SPAWN, 3, 0, 0]];
    let after = both(&next(&family(), tape(&more)));
    assert_eq!(after.answers, [102, 1, 101, 1]);
    assert_eq!([2, 3, 1].map(|place| link(&after, place)), [3, 1, NONE]);
    assert_eq!(view(&after, 1), digits(7));
    assert_eq!(view(&after, 0), IDENTITIES);
    assert!(sound(&after));
    // it ends within its deque, though elder siblings live
    let ended = both(&next(&after, tape(&[digit(3, 8), [RETURN, 3, 0, 0]])));
    assert_eq!(ended.answers, [107, 0, 102, 0]);
    assert_eq!(view(&ended, 0), digits(78));
    assert_eq!([2, 3].map(|place| link(&ended, place)), [3, NONE]);
}

/// The next frame in order is the eldest one below the younger sibling, as far down as there are frames.
#[test]
fn below_the_younger_sibling() {
    let more = [
        [SPAWN, 1, 0, 0], // b's d, in place 4
        [STEAL, 4, 1, 0], // b on worker 4
        digit(4, 9),
        [SPAWN, 4, 0, 0], // b's e, in place 5
        [STEAL, 5, 4, 0],
        [SPAWN, 1, 0, 0], // d's f, in place 6
        [STEAL, 6, 1, 0],
        [SYNC, 6, 0, 0],   // d waits
        [RETURN, 5, 0, 0], // and so does b
    ];
    let after = both(&next(&family(), tape(&more)));
    assert!(sound(&after));
    assert_eq!([4, 5, 6].map(|place| link(&after, place)), [5, NONE, NONE]);
    assert_eq!(view(&after, 6), digits(34));
    let ended = both(&next(&after, Entry::Step([RETURN, 0, 0, 0])));
    assert_eq!(ended.result, [102, 1]);
    assert_eq!(view(&ended, 6), digits(1_234));
    // the eldest by the links, though in a higher place
    let mut turned = after.clone();
    turned.state.frames[12 * 5 + 11] = 4;
    turned.state.frames[12 * 4 + 11] = NONE;
    assert!(sound(&turned));
    let turned = both(&next(&turned, Entry::Step([RETURN, 0, 0, 0])));
    assert_eq!(view(&turned, 5), digits(129));
    assert_eq!([2, 4].map(|place| view(&ended, place)), [IDENTITIES; 2]);
    // f ends and d resumes; d ends, then e, with it b
    let more = [
        [RETURN, 1, 0, 0],
        digit(1, 8),
        [RETURN, 1, 0, 0],
        [RETURN, 4, 0, 0],
    ];
    let ended = both(&next(&ended, tape(&more)));
    assert_eq!(ended.answers, [102, 2, 107, 0, 102, 1, 102, 1]);
    assert_eq!(view(&ended, 3), digits(12_348_956));
    assert!(sound(&ended));
}

/// a chain of ends hands on view after view, each to the next in order.
#[test]
fn a_chain_of_ends() {
    let entries = [
        digit(0, 1),
        [SPAWN, 0, 0, 0],
        digit(0, 2),
        [SPAWN, 0, 0, 0],
        digit(0, 3),
        [STEAL, 1, 0, 0],
        digit(1, 5),
        [SPAWN, 1, 0, 0],
        digit(1, 6),
        [STEAL, 2, 1, 0],
        digit(2, 7),
        [STEAL, 3, 0, 0],
        digit(3, 4),
        [RETURN, 3, 0, 0],
        [RETURN, 0, 0, 0],
    ];
    let (_, after) = run(4, &FIVE, 20, &entries);
    assert_eq!(after.answers[2 * 13..30], [102, 4, 102, 1]);
    assert_eq!(
        (view(&after, 3), view(&after, 0)),
        (digits(123_456), digits(7))
    );
    assert!(sound(&after));
    let ended = both(&next(&after, tape(&[[RETURN, 2, 0, 0], [RETURN, 1, 0, 0]])));
    assert_eq!(ended.answers, [102, 4, 102, 3]);
    assert_eq!(totals(&ended), digits(1_234_567));
    assert_all_free(&ended);
}

/// Views, links and totals come back from an image, and the run goes on with them.
#[test]
fn saved() {
    let (_, before) = run(8, &FIVE, 400, &three_children());
    let read = saved_and_read(&before);
    let returns = [1, 3, 0, 2].map(|worker| [RETURN, worker, 0, 0]);
    let ended = both(&next(&read, tape(&returns)));
    assert_eq!(ended.answers, [102, 1, 102, 4, 102, 1, 102, 3]);
    assert_eq!(totals(&ended), digits(1_234_567));
    let read = saved_and_read(&ended);
    assert_eq!(totals(&read), digits(1_234_567));
}

/// A state handed in otherwise: siblings have the order of their links, whatever their places and deques. Here a, in place 1, is the
/// youngest, and Main has it below itself in its deque.
#[test]
fn order_by_links() {
    let mut handed = family();
    for (place, younger) in [(3, 2), (2, 1), (1, NONE)] {
        handed.state.frames[12 * place + 11] = younger;
    }
    handed.state.deques[..3].copy_from_slice(&[2, 0, 1]);
    handed.state.deques[257 * 3..257 * 3 + 2].copy_from_slice(&[0, 0]);
    assert!(sound(&handed));
    // b ends before a, in front of it; a ends within its deque, before Main
    let more = [[RETURN, 1, 0, 0], [RETURN, 0, 0, 0]];
    let after = both(&next(&handed, tape(&more)));
    assert_eq!(after.answers, [102, 1, 102, 0]);
    assert_eq!(view(&after, 0), digits(34_127));
    assert_eq!(link(&after, 3), NONE);
    // c is the eldest: a's end goes to Main, c's to b's
    let more = [[RETURN, 0, 0, 0], [RETURN, 2, 0, 0]];
    let after = both(&next(&handed, tape(&more)));
    assert_eq!(after.answers, [102, 0, 102, 1]);
    assert_eq!(
        (view(&after, 0), view(&after, 2)),
        (digits(127), digits(5_634))
    );
    // the child below Main in its deque has a younger sibling by the links
    for (place, younger) in [(1, 3), (3, 2), (2, NONE)] {
        handed.state.frames[12 * place + 11] = younger;
    }
    let after = both(&next(&handed, Entry::Step([RETURN, 0, 0, 0])));
    assert_eq!((after.result, view(&after, 3)), ([102, 0], digits(1_256)));
    assert_eq!([3, 2].map(|place| link(&after, place)), [2, NONE]);
    // and a new child comes after the last of the chain
    let after = both(&next(&after, Entry::Step([SPAWN, 0, 0, 0])));
    assert_eq!([3, 2, 1].map(|place| link(&after, place)), [2, 1, NONE]);
    assert!(sound(&after));
}

/// Views of any words: sums and products modulo 4,294,967,296.
#[test]
fn any_view_words() {
    let (_, mut handed) = run(2, &FIVE, 20, &[[SPAWN, 0, 0, 0]]);
    handed.state.frames[7..11].copy_from_slice(&[NONE, 5, 3, NONE]);
    handed.state.frames[19..23].copy_from_slice(&[3, 4, 1 << 31 | 7, 1 << 30 | 9]);
    assert!(sound(&handed));
    let after = both(&next(&handed, Entry::Step([RETURN, 0, 0, 0])));
    // (2^31 + 7) · 3 = 2^32 + 2^31 + 21; (2^30 + 9) · 3 - 1 = 2^31 + 2^30 + 26
    assert_eq!(view(&after, 0), [2, 4, 2_147_483_669, 3_221_225_498]);
    let folded = both(&next(&after, Entry::Step([FOLD, 0, 2, 2 << 16 | 1])));
    assert_eq!(view(&folded, 0), [2, 4, 42, 2_147_483_701]);
    let folded = both(&next(&after, Entry::Step([FOLD, 0, 2, 3 << 16 | 2])));
    assert_eq!(view(&folded, 0), [2, 4, 2_147_483_711, 1_073_741_904]);
}

/// Nothing but the bottom frame's view words changes by a fold.
#[test]
fn a_fold_changes_one_view() {
    let before = family();
    let after = both(&next(&before, Entry::Step([FOLD, 1, 0, 9])));
    let mut expected = before.state.clone();
    expected.frames[12 * 2 + 7] = 9;
    assert!(after.state == expected && after.pool == before.pool);
}

/// No node is free and 64 frames live: folds are accepted.
#[test]
fn full() {
    let mut entries = vec![[SPAWN, 0, 0, 0]; 63];
    entries.extend([
        [FOLD, 0, 1, 5],
        [SPAWN, 0, 0, 0],
        [WRITE, 0, 0, 1],
        [READ, 0, 0, 0],
    ]);
    let answers = answers(1, &FIVE, 11, &entries);
    assert_eq!(answers[63..], [[107, 0], [13, 0], [16, 0], [105, 10]]);
}

const TOTALS: &str = "the totals are zero while Main lives";
const LINKS: &str = "links chain the live children of each frame, each once";
const MAIN: &str = "Main's link is none";
const PLACES: &str = "free frame places are zero and once on their chain";

#[test]
fn corrupted_words() {
    for word in 5..9 {
        let alone = |state: u32| {
            let (mut call, _) = run(2, &FIVE, 20, &[]);
            call.state.numbers[word] = state;
            sentences::broken(&call.state, &call.pool).len()
        };
        assert_eq!([0, 1, NONE].map(alone), [0, 1, 1]);
    }
    assert_eq!(broken(|state, _| state.numbers[5] = 1), [TOTALS]);
    assert_eq!(broken(|state, _| state.numbers[8] = NONE), [TOTALS]);
    assert_eq!(broken(|state, _| state.frames[FRAME_0 + 11] = 0), [MAIN]);
    assert_eq!(broken(|state, _| state.frames[FRAME_0 + 11] = 1), [MAIN]);
    for word in 7..12 {
        let (mut call, _) = run(2, &FIVE, 20, &[]);
        call.state.frames[FRAME_1 + word] = NONE;
        call.entry = tape(&[]);
        assert_eq!(both(&call).result[0], 6);
    }
    assert_eq!(broken(|state, _| state.frames[FRAME_1 + 7] = 1), [PLACES]);
    assert_eq!(
        broken(|state, _| state.frames[FRAME_1 + 11] = NONE),
        [PLACES]
    );
    assert!(broken(|state, _| state.frames[FRAME_0 + 7..FRAME_0 + 11].fill(77)).is_empty());
}

/// The links of three siblings, each of 0 to 4, 64 and none: sound if they chain all three, in any order.
#[test]
fn corrupted_links() {
    let before = family();
    let words = [0, 1, 2, 3, 4, 64, NONE];
    let chains: Vec<[u32; 3]> = vec![
        [2, 3, NONE],
        [3, NONE, 2],
        [NONE, 3, 1],
        [3, 1, NONE],
        [NONE, 1, 2],
        [2, NONE, 1],
    ];
    let mut sound = 0;
    for n in 0..words.len().pow(3) {
        let links = [n % 7, n / 7 % 7, n / 49].map(|place| words[place]);
        let mut call = next(&before, tape(&[]));
        for (place, link) in (1..).zip(links) {
            call.state.frames[12 * place + 11] = link;
        }
        let expected: &[&str] = if chains.contains(&links) {
            &[]
        } else {
            &[LINKS]
        };
        let broken = sentences::broken(&call.state, &call.pool);
        let broken: Vec<&str> = broken
            .iter()
            .map(|&s| sentences::SENTENCES[s].text)
            .collect();
        assert_eq!((links, &broken[..]), (links, expected));
        let refusal = if expected.is_empty() { 0 } else { 6 };
        assert_eq!((links, both(&call).result[0]), (links, refusal));
        sound += u32::from(refusal == 0);
    }
    assert_eq!(sound, 6);
}
