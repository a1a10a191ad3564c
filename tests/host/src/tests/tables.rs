//! the lent frame table, of every length, through plain.rs and the library.

use super::waiting::{assert_all_free, next, saved_and_read, sound, tape, typed};
use super::{both, broken, run_in, start_refusal_in, starting_in, zeros, FIVE};
use crate::call::{Call, Entry, Outcome};
use crate::image;
use crate::parts::Parts;
use crate::plain::{FOLD, NONE, READ, RETURN, SPAWN, STEAL, SYNC, WRITE};
use crate::random::Random;

const LENGTHS: [usize; 9] = [1, 2, 3, 63, 64, 65, 128, 255, 256];

/// Lengths that are not the recorded one.
fn others(places: usize) -> impl Iterator<Item = usize> {
    let near = [0, 1, places - 1, places + 1, 64, 255, 256, 257, 300];
    near.into_iter().filter(move |&other| other != places)
}

/// What a start leaves: Main in place 0, the others free in rising order, every record written.
#[test]
fn a_start() {
    for places in LENGTHS {
        let (call, _) = run_in(places, 2, &FIVE, 20, &[]);
        let last = places as u32 - 1;
        let next = |place: u32| if place < last { place + 1 } else { NONE };
        assert_eq!(
            call.state.numbers,
            [2, 5, 20, 11, next(0), 0, 0, 0, 0, places as u32]
        );
        let main = [1, NONE, 0, 0, 0, 0, 0, 0, NONE, 1, 0, NONE];
        let (records, _) = call.state.frames.as_chunks::<12>();
        assert_eq!((records.len(), records[0]), (places, main));
        for (place, record) in (1..).zip(&records[1..]) {
            assert_eq!(*record, [0, next(place), 0, 0, 0, 0, 0, 0, 0, 0, 0, 0]);
        }
        assert_eq!(call.state.deques[..2], [1, 0]);
        assert!(call.state.deques[2..].iter().all(|&word| word == 0));
    }
}

/// Whatever state and table held, the start leaves the same.
#[test]
fn garbage_at_a_start() {
    for places in [1, 64, 256] {
        let begun = |state: Parts| {
            let call = starting_in(places, 2, &FIVE, 20);
            both(&Call { state, ..call }).state
        };
        let expected = begun(zeros(vec![0; 12 * places]));
        for word in [1, 2, 64, 256, NONE] {
            let mut state = zeros(vec![word; 12 * places]);
            state.numbers.fill(word);
            state.deques.fill(word);
            assert_eq!(begun(state), expected);
        }
        for seed in 0..20 {
            assert_eq!(begun(Parts::garbage(places, &Random::new(seed))), expected);
        }
    }
}

/// 21 after 2 and before 3; numbers and deques are zero, table and pool as they were.
#[test]
fn starts_refused() {
    for places in [0, 257, 258, 300, 512, 1_000] {
        assert_eq!(start_refusal_in(places, 2, 5, 20), 21);
        assert_eq!(start_refusal_in(places, 2, 0, 20), 1);
        assert_eq!(start_refusal_in(places, 2, 257, 20), 1);
        assert_eq!(start_refusal_in(places, 0, 5, 20), 2);
        assert_eq!(start_refusal_in(places, 9, 5, 20), 2);
        assert_eq!(start_refusal_in(places, 2, 5, 10), 21);
        assert_eq!(start_refusal_in(places, 2, 5, 16_385), 21);
        assert_eq!(start_refusal_in(places, 0, 0, 0), 1);
    }
    for places in LENGTHS {
        assert_eq!(start_refusal_in(places, 2, 5, 10), 3);
        assert_eq!(start_refusal_in(places, 2, 5, 16_385), 3);
        assert_eq!(start_refusal_in(places, 2, 0, 20), 1);
        assert_eq!(start_refusal_in(places, 9, 5, 20), 2);
    }
}

/// As many frames live as the table has places, the next spawn is 13, and after one return it is accepted; all places serve again.
#[test]
fn nested_spawns() {
    for places in LENGTHS {
        let deepest = places as u32 - 1;
        let (_, full) = run_in(places, 1, &FIVE, 11, &vec![[SPAWN, 0, 0, 0]; places]);
        let (answers, _) = full.answers.as_chunks::<2>();
        let depths = (1..=deepest).map(|depth| [101, depth]);
        assert!(answers.iter().copied().eq(depths.chain([[13, 0]])));
        assert!(sound(&full));
        let deque = &full.state.deques[..1 + places];
        assert!(deque[1..].iter().copied().eq(0..places as u32));
        let again = [[RETURN, 0, 0, 0], [SPAWN, 0, 0, 0], [SPAWN, 0, 0, 0]];
        let after = both(&next(&full, tape(&again)));
        if places > 1 {
            assert_eq!(after.answers, [102, 0, 101, deepest, 13, 0]);
            assert_eq!(after.state, full.state);
        } else {
            assert_eq!(after.answers, [102, 3, 9, 0, 9, 0]);
        }
        let ended = both(&next(&full, tape(&vec![[RETURN, 0, 0, 0]; places])));
        assert!(ended.answers.ends_with(&[102, 3]));
        assert_all_free(&ended);
    }
}

/// The first place of the table is Main's, and a table of one has no other: folds, reads, writes and syncs go on.
#[test]
fn a_table_of_one() {
    let entries = [
        [SPAWN, 0, 0, 0],
        [FOLD, 0, 0, 5],
        [WRITE, 0, 4, 99],
        [READ, 0, 4, 0],
        [SYNC, 0, 0, 0],
        [STEAL, 1, 0, 0],
        [RETURN, 0, 0, 0],
    ];
    let (_, after) = run_in(1, 2, &FIVE, 11, &entries);
    let expected = [
        [13, 0],
        [107, 0],
        [106, 0],
        [105, 99],
        [104, 0],
        [12, 0],
        [102, 3],
    ];
    assert_eq!(after.answers.as_chunks().0, expected);
    assert_eq!(after.state.numbers[4..], [0, 5, NONE, 1, 0, 1]);
    assert_all_free(&after);
}

/// A run of 8 workers that fills a table and has frames of all sorts.
fn busy(places: usize) -> Outcome {
    let mut entries = vec![[FOLD, 0, 2, 10 << 16 | 1], [SPAWN, 0, 0, 0]];
    entries.extend([[STEAL, 1, 0, 0], [SPAWN, 1, 0, 0], [STEAL, 2, 1, 0]]);
    entries.extend([[WRITE, 2, 3, 7], [RETURN, 2, 0, 0]]);
    entries.extend(vec![[SPAWN, 1, 0, 0]; places]);
    let (_, after) = run_in(places, 8, &FIVE, 60, &entries);
    assert!(sound(&after));
    after
}

/// Every call with a table of another length than recorded: 6, and nothing but the work slice changes; a reading leaves zeros.
#[test]
fn tables_of_another_length() {
    for places in LENGTHS {
        let before = busy(places);
        let entries = [
            Entry::Step([SPAWN, 0, 0, 0]),
            Entry::Step([9, 9, 9, 9]),
            tape(&[]),
            tape(&[[READ, 0, 0, 0]]),
            Entry::Save { target: Vec::new() },
        ];
        for other in others(places) {
            for entry in &entries {
                let mut call = next(&before, entry.clone());
                call.state.resize_table(other, &Random::new(3));
                let mut expected = call.untouched([6, 0]);
                expected.work.fill(0);
                assert!(both(&call) == expected, "{call}");
                call.work.pop();
                assert!(both(&call) == call.untouched([5, 0]), "{call}");
            }
        }
    }
}

/// Other lengths are recorded: 6, whatever the table's length is, unless it is just this one and the places suit.
#[test]
fn recorded_lengths() {
    for places in LENGTHS {
        let before = busy(places);
        for recorded in others(places).chain([512, 65_536 + places, 1 << 31, NONE as usize]) {
            let mut call = next(&before, tape(&[]));
            call.state.numbers[9] = recorded as u32;
            assert_eq!(both(&call).result[0], 6, "{call}");
            if recorded <= 300 {
                call.state.resize_table(recorded, &Random::new(3));
                assert_eq!(both(&call).result[0], 6, "{call}");
            }
        }
    }
}

const LENGTH: &str = "the recorded length of the table is 1 to 256";
const TABLE: &str = "the table has the recorded length";
const DEQUES: &str = "a deque has as many places as the table";
const CHAIN: &str = "free frame places are zero and once on their chain";

#[test]
fn corrupted_lengths() {
    assert_eq!(broken(|state, _| state.frames.extend([7; 12])), [TABLE]);
    assert_eq!(
        broken(|state, _| state.frames.truncate(12 * 63)),
        [TABLE, CHAIN]
    );
    assert_eq!(broken(|state, _| state.numbers[9] = 63), [TABLE, CHAIN]);
    assert_eq!(broken(|state, _| state.numbers[9] = 65), [TABLE]);
    let zero = broken(|state, _| state.numbers[9] = 0);
    assert!(zero.contains(&LENGTH) && zero.contains(&TABLE));
    assert_eq!(broken(|state, _| state.numbers[9] = NONE), [LENGTH, TABLE]);
    // places 64 to 256, free and in rising order
    let too_long = |state: &mut Parts, _: &mut [u32]| {
        state.frames[12 * 63 + 1] = 64;
        for place in 64..257 {
            let next = if place < 256 { place + 1 } else { NONE };
            state.frames.extend([0, next, 0, 0, 0, 0, 0, 0, 0, 0, 0, 0]);
        }
        state.numbers[9] = 257;
    };
    assert_eq!(broken(too_long), [LENGTH]);
    let longest = |state: &mut Parts, _: &mut [u32]| {
        state.frames[12 * 63 + 1] = 64;
        for place in 64..256 {
            let next = if place < 255 { place + 1 } else { NONE };
            state.frames.extend([0, next, 0, 0, 0, 0, 0, 0, 0, 0, 0, 0]);
        }
        state.numbers[9] = 256;
    };
    assert!(broken(longest).is_empty());
}

/// A deque that holds every frame, and says that it holds one more.
#[test]
fn deques_longer_than_the_table() {
    for places in LENGTHS {
        let (_, full) = run_in(places, 1, &FIVE, 11, &vec![[SPAWN, 0, 0, 0]; places]);
        for length in [places as u32 + 1, 257, NONE] {
            let mut call = next(&full, tape(&[]));
            call.state.deques[0] = length;
            let broken = crate::sentences::broken(&call.state, &call.pool);
            let texts = broken.iter().map(|&s| crate::sentences::SENTENCES[s].text);
            assert_eq!(texts.collect::<Vec<_>>(), [DEQUES]);
            assert_eq!(both(&call).result[0], 6);
        }
    }
}

/// Numbers that the table's places end before: in a deque, as a parent, as a sibling and on the free chain, also where a longer table would
/// have such a place.
#[test]
fn numbers_past_the_table() {
    for places in LENGTHS {
        let (_, full) = run_in(places, 1, &FIVE, 11, &vec![[SPAWN, 0, 0, 0]; places]);
        let (_, main) = run_in(places, 1, &FIVE, 11, &[]);
        for past in [places as u32, 255, 256, 257, NONE - 1] {
            if past < places as u32 {
                continue;
            }
            let last = 12 * (places - 1);
            let changes: [(&Outcome, &dyn Fn(&mut Parts)); 6] = [
                (&full, &|state| state.deques[places] = past),
                (&full, &|state| state.deques[1] = past),
                (&full, &|state| state.frames[last + 1] = past),
                (&full, &|state| state.frames[last + 11] = past),
                (&full, &|state| state.numbers[4] = past),
                (&main, &|state| state.numbers[4] = past),
            ];
            for (before, change) in changes {
                let mut call = next(before, tape(&[]));
                change(&mut call.state);
                assert_eq!(both(&call).result[0], 6, "{call}");
            }
        }
    }
}

/// The records past a shorter table are not looked at, though they are there and right: a live one is missed, and so is a free one.
#[test]
fn shorter_and_recorded() {
    for places in [2, 64, 65, 256] {
        let (_, full) = run_in(places, 1, &FIVE, 11, &vec![[SPAWN, 0, 0, 0]; places]);
        let (_, main) = run_in(places, 1, &FIVE, 11, &[]);
        for before in [full, main] {
            let mut call = next(&before, tape(&[]));
            call.state.frames.truncate(12 * (places - 1));
            call.state.numbers[9] = places as u32 - 1;
            assert_eq!(both(&call).result[0], 6, "{call}");
        }
    }
}

/// A step that is refused leaves every record as it was, word for word.
#[test]
fn refused_steps() {
    for places in [3, 64, 65, 256] {
        let before = busy(places);
        let refused = [
            ([9, 0, 0, 0], 7),
            ([SPAWN, 8, 0, 0], 8),
            ([SYNC, 3, 0, 0], 10),
            ([STEAL, 1, 0, 0], 11),
            ([STEAL, 3, 0, 0], 12),
            ([SPAWN, 1, 0, 0], 13),
            ([READ, 0, 5, 0], 15),
            ([FOLD, 0, 3, 1], 20),
        ];
        for (step, number) in refused {
            let after = both(&next(&before, Entry::Step(step)));
            assert_eq!(after.result, [number, 0], "{step:?} {places}");
            assert!(after.state == before.state && after.pool == before.pool);
        }
        let steps = refused.map(|(step, _)| step);
        let after = both(&next(&before, tape(&steps)));
        assert!(after.state == before.state && after.pool == before.pool);
    }
}

/// Saved and read back into a table of garbage, the run goes on to its end; in a table of another length the image is refused, and every
/// record of that table is zero.
#[test]
fn images() {
    for places in LENGTHS {
        let before = busy(places);
        let read = saved_and_read(&before);
        let live = typed(&read).frames.iter().filter(|f| f.live == 1).count();
        let home: Vec<[u32; 4]> = (0..live as u32 * 8)
            .map(|n| [RETURN, n % 8, 0, 0])
            .collect();
        let ended = both(&next(&read, tape(&home)));
        assert_all_free(&ended);
        assert_eq!(ended.state.numbers[9], places as u32);
        saved_and_read(&ended);
        for other in others(places) {
            let image = image_of(&before);
            let load = Call {
                state: Parts::garbage(other, &Random::new(9)),
                pool: vec![3; 2 * 61 + 1],
                work: vec![7; 61],
                entry: Entry::Load { image },
            };
            let after = both(&load);
            assert_eq!(after.result, [6, 0], "{load}");
            assert_eq!(after.state, zeros(vec![0; 12 * other]));
            assert!(after.pool[..122].iter().all(|&word| word == 0));
            assert_eq!(after.pool[122..], [3]);
            assert_eq!(
                (after.work[..60].iter().max(), after.work[60]),
                (Some(&0), 7)
            );
        }
    }
}

/// What a save of the run writes.
fn image_of(before: &Outcome) -> Vec<u8> {
    let [nodes, places] = [2, 9].map(|number| before.state.numbers[number]);
    let target = vec![5; image::bytes(image::Size { places, nodes }) as usize];
    both(&next(before, Entry::Save { target })).bytes
}
