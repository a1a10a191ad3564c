//! The binding's numbers, and document 01's example through it.

use splitter::{
    affine, answer, answers, raw, tree_nodes, Done, Engine, Frame, Reducer, Refusal, Report, Returned, State, Step,
    Synced, Totals,
};
use splitter::{clocks_words, image_array_bytes, image_bytes, BLOCK_BYTES, BLOCK_WORDS, IMAGE_VERSION, NONE};
use splitter::{DEQUES_WORDS, DEQUE_PLACES, NODE_WORDS, NODE_WORDS_OLD, NO_LINK, NUMBERS_WORDS};
use splitter::{MAX_NODES, MAX_PLACES, MAX_SPLITTERS, MAX_WORKERS, REDUCERS};
use splitter::{VERSION, VERSION_MAJOR, VERSION_MINOR};
use std::mem::{offset_of, size_of};

/// The numbers of the refusals; 14 was one before R-3.
const REFUSALS: [u32; 22] = [1, 2, 3, 4, 5, 6, 7, 8, 9, 10, 11, 12, 13, 15, 16, 17, 18, 19, 20, 21, 22, 99];

#[test]
fn refusals_keep_their_numbers() {
    for number in 0..200 {
        let refusal = Refusal::from_number(number);
        let known = REFUSALS.contains(&number);
        assert_eq!(refusal.number(), number);
        assert_eq!(refusal == Refusal::Unknown(number), !known);
        assert_eq!(refusal.to_string() == format!("unknown number {number}"), !known);
    }
}

#[test]
fn answers_keep_their_words() {
    let mut accepted = 0;
    for first in 0..200 {
        for second in 0..6 {
            match answer([first, second]) {
                Ok(done) => {
                    assert_eq!(done.words(), [first, second]);
                    accepted += 1;
                }
                Err(refusal) => assert_eq!(refusal.number(), first),
            }
        }
    }
    assert_eq!(accepted, 4 * 6 + 5 + 2 + 1);
}

const HEADER: &str = include_str!("../../include/splitter.h");

/// `BadTape` to `BAD_TAPE`.
fn name_in_c(name: &str) -> String {
    let word = |c: char| if c.is_uppercase() { format!("_{c}") } else { c.to_uppercase().to_string() };
    name.chars().map(word).collect::<String>().trim_start_matches('_').to_string()
}

#[test]
fn the_header_has_the_same_refusals() {
    for number in REFUSALS {
        let refusal = Refusal::from_number(number);
        let name = format!("SPLITTER_{}", name_in_c(&format!("{refusal:?}")));
        let given = HEADER.split_once(&format!(" {name} = ")).expect(&name).1;
        let end = given.find(|c: char| !c.is_ascii_digit()).expect(&name);
        assert_eq!(given[..end], number.to_string(), "{name}");
        assert!(HEADER.contains(&format!("case {name}: return \"{refusal}\";")), "{name}");
    }
}

#[test]
fn the_header_has_the_same_outcomes() {
    for outcome in [Returned::Continued, Returned::BecameIdle, Returned::Resumed, Returned::Finished, Returned::Waits] {
        let name = name_in_c(&format!("{outcome:?}"));
        assert!(HEADER.contains(&format!(" SPLITTER_{name} = {}", outcome as u32)), "{name}");
    }
    for outcome in [Synced::Passed, Synced::Suspended] {
        let name = name_in_c(&format!("{outcome:?}"));
        assert!(HEADER.contains(&format!(" SPLITTER_{name} = {}", outcome as u32)), "{name}");
    }
}

#[test]
fn the_header_has_the_same_reducers() {
    for reducer in [Reducer::Sum, Reducer::Min, Reducer::Affine] {
        let name = name_in_c(&format!("{reducer:?}"));
        assert!(HEADER.contains(&format!(" SPLITTER_REDUCER_{name} = {}", reducer as u32)), "{name}");
    }
    assert_eq!([affine(3, 1), affine(0, 65_535), affine(65_535, 65_535)], [3 * 65_536 + 1, 65_535, u32::MAX]);
}

#[test]
fn the_header_has_the_same_sizes() {
    for (name, size) in [
        ("NUMBERS_WORDS", NUMBERS_WORDS),
        ("DEQUES_WORDS", DEQUES_WORDS),
        ("DEQUE_PLACES", DEQUE_PLACES),
        ("FRAME_RECORD_WORDS", Frame::WORDS),
        ("NODE_WORDS", NODE_WORDS),
        ("NODE_WORDS_OLD", NODE_WORDS_OLD),
        ("NO_LINK", NO_LINK as usize),
        ("MAX_NODES", MAX_NODES),
        ("MAX_SPLITTERS", MAX_SPLITTERS),
        ("MAX_WORKERS", MAX_WORKERS),
        ("MAX_PLACES", MAX_PLACES),
        ("REDUCERS", REDUCERS),
        ("RECORD_BYTES", Step::RECORD_BYTES),
        ("REPORT_WORDS", Report::WORDS),
        ("BLOCK_BYTES", BLOCK_BYTES),
        ("BLOCK_WORDS", BLOCK_WORDS),
        ("IMAGE_VERSION", IMAGE_VERSION as usize),
        ("NONE", NONE as usize),
        ("VERSION_MAJOR", VERSION_MAJOR as usize),
        ("VERSION_MINOR", VERSION_MINOR as usize),
    ] {
        assert!(HEADER.contains(&format!("#define SPLITTER_{name} {size}u")), "{name}");
    }
}

#[test]
fn the_package_has_the_same_version() {
    assert_eq!(env!("CARGO_PKG_VERSION_MAJOR"), VERSION_MAJOR.to_string());
    assert_eq!(env!("CARGO_PKG_VERSION_MINOR"), VERSION_MINOR.to_string());
    assert!(HEADER.contains("#define SPLITTER_VERSION (SPLITTER_VERSION_MAJOR * 1000u + SPLITTER_VERSION_MINOR)"));
    assert_eq!(VERSION, 4);
}

/// As in the header, the parts lie one after the other.
#[test]
fn the_state_is_laid_out_as_in_c() {
    assert_eq!(offset_of!(State, numbers), 0);
    assert_eq!(offset_of!(State, deques), 4 * NUMBERS_WORDS);
    assert_eq!(size_of::<State>(), 4 * (NUMBERS_WORDS + DEQUES_WORDS));
}

/// The fields of a struct, all of one type, in the header's order.
fn header_fields(name: &str, of_type: &str) -> Vec<&'static str> {
    let body = HEADER.split_once(&format!("struct {name} {{")).and_then(|(_, after)| after.split_once("};"));
    let lines = body.expect("a struct of the header").0.lines();
    lines.filter_map(|line| line.trim().strip_prefix(of_type)?.trim().split_once(';').map(|(name, _)| name)).collect()
}

#[test]
fn a_frame_is_laid_out_as_in_c() {
    let words: [u32; Frame::WORDS] = std::array::from_fn(|word| word as u32);
    let frame = Frame::from_words(words);
    assert_eq!((frame.to_words(), size_of::<Frame>()), (words, 4 * Frame::WORDS));
    let told = format!("{frame:?}");
    let fields = header_fields("splitter_frame", "uint32_t");
    assert_eq!(fields.len(), Frame::WORDS);
    for (word, field) in fields.into_iter().enumerate() {
        assert!(told.contains(&format!(" {field}: {word}")), "{field}");
    }
    assert_eq!((offset_of!(Frame, root), offset_of!(Frame, younger)), (4 * 5, 4 * 11));
}

#[test]
fn a_report_has_the_words_of_the_header() {
    let told = format!("{:?}", Report::from_words([0, 1, 2, 3]));
    let fields = header_fields("splitter_parallelism", "uint64_t");
    assert_eq!(fields.len(), Report::WORDS);
    for (word, field) in fields.into_iter().enumerate() {
        assert!(told.contains(&format!(" {field}: {word}")), "{field}");
    }
    assert!(HEADER.contains("#define SPLITTER_CLOCKS_WORDS(places) ((size_t)2u * (size_t)(places))"));
    assert_eq!([0, 1, MAX_PLACES].map(clocks_words), [0, 2, 512]);
}

#[test]
fn a_record_is_little_endian() {
    let step = Step::Write { worker: 7, splitter: 0x0102, value: 0x0304_0506 };
    assert_eq!(step.to_bytes(), [6, 7, 2, 1, 6, 5, 4, 3]);
    let step = Step::Fold { worker: 7, reducer: Reducer::Affine, value: affine(0x0304, 0x0506) };
    assert_eq!(step.to_bytes(), [7, 7, 2, 0, 6, 5, 4, 3]);
}

#[test]
fn sizes_of_trees() {
    assert_eq!([1, 5, 256].map(tree_nodes), [1, 11, 511]);
}

#[test]
fn sizes_of_images() {
    assert_eq!(image_bytes(u32::MAX, u32::MAX), (18 + 22 * u64::from(u32::MAX)).div_ceil(127) * 512);
    for nodes in 0..=MAX_NODES {
        let places = nodes % (MAX_PLACES + 1);
        assert_eq!(image_bytes(places as u32, nodes as u32), image_array_bytes(places, nodes) as u64);
    }
}

/// Document 01's example: its steps, and the answers that its lines show.
const EXAMPLE: [(Step, Result<Done, Refusal>); 9] = [
    (Step::Spawn { worker: 0 }, Ok(Done::Spawned(1))),
    (Step::Steal { worker: 1, victim: 0 }, Ok(Done::Stolen(0))),
    (Step::Write { worker: 1, splitter: 4, value: 99 }, Ok(Done::Written(5))),
    (Step::Read { worker: 0, splitter: 4 }, Ok(Done::Value(50))),
    (Step::Sync { worker: 1 }, Ok(Done::Synced(Synced::Suspended))),
    (Step::Read { worker: 1, splitter: 4 }, Err(Refusal::WorkerHasNoFrame)),
    (Step::Return { worker: 0 }, Ok(Done::Returned(Returned::Resumed))),
    (Step::Read { worker: 0, splitter: 4 }, Ok(Done::Value(99))),
    (Step::Return { worker: 0 }, Ok(Done::Returned(Returned::Finished))),
];

/// Its records.
fn example_tape() -> Vec<u8> {
    EXAMPLE.map(|(step, _)| step.to_bytes()).concat()
}

/// What a table may hold before a start or a reading.
const GARBAGE: Frame = Frame::from_words([0xA5A5_A5A5; Frame::WORDS]);

/// The places of the example's table.
const PLACES: usize = 64;

/// Runs a test on a run with document 01's workers, values and nodes.
fn with_example(test: impl FnOnce(&mut Engine)) {
    let (mut state, mut pool, mut work) = (State::ZERO, [0; 20 * NODE_WORDS], [0; 20]);
    let mut engine = Engine { state: &mut state, frames: &mut [GARBAGE; PLACES], pool: &mut pool, work: &mut work };
    engine.start(2, &[10, 20, 30, 40, 50]).expect("document 01's start");
    test(&mut engine);
}

#[test]
fn the_example_as_a_tape() {
    with_example(|engine| {
        let mut words = [0; 2 * EXAMPLE.len()];
        engine.tape(&example_tape(), &mut words).expect("a tape of whole records");
        assert!(answers(&words).eq(EXAMPLE.map(|(_, answer)| answer)));
    });
}

#[test]
fn the_example_step_by_step() {
    with_example(|engine| {
        for (step, answer) in EXAMPLE {
            assert_eq!(engine.step(step), answer);
        }
    });
}

/// What a run has folded so far that came to an end.
const NOTHING: Totals = Totals { sum: 0, min: NONE, multiplier: 1, addend: 0 };

/// What the state tells of document 01's example: live frames, lengths of the deques, depths of the bottom frames.
#[test]
fn the_example_as_queries_see_it() {
    let after: [(usize, [usize; 2], [Option<u32>; 2]); 9] = [
        (2, [2, 0], [Some(1), None]),
        (2, [1, 1], [Some(1), Some(0)]),
        (2, [1, 1], [Some(1), Some(0)]),
        (2, [1, 1], [Some(1), Some(0)]),
        (2, [1, 0], [Some(1), None]),
        (2, [1, 0], [Some(1), None]),
        (1, [1, 0], [Some(0), None]),
        (1, [1, 0], [Some(0), None]),
        (0, [0, 0], [None, None]),
    ];
    with_example(|engine| {
        for ((step, answer), (live, lengths, depths)) in EXAMPLE.into_iter().zip(after) {
            assert_eq!(engine.step(step), answer);
            let state = &engine.state;
            assert_eq!((state.workers(), state.splitters(), state.nodes(), state.places()), (2, 5, 20, 64));
            assert_eq!((engine.live_frames(), state.main_returned()), (live, live == 0));
            assert_eq!(state.totals(), (live == 0).then_some(NOTHING));
            assert_eq!([0, 1].map(|worker| state.deque_length(worker)), lengths);
            assert_eq!([0, 1].map(|worker| engine.bottom_depth(worker)), depths);
            assert_eq!((state.deque_length(2), engine.bottom_depth(255)), (0, None));
        }
    });
}

/// Free nodes are what a write gives; all of them once Main has returned, and 0 in a pool that is too short.
#[test]
fn free_nodes_without_a_write() {
    with_example(|engine| {
        assert_eq!(engine.free_nodes(), 20 - tree_nodes(5));
        for (step, answer) in EXAMPLE {
            assert_eq!(engine.step(step), answer);
            if let Ok(Done::Written(free)) = answer {
                assert_eq!(engine.free_nodes(), free.into());
            }
        }
        assert_eq!(engine.free_nodes(), 20);
        assert_eq!(raw::free_nodes(&engine.state.numbers, &engine.pool[1..]), 0);
        assert_eq!(raw::free_nodes(&engine.state.numbers[1..], engine.pool), 0);
    });
}

#[test]
fn queries_take_any_words() {
    assert_eq!((State::ZERO.bottom_depth(&[Frame::ZERO], 0), State::ZERO.main_returned()), (None, false));
    assert_eq!(State::ZERO.totals(), None);
    for word in [1, 7, 63, 64, 65, 255, 256, 257, 519, 1 << 31, u32::MAX] {
        let state = State { numbers: [word; NUMBERS_WORDS], deques: [word; DEQUES_WORDS] };
        let frames = [Frame::from_words([word; Frame::WORDS]); PLACES];
        assert_eq!((state.workers(), state.places(), state.main_returned()), (word, word, false));
        assert_eq!(state.totals(), None);
        for worker in 0..=u8::MAX {
            let exists = usize::from(worker) < MAX_WORKERS;
            assert_eq!(state.deque_length(worker), if exists { DEQUE_PLACES.min(word as usize) } else { 0 });
            let depth = (exists && word < 64).then_some(word);
            assert_eq!((state.bottom_depth(&frames, worker), state.bottom_depth(&[], worker)), (depth, None));
        }
    }
}

/// Document 02's R-2: from the root down, what one frame alone has is altered in place.
#[test]
fn a_write_takes_nodes_only_for_what_is_shared() {
    let (mut state, mut pool, mut work) = (State::ZERO, [0; 15 * NODE_WORDS], [0; 15]);
    let frames = &mut [GARBAGE; 2];
    for nodes in [11, 14, 15] {
        let mut engine = Engine { state: &mut state, frames, pool: &mut pool[..nodes * NODE_WORDS], work: &mut work };
        engine.start(2, &[10, 20, 30, 40, 50]).expect("at least T(5) nodes");
        for splitter in [0, 4, 0] {
            assert_eq!(engine.write(0, splitter, 7), Ok(nodes as u32 - 11));
        }
    }
    let mut engine = Engine { state: &mut state, frames, pool: &mut pool, work: &mut work };
    assert_eq!((engine.spawn(0), engine.steal(1, 0)), (Ok(1), Ok(0)));
    assert_eq!([engine.write(1, 0, 8), engine.write(1, 0, 9), engine.write(0, 0, 6)], [Ok(0); 3]);
    assert_eq!([engine.write(0, 1, 8), engine.write(1, 4, 8)], [Err(Refusal::PoolFull); 2]);
    assert_eq!((engine.read(0, 0), engine.read(1, 0)), (Ok(6), Ok(9)));
    assert_eq!((engine.ret(0), engine.write(1, 4, 8)), (Ok(Returned::BecameIdle), Ok(4)));
}

/// A run of 4 workers with 5 splitters, in a table of so many places.
fn with_places(places: usize, test: impl FnOnce(&mut Engine)) {
    let (mut state, mut pool, mut work) = (State::ZERO, [0; 40 * NODE_WORDS], [0; 40]);
    let frames = &mut [GARBAGE; MAX_PLACES][..places];
    let mut engine = Engine { state: &mut state, frames, pool: &mut pool, work: &mut work };
    engine.start(4, &[10, 20, 30, 40, 50]).expect("at least T(5) nodes");
    test(&mut engine);
}

fn with_workers(test: impl FnOnce(&mut Engine)) {
    with_places(PLACES, test);
}

/// The worker's bottom frame spawns; the thief takes it and returns it. Then it waits, in this place.
fn spawn_and_wait(engine: &mut Engine, worker: u8, thief: u8, place: usize) {
    engine.spawn(worker).expect("a place is free");
    engine.steal(thief, worker.into()).expect("a deque of two");
    assert_eq!(engine.ret(thief), Ok(Returned::Waits));
    assert_eq!((engine.frames[place].waiting, engine.frames[place].returning), (1, 1));
    assert_eq!(engine.read(thief, 0), Err(Refusal::WorkerHasNoFrame));
}

/// Document 02's: all frames but the last wait, and one return ends them all.
#[test]
fn a_chain_of_waiting_frames_ends_by_one_return() {
    for places in [1, 2, 63, 64, 65, 255, 256] {
        with_places(places, |engine| {
            for place in 0..places - 1 {
                spawn_and_wait(engine, 0, 1 + place as u8 % 3, place);
            }
            assert_eq!((engine.live_frames(), engine.spawn(0)), (places, Err(Refusal::FramesFull)));
            assert_eq!(engine.ret(0), Ok(Returned::Finished));
            assert_eq!(engine.spawn(0), Err(Refusal::RunIsOver));
            assert_eq!((engine.state.numbers[4], &engine.state.deques[..2]), (0, &[0, 0][..]));
        });
    }
}

/// Document 02's R-6: the length of the table is the limit in 13; after one return a spawn is accepted again.
#[test]
fn the_table_is_the_limit() {
    for places in [1, 2, 63, 64, 65, 255, 256] {
        with_places(places, |engine| {
            for depth in 1..places as u32 {
                assert_eq!(engine.spawn(0), Ok(depth));
            }
            assert_eq!(engine.spawn(0), Err(Refusal::FramesFull));
            if places > 1 {
                assert_eq!(engine.ret(0), Ok(Returned::Continued));
                assert_eq!((engine.spawn(0), engine.bottom_depth(0)), (Ok(places as u32 - 1), Some(places as u32 - 1)));
            }
        });
    }
}

/// 21, after 2 and before 3: a state of zeros, and the table as it was.
#[test]
fn a_start_with_a_wrong_table_is_refused() {
    for places in [0, 257, 300] {
        let (mut state, mut table) = (State::ZERO, vec![GARBAGE; places]);
        state.numbers.fill(7);
        let mut engine = Engine { state: &mut state, frames: &mut table, pool: &mut [], work: &mut [] };
        assert_eq!(engine.start(2, &[]), Err(Refusal::BadValueCount));
        assert_eq!(engine.start(9, &[10]), Err(Refusal::BadWorkerCount));
        assert_eq!(engine.start(2, &[10]), Err(Refusal::BadPlaceCount));
        assert_eq!((state, table), (State::ZERO, vec![GARBAGE; places]));
    }
}

/// A table of another length than at the start is unsound in every call; a refused call leaves it.
#[test]
fn a_table_of_another_length_is_refused() {
    with_workers(|engine| {
        let mut image = [0; image_array_bytes(PLACES, 40)];
        engine.save(&mut image).expect("room for the image");
        let table = engine.frames.to_vec();
        for places in [0, 1, PLACES - 1, PLACES + 1, MAX_PLACES, MAX_PLACES + 1] {
            let mut other = table.clone();
            other.resize(places, GARBAGE);
            let old = other.clone();
            let mut run = Engine { state: engine.state, frames: &mut other, pool: engine.pool, work: engine.work };
            assert_eq!(run.spawn(0), Err(Refusal::Unsound));
            assert_eq!(run.tape(&[], &mut []), Err(Refusal::Unsound));
            assert_eq!(run.save(&mut image.clone()), Err(Refusal::Unsound));
            assert_eq!(other, old);
            let (mut state, mut pool) = (State::ZERO, engine.pool.to_vec());
            let mut run = Engine { state: &mut state, frames: &mut other, pool: &mut pool, work: engine.work };
            assert_eq!(run.load(&image), Err(Refusal::Unsound));
            assert!(state == State::ZERO && other == vec![Frame::ZERO; places] && pool.iter().all(|word| *word == 0));
        }
        assert_eq!(engine.spawn(0), Ok(1));
    });
}

/// Where the ends stop: at a frame in a deque, at one with another live child, at one that waits at a sync.
#[test]
fn where_a_chain_stops() {
    with_workers(|engine| {
        assert_eq!((engine.spawn(0), engine.steal(1, 0)), (Ok(1), Ok(0)));
        spawn_and_wait(engine, 0, 2, 1);
        assert_eq!(engine.ret(0), Ok(Returned::BecameIdle));
        assert_eq!((engine.spawn(1), engine.steal(0, 1)), (Ok(1), Ok(0)));
        assert_eq!((engine.spawn(0), engine.steal(2, 0)), (Ok(1), Ok(0)));
        assert_eq!((engine.write(2, 4, 51), engine.sync(2)), (Ok(25), Ok(Synced::Suspended)));
        assert_eq!(engine.ret(1), Ok(Returned::BecameIdle));
        spawn_and_wait(engine, 0, 3, 2);
        assert_eq!(engine.ret(0), Ok(Returned::Resumed));
        assert_eq!((engine.read(0, 4), engine.ret(0)), (Ok(51), Ok(Returned::Finished)));
    });
}

#[test]
fn memory_without_a_start_is_refused() {
    let (mut state, mut pool, mut work) = (State::ZERO, [0; 20 * NODE_WORDS], [0; 20]);
    let frames = &mut [Frame::ZERO; PLACES];
    let mut engine = Engine { state: &mut state, frames, pool: &mut pool, work: &mut work };
    assert_eq!(engine.spawn(0), Err(Refusal::Unsound));
    assert_eq!(engine.tape(&[], &mut []), Err(Refusal::Unsound));
}

#[test]
fn a_refused_start_leaves_zeros() {
    with_example(|engine| {
        let (frames, pool) = (engine.frames.to_vec(), engine.pool.to_vec());
        assert_eq!(engine.start(0, &[10]), Err(Refusal::BadWorkerCount));
        assert_eq!(*engine.state, State::ZERO);
        assert!(engine.frames == frames && engine.pool == pool);
    });
}

/// The example, saved before each step and read into other garbage: it goes on.
#[test]
fn the_example_saved_and_read_at_each_step() {
    const BYTES: usize = image_array_bytes(PLACES, 20);
    let mut image = [0; BYTES + 1];
    with_example(|engine| engine.save(&mut image).expect("room for the image"));
    for (step, answer) in EXAMPLE {
        let (mut state, mut pool, mut work) = (State::ZERO, [7; 23 * NODE_WORDS + 1], [9; 21]);
        let frames = &mut [GARBAGE; PLACES];
        let mut engine = Engine { state: &mut state, frames, pool: &mut pool, work: &mut work };
        engine.load(&image[..BYTES]).expect("an image as it was saved");
        assert_eq!(engine.step(step), answer);
        engine.save(&mut image).expect("room for the image");
        assert!(pool[20 * NODE_WORDS..].iter().all(|word| *word == 7) && work[20] == 9);
    }
    assert_eq!(image[BYTES], 0);
}

/// Blocks of 127 words, each with the sum of its words.
fn blocks(words: &[u32]) -> Vec<u8> {
    let mut image = Vec::new();
    for block in words.chunks(BLOCK_WORDS) {
        let rest = vec![0; BLOCK_WORDS - block.len()];
        let sum = block.iter().fold(0, |sum: u32, word| sum.wrapping_add(*word));
        image.extend(block.iter().chain(&rest).chain([&sum]).flat_map(|word| word.to_le_bytes()));
    }
    image
}

/// The run as an image with this first word, so many numbers, so many words to a frame record, and these nodes.
fn image_of(engine: &Engine, first: u32, numbers: usize, frame_words: usize, nodes: &[u32]) -> Vec<u8> {
    let mut words = engine.state.numbers[..numbers].to_vec();
    words[0] = first;
    for deque in engine.state.deques.chunks(1 + DEQUE_PLACES) {
        words.extend(&deque[..1 + engine.frames.len()]);
    }
    for frame in &*engine.frames {
        words.extend(&frame.to_words()[..frame_words]);
    }
    words.extend(nodes);
    blocks(&words)
}

/// Document 02's R-8: a save adds 1,024 to the first word, and a reading takes no other form: not those from
/// before, with four words to a node, five numbers and six or seven words to a frame record, nine or ten numbers.
#[test]
fn the_form_of_an_image() {
    with_example(|engine| {
        let mut image = [0; image_array_bytes(PLACES, 20)];
        for (step, answer) in EXAMPLE {
            assert_eq!(engine.step(step), answer);
            engine.save(&mut image).expect("room for the image");
            let expected = image_of(engine, IMAGE_VERSION + 2, NUMBERS_WORDS, Frame::WORDS, engine.pool);
            assert_eq!(image[..], expected);
            let (state, frames, pool) = (engine.state.clone(), engine.frames.to_vec(), engine.pool.to_vec());
            engine.frames.fill(GARBAGE);
            engine.pool.fill(7);
            engine.load(&image).expect("an image as it was saved");
            assert!(*engine.state == state && engine.frames == frames && engine.pool == pool);
        }
        let whole = (NUMBERS_WORDS, Frame::WORDS);
        let older = [(2, (5, 6)), (256 + 2, (5, 7)), (512 + 2, (9, Frame::WORDS)), (768 + 2, whole)];
        let present = [2, 256 + 2, 512 + 2, 768 + 2, 1_280 + 2, u32::MAX].map(|first| (first, whole));
        // Main has returned: every node is free, in four words 0, the next one, 0, 0
        let four: Vec<u32> = engine.pool.chunks(NODE_WORDS).flat_map(|node| [node[0], node[1], 0, 0]).collect();
        let two = engine.pool.to_vec();
        let wrong = [(&older[..], four), (&present[..], two.clone()), (&[(IMAGE_VERSION + 2, (5, 7))], two)];
        for (forms, nodes) in wrong {
            for &(first, (numbers, frame_words)) in forms {
                let image = image_of(engine, first, numbers, frame_words, &nodes);
                assert_eq!(engine.load(&image), Err(Refusal::BadBlocks));
            }
        }
    });
}

/// The nodes of a run in four words, as the library before had them: an inner node's links and 0, no links and a leaf's
/// value, a free node's next one and zeros.
fn old_nodes(engine: &Engine) -> Vec<u32> {
    let height = engine.state.splitters().next_power_of_two().trailing_zeros();
    let mut old: Vec<u32> = engine.pool.chunks(NODE_WORDS).flat_map(|node| [node[0], node[1], 0, 0]).collect();
    for frame in engine.frames.iter().filter(|frame| frame.live == 1) {
        put_old_tree(engine.pool, frame.root, height, &mut old);
    }
    old
}

fn put_old_tree(pool: &[u32], node: u32, level: u32, old: &mut [u32]) {
    let word = pool[NODE_WORDS * node as usize + 1];
    let links = [word & NO_LINK, word >> 16].map(|link| if link == NO_LINK { NONE } else { link });
    let words = if level == 0 { [NONE, NONE, word] } else { [links[0], links[1], 0] };
    old[NODE_WORDS_OLD * node as usize + 1..][..3].copy_from_slice(&words);
    for link in links.into_iter().filter(|link| level > 0 && *link != NONE) {
        put_old_tree(pool, link, level - 1, old);
    }
}

/// Document 02's R-9: the example, changed over before each step and after the last, goes on with its answers.
#[test]
fn the_example_changed_over_at_each_step() {
    for at in 0..=EXAMPLE.len() {
        with_example(|engine| {
            for (step, answer) in &EXAMPLE[..at] {
                assert_eq!(engine.step(*step), *answer);
            }
            let (state, frames, nodes) = (engine.state.clone(), engine.frames.to_vec(), engine.pool.to_vec());
            let mut pool = old_nodes(engine);
            pool.extend([7; 5]);
            let mut work = [9; 21];
            let mut changed = Engine { state: engine.state, frames: engine.frames, pool: &mut pool, work: &mut work };
            changed.convert().expect("a run of the library before");
            assert!(*changed.state == state && changed.frames == frames);
            assert_eq!(changed.pool[..20 * NODE_WORDS], nodes);
            assert!(changed.pool[20 * NODE_WORDS..20 * NODE_WORDS_OLD].iter().all(|word| *word == 0));
            assert_eq!(changed.pool[20 * NODE_WORDS_OLD..], [7; 5]);
            assert!(changed.work[..20].iter().all(|word| *word == 0) && changed.work[20] == 9);
            for (step, answer) in &EXAMPLE[at..] {
                assert_eq!(changed.step(*step), *answer);
            }
            assert_eq!(changed.free_nodes(), 20);
        });
    }
}

/// By 5, and by 6 for a pool that is too short, for present nodes, for a damaged node and for one that was changed over
/// before: state, table and pool are as they were.
#[test]
fn what_refused_change_overs_leave() {
    with_example(|engine| {
        assert_eq!(engine.spawn(0), Ok(1));
        let (state, frames) = (engine.state.clone(), engine.frames.to_vec());
        let whole = old_nodes(engine);
        let mut damaged = whole.clone();
        damaged[NODE_WORDS_OLD * 7 + 3] ^= 4; // a leaf's value may be any
        damaged[NODE_WORDS_OLD * 7 + 2] ^= 4; // but it has no links
        let mut again = engine.pool.to_vec();
        again.resize(20 * NODE_WORDS_OLD, 0);
        let short = &whole[..20 * NODE_WORDS_OLD - 1];
        for (words, pool, refusal) in [
            (19, &whole[..], Refusal::ShortWork),
            (20, short, Refusal::Unsound),
            (20, &engine.pool.to_vec(), Refusal::Unsound),
            (20, &damaged, Refusal::Unsound),
            (20, &again, Refusal::Unsound),
        ] {
            let (mut old, mut work) = (pool.to_vec(), vec![9; words]);
            let frames = &mut *engine.frames;
            let mut run = Engine { state: engine.state, frames, pool: &mut old, work: &mut work };
            assert_eq!(run.convert(), Err(refusal));
            assert!(old == pool && work == vec![if words < 20 { 9 } else { 0 }; words]);
        }
        assert!(*engine.state == state && engine.frames == frames);
        assert_eq!(engine.read(0, 4), Ok(50));
    });
}

/// Takes a digit into all reducers: the affine map multiplies by ten and adds it, so that the addend shows the
/// order.
fn digit(engine: &mut Engine, worker: u8, digit: u16) {
    let folds = [(Reducer::Sum, digit.into()), (Reducer::Min, digit.into()), (Reducer::Affine, affine(10, digit))];
    for (reducer, value) in folds {
        assert_eq!(engine.fold(worker, reducer, value), Ok(()));
    }
}

/// Document 02's R-5: Main folds 1, 3, 5 and 7, its children between them 2, 4 and 6; Main waits, and they run
/// on workers 0 to 2.
fn three_siblings(engine: &mut Engine) {
    for (worker, odd) in [(0, 1), (1, 3), (2, 5)] {
        digit(engine, worker, odd);
        engine.spawn(worker).expect("a place is free");
        engine.steal(worker + 1, worker.into()).expect("a deque of two");
    }
    digit(engine, 3, 7);
    assert_eq!(engine.ret(3), Ok(Returned::Waits));
    assert_eq!([0, 1, 2, 3].map(|place: usize| engine.frames[place].younger), [NONE, 2, 3, NONE]);
}

/// In whatever order the children end, also if the run is saved and read back in between.
#[test]
fn totals_do_not_depend_on_who_ends_first() {
    with_workers(|engine| {
        let mut image = [0; image_array_bytes(PLACES, 40)];
        for order in [[0, 1, 2], [0, 2, 1], [1, 0, 2], [1, 2, 0], [2, 0, 1], [2, 1, 0]] {
            engine.start(4, &[10, 20, 30, 40, 50]).expect("at least T(5) nodes");
            three_siblings(engine);
            for worker in order {
                assert_eq!(engine.state.totals(), None);
                digit(engine, worker, 2 + 2 * u16::from(worker));
                engine.ret(worker).expect("a frame without a child");
                engine.save(&mut image).expect("room for the image");
                engine.pool.fill(7);
                engine.load(&image).expect("an image as it was saved");
            }
            let totals = Totals { sum: 28, min: 1, multiplier: 10_000_000, addend: 1_234_567 };
            assert_eq!(engine.state.totals(), Some(totals));
        }
    });
}

#[test]
fn a_fold_into_no_reducer_is_refused() {
    with_example(|engine| {
        for reducer in [3, 4, 65_535] {
            let mut words = [7; 2];
            let [low, high] = u16::to_le_bytes(reducer);
            engine.tape(&[7, 0, low, high, 1, 0, 0, 0], &mut words).expect("a whole record");
            assert_eq!((words, answer(words)), ([20, 0], Err(Refusal::UnknownReducer)));
        }
        assert_eq!(engine.fold(1, Reducer::Sum, 1), Err(Refusal::WorkerHasNoFrame));
        assert_eq!(engine.fold(2, Reducer::Sum, 1), Err(Refusal::UnknownWorker));
    });
}

#[test]
fn what_refused_saves_and_readings_leave() {
    with_example(|engine| {
        let mut image = [5; image_array_bytes(PLACES, 20)];
        let (old, short) = (engine.state.clone(), image.len() - 1);
        assert_eq!(engine.save(&mut image[..short]), Err(Refusal::ShortTarget));
        assert!(*engine.state == old && image.iter().all(|byte| *byte == 5));
        engine.save(&mut image).expect("room for the image");
        let (frames, pool) = (engine.frames.to_vec(), engine.pool.to_vec());
        assert_eq!(engine.load(&image[..short]), Err(Refusal::BadBlocks));
        image[600] ^= 64;
        assert_eq!(engine.load(&image), Err(Refusal::BadCheck));
        assert!(*engine.state == State::ZERO && engine.frames == frames && engine.pool == pool);
        let mut words = [0; NUMBERS_WORDS + MAX_WORKERS]; // no place, no node
        words[0] = IMAGE_VERSION;
        assert_eq!(engine.load(&blocks(&words)), Err(Refusal::Unsound));
        assert!(*engine.state == State::ZERO && engine.pool.iter().all(|word| *word == 0));
        assert!(engine.frames.iter().all(|frame| *frame == Frame::ZERO));
    });
}

/// A part is cut short by a word; nothing changes.
#[test]
fn a_part_of_another_length_is_refused() {
    let cut: [fn(&mut raw::Parts); 2] = [
        |parts| parts.numbers = &mut std::mem::take(&mut parts.numbers)[1..],
        |parts| parts.deques = &mut std::mem::take(&mut parts.deques)[1..],
    ];
    with_example(|engine| {
        for cut in cut {
            let old = engine.state.clone();
            let mut parts = engine.state.parts();
            cut(&mut parts);
            let words = raw::step(parts, engine.frames, engine.pool, engine.work, [1, 0, 0, 0]);
            assert_eq!(answer(words), Err(Refusal::BadState));
            let mut parts = engine.state.parts();
            cut(&mut parts);
            assert_eq!(raw::save(parts, engine.frames, engine.pool, engine.work, &mut []), 99);
            let mut parts = engine.state.parts();
            cut(&mut parts);
            assert_eq!(raw::load(parts, engine.frames, engine.pool, engine.work, &[]), 99);
            let mut parts = engine.state.parts();
            cut(&mut parts);
            assert_eq!(raw::convert(parts, engine.frames, engine.pool, engine.work), 99);
            assert_eq!(*engine.state, old);
        }
        assert_eq!(engine.spawn(0), Ok(1));
    });
}

/// Document 02's R-7: of the example's nine records five cost 1. Main's sync is counted when it passes, at 3.
#[test]
fn the_report_of_the_example() {
    with_example(|engine| {
        let (mut words, mut clocks) = ([7; 2 * EXAMPLE.len() + 1], [7; clocks_words(PLACES)]);
        let report = engine.report(2, &[10, 20, 30, 40, 50], &example_tape(), &mut words, &mut clocks);
        assert_eq!(report, Ok(Report { work: 5, span: 4, quotient: 1, remainder: 1 }));
        assert!(answers(&words).eq(EXAMPLE.map(|(_, answer)| answer)));
        assert_eq!((words[2 * EXAMPLE.len()], &clocks[..6]), (7, &[4, 2, 2, 0, 0, 0][..]));
        assert!(engine.state.main_returned() && clocks[6..].iter().all(|clock| *clock == 0));
    });
}

/// 22: the run is there, whatever the memory held, and goes on to the report's end by steps.
#[test]
fn a_withheld_report_leaves_the_run() {
    with_example(|engine| {
        let values = [10, 20, 30, 40, 50];
        let tape = example_tape();
        let mut clocks = [7; clocks_words(PLACES)];
        for records in 0..EXAMPLE.len() {
            engine.frames.fill(GARBAGE);
            engine.pool.fill(7);
            let mut words = vec![7; 2 * records];
            let report = engine.report(2, &values, &tape[..8 * records], &mut words, &mut clocks);
            assert_eq!(report, Err(Refusal::NoSpan));
            for (step, answer) in &EXAMPLE[records..] {
                assert_eq!(engine.step(*step), *answer);
            }
        }
        let main_returns = Step::Return { worker: 0 }.to_bytes();
        assert_eq!(engine.report(2, &values, &main_returns, &mut [7; 2], &mut clocks), Err(Refusal::NoSpan));
        assert!(engine.state.main_returned());
    });
}

#[test]
fn what_refused_reports_leave() {
    with_example(|engine| {
        let (old, frames, pool) = (engine.state.clone(), engine.frames.to_vec(), engine.pool.to_vec());
        let (tape, values) = (example_tape(), [10, 20, 30, 40, 50]);
        let (mut words, mut clocks) = ([7; 2 * EXAMPLE.len()], [7; clocks_words(PLACES) + 1]);
        let right = clocks_words(PLACES);
        for wrong in [0, right - 1, right + 1] {
            let report = engine.report(2, &values, &tape, &mut words, &mut clocks[..wrong]);
            assert_eq!((report, &*engine.state), (Err(Refusal::BadState), &old));
        }
        let clocks = &mut clocks[..right];
        let mut refused = |workers, values: &[u32], tape: &[u8], len: usize| {
            *engine.state = old.clone();
            let report = engine.report(workers, values, tape, &mut words[..len], clocks);
            assert_eq!(*engine.state, State::ZERO);
            report.expect_err("a refusal")
        };
        let all = words_of(&tape);
        assert_eq!(refused(0, &[], &tape, all), Refusal::BadValueCount);
        assert_eq!(refused(9, &values, &tape, all), Refusal::BadWorkerCount);
        assert_eq!(refused(2, &[1; 11], &tape, all), Refusal::BadNodeCount);
        assert_eq!(refused(2, &values, &tape[1..], all), Refusal::BadTape);
        assert_eq!(refused(2, &values, &tape, all - 1), Refusal::BadTape);
        let mut short = Engine { state: engine.state, frames: engine.frames, pool: engine.pool, work: &mut [] };
        assert_eq!(short.report(2, &values, &tape, &mut words, clocks), Err(Refusal::ShortWork));
        let mut none = Engine { state: engine.state, frames: &mut [], pool: engine.pool, work: engine.work };
        assert_eq!(none.report(2, &values, &tape, &mut words, &mut []), Err(Refusal::BadPlaceCount));
        assert!(engine.frames == frames && engine.pool == pool);
        assert!(words == [7; 2 * EXAMPLE.len()] && clocks.iter().all(|clock| *clock == 7));
    });
}

/// The answer words of a tape.
fn words_of(tape: &[u8]) -> usize {
    2 * tape.len() / Step::RECORD_BYTES
}

/// A report of another length than four words is refused by 99; no safe call makes one.
#[test]
fn a_report_of_another_length_is_refused() {
    with_example(|engine| {
        let old = engine.state.clone();
        for len in [0, 3, 5] {
            let asked = raw::Asked { workers: 2, values: &[10], tape: &[] };
            let (mut clocks, mut report) = ([7; clocks_words(PLACES)], [7; 5]);
            let told = raw::Told { answers: &mut [], clocks: &mut clocks, report: &mut report[..len] };
            let parts = engine.state.parts();
            assert_eq!(raw::report(parts, engine.frames, engine.pool, engine.work, asked, told), 99);
            assert!(*engine.state == old && report == [7; 5] && clocks == [7; clocks_words(PLACES)]);
        }
    });
}
