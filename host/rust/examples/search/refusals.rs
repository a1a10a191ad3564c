//! A tape, and each refusal once.

use crate::layout::{print_totals, Memory, PLACES, SMALL_CARD};
use splitter::{
    answer, answers, clocks_words, image_bytes, raw, tree_nodes, Done, Engine, Frame, Refusal, Returned, State, Step,
    NODE_WORDS,
};
use std::error::Error;
use std::fmt::Debug;

type Outcome = Result<(), Box<dyn Error>>;

/// Document 01's example.
const EXAMPLE: [Step; 9] = [
    Step::Spawn { worker: 0 },
    Step::Steal { worker: 1, victim: 0 },
    Step::Write { worker: 1, splitter: 4, value: 99 },
    Step::Read { worker: 0, splitter: 4 },
    Step::Sync { worker: 1 },
    Step::Read { worker: 1, splitter: 4 },
    Step::Return { worker: 0 },
    Step::Read { worker: 0, splitter: 4 },
    Step::Return { worker: 0 },
];

/// The example as a tape.
pub fn tape() -> Outcome {
    let mut words = [0; 2 * EXAMPLE.len()];
    let mut memory = Memory::new(PLACES, 20);
    let mut engine = memory.lend();
    println!("\nTape: 2 workers, 5 splitters, 20 nodes");
    engine.start(2, &[10, 20, 30, 40, 50])?;
    engine.tape(&EXAMPLE.map(Step::to_bytes).concat(), &mut words)?;
    for answer in answers(&words) {
        match answer {
            Ok(done) => println!("{} {}  {done}", done.words()[0], done.words()[1]),
            Err(refusal) => println!("{} 0  {refusal}", refusal.number()),
        }
    }
    print_totals(engine.state.totals().ok_or("surprise: Main has not returned")?);
    Ok(())
}

/// Prints the refusal; another answer is an error.
fn show<T: Debug>(answer: Result<T, Refusal>, wanted: Refusal, what: &str) -> Outcome {
    match answer {
        Err(refusal) if refusal == wanted => {
            println!("{:2}  {what}: {refusal}", refusal.number());
            Ok(())
        }
        other => Err(format!("surprise: {what}: {other:?}").into()),
    }
}

fn refused_starts() -> Outcome {
    let tree = tree_nodes(SMALL_CARD.blocks.into()) as usize;
    let marks = SMALL_CARD.factory_marks();
    let mut memory = Memory::new(PLACES, tree);
    let mut engine = memory.lend();
    show(engine.start(2, &[]), Refusal::BadValueCount, "a start without values")?;
    show(engine.start(9, &marks), Refusal::BadWorkerCount, "a start with 9 workers")?;
    let mut memory = Memory::new(0, 20);
    show(memory.lend().start(2, &marks), Refusal::BadPlaceCount, "a start without a frame table")?;
    let mut memory = Memory::new(PLACES + 1, 20);
    show(memory.lend().start(2, &marks), Refusal::BadPlaceCount, "a start with 257 places")?;
    let mut memory = Memory::new(PLACES, tree - 1);
    show(memory.lend().start(2, &marks), Refusal::BadNodeCount, "a start with a node too few")
}

/// Calls refused whole. Each leaves state, table and pool as they were, so the run goes on.
fn refused_calls(memory: &mut Memory) -> Outcome {
    let bytes = Step::Spawn { worker: 0 }.to_bytes();
    show(memory.lend().tape(&bytes[..7], &mut [0; 2]), Refusal::BadTape, "a tape of 7 bytes")?;
    let Memory { state, frames, pool, work } = memory;
    let short = work.len() - 1;
    let mut engine = Engine { state, frames, pool, work: &mut work[..short] };
    show(engine.read(0, 3), Refusal::ShortWork, "a work slice with a word too few")?;
    let mut parts = state.parts();
    parts.deques = &mut parts.deques[1..];
    let words = raw::step(parts, frames, pool, work, [5, 0, 3, 0]);
    show(answer(words), Refusal::BadState, "deques with a word too few")?;
    let last = memory.frames.pop().ok_or("surprise: no table")?;
    show(memory.lend().read(0, 3), Refusal::Unsound, "a table with a place less than at the start")?;
    memory.frames.extend([last, Frame::ZERO]);
    show(memory.lend().read(0, 3), Refusal::Unsound, "a table with a place more")?;
    memory.frames.pop();
    let mut engine = memory.lend();
    engine.pool[0] ^= 1;
    show(engine.read(0, 3), Refusal::Unsound, "a bit of the pool has flipped")?;
    engine.pool[0] ^= 1;
    println!("    the bit flipped back, block 3 reads {}", engine.read(0, 3)?);
    Ok(())
}

/// A refused save leaves the run. A refused reading leaves a state of zeros: the host reads another image,
/// or this one in a better way.
fn refused_images(memory: &mut Memory) -> Outcome {
    let mut image = vec![0; image_bytes(PLACES as u32, memory.work.len() as u32) as usize];
    let short = image.len() - 1;
    let mut engine = memory.lend();
    show(engine.save(&mut image[..short]), Refusal::ShortTarget, "a target with a byte too few")?;
    engine.save(&mut image)?;
    show(engine.load(&image[..short]), Refusal::BadBlocks, "an image with a byte too few")?;
    image[0] ^= 1;
    show(engine.load(&image), Refusal::BadCheck, "a bit of the image has flipped")?;
    image[0] ^= 1;
    image[1] += 1;
    show(engine.load(&image), Refusal::BadBlocks, "an image of a later form")?;
    image[1] -= 2;
    show(engine.load(&image), Refusal::BadBlocks, "an image of the form before")?;
    image[1] += 1;
    let Memory { state, frames, pool, work } = memory;
    let short = pool.len() - NODE_WORDS;
    let mut engine = Engine { state, frames, pool: &mut pool[..short], work };
    show(engine.load(&image), Refusal::Unsound, "an image read into a pool with a node too few")?;
    let mut engine = Engine { state, frames: &mut frames[..64], pool, work };
    show(engine.load(&image), Refusal::Unsound, "an image of 256 places read into a table of 64")?;
    assert_eq!(*engine.state, State::ZERO);
    let mut engine = memory.lend();
    engine.load(&image)?;
    println!("    the image read as it was saved, block 3 reads {}", engine.read(0, 3)?);
    Ok(())
}

fn refused_steps(engine: &mut Engine) -> Outcome {
    let mut words = [0; 2];
    engine.tape(&[9, 0, 0, 0, 0, 0, 0, 0], &mut words)?;
    show(answer(words), Refusal::BadRecord, "a record of kind 9")?;
    show(engine.spawn(2), Refusal::UnknownWorker, "worker 2 of 2 spawns")?;
    show(engine.sync(1), Refusal::WorkerHasNoFrame, "worker 1 syncs")?;
    show(engine.read(0, SMALL_CARD.blocks), Refusal::UnknownSplitter, "worker 0 reads block 16")?;
    engine.tape(&[7, 0, 3, 0, 1, 0, 0, 0], &mut words)?; // no Step names such a reducer
    show(answer(words), Refusal::UnknownReducer, "worker 0 folds into reducer 3")
}

fn refused_steals(engine: &mut Engine) -> Outcome {
    show(engine.steal(0, 1), Refusal::ThiefBusy, "worker 0 steals")?;
    show(engine.steal(1, 0), Refusal::NothingToSteal, "worker 1 steals from a deque of one")
}

/// Main moves to worker 1; its child stays on worker 0.
fn move_main(engine: &mut Engine) -> Outcome {
    engine.spawn(0)?;
    engine.steal(1, 0)?;
    Ok(())
}

/// The pool has room for one path beside the first view: Main's. Then Main and its child each have a path
/// to block 12 of their own, and write there in place. Block 13 they share: what the child wants to write
/// there must wait, or the child must end.
fn full_pool(engine: &mut Engine) -> Outcome {
    println!("    Main writes block 12: {} nodes free", engine.write(1, 12, 103)?);
    println!("    Main writes block 12 again: {} nodes free", engine.write(1, 12, 109)?);
    println!("    its child writes block 12: {} nodes free", engine.write(0, 12, 103)?);
    show(engine.write(0, 13, 109), Refusal::PoolFull, "the child writes block 13")?;
    engine.ret(0)?;
    println!("    the child has ended, Main writes block 13: {} nodes free", engine.write(1, 13, 103)?);
    Ok(())
}

fn full_frames(engine: &mut Engine) -> Outcome {
    let mut spawned = engine.spawn(1);
    while spawned.is_ok() {
        spawned = engine.spawn(1);
    }
    show(spawned, Refusal::FramesFull, "256 frames, each the child of the one before, and one more")?;
    engine.ret(1)?;
    println!("    one has ended, the next spawn has depth {}", engine.spawn(1)?);
    while engine.ret(1)? != Returned::Finished {}
    show(engine.read(1, 3), Refusal::RunIsOver, "a read after Main's return")
}

/// What 14 refused before: the frame waits as returning, and can do nothing more. Main has returned only
/// when it has ended.
fn waiting_main(engine: &mut Engine) -> Outcome {
    engine.start(2, &SMALL_CARD.factory_marks())?;
    move_main(engine)?;
    assert_eq!(engine.ret(1)?, Returned::Waits);
    println!("    Main returns while its child runs elsewhere: it waits");
    show(engine.read(1, 3), Refusal::WorkerHasNoFrame, "its worker reads block 3")?;
    show(engine.steal(1, 0), Refusal::NothingToSteal, "and cannot steal the child")?;
    println!("    the child reads block 3: {}", engine.read(0, 3)?);
    assert_eq!(engine.ret(0)?, Returned::Finished);
    show(engine.spawn(0), Refusal::RunIsOver, "the child has ended, and Main with it")
}

/// Refused by 22 a report has run its tape: the run is there and goes on, only the report is withheld.
fn refused_reports(engine: &mut Engine) -> Outcome {
    let (marks, tape) = (SMALL_CARD.factory_marks(), Step::Return { worker: 0 }.to_bytes());
    let (mut words, mut clocks) = ([0; 2], [0; clocks_words(PLACES)]);
    let short = &mut clocks[1..];
    let report = engine.report(2, &marks, &tape, &mut words, short);
    show(report, Refusal::BadState, "a report's clocks with a word too few")?;
    let report = engine.report(2, &marks, &tape, &mut words, &mut clocks);
    show(report, Refusal::NoSpan, "a report of a tape that is Main's return")?;
    assert_eq!(answer(words)?, Done::Returned(Returned::Finished));
    let report = engine.report(2, &marks, &[], &mut [], &mut clocks);
    show(report, Refusal::NoSpan, "a report of a tape without records")?;
    println!("    the run goes on, block 3 reads {}", engine.read(0, 3)?);
    Ok(())
}

/// Each refusal once, and what a host does about some.
pub fn refusals() -> Outcome {
    println!("\nRefusals");
    refused_starts()?;
    let mut memory = Memory::new(PLACES, tree_nodes(SMALL_CARD.blocks.into()) as usize + 5);
    memory.lend().start(2, &SMALL_CARD.factory_marks())?;
    refused_calls(&mut memory)?;
    refused_images(&mut memory)?;
    let engine = &mut memory.lend();
    refused_steps(engine)?;
    refused_steals(engine)?;
    move_main(engine)?;
    full_pool(engine)?;
    full_frames(engine)?;
    waiting_main(engine)?;
    refused_reports(engine)
}
