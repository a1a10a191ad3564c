//! A shift, as in `host/c/shift.c`: the search goes on from the newest image that can be read, and saves as
//! it goes. At the end of the shift the power goes off, and what came after the last save is forgotten.

use crate::kept::{self, Kept};
use crate::layout::{Memory, Search, Syncs, MAX_WORKERS, PLACES, SMALL_CARD};
use crate::NODES;
use splitter::{Engine, Frame, Refusal, State, NODE_WORDS};
use std::error::Error;
use std::path::Path;

const TURNS_PER_SAVE: u32 = 3;
const WORKERS: u8 = MAX_WORKERS as u8;

/// The image, and the host's own words with it: the run without them is of no use, nor they without the
/// run.
fn save(search: &mut Search, folder: &Path, sequence: u32) -> Result<(), Box<dyn Error>> {
    let mut kept = Kept::new(sequence, &search.own_words());
    search.engine.save(kept.image_mut())?;
    kept.write(folder)?;
    println!("    saved as {}, image {sequence}", kept::name(sequence));
    Ok(())
}

/// One file: the library says whether its image can be used; what it cannot see, the CRC does.
fn read_one(engine: &mut Engine, kept: &Kept, name: &str) -> bool {
    let read = engine.load(kept.image());
    match read {
        Err(refusal) => println!("    {name} is refused by {}: {refusal}", refusal.number()),
        Ok(()) if !kept.right() => println!("    {name} is refused by the host: its CRC is wrong"),
        Ok(()) => return true,
    }
    if read != Ok(()) {
        assert_eq!(*engine.state, State::ZERO);
    }
    if read == Err(Refusal::Unsound) {
        assert!(engine.frames.iter().all(|frame| *frame == Frame::ZERO));
        assert!(engine.pool.iter().all(|word| *word == 0));
    }
    false
}

/// The newest of the two that can be read.
fn read_newest(engine: &mut Engine, folder: &Path) -> Option<Kept> {
    let there = ["A", "B"].map(|name| Kept::read(folder, name).map(|kept| (name, kept)));
    let mut there: Vec<_> = there.into_iter().flatten().collect();
    there.sort_by_key(|(_, kept)| u32::MAX - kept.sequence());
    let (name, kept) = there.into_iter().find(|(name, kept)| read_one(engine, kept, name))?;
    let turn = kept.own()[1];
    println!("    goes on from {name}, image {}, saved after turn {turn}", kept.sequence());
    Some(kept)
}

/// A table and a pool full of garbage, the pool of more nodes than the image has: no word of them may matter.
fn soiled(more: usize) -> Memory {
    let mut memory = Memory::new(PLACES, NODES + more);
    memory.state.deques.fill(0x5A5A_5A5A);
    memory.frames.fill(Frame::from_words([0x6969_6969; Frame::WORDS]));
    memory.pool.fill(0xA5A5_A5A5);
    memory.work.fill(0xC3C3_C3C3);
    memory
}

/// Takes the turns, with a save after each third.
fn take_turns(search: &mut Search, turns: u32, folder: &Path, mut sequence: u32) -> Result<(), Box<dyn Error>> {
    for _ in 0..turns {
        if !search.finished {
            search.take_turns(WORKERS)?;
            if search.turn % TURNS_PER_SAVE == 0 && !search.finished {
                sequence += 1;
                save(search, folder, sequence)?;
            }
        }
    }
    if search.finished {
        search.tell_result(NODES, WORKERS);
    } else {
        println!("    the power goes off after turn {}", search.turn);
    }
    Ok(())
}

/// One shift, with a pool of so many nodes more than the image's.
pub fn work(folder: &Path, turns: u32, more: usize) -> Result<(), Box<dyn Error>> {
    let mut memory = soiled(more);
    let mut engine = memory.lend();
    if let Some(kept) = read_newest(&mut engine, folder) {
        let rest = engine.pool[NODES * NODE_WORDS..].to_vec();
        let mut search = Search::resume(engine, &kept.own());
        take_turns(&mut search, turns, folder, kept.sequence())?;
        assert_eq!(search.engine.pool[NODES * NODE_WORDS..], rest, "words past the image's nodes never change");
        return Ok(());
    }
    println!("    no image can be read: begins");
    let mut memory = soiled(0);
    let mut search = Search::begin(&SMALL_CARD, memory.lend(), WORKERS.into(), Syncs::All)?;
    take_turns(&mut search, turns, folder, 0)
}
