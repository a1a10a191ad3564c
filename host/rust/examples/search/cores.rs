//! How many cores can the search keep busy? It keeps a log of its steps, and a report of this tape tells.

use crate::layout::{Card, Memory, Search, Syncs, LARGE_CARD, MAX_WORKERS, PLACES, SMALL_CARD};
use crate::{MOST_NODES, NODES};
use splitter::{clocks_words, Refusal, Report, Step};

/// The report of a search that is over, from the tape of its steps, in the memory that it had.
pub fn report(search: &mut Search) -> Result<Report, Refusal> {
    let engine = &mut search.engine;
    let mut answers = vec![0; 2 * search.log.len() / Step::RECORD_BYTES];
    let mut clocks = vec![0; clocks_words(engine.frames.len())];
    let (workers, values) = (engine.state.workers(), search.card.factory_marks());
    engine.report(workers, &values, &search.log, &mut answers, &mut clocks)
}

fn cores(card: &'static Card, workers: u8, nodes: usize, syncs: Syncs) -> Result<(), Refusal> {
    let mut memory = Memory::new(PLACES, nodes);
    let mut search = Search::begin(card, memory.lend(), workers.into(), syncs)?;
    search.told = false;
    while !search.finished {
        search.take_turns(workers)?;
    }
    let Report { work, span, quotient, remainder } = report(&mut search)?;
    let what = if matches!(syncs, Syncs::All) { "all sync" } else { "none syncs" };
    let records = search.log.len() / Step::RECORD_BYTES;
    print!("{} blocks, workers {workers}, nodes {nodes}, {what}: {records} records, ", card.blocks);
    println!("work {work}, span {span}, keeps {quotient} and {remainder}/{span} cores busy");
    Ok(())
}

/// One worker or three, with waits for room in the pool or without: the branches take the same steps, and the report
/// is the same. Without syncs they take fewer. The large card's branches are one below the other, 80 deep: it cannot
/// keep two cores busy.
pub fn show() -> Result<(), Refusal> {
    println!("\nHow many cores can it keep busy?");
    cores(&SMALL_CARD, MAX_WORKERS as u8, NODES, Syncs::All)?;
    cores(&SMALL_CARD, 1, NODES, Syncs::All)?;
    cores(&SMALL_CARD, MAX_WORKERS as u8, 52, Syncs::All)?;
    cores(&SMALL_CARD, MAX_WORKERS as u8, NODES, Syncs::None)?;
    cores(&LARGE_CARD, MAX_WORKERS as u8, MOST_NODES, Syncs::All)
}
