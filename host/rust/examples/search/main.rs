//! A worked host in Rust: the search of `host/c/search.c`, with the same report (`host/c/expected`).
//!
//! A controller has a core for each worker and a lock around each call (`threads.rs`). Here the
//! workers take turns, so that the report is always the same. A refusal that the host does not
//! expect gives exit status 1.
//!
//! With the arguments `shift FOLDER TURNS MORE` one shift of the search, with images kept in the
//! folder (`shift.rs`).

mod cores;
mod kept;
mod layout;
mod refusals;
mod shift;
#[cfg(test)]
mod threads;

use layout::{Memory, Search, Syncs, LARGE_CARD, MAX_WORKERS, PLACES, SMALL_CARD};
use splitter::{tree_nodes, Refusal};
use std::env;
use std::error::Error;
use std::path::Path;

const NODES: usize = 72;
/// For the larger card.
const MOST_NODES: usize = 2_048;

/// A search that is not told.
const NEVER: u32 = u32::MAX;

/// Searches and reports, with its turns from one on; gives the number of branches given up.
fn search(workers: u8, nodes: usize, syncs: Syncs, told_from: u32) -> Result<u32, Refusal> {
    let mut memory = Memory::new(PLACES, nodes);
    let mut search = Search::begin(&SMALL_CARD, memory.lend(), workers.into(), syncs)?;
    while !search.finished {
        search.told = search.turn + 1 >= told_from;
        search.take_turns(workers)?;
    }
    search.tell_result(nodes, workers);
    Ok(search.given_up)
}

/// The search in smaller pools. A branch given up may have been the best: then one worker searches
/// again, which takes least room.
fn smaller_pools() -> Result<(), Refusal> {
    let blocks = SMALL_CARD.blocks;
    println!("\nThe same in smaller pools; a view of {blocks} blocks has {} nodes", tree_nodes(blocks.into()));
    for nodes in [62, 57, 52, 47, 42, 36, 31] {
        if search(MAX_WORKERS as u8, nodes, Syncs::All, NEVER)? > 0 {
            search(1, nodes, Syncs::All, NEVER)?;
        }
    }
    Ok(())
}

/// As ported from Cilk, whose functions sync by themselves before they return: a branch just returns, and the
/// library lets it wait. The last turns are told, where branches wait as returning.
fn without_syncs() -> Result<(), Refusal> {
    println!("\nThe same without a sync: a branch returns and waits so for its branches; from turn 13 on");
    search(MAX_WORKERS as u8, NODES, Syncs::None, 13)?;
    println!("\nThe same where Main alone syncs, in a smaller pool, from turn 16 on");
    search(MAX_WORKERS as u8, 47, Syncs::Main, 16)?;
    Ok(())
}

/// A branch for each of 80 bad blocks, one below the other: a table of 64 places refuses one of them, and all
/// below it are lost.
fn search_deep(workers: u8, places: usize, syncs: Syncs) -> Result<(), Refusal> {
    let mut memory = Memory::new(places, MOST_NODES);
    let mut search = Search::begin(&LARGE_CARD, memory.lend(), workers.into(), syncs)?;
    search.told = false;
    while !search.finished {
        search.take_turns(workers)?;
    }
    println!("places {places}: deepest frame {}, most live {}", search.deepest, search.most_live);
    search.tell_result(MOST_NODES, workers);
    Ok(())
}

fn larger_card() -> Result<(), Refusal> {
    let (bad_blocks, blocks) = (LARGE_CARD.bad_blocks, LARGE_CARD.blocks);
    println!("\nA larger card: {bad_blocks} bad blocks of {blocks}, each with 2 spares of its own");
    search_deep(1, 64, Syncs::All)?;
    search_deep(1, PLACES, Syncs::All)?;
    search_deep(MAX_WORKERS as u8, PLACES, Syncs::All)?;
    search_deep(MAX_WORKERS as u8, PLACES, Syncs::None)
}

fn show_all() -> Result<(), Box<dyn Error>> {
    println!("Search: bad blocks 3 and 9, spares 12 to 15");
    search(MAX_WORKERS as u8, NODES, Syncs::All, 1)?;
    smaller_pools()?;
    without_syncs()?;
    larger_card()?;
    cores::show()?;
    refusals::tape()?;
    refusals::refusals()
}

fn main() -> Result<(), Box<dyn Error>> {
    let arguments: Vec<String> = env::args().skip(1).collect();
    match arguments.iter().map(String::as_str).collect::<Vec<_>>()[..] {
        [] => show_all(),
        ["shift", folder, turns, more] => shift::work(Path::new(folder), turns.parse()?, more.parse()?),
        _ => Err("usage: search [shift FOLDER TURNS MORE]".into()),
    }
}
