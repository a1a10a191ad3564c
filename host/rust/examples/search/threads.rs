//! The search on threads, one for each worker, with a lock around each turn, and with turns in any order:
//! however they interleave, the same layout is the best, the totals of the costs are the same, and so are work and
//! span by the report of what they did.

use crate::cores;
use crate::layout::{Card, Memory, Search, Syncs, LARGE_CARD, MAX_WORKERS, PLACES, SMALL_CARD, SYNCS};
use splitter::{Report, Totals};
use std::sync::Mutex;
use std::thread;

/// Room for a view of each branch.
const NODES: usize = 10 * 31;

fn work(search: &Mutex<Search>, worker: u8) {
    loop {
        let mut search = search.lock().expect("no thread has panicked");
        if search.finished {
            return;
        }
        search.take_a_turn(worker).expect("a turn that the host knows");
        drop(search);
        thread::yield_now();
    }
}

/// Of the costs 106, 117, 130, 157, 153 and 169, in this order; the digest is theirs to the base 31.
const TOTALS: Totals = Totals { sum: 832, min: 106, multiplier: 887_503_681, addend: 3_146_770_582 };

/// The report of the search's log, whose steps depend on which branches sync: none, Main alone or all.
fn check_report(search: &mut Search, syncs: Syncs, [none, main, all]: [Report; 3]) {
    let expected = match syncs {
        Syncs::None => none,
        Syncs::Main => main,
        Syncs::All => all,
    };
    assert_eq!(cores::report(search), Ok(expected));
}

/// What each search of the small card must find.
fn check_found(search: &mut Search, syncs: Syncs) {
    assert_eq!(search.engine.state.totals(), Some(TOTALS));
    assert_eq!(search.best(), "3>12 9>14, cost 106");
    assert_eq!((search.layouts, search.waits, search.given_up), (6, 0, 0));
    let none = Report { work: 80, span: 22, quotient: 3, remainder: 14 };
    let main = Report { work: 81, span: 24, quotient: 3, remainder: 9 };
    let all = Report { work: 84, span: 25, quotient: 3, remainder: 9 };
    check_report(search, syncs, [none, main, all]);
}

/// What each search of the large card must find, in more than 64 frames: of the costs 314, 317, 317 and 320.
fn check_found_deep(search: &mut Search, syncs: Syncs) {
    let totals = Totals { sum: 1_268, min: 314, multiplier: 923_521, addend: 9_669_158 };
    assert_eq!(search.engine.state.totals(), Some(totals));
    assert_eq!(search.best(), ".. 231>233 234>235 237>238, cost 314");
    assert_eq!((search.layouts, search.given_up, search.deepest), (4, 0, 80));
    let none = Report { work: 1_454, span: 642, quotient: 2, remainder: 170 };
    let main = Report { work: 1_455, span: 644, quotient: 2, remainder: 167 };
    let all = Report { work: 1_535, span: 800, quotient: 1, remainder: 735 };
    check_report(search, syncs, [none, main, all]);
}

/// A search to its end.
fn search_on_threads(card: &'static Card, nodes: usize, syncs: Syncs, check_found: fn(&mut Search, Syncs)) {
    let mut memory = Memory::new(PLACES, nodes);
    let mut search = Search::begin(card, memory.lend(), MAX_WORKERS as u32, syncs).expect("a fit start");
    search.told = false;
    let search = Mutex::new(search);
    thread::scope(|scope| {
        for worker in 0..MAX_WORKERS as u8 {
            let search = &search;
            scope.spawn(move || work(search, worker));
        }
    });
    check_found(&mut search.into_inner().expect("no thread has panicked"), syncs);
}

/// A search whose turns are taken in an order that the seed gives; the most frames that waited as returning.
fn search_in_order(syncs: Syncs, mut seed: u32) -> usize {
    let mut memory = Memory::new(PLACES, NODES);
    let mut search = Search::begin(&SMALL_CARD, memory.lend(), MAX_WORKERS as u32, syncs).expect("a fit start");
    let mut most = 0;
    search.told = false;
    while !search.finished {
        seed = seed.wrapping_mul(1_664_525).wrapping_add(1_013_904_223);
        let worker = (seed >> 16) as u8 % MAX_WORKERS as u8;
        search.take_a_turn(worker).expect("a turn that the host knows");
        let waiting = search.engine.frames.iter().filter(|frame| frame.returning == 1);
        most = most.max(waiting.count());
    }
    check_found(&mut search, syncs);
    most
}

/// Branches wait as returning only where they do not sync: at most three at a time, or two where Main syncs.
#[test]
fn any_order_finds_the_same_layout() {
    let most = SYNCS.map(|syncs| (0..200).map(|seed| search_in_order(syncs, seed)).max());
    assert_eq!(most, [Some(3), Some(2), Some(0)]);
}

/// Whether all branches sync, Main alone or none.
#[test]
fn threads_find_the_same_layout() {
    for syncs in SYNCS {
        for _ in 0..50 {
            search_on_threads(&SMALL_CARD, NODES, syncs, check_found);
        }
    }
}

/// The large card, whose branches are 80 deep.
#[test]
fn threads_search_deeper_than_64_frames() {
    for syncs in SYNCS {
        search_on_threads(&LARGE_CARD, crate::MOST_NODES, syncs, check_found_deep);
    }
}
