//! The quick tables for tuning: instructions of the library and of plain Rust.

use crate::case::{Standing, MAX_NODES, PLACES, WORKLOADS};
use crate::checks;
use crate::compare;
use crate::converts;
use crate::filled;
use crate::images;
use crate::kind;
use crate::kinds;
use crate::layouts;
use crate::peer::Peer;
use crate::places;
use crate::records::{self, Cost};
use crate::reports;
use crate::steps;
use crate::tables::{self, SIZES};

const PEERS: [Peer; 2] = [Peer::Library, Peer::Plain];

pub fn run() {
    compare::all(&WORKLOADS, &SIZES);
    let costs = records::count(&PEERS, &WORKLOADS, &SIZES, PLACES);
    println!("Instructions per further record:\n");
    println!(
        "{}",
        tables::instructions(&costs, &WORKLOADS, &PEERS, Cost::marginal).markdown()
    );
    println!(
        "Nodes of two words and of four, n = 256 and 16,384 nodes:\n\n{}",
        layouts::caches()
    );
    println!("{}", tables::layouts(&layouts::count()).markdown());
    println!("The same in a report:\n");
    println!("{}", tables::reports(&reports::count(&costs)).markdown());
    println!("Instructions of folds, spawns and returns:\n");
    let kinds = kinds::count(&kind::all(), PLACES);
    println!("{}", tables::kinds(&kinds).markdown());
    println!("The same in tables of 64 and of 256 places:\n");
    let places = places::count(&costs, &kinds);
    println!("{}", tables::places(&places).markdown());
    println!("Searches for siblings, by the table's places:\n");
    println!("{}", tables::searches(&places::count_searches()).markdown());
    println!("Instructions of a call with one step:\n");
    println!("{}", tables::steps(&steps::count()).markdown());
    println!("Instructions of saving and reading, per block of 512 bytes:\n");
    println!(
        "{}",
        tables::block_instructions(&images::count()).markdown()
    );
    println!("Instructions of the change-over:\n");
    println!("{}", tables::converts(&converts::count()).markdown());
    println!("Instructions of a call with an empty tape, that is of the soundness check:\n");
    println!(
        "{}",
        tables::checks(&checks::count(&standings())).markdown()
    );
    println!("The same with n = 256 and 16,384 nodes, by how many are in use:\n");
    println!("{}", tables::filled(&filled::count()).markdown());
    println!("Instructions of steps in a full pool, the check included:\n");
    println!("{}", tables::full_steps(&filled::count_steps()).markdown());
}

fn standings() -> Vec<Standing> {
    let of = |(n, nodes, places, frames, writes, lines)| Standing {
        n,
        nodes,
        places,
        frames,
        writes,
        lines,
    };
    let chosen = [
        (1, 2, 1, 1, 0, 1),
        (1, 2, 64, 1, 0, 1),
        (1, 2, 256, 1, 0, 1),
        (1, 2, 64, 64, 0, 1),
        (1, 2, 256, 256, 0, 1),
        (1, MAX_NODES, 64, 1, 0, 1),
        (16, 62, 64, 1, 0, 1),
        (16, 2_048, 64, 64, 0, 1),
        (16, 2_048, 64, 64, 0, 7),
        (16, 2_048, 64, 64, 16, 1),
        (256, 1_022, 64, 1, 0, 1),
        (256, MAX_NODES, 64, 8, 8, 1),
        (256, MAX_NODES, 64, 8, 8, 7),
        (256, MAX_NODES, 64, 64, 0, 1),
        (256, MAX_NODES, 64, 64, 8, 1),
    ];
    chosen.map(of).to_vec()
}
