//! What the soundness check costs: the instructions of a call with an empty tape.

use crate::callgrind::count_all;
use crate::case::{tree_nodes, Standing, MAX_NODES, PLACES};
use crate::job::Job;
use crate::peer::Peer;

/// Live frames.
const FRAMES: [usize; 4] = [1, 8, 32, 64];

pub struct CheckCost {
    pub standing: Standing,
    pub library: u64,
    pub plain: u64,
}

impl CheckCost {
    pub fn ratio(&self) -> f64 {
        self.library as f64 / self.plain as f64
    }

    /// Instructions of library and plain Rust per place that this table has more than another with as many splitters.
    pub fn per_place_more(&self, other: &CheckCost) -> Option<[f64; 2]> {
        let (here, there) = (self.standing, other.standing);
        let places = here.places.checked_sub(there.places)?;
        let more = |a: u64, b: u64| (a as f64 - b as f64) / places as f64;
        let same = here.n == there.n && places > 0;
        same.then(|| {
            [
                more(self.library, other.library),
                more(self.plain, other.plain),
            ]
        })
    }
}

pub fn count(standings: &[Standing]) -> Vec<CheckCost> {
    let jobs = |peer| {
        standings
            .iter()
            .map(move |&standing| (peer, Job::Check(standing)))
    };
    let all: Vec<(Peer, Job)> = jobs(Peer::Library).chain(jobs(Peer::Plain)).collect();
    let counts = count_all(&all);
    let (library, plain) = counts.split_at(standings.len());
    let counted = standings.iter().zip(library.iter().zip(plain));
    counted
        .map(|(&standing, (&library, &plain))| CheckCost {
            standing,
            library,
            plain,
        })
        .collect()
}

/// One frame; pools from 2 T(n) nodes up, by four, and the largest.
pub fn over_nodes(n: usize) -> Vec<Standing> {
    let pools = (0..)
        .map(|k| (2 * tree_nodes(n)) << (2 * k))
        .take_while(|nodes| 2 * nodes <= MAX_NODES);
    pools
        .chain([MAX_NODES])
        .map(|nodes| Standing {
            n,
            nodes,
            places: PLACES,
            frames: 1,
            writes: 0,
            lines: 1,
        })
        .collect()
}

/// 1 to 64 frames that share one tree.
pub fn sharing(n: usize) -> Vec<Standing> {
    over_frames(n, 0)
}

/// 1 to 64 frames, each with writes of its own since its spawn: as many as there are splitters, 8 at most.
pub fn written(n: usize) -> Vec<Standing> {
    over_frames(n, n.min(8))
}

/// In a pool that is not much larger than needed, so that the frames show.
fn over_frames(n: usize, writes: usize) -> Vec<Standing> {
    let nodes = match n {
        1 => 128,
        16 => 2_048,
        _ => 8_192,
    };
    FRAMES
        .map(|frames| Standing {
            n,
            nodes,
            places: PLACES,
            frames,
            writes,
            lines: 1,
        })
        .to_vec()
}

/// 8 and 64 frames in seven lines: Main has seven children, whose links are followed.
pub fn siblings(n: usize) -> Vec<Standing> {
    let lines = 7;
    let all = written(n).into_iter().chain(sharing(n));
    let wide = |standing: &Standing| standing.frames % lines == 1 && standing.frames > lines;
    all.filter(wide)
        .map(|standing| Standing { lines, ..standing })
        .collect()
}

/// The table's lengths that the check is counted at.
pub const TABLES: [usize; 6] = [1, 2, 64, 128, 192, 256];

/// Main alone, in tables of 1 to 256 places.
pub fn empty_tables(n: usize) -> Vec<Standing> {
    TABLES.map(|places| in_table(n, places, 1)).to_vec()
}

/// The same with a frame in every place: a line that shares one tree.
pub fn full_tables(n: usize) -> Vec<Standing> {
    TABLES.map(|places| in_table(n, places, places)).to_vec()
}

/// In a pool of two trees.
fn in_table(n: usize, places: usize, frames: usize) -> Standing {
    Standing {
        n,
        nodes: 2 * tree_nodes(n),
        places,
        frames,
        writes: 0,
        lines: 1,
    }
}
