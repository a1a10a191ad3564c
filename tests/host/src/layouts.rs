//! R-8's claim about both layouts: the pool of two-word nodes, unpacked by levels, is the pool of four-word nodes that plain.rs's older layout
//! makes with the same calls; answers, state, table and work slice are equal. Unpacking is written from document 02 and shares no code with
//! plain.rs's layouts.

use crate::call::{Call, Outcome};
use crate::plain::{self, OldNode, State};
use crate::session::Failure;
use crate::soundness::expect;

const NONE: u32 = 4_294_967_295;

/// What was compared in both layouts.
#[derive(Default)]
pub struct Counts {
    pub calls: u64,
    /// Those that left a run, whose pools were compared, and the nodes of these.
    pub pools: u64,
    pub nodes: u64,
}

/// "Levels tell which is meant": the four-word nodes of a sound pair, one after the other; None if a walk leads out of the pool or meets a
/// node on two levels.
pub fn unpack(state: &State, pool: &[u32]) -> Option<Vec<u32>> {
    let recorded = state.nodes as usize;
    let nodes: Vec<&[u32]> = pool.chunks_exact(2).take(recorded).collect();
    let height = (0..).find(|&level| 1 << level >= state.splitters)?;
    let mut levels: Vec<Option<u32>> = vec![None; nodes.len()];
    for frame in state.frames.iter().filter(|frame| frame.live == 1) {
        find_levels(&nodes, frame.root, height, &mut levels)?;
    }
    let link = |half: u32| if half == 65_535 { NONE } else { half };
    let four = nodes.iter().zip(levels).flat_map(|(node, level)| {
        let (holders, word) = (node[0], node[1]);
        match level {
            None => [holders, word, 0, 0],
            Some(0) => [holders, NONE, NONE, word],
            Some(_) => [holders, link(word % 65_536), link(word / 65_536), 0],
        }
    });
    Some(four.collect())
}

fn find_levels(nodes: &[&[u32]], node: u32, level: u32, levels: &mut [Option<u32>]) -> Option<()> {
    let known = levels.get_mut(node as usize)?;
    if known.is_some() {
        return (*known == Some(level)).then_some(());
    }
    *known = Some(level);
    if level == 0 {
        return Some(());
    }
    let word = nodes[node as usize][1];
    for half in [word % 65_536, word / 65_536] {
        if half != 65_535 {
            find_levels(nodes, half, level - 1, levels)?;
        }
    }
    Some(())
}

/// The pool of the older layout beside a run's pool.
pub struct Older(Vec<u32>);

impl Older {
    /// Before a start: any words.
    pub fn new() -> Older {
        Older(Vec::new())
    }

    /// These words.
    pub fn with(pool: Vec<u32>) -> Older {
        Older(pool)
    }

    /// Its nodes, after a call that left a run.
    pub fn words(&self) -> &[u32] {
        &self.0
    }

    /// Beside a sound pair.
    pub fn of(state: &State, pool: &[u32]) -> Result<Older, Failure> {
        let unpacked = unpack(state, pool).ok_or("a sound pool is not unpacked")?;
        let mut work = vec![0; state.nodes as usize];
        let free = plain::sound_of::<OldNode>(state, &unpacked, &mut work);
        let here = plain::sound(state, pool, &mut work);
        expect(
            free.is_some() && free == here,
            "unpacked, a sound pool is not sound",
        )?;
        Ok(Older(unpacked))
    }

    /// The call once more in the older layout, in a pool of as many whole nodes and a word more; what both leave must match.
    pub fn compare(
        &mut self,
        call: &Call,
        after: &Outcome,
        counts: &mut Counts,
    ) -> Result<(), Failure> {
        let mut pool = self.0.clone();
        pool.resize(4 * (call.pool.len() / 2), 0xA5A5_A5A5);
        pool.push(7);
        let call = Call {
            pool,
            ..call.clone()
        };
        let older = call.by_older_layout();
        let same = older.result == after.result
            && older.state == after.state
            && older.work == after.work
            && older.answers == after.answers
            && older.clocks == after.clocks
            && older.report == after.report;
        expect(same, "the older layout answers, or leaves, something else")?;
        counts.calls += 1;
        let recorded = after.state.state().filter(|state| state.nodes > 0);
        let refused = matches!(after.result[0], 1..=6 | 21 | 99);
        let Some(state) = recorded.filter(|_| !refused) else {
            return expect(older.pool == call.pool, "refused, the older pool changed");
        };
        let unpacked = unpack(&state, &after.pool).ok_or("a pool is not unpacked")?;
        let (front, past) = older.pool.split_at(unpacked.len());
        expect(front == unpacked, "unpacked, the pool is not the older one")?;
        expect(
            past == &call.pool[unpacked.len()..],
            "words past the older pool's nodes have changed",
        )?;
        counts.pools += 1;
        counts.nodes += u64::from(state.nodes);
        self.0 = unpacked;
        Ok(())
    }
}

impl Default for Older {
    fn default() -> Older {
        Older::new()
    }
}
