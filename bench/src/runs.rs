//! Random runs with folds, steals and waiting returns, to Main's return: all peers answer alike, their totals are the values folded in
//! the order of Main's child-first list, and their reports have the work and the span that the frames' steps give.

use crate::case::{tree_nodes, values, Case, MAX_PLACES};
use crate::generate::Generator;
use crate::peer::Peer;
use crate::random::Random;
use crate::reports;
use crate::tape::{record, FOLD, REDUCERS};

const RECORDS: usize = 400;
/// The records of one call, which checks what the calls before it left.
const CALL: usize = 10;
/// The tables' lengths, besides any other.
const TABLES: [usize; 6] = [2, 63, 64, 65, 255, 256];
/// A write's second word is the free nodes, which not every peer has.
const WRITTEN: u32 = 106;

/// A run, its totals, and its work and span.
struct Finished {
    case: Case,
    totals: [u32; 4],
    pair: [u64; 2],
}

impl Finished {
    fn seeded(seed: u64) -> Self {
        let mut random = Random::new(seed);
        let (workers, n) = (1 + random.below(8), 1 + random.below(5));
        let any = 2 + random.below(MAX_PLACES - 1);
        let places = *TABLES.get(random.below(2 * TABLES.len())).unwrap_or(&any);
        let max_live = 2 + random.below(places - 1);
        let mut generator = Generator::new(seed, workers, n, max_live);
        let mut tape = Vec::new();
        for _ in 0..RECORDS {
            generator.any();
            tape.extend(generator.take());
            if random.below(8) == 0 {
                tape.extend(refused(&mut random, workers));
            }
        }
        generator.finish();
        tape.extend(generator.take());
        let case = Case {
            workers,
            values: values(n),
            nodes: MAX_PLACES * tree_nodes(n),
            places,
            prelude: Vec::new(),
            tape,
        };
        Finished {
            case,
            totals: generator.totals(),
            pair: generator.pair(),
        }
    }
}

/// A fold that is refused: no such reducer, no such worker, or both.
fn refused(random: &mut Random, workers: usize) -> [u8; 8] {
    let over = random.below(3);
    let reducer = random.below(REDUCERS) + if over > 0 { REDUCERS } else { 0 };
    let worker = random.below(workers) + if over < 2 { workers } else { 0 };
    record(FOLD, worker as u8, reducer as u16, random.word())
}

/// The answers without the free nodes, and the totals.
fn given(peer: Peer, case: &Case) -> (Vec<[u32; 2]>, Option<[u32; 4]>) {
    let mut run = peer.begin(case);
    assert_eq!(run.totals(), None, "{}: totals at the start", peer.name());
    let mut answers = vec![0; case.tape.len() / 4];
    let calls = case.tape.chunks(8 * CALL);
    for (tape, answers) in calls.zip(answers.chunks_mut(2 * CALL)) {
        let refusal = run.tape(tape, answers);
        assert_eq!(refusal, 0, "{}: a tape is refused", peer.name());
    }
    let (pairs, _) = answers.as_chunks();
    let compared = pairs.iter().map(|&[first, second]| match first {
        WRITTEN => [WRITTEN, 0],
        _ => [first, second],
    });
    (compared.collect(), run.totals())
}

/// So many runs on these peers.
pub fn compare(peers: &[Peer], runs: u64) {
    for seed in 0..runs {
        let Finished { case, totals, pair } = Finished::seeded(seed);
        let (expected, _) = given(peers[0], &case);
        for &peer in peers {
            let (answers, given) = given(peer, &case);
            let name = peer.name();
            assert!(answers == expected, "run {seed}: {name} answers otherwise");
            assert_eq!(given, Some(totals), "run {seed}: the totals of {name}");
            assert_report(
                peer,
                &case,
                pair,
                &format!("run {seed}: the report of {name}"),
            );
        }
    }
}

/// If it reports.
fn assert_report(peer: Peer, case: &Case, [work, span]: [u64; 2], what: &str) {
    if !reports::REPORT_PEERS.contains(&peer) {
        return;
    }
    let (refusal, _, words) = reports::given(peer, case);
    assert_eq!(refusal, 0, "{what}");
    assert_eq!(words, [work, span, work / span, work % span], "{what}");
}

#[cfg(test)]
mod tests {
    use super::*;

    /// Without the library.
    #[test]
    fn plain_and_copying_agree() {
        compare(&[Peer::Plain, Peer::FourWords, Peer::Copying], 3_000);
    }

    /// The runs reach what R-5 is about: waiting returns that end several frames, resumptions, both refusals of a fold.
    #[test]
    fn runs_are_varied() {
        let mut met = [0; 5];
        for seed in 0..200 {
            let (answers, _) = given(Peer::Copying, &Finished::seeded(seed).case);
            let of = |pair: [u32; 2]| answers.iter().filter(|&&given| given == pair).count();
            let counts = [[102, 4], [102, 2], [107, 0], [20, 0], [8, 0]].map(of);
            met.iter_mut()
                .zip(counts)
                .for_each(|(sum, count)| *sum += count);
        }
        assert!(met.iter().all(|&count| count > 500), "{met:?}");
    }
}
