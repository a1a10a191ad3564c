//! docs/BENCH.md, from the figures alone.

use crate::case::{
    LONG_WORKLOADS, MAX_LIVE, MAX_NODES, PLACES, POOL_VIEWS, SHARED_WRITES, SINGLE_STEPS,
    SINGLE_WORKERS, WAITING, WORKERS, WORKLOADS,
};
use crate::checks::CheckCost;
use crate::contents;
use crate::filled::FilledCost;
use crate::full::Figures;
use crate::goals;
use crate::images;
use crate::job::FULL_CALLS;
use crate::kind::{BELOW, CHILDREN, LINE};
use crate::kinds;
use crate::layouts;
use crate::peer::PEERS;
use crate::records::Cost;
use crate::sizing;
use crate::table::{grouped, Table};
use crate::tables;
use crate::timing::{Time, ROUNDS};

const HEAD: &str = "\
# Benchmarks

Written by `make bench` (`bench/run`) together with its two pictures; not edited by hand.

";

const PEERS_TEXT: &str = "\
## The peers

All are fed the same tapes and give the same answer words, which the bench compares before it measures.

- library: `splitter_tape` of libsplitter.a through its C interface, `splitter_step` for single steps, and `splitter_report`.
- plain: the same algorithm in plain Rust on `&mut` state and a slice of frame records (`tests/host/src/plain.rs`), with the same
  soundness check in each call. A write alters the nodes that one holder has where they are and copies the rest of the path from the
  first node with more (R-2); a return waits for the frame's children, and the last child's end ends the waiting frames above it in a
  loop (R-3). An only child's view joins its parent's; where siblings live, the table is searched for the one that names the ended
  frame, and the next frame is found by going down the eldest children (R-5). Its nodes have two words (R-8).
- four words: plain, compiled for nodes of four words, those from before R-8; only in \"Half the pool\". It also makes the old pools of
  \"The change-over\".
- copying: a machine in Rust that keeps a `Vec<u32>` of values for each live frame; spawn copies it into the buffer of its frame's
  place, which later frames in this place use again. Its live frames are linked in R-5's order, both ways, so that no sibling is
  searched for.
- im-rc: the same machine with `im_rc::Vector<u32>` for each frame; spawn clones it, a write sets a place. It is left out where
  Debian's librust-im-rc-dev is not installed.

Copying and im-rc have neither nodes nor a soundness check: a write's second answer word, the free nodes, is 0 and not compared, and
refusal 16 does not exist. They make the tests of refusals 7 to 15 and 20. Before anything is measured, all peers also take random runs
with folds, steals and waiting returns to Main's return: their totals must be the values folded in the order of Main's child-first list,
and the reports of library and plain must have the work and the span that the frames' steps give (R-7); the bench computes both from the
records alone. The Rust peers are built with opt-level 3, fat LTO and one codegen unit, for x86-64 without further features;
libsplitter.a is linked as it is.

";

const PICTURES: &str = "\
## Growth

![instructions per further record against n](bench_records.svg)

![instructions of a check against nodes, frames and places](bench_check.svg)
";

pub fn text(figures: &Figures) -> String {
    [
        HEAD.to_string(),
        figures.facts.clone(),
        sizing::text(figures),
        format!(
            "\n## Goals\n\n{}\n",
            goals::list(figures, &check_ratios(figures))
        ),
        PEERS_TEXT.to_string(),
        how(),
        section("What the tapes hold (n = 16)", "", contents::table(16)),
        records(figures),
        layouts(figures),
        reports(figures),
        kinds(figures),
        places(figures),
        rates(figures),
        steps(figures),
        check(figures),
        filled(figures),
        saving(figures),
        converting(figures),
        PICTURES.to_string(),
    ]
    .concat()
}

/// Of every state measured.
fn check_ratios(figures: &Figures) -> Vec<f64> {
    let filled = figures.filled.iter().map(FilledCost::ratio);
    let others = figures.checks().map(CheckCost::ratio);
    others.chain(filled).collect()
}

fn section(title: &str, text: &str, table: Table) -> String {
    let gap = if text.is_empty() { "" } else { "\n\n" };
    format!("## {title}\n\n{text}{gap}{}\n", table.markdown())
}

fn how() -> String {
    format!(
        "\
## How it is measured

A tape has 8,192 records, all accepted, made from a seed. Before it, not measured, comes a fresh start with {WORKERS} workers, {POOL_VIEWS} T(n) nodes
and a frame table of {PLACES} places, as everywhere where no other length is named, and a prelude: each worker gets a frame, and each frame makes n / 2 writes (rounded up) to random splitters, so
that their trees share some nodes. Reads and writes take a random busy worker and a random splitter. Mix is 70 in 100 reads, 22 writes,
8 control. At most {MAX_LIVE} frames live. The tapes of reads, writes, control and mix are those from before R-2; no return in them waits for a
child (R-3), and they have no folds (R-5). Mix with folds is another tape: 60 in 100 reads, 20 writes, 12 folds, 8 control.

Writes alone: in the prelude each frame writes to every splitter instead, so that no node has two holders. Then a write takes no node:
it stores one value. The bench also sees this tape accepted in a pool without a free node.

Writes shared has another tape: one worker, {SHARED_WRITES} times a spawn and then a write to a random splitter in the new frame. This frame and its
parent hold one root, so that the write takes a whole path, H + 1 nodes. The pool has T(n) + {SHARED_WRITES} (H + 1) nodes: none is free after the
last write. The prelude is {SHARED_WRITES} spawns and as many returns, after which copying has its buffers and no spawn allocates.

Chain has one record: a return that ends {ended} frames, Main too (R-3). Before it, not measured, two workers, T(n) + {WAITING} (H + 1) nodes; Main
and {WAITING} frames below it, each the child of the one before, each with a write to a random splitter; then worker 1 steals and returns {WAITING}
times, and each of these frames waits for its child. Its figure is per ended frame: the call less a call with an empty tape, divided by
{ended}; it is left out with the check, among the times and in the picture, as mix with folds is in the picture.

Instructions are callgrind's, of the one call and nothing else, after one such call that is not counted. \"Per further record\" is a
call with all records less a call with an empty tape, divided by 8,192: the check, once per call, is not in it. Of writes shared it is
the call less a call with its {SHARED_WRITES} spawns only, divided by {SHARED_WRITES}: the writes, without the spawns and the check. \"With the check\" is
the call with all records divided by 8,192; writes shared is left out there and among the times, as most of so short a call is the check.
The C library's memset and memcpy are kept to vector loops while counting, as callgrind takes each byte of a `rep stosb` for an
instruction. Time is the best of {ROUNDS} calls, the peers by turns in one process.

No buffer is cleared by the bench between calls: the work slice is as the call before left it, the answer words are those of the call
before. The state is in the caller's memory for every peer; what the C interface does to it is part of each call of the library.

",
        ended = WAITING + 1,
    )
}

fn records(figures: &Figures) -> String {
    let costs = &figures.costs;
    let ratio = "Ratios below 1: the library needs fewer.";
    section(
        "Instructions per further record",
        &format!("{ratio} Of a chain: per ended frame."),
        tables::instructions(costs, &WORKLOADS, &PEERS, Cost::marginal),
    ) + &section(
        "Instructions per record, with the check",
        ratio,
        tables::instructions(costs, &LONG_WORKLOADS, &PEERS, Cost::with_check),
    )
}

fn layouts(figures: &Figures) -> String {
    let intro = format!(
        "\
Nodes of two words against nodes of four: the tapes from above with n = {n} in a pool of {nodes} nodes. Library and plain have nodes of two
words, {two} bytes of pool, \"four words\" those from before R-8, {four} bytes, copying none. The library of before R-8 is no part of the
repository, so the old layout is plain Rust's: the same engine, with the layout as a type parameter (`tests/host/src/plain/layout.rs`).
Figures are per further record, as above; those of the check are of a call with an empty tape after the mix's prelude.

Misses are those of callgrind's cache simulation, data reads and writes together: D1, the first cache; LL, the last one. The caches are
simulated from the program's beginning, so that a call finds in them what was left there. A record's 8 bytes and its two answer words are
in the figures of every peer: 0.25 lines of 64 bytes per record, 0.5 of 32. Unlike instructions, misses depend on where the memory lies: from
build to build some of these figures have differed by half.

{caches}
The first are those that callgrind takes unless it is told otherwise: this machine's, as it reads them.",
        n = layouts::N,
        nodes = grouped(MAX_NODES as u64),
        two = grouped(8 * MAX_NODES as u64),
        four = grouped(16 * MAX_NODES as u64),
        caches = figures.caches,
    );
    section(
        "Half the pool (R-8)",
        &intro,
        tables::layouts(&figures.layouts),
    )
}

fn reports(figures: &Figures) -> String {
    let intro = "\
R-7: `splitter_report` makes a start, runs one tape and makes the report. Here its tape is the workload's prelude and then its records; the
figure is this call less a report of the prelude alone, divided by 8,192. \"Tape\" is the figure from above, of the same records in
`splitter_tape`. Main does not return in these tapes: both peers answer 22, and the division is not in the figures.

The library takes a tape in turns, a record and then the reads, writes and folds after it, and moves the clocks of a turn by its answers
when it has run. In control each record is a turn of its own. Plain moves the clocks in each step (`tests/host/src/plain/timing.rs`).";
    section(
        "A tape through the report",
        intro,
        tables::reports(&figures.reports),
    )
}

fn kinds(figures: &Figures) -> String {
    let intro = format!(
        "\
R-5's records, and those that it changes, by kind: a call with a read and these records, less the same call with the read alone, per
record. n is 16, the pool has {POOL_VIEWS} T(n) nodes, and no frame writes. Folds: 8,192, by the workers of eight frames, values at random. \"Before\" is
the library before R-5, commit {before}: constants of the bench (`bench/src/kinds.rs`), counted once by it.

Without live siblings: {LINE} spawns, each in the frame that the one before has made, and their returns (outcome 0), without folds and after a fold
in each frame, whose \"before\" is a return without; the returns of a line of eight frames, each on a worker of its own (outcome 1);
{LINE} returns, each of which resumes its parent (outcome 2); and one return that ends {LINE} waiting frames and the one that returns, per frame.

With live siblings: Main on one worker has {CHILDREN} children on others. It spawns one more; that one returns; or the eldest returns, whose next
one has no frame below it, or a line of {BELOW}. Only these search the table.",
        before = kinds::BEFORE_COMMIT,
    );
    section(
        "Folds, spawns and returns",
        &intro,
        tables::kinds(&figures.kinds),
    )
}

fn places(figures: &Figures) -> String {
    let intro = "\
R-6: the tapes and the records of one kind from above, once more in a table of 256 places. Control, both mixes and the last four kinds search
for siblings, some of them to the table's end; the others look at no place but those of their frames.";
    let searches = "\
The kinds that search. A spawn looks for the youngest child, the return of a child for the one that names it, which the eldest does not
have; the next frame is sought by going down the eldest children: in plain Rust with a look at the whole table for each level, in the
library with one.
\"Per place\" is from 64 places to 256.";
    section(
        "Records by the table's places",
        intro,
        tables::places(&figures.places),
    ) + &section(
        "Searches for siblings by the table's places",
        searches,
        tables::searches(&figures.searches),
    )
}

fn rates(figures: &Figures) -> String {
    let table = |of| tables::rates(&figures.times, of);
    let ratio = "Millions. Ratios above 1: the library is faster. Times vary from run to run; the instructions above hardly do.";
    section(
        "Records per second, without the check",
        ratio,
        table(Time::rate),
    ) + &section(
        "Records per second, with the check",
        ratio,
        table(Time::rate_with_check),
    )
}

fn steps(figures: &Figures) -> String {
    let intro = format!(
        "\
Instructions of a call with one step, its check included: the mean over {SINGLE_STEPS} calls, all accepted, one after the other. {SINGLE_WORKERS} workers; the
prelude is as for the tapes. As many frames live at most as the pool has full views for beside a path, {MAX_LIVE} at most."
    );
    section("Single steps", &intro, tables::steps(&figures.steps))
}

fn check(figures: &Figures) -> String {
    let intro = "\
Instructions of a call with an empty tape. The frames are a line of descendants of Main, on one worker; or seven lines, each from a child
of Main and on a worker of its own. \"Writes each\" are writes to random splitters in every frame after its spawn.";
    let places = "\
The frames are a line that shares one tree, the pool has 2 T(n) nodes. \"Per place more\" is against the row before, divided by the places
that it has fewer.";
    [
        section(
            "The soundness check against nodes",
            intro,
            tables::checks(&figures.over_nodes),
        ),
        section(
            "The soundness check against frames that share one tree",
            "",
            tables::checks(&figures.sharing),
        ),
        section(
            "The soundness check against frames after writes",
            "",
            tables::checks(&figures.written),
        ),
        section(
            "The soundness check against frames with siblings",
            "",
            tables::checks(&figures.siblings),
        ),
        section(
            "The soundness check against places, one frame",
            places,
            tables::check_places(&figures.empty_tables),
        ),
        section(
            "The soundness check against places, a frame in each",
            "",
            tables::check_places(&figures.full_tables),
        ),
    ]
    .concat()
}

fn filled(figures: &Figures) -> String {
    let intro = "\
Instructions of a call with an empty tape; n is 256, the pool has 16,384 nodes. Two workers, the second idle; the frames are a line of
descendants of Main. Each makes its writes after its spawn, to random splitters, until so many nodes are in use, or, in a full pool, until
a write is refused by 16: then fewer nodes are free than it needs. \"All splitters written\": full views, of which half the nodes are
leaves. \"Writes far apart\": to every fourth splitter, so that three in four of the nodes that a frame takes are inner ones, which have two
links to follow. \"256 places\": ten writes each, so that more than 200 frames share the pool. \"Per node\" is per node of the pool.";
    let steps = format!(
        "\
In the pool that is full after random writes. \"Single\" is a call with one step, its check included: the mean over {FULL_CALLS} calls, one after
the other. \"In a tape\" is a call with 8,192 such records, its check included, divided by 8,192. A write that takes no node is one to a
splitter that the frame has written since its spawn. Before the return that ends all frames the second worker steals all but the last one,
and they wait as returning: it is one call, and frees all nodes."
    );
    section(
        "The soundness check of a filled pool",
        intro,
        tables::filled(&figures.filled),
    ) + &section(
        "Steps in a full pool",
        &steps,
        tables::full_steps(&figures.full_steps),
    )
}

fn saving(figures: &Figures) -> String {
    let intro = format!(
        "\
R-1's calls, `splitter_save` and `splitter_load`, with images of R-8's form and R-4's sums. n is 16 with 1,024 nodes and 256 with 16,384,
both in tables of 64 and of 256 places; one worker, {frames} live frames as for the soundness check, {writes} writes each. Before anything is counted the bench compares: each peer saves
the very bytes that `tests/host/src/image.rs` writes and leaves those past them alone; a run that was only started reads the image and
saves it again.

- plain: `bench/src/plain_image.rs`, on plain's state and with its soundness check. A save sums the words of a block as it stores them
  and then stores its check; a reading sums 127 words of each block, and then moves the words. Those of a whole block go by arrays of
  fixed length, of which the compiler makes vectors without a loop.
- bytewise: the same, but a check is summed byte by byte, as R-1 says it, and as the library did before R-4; a save does so in a second
  pass, after all words are stored.
- copy: `copy_from_slice` of the image's bytes, and no check of any kind.
- before: the library before R-4, commit {before}. These figures are constants of the bench (`bench/src/images.rs`), counted once by it, per
  block of the image as it was then (R-5 and R-6 make it longer, R-8 shorter).

Save and reading are accepted and have the soundness check in them. \"Less the check\" is the image alone, with the checks of its blocks.
Of the library it is the call less its call with an empty tape on the same state, as its soundness check is one function. That of plain
and bytewise is compiled into each call anew, some instructions more or less per node; theirs is counted in a call that does everything
else, the tests of 17, 18, 5 and 19 too.

\"Checks alone\" is a reading that is refused by 18, as the check of the last block is wrong: it sums every block, reads nothing and
clears the state, which is in the figure.

Instructions per block of 512 bytes; ratios below 1: the library needs fewer.",
        frames = images::FRAMES,
        writes = images::WRITES,
        before = images::BEFORE_COMMIT,
    );
    section(
        "Saving and reading",
        &intro,
        tables::block_instructions(&figures.images),
    )
}

fn converting(figures: &Figures) -> String {
    let intro = "\
R-9's call, `splitter_convert`: it checks a state with nodes of four words, then turns the pool into nodes of two words in the front of the
same slice and clears the old nodes' remaining words. It is made once in the life of a run. The old pools are made by plain Rust on nodes of four
words; library and plain are lent the same state, table and pool. n is 16 with 1,024 nodes and 256 with 16,384. In 64 places Main lives alone,
without a write, and the other nodes are free; in 256 places a line of frames from Main down has written until fewer nodes are free than the
next write needs: with 1,024 nodes one write in each frame, with 16,384 the pool \"full, 256 places\" from above. Before anything is counted
the bench compares: each peer leaves the pool of a run in the new layout at the same record, word for word, zeros after it, and the words past
the old nodes, state and table as they were; a tape that follows is answered as in that run. Refused, a peer changes nothing of these.

- plain: `convert` of `tests/host/src/plain.rs`, with the soundness check of \"four words\". Then one pass from the front, in place: the four
  words of a node are read and cleared, then its two are stored.
- copy: `copy_from_slice` of the old nodes' bytes, 16 for each, and no check of any kind.

\"Change-over\" is accepted and has the soundness check in it. \"Refused by 6\" is the same call on a pool whose last free node names a node
in place of none: library and plain see it in their last test, so that this is the whole check, and no node is turned. \"Less the check\" is
the pass over the nodes. The library's check of nodes of four words cannot be called by itself, nor its pass: its figure is the change-over
less the refused one, which make the same tests. Plain's pass is counted in a call of its own, and so is its check, in \"check alone\"; compiled
into the change-over they take some instructions more or less per node.

Instructions of one call; ratios below 1: the library needs fewer. \"Per node\" is per node of the pool.";
    section(
        "The change-over (R-9)",
        intro,
        tables::converts(&figures.converts),
    )
}
