//! The report's first section, for whoever sizes a pool: what the check costs at most.

use crate::case::{Standing, MAX_NODES};
use crate::checks::CheckCost;
use crate::converts;
use crate::filled::{self, FilledCost, FullStepCost, TIMED, TIMED_POOLS};
use crate::filling::{FullStep, N};
use crate::full::Figures;
use crate::goals::CHECK_LIMIT;
use crate::table::grouped;

/// Instructions that a check takes at most in the states measured: some, and so many for each node of the pool and each place of the table.
struct Bound {
    first: u64,
    per_node: u64,
    per_place: u64,
}

impl Bound {
    fn of(figures: &Figures) -> Self {
        let pairs = figures.full_tables.iter().zip(&figures.full_tables[1..]);
        let more = pairs.filter_map(|(shorter, longer)| longer.per_place_more(shorter));
        let per_place = more.map(|[library, _]| library).fold(0.0, f64::max).ceil() as u64;
        let less_table =
            |library: u64, places: usize| library.saturating_sub(per_place * places as u64);
        let of_pool = |cost: &FilledCost| less_table(cost.library, cost.filling.places());
        let most = figures.filled.iter().map(of_pool).max().unwrap_or(0);
        let per_node = most.div_ceil(MAX_NODES as u64);
        let beside = |check: &CheckCost| {
            let Standing { nodes, places, .. } = check.standing;
            less_table(check.library, places).saturating_sub(per_node * nodes as u64)
        };
        Bound {
            first: figures
                .checks()
                .map(beside)
                .max()
                .unwrap_or(0)
                .next_multiple_of(100),
            per_node,
            per_place,
        }
    }
}

pub fn text(figures: &Figures) -> String {
    let most = filled::most(&figures.filled);
    let [untouched, full, apart] = TIMED.map(|filling| filled::find(&figures.filled, filling));
    let [time, full_time, apart_time] = figures.filled_times.map(|time| time.as_secs_f64() * 1e6);
    let Bound {
        first,
        per_node,
        per_place,
    } = Bound::of(figures);
    let step = |step| single(&figures.full_steps, step);
    let [untouched_change, full_change] = converts::large(&figures.converts);
    let read = step(FullStep::Read);
    format!(
        "
## Sizing

**The soundness check costs at most {per_node} instructions per node of the pool, {per_place} per place of the frame table, and {first} beside, in every
state measured; it is paid once per call, whether the call has one step or a tape of thousands.** A node in use costs more than a free
one, and a place with a frame more than one without, so size by the full pool and the full table. With {nodes} nodes and n = {N} the check
takes {untouched} instructions while the pool is untouched and up to {most} when it is full, {times:.1} times as many ({used} nodes in use,
{frames} live frames). {plain}

Size by the instructions, as time need not follow them. The check of a pool that was not checked before takes on this machine, as the
median of {TIMED_POOLS} pools: untouched ({untouched} instructions) {time:.0} microseconds, full after random writes ({full}) {full_time:.0}, full after writes
far apart ({apart}; these pools differ in their values only) {apart_time:.0}. Repeated on a pool that has not changed it can be faster.

A save pays the check too, and a reading, for what it has read. In the full pool of \"Steps in a full pool\" a read in a call of its own
takes {single} instructions, nearly all of them the check; as one of 8,192 records of a tape it takes {taped:.0}, its share of the check
included. The costliest step there is a return that ends all frames and frees all nodes: {end} instructions.

R-9's change-over, once in the life of a run, pays a check of nodes of four words and then passes over the nodes: with {nodes} nodes
{untouched_change} instructions while the pool is untouched and {full_change} when it is full, with 256 places.
",
        first = grouped(first),
        nodes = grouped(MAX_NODES as u64),
        untouched = grouped(untouched.library),
        most = grouped(most.library),
        full = grouped(full.library),
        apart = grouped(apart.library),
        times = most.library as f64 / untouched.library as f64,
        used = grouped(most.used as u64),
        frames = most.frames,
        plain = against_plain(&figures.filled),
        single = whole(read.single[0]),
        taped = read.taped.map_or(0.0, |[library, _]| library),
        end = whole(step(FullStep::EndAll).single[0]),
        untouched_change = grouped(untouched_change),
        full_change = grouped(full_change),
    )
}

fn single(costs: &[FullStepCost], step: FullStep) -> &FullStepCost {
    let found = costs.iter().find(|cost| cost.step == step);
    found.expect("it was counted")
}

fn whole(count: f64) -> String {
    grouped(count.round() as u64)
}

fn against_plain(costs: &[FilledCost]) -> String {
    let ratios = || costs.iter().map(FilledCost::ratio);
    let (least, most) = (
        ratios().fold(f64::MAX, f64::min),
        ratios().fold(0.0, f64::max),
    );
    let kept = if most <= CHECK_LIMIT {
        "within"
    } else {
        "above"
    };
    format!("That is {least:.2} to {most:.2} times plain Rust's, {kept} the goal of {CHECK_LIMIT}.")
}
