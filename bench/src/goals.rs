//! The goals, met or not by the figures.

use crate::case::{Workload, MAX_PLACES, PLACES};
use crate::checks::CheckCost;
use crate::converts::ConvertCost;
use crate::full::Figures;
use crate::images::ImageCost;
use crate::kind::{Kind, FOLDS};
use crate::kinds::{self, KindCost};
use crate::layouts::{self, LayoutCost};
use crate::peer::Peer;
use crate::places::PlacesCost;
use crate::records::{self, Cost};
use crate::reports::{self, ReportCost};
use crate::stack::Stack;
use crate::table::grouped;
use crate::tables::{IMAGE_CALLS, SIZES};

/// How much more than plain Rust's the check may cost.
pub const CHECK_LIMIT: f64 = 1.2;
/// How much more than plain Rust's a control record may cost.
const CONTROL_LIMIT: f64 = 1.05;
/// How much more than the copying machine's a write alone may cost, and at which n.
const COPYING_LIMIT: f64 = 3.0;
const COPYING_SIZE: usize = 256;
/// How much more than plain Rust's a fold may cost.
const FOLD_LIMIT: f64 = 1.1;
/// How many more instructions than before R-5 a spawn or a return without live siblings elsewhere may take. A return after a fold stands
/// beside a return: before R-5 there were no folds.
const MORE_LIMIT: f64 = 15.0;
const WITHOUT_SIBLINGS: [Kind; 5] = [
    Kind::Spawn,
    Kind::Return,
    Kind::ReturnFolded,
    Kind::ReturnIdle,
    Kind::ReturnResumes,
];
/// How much more the check of the longest table may cost than a line through those of 1 and 64 places lets expect.
const LINEAR_LIMIT: f64 = 1.02;
/// How much more than in a tape a record may cost in a report.
const REPORT_LIMIT: f64 = 1.3;
/// How many times more the checks of the blocks must have cost before R-4.
const BEFORE_LIMIT: f64 = 3.0;

struct Goal {
    what: &'static str,
    met: bool,
    figures: String,
}

/// Lines of a list in markdown. Of each check, the library's instructions divided by plain Rust's.
pub fn list(figures: &Figures, checks: &[f64]) -> String {
    let Figures {
        costs,
        kinds,
        images,
        ..
    } = figures;
    let mut goals = vec![
        records_goal(
            "mix: no more instructions per further record than plain Rust",
            costs,
            Workload::Mix,
            |ratio| ratio <= 1.0,
        ),
        records_goal(
            "reads: fewer instructions per further record than plain Rust",
            costs,
            Workload::Reads,
            |ratio| ratio < 1.0,
        ),
        records_goal(
            "control: at most 1.05 times the instructions per further record of plain Rust",
            costs,
            Workload::Control,
            |ratio| ratio <= CONTROL_LIMIT,
        ),
        records_goal(
            "writes alone: no more instructions per further record than plain Rust",
            costs,
            Workload::WritesAlone,
            |ratio| ratio <= 1.0,
        ),
        records_goal(
            "writes shared: no more instructions per further record than plain Rust",
            costs,
            Workload::WritesShared,
            |ratio| ratio <= 1.0,
        ),
        copying_goal(costs),
        folds_goal(kinds),
        more_goal(kinds),
        layout_goal(&figures.layouts),
        misses_goal(&figures.layouts),
        layout_plain_goal(&figures.layouts),
        places_goal(&figures.places),
        report_goal(&figures.reports),
        plain_report_goal(&figures.reports),
        check_goal(checks),
        linear_goal(&figures.empty_tables, &figures.full_tables),
        images_goal(images),
        blocks_goal(images),
        convert_goal(&figures.converts),
    ];
    goals.extend(figures.stack.as_ref().map(stack_goal));
    let line = |goal: Goal| {
        let met = if goal.met { "met" } else { "not met" };
        format!("- {}: **{met}** ({})\n", goal.what, goal.figures)
    };
    goals.into_iter().map(line).collect()
}

fn stack_goal(stack: &Stack) -> Goal {
    Goal {
        what: "stack: no call takes more than SPLITTER_STACK_BYTES (`host/include/splitter.h`)",
        met: stack.kept,
        figures: stack.bytes.clone(),
    }
}

fn records_goal(
    what: &'static str,
    costs: &[Cost],
    workload: Workload,
    meets: fn(f64) -> bool,
) -> Goal {
    let ratios = SIZES.map(|n| ratio(costs, Peer::Plain, workload, n));
    let figures: Vec<String> = SIZES
        .iter()
        .zip(ratios)
        .map(|(n, ratio)| format!("n = {n}: {ratio:.3}"))
        .collect();
    Goal {
        what,
        met: ratios.into_iter().all(meets),
        figures: format!("library / plain: {}", figures.join(", ")),
    }
}

fn copying_goal(costs: &[Cost]) -> Goal {
    let ratio = ratio(costs, Peer::Copying, Workload::WritesAlone, COPYING_SIZE);
    Goal {
        what: "writes alone: at most 3 times the instructions per further record of the copying machine at n = 256",
        met: ratio <= COPYING_LIMIT,
        figures: format!("library / copying: n = {COPYING_SIZE}: {ratio:.3}"),
    }
}

/// The library's instructions per further record, divided by a peer's.
fn ratio(costs: &[Cost], peer: Peer, workload: Workload, n: usize) -> f64 {
    let of = |peer| records::find(costs, peer, workload, n).marginal();
    of(Peer::Library) / of(peer)
}

fn folds_goal(costs: &[KindCost]) -> Goal {
    let ratios = FOLDS.map(|kind| (kind, kinds::find(costs, kind).ratio()));
    let figures = ratios.map(|(kind, ratio)| format!("{}: {ratio:.3}", kind.name()));
    Goal {
        what: "folds: at most 1.1 times the instructions per record of plain Rust",
        met: ratios.into_iter().all(|(_, ratio)| ratio <= FOLD_LIMIT),
        figures: format!("library / plain: {}", figures.join("; ")),
    }
}

fn more_goal(costs: &[KindCost]) -> Goal {
    let more = WITHOUT_SIBLINGS.map(|kind| (kind, kinds::find(costs, kind).more()));
    let figures = more.map(|(kind, more)| format!("{}: {:+.1}", kind.name(), more.unwrap_or(0.0)));
    Goal {
        what: "spawns and returns without live siblings elsewhere, after folds too: at most 15 instructions more than before R-5",
        met: more.into_iter().all(|(_, more)| more.is_some_and(|more| more <= MORE_LIMIT)),
        figures: figures.join("; "),
    }
}

/// The new layout's peers, each against plain Rust of the old one.
const OVER_FOUR_WORDS: [(&str, Peer); 2] = [
    ("library / four words", Peer::Library),
    ("plain / four words", Peer::Plain),
];

/// two words against four.
fn layout_goal(costs: &[LayoutCost]) -> Goal {
    let row = layouts::find(costs, Workload::Mix).instructions;
    let ratios =
        OVER_FOUR_WORDS.map(|(name, peer)| (name, LayoutCost::ratio(row, peer, Peer::FourWords)));
    Goal {
        what: "mix with 16,384 nodes, n = 256: no more instructions per further record on nodes of two words than on nodes of four",
        met: ratios.into_iter().all(|(_, ratio)| ratio <= 1.0),
        figures: ratios.map(|(name, ratio)| format!("{name}: {ratio:.3}")).join(", "),
    }
}

/// The same for the misses of the first data cache, of this machine and of a small one.
fn misses_goal(costs: &[LayoutCost]) -> Goal {
    let cost = layouts::find(costs, Workload::Mix);
    let rows = [("D1", cost.machine[0]), ("small D1", cost.small[0])];
    let ratios = rows.map(|(cache, row)| {
        OVER_FOUR_WORDS.map(|(name, peer)| {
            let ratio = LayoutCost::ratio(row, peer, Peer::FourWords);
            (format!("{cache}, {name}: {ratio:.3}"), ratio)
        })
    });
    let ratios = ratios.as_flattened();
    let figures: Vec<&str> = ratios.iter().map(|(figure, _)| figure.as_str()).collect();
    Goal {
        what: "mix with 16,384 nodes, n = 256: fewer data-cache misses per further record on nodes of two words than on nodes of four",
        met: ratios.iter().all(|&(_, ratio)| ratio < 1.0),
        figures: figures.join(", "),
    }
}

/// The library against plain Rust of the same layout.
fn layout_plain_goal(costs: &[LayoutCost]) -> Goal {
    let row = layouts::find(costs, Workload::Mix).instructions;
    let ratio = LayoutCost::ratio(row, Peer::Library, Peer::Plain);
    Goal {
        what: "mix with 16,384 nodes, n = 256: no more instructions per further record than plain Rust of the same layout",
        met: ratio <= 1.0,
        figures: format!("library / plain: {ratio:.3}"),
    }
}

/// Those that need not look at the whole table.
fn places_goal(costs: &[PlacesCost]) -> Goal {
    let without: Vec<&PlacesCost> = costs.iter().filter(|cost| !cost.searches).collect();
    let dearer: Vec<String> = without
        .iter()
        .filter(|cost| cost.more() > 0.0)
        .map(|cost| format!("{}, n = {}: {:+.1}", cost.name, cost.n, cost.more()))
        .collect();
    let figures = match dearer.is_empty() {
        true => format!("none of the {} measured takes more", without.len()),
        false => dearer.join("; "),
    };
    Goal {
        what: "records that search for no sibling: no more instructions in a table of 256 places than in one of 64",
        met: dearer.is_empty(),
        figures,
    }
}

fn report_goal(costs: &[ReportCost]) -> Goal {
    let ratios = SIZES.map(|n| (n, reports::find(costs, Workload::Mix, n).ratio()));
    let figures = ratios.map(|(n, ratio)| format!("n = {n}: {ratio:.3}"));
    Goal {
        what: "mix through the report: at most 1.3 times the instructions per further record of the same tape without a report",
        met: ratios.into_iter().all(|(_, ratio)| ratio <= REPORT_LIMIT),
        figures: format!("report / tape: {}", figures.join(", ")),
    }
}

fn plain_report_goal(costs: &[ReportCost]) -> Goal {
    let ratios = SIZES.map(|n| (n, reports::find(costs, Workload::Mix, n).against_plain()));
    let figures = ratios.map(|(n, ratio)| format!("n = {n}: {ratio:.3}"));
    Goal {
        what: "mix through the report: no more instructions per further record than plain Rust's report",
        met: ratios.into_iter().all(|(_, ratio)| ratio <= 1.0),
        figures: format!("library / plain: {}", figures.join(", ")),
    }
}

/// By the check in tables of 1, 64 and 256 places.
fn linear_goal(empty: &[CheckCost], full: &[CheckCost]) -> Goal {
    let over = |costs: &[CheckCost], n: usize| {
        let of = |places: usize| {
            let wanted = |cost: &&CheckCost| (cost.standing.n, cost.standing.places) == (n, places);
            costs.iter().find(wanted).expect("it was counted").library as f64
        };
        let per_place = (of(PLACES) - of(1)) / (PLACES - 1) as f64;
        of(MAX_PLACES) / (of(1) + per_place * (MAX_PLACES - 1) as f64)
    };
    let ratios = SIZES.map(|n| [over(empty, n), over(full, n)]);
    let shown = |(n, [empty, full]): (usize, [f64; 2])| {
        format!("n = {n}: {empty:.3} with one frame, {full:.3} with one in each place")
    };
    let figures: Vec<String> = SIZES.into_iter().zip(ratios).map(shown).collect();
    Goal {
        what: "check: linear in the places of the frame table; with 256 at most 1.02 times what a line through 1 and 64 places lets expect",
        met: ratios.as_flattened().iter().all(|&ratio| ratio <= LINEAR_LIMIT),
        figures: figures.join("; "),
    }
}

fn check_goal(ratios: &[f64]) -> Goal {
    let within = ratios.iter().filter(|&&ratio| ratio <= CHECK_LIMIT).count();
    let least = ratios.iter().copied().fold(f64::MAX, f64::min);
    let most = ratios.iter().copied().fold(0.0, f64::max);
    let count = ratios.len();
    Goal {
        what: "check: within 1.2 times of plain Rust's, in every state measured",
        met: within == count,
        figures: format!("library / plain from {least:.3} to {most:.3}; within the limit in {within} of {count} states"),
    }
}

/// All calls at all sizes.
fn images_goal(images: &[ImageCost]) -> Goal {
    let ratios = IMAGE_CALLS.map(|(call, instructions)| {
        let of = |image: &ImageCost| {
            instructions(image.library()) as f64 / instructions(image.plain()) as f64
        };
        (call, images.iter().map(of).collect::<Vec<f64>>())
    });
    let figures = ratios.each_ref().map(|(call, ratios)| {
        let figures: Vec<String> = ratios.iter().map(|ratio| format!("{ratio:.3}")).collect();
        format!("{call} {}", figures.join(", "))
    });
    let sizes: Vec<String> = images.iter().map(size).collect();
    Goal {
        what: "saving and reading: no more instructions per block than plain Rust",
        met: ratios
            .iter()
            .flat_map(|(_, ratios)| ratios)
            .all(|&ratio| ratio <= 1.0),
        figures: format!(
            "library / plain, {}: {}",
            sizes.join(", "),
            figures.join("; ")
        ),
    }
}

fn size(image: &ImageCost) -> String {
    let nodes = grouped(image.nodes as u64);
    format!("{nodes} nodes and {} places", image.places)
}

fn blocks_goal(images: &[ImageCost]) -> Goal {
    let times = |image: &ImageCost| {
        let before = image.before.per_block(|costs| costs.checks);
        before / image.per_block(image.library().checks)
    };
    let figures: Vec<String> = images
        .iter()
        .map(|image| format!("{}: {:.1}", size(image), times(image)))
        .collect();
    Goal {
        what: "checks of the blocks: at least three times fewer instructions per block than before R-4",
        met: images.iter().map(times).all(|times| times >= BEFORE_LIMIT),
        figures: format!("before / library: {}", figures.join(", ")),
    }
}

/// R-9, in every pool measured.
fn convert_goal(costs: &[ConvertCost]) -> Goal {
    let shown = |cost: &ConvertCost| {
        let [used, nodes] = [cost.used, cost.nodes].map(|number| grouped(number as u64));
        format!("{used} of {nodes} nodes in use: {:.3}", cost.ratio())
    };
    let figures: Vec<String> = costs.iter().map(shown).collect();
    Goal {
        what: "change-over: no more instructions than plain Rust's, the soundness check included",
        met: costs.iter().all(|cost| cost.ratio() <= 1.0),
        figures: format!("library / plain: {}", figures.join("; ")),
    }
}
