//! The whole benchmark: all peers, all tables, the pictures.

use crate::case::{Standing, LONG_WORKLOADS, PLACES, WORKLOADS};
use crate::checks::{self, CheckCost};
use crate::compare;
use crate::converts::{self, ConvertCost};
use crate::facts;
use crate::filled::{self, FilledCost, FullStepCost};
use crate::images::{self, ImageCost};
use crate::kind;
use crate::kinds::{self, KindCost};
use crate::layouts::{self, LayoutCost};
use crate::peer::PEERS;
use crate::pictures;
use crate::places::{self, PlacesCost, SearchCost};
use crate::records::{self, Cost};
use crate::report;
use crate::reports::{self, ReportCost};
use crate::stack::{self, Stack};
use crate::steps::{self, StepCost};
use crate::tables::SIZES;
use crate::timing::{self, Time};
use std::fs;
use std::io;
use std::path::Path;
use std::time::Duration;

/// The sizes of the growth curves; those of the tables are among them.
const GROWTH: [usize; 9] = [1, 2, 4, 8, 16, 32, 64, 128, 256];

pub struct Figures {
    pub facts: String,
    pub stack: Option<Stack>,
    pub costs: Vec<Cost>,
    /// Nodes of two words and of four, and the caches that were simulated.
    pub layouts: Vec<LayoutCost>,
    pub caches: String,
    pub times: Vec<Time>,
    /// One frame, growing pool.
    pub over_nodes: Vec<CheckCost>,
    /// Growing number of frames with one tree.
    pub sharing: Vec<CheckCost>,
    /// The same after writes in each frame.
    pub written: Vec<CheckCost>,
    /// Frames in several lines, so that Main has several children.
    pub siblings: Vec<CheckCost>,
    /// Growing table, with one frame and with one in each place.
    pub empty_tables: Vec<CheckCost>,
    pub full_tables: Vec<CheckCost>,
    /// The check of filled pools.
    pub filled: Vec<FilledCost>,
    /// The check's time, of those that are timed.
    pub filled_times: [Duration; 3],
    /// Steps in a full pool.
    pub full_steps: Vec<FullStepCost>,
    /// Single steps.
    pub steps: Vec<StepCost>,
    /// Tapes through the report.
    pub reports: Vec<ReportCost>,
    /// Saving and reading.
    pub images: Vec<ImageCost>,
    /// Changing over.
    pub converts: Vec<ConvertCost>,
    /// Folds, spawns and returns.
    pub kinds: Vec<KindCost>,
    /// Records in tables of both lengths, and searches for siblings by places.
    pub places: Vec<PlacesCost>,
    pub searches: Vec<SearchCost>,
}

impl Figures {
    /// The checks of all states but the filled pools.
    pub fn checks(&self) -> impl Iterator<Item = &CheckCost> {
        let all = [
            &self.over_nodes,
            &self.sharing,
            &self.written,
            &self.siblings,
            &self.empty_tables,
            &self.full_tables,
        ];
        all.into_iter().flatten()
    }
}

/// Writes BENCH.md, bench_records.svg and bench_check.svg to `docs`, and prints the first. To the repository's docs only from a commit.
pub fn run(docs: &Path) -> io::Result<()> {
    fs::read_dir(docs)?;
    if let Some(objection) = facts::objection(docs) {
        return Err(io::Error::other(objection));
    }
    eprintln!("bench: all peers answer alike?");
    compare::all(&WORKLOADS, &GROWTH);
    let figures = measure();
    fs::write(
        docs.join("bench_records.svg"),
        pictures::records(&figures.costs).svg(),
    )?;
    let checks = pictures::checks(
        &figures.over_nodes,
        &figures.sharing,
        &figures.written,
        &figures.empty_tables,
        &figures.full_tables,
        &SIZES,
    );
    fs::write(docs.join("bench_check.svg"), checks.svg())?;
    let text = report::text(&figures);
    print!("{text}");
    fs::write(docs.join("BENCH.md"), text)
}

fn measure() -> Figures {
    let facts = facts::list();
    eprintln!("bench: time");
    let times = timing::time_all(&LONG_WORKLOADS, &SIZES);
    let filled_times = filled::times();
    eprintln!("bench: instructions of records");
    let costs = records::count(&PEERS, &WORKLOADS, &GROWTH, PLACES);
    let kinds = kinds::count(&kind::all(), PLACES);
    let reports = reports::count(&costs);
    eprintln!("bench: instructions and cache misses of both layouts");
    let layouts = layouts::count();
    eprintln!("bench: instructions of records, by the table's places");
    let places = places::count(&costs, &kinds);
    let searches = places::count_searches();
    eprintln!("bench: instructions of the check");
    let all_sizes =
        |standings: fn(usize) -> Vec<Standing>| checks::count(&SIZES.map(standings).concat());
    let filled = filled::count();
    eprintln!("bench: instructions of single steps");
    let steps = steps::count();
    let full_steps = filled::count_steps();
    eprintln!("bench: instructions of saving and reading");
    let images = images::count();
    eprintln!("bench: instructions of the change-over");
    let converts = converts::count();
    Figures {
        facts,
        stack: stack::measure(),
        filled,
        filled_times,
        full_steps,
        steps,
        reports,
        images,
        converts,
        kinds,
        places,
        searches,
        costs,
        layouts,
        caches: layouts::caches(),
        times,
        over_nodes: all_sizes(checks::over_nodes),
        sharing: all_sizes(checks::sharing),
        written: all_sizes(checks::written),
        siblings: all_sizes(checks::siblings),
        empty_tables: all_sizes(checks::empty_tables),
        full_tables: all_sizes(checks::full_tables),
    }
}
