//! What the frame table's length costs: the same records in tables of 64 and of 256 places, and the searches for siblings by places.

use crate::case::{Workload, MAX_PLACES, WORKLOADS};
use crate::kind::{self, Kind, N, SEARCHES};
use crate::kinds::{self, KindCost};
use crate::peer::Peer;
use crate::records::{self, Cost};
use crate::tables::SIZES;

/// The table's lengths that searches are counted at.
pub const SEARCH_TABLES: [usize; 3] = [64, 128, 256];
const PEERS: [Peer; 2] = [Peer::Library, Peer::Plain];

/// Records of one kind, or of a workload, per record in tables of `BOTH` lengths.
pub struct PlacesCost {
    pub name: &'static str,
    pub n: usize,
    /// Some of them search the table for a sibling.
    pub searches: bool,
    pub library: [f64; 2],
    pub plain: [f64; 2],
}

impl PlacesCost {
    /// How many more instructions the library takes in the longer table.
    pub fn more(&self) -> f64 {
        self.library[1] - self.library[0]
    }

    /// In the longer table.
    pub fn ratio(&self) -> f64 {
        self.library[1] / self.plain[1]
    }
}

/// All workloads at the tables' sizes, then the kinds of records. Those in the shorter table have been counted.
pub fn count(costs: &[Cost], kinds: &[KindCost]) -> Vec<PlacesCost> {
    let all = kind::all();
    let longer = records::count(&PEERS, &WORKLOADS, &SIZES, MAX_PLACES);
    let longer_kinds = kinds::count(&all, MAX_PLACES);
    let sizes = |workload| SIZES.map(|n| of_workload([costs, &longer], workload, n));
    let workloads = WORKLOADS.into_iter().flat_map(sizes);
    let kinds = all
        .iter()
        .map(|&kind| of_kind([kinds, &longer_kinds], kind));
    workloads.chain(kinds).collect()
}

fn of_workload(costs: [&[Cost]; 2], workload: Workload, n: usize) -> PlacesCost {
    let of = |peer| costs.map(|costs| records::find(costs, peer, workload, n).marginal());
    PlacesCost {
        name: workload.name(),
        n,
        searches: matches!(
            workload,
            Workload::Control | Workload::Mix | Workload::MixFolds
        ),
        library: of(Peer::Library),
        plain: of(Peer::Plain),
    }
}

fn of_kind(costs: [&[KindCost]; 2], kind: Kind) -> PlacesCost {
    let both = costs.map(|costs| kinds::find(costs, kind));
    PlacesCost {
        name: kind.name(),
        n: N,
        searches: SEARCHES.contains(&kind),
        library: both.map(KindCost::library),
        plain: both.map(KindCost::plain),
    }
}

/// A record that searches the table, in tables of `SEARCH_TABLES` lengths: instructions of library and plain Rust.
pub struct SearchCost {
    pub kind: Kind,
    pub library: [f64; 3],
    pub plain: [f64; 3],
}

/// Per place, from the shortest table to the longest.
pub fn per_place(counts: [f64; 3]) -> f64 {
    let [least, .., most] = SEARCH_TABLES;
    (counts[2] - counts[0]) / (most - least) as f64
}

pub fn count_searches() -> Vec<SearchCost> {
    let costs = SEARCH_TABLES.map(|places| kinds::count(&SEARCHES, places));
    let cost = |kind| {
        let of = |figure: fn(&KindCost) -> f64| {
            let figure = |costs: &Vec<KindCost>| figure(kinds::find(costs, kind));
            costs.each_ref().map(figure)
        };
        SearchCost {
            kind,
            library: of(KindCost::library),
            plain: of(KindCost::plain),
        }
    };
    SEARCHES.map(cost).into()
}
