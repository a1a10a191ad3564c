//! The two pictures: instructions per record against n, and the check against nodes, frames and places.

use crate::case::{Workload, WORKLOADS};
use crate::checks::CheckCost;
use crate::peer::{Peer, PEERS};
use crate::plot::{Axis, Panel, Picture, Series};
use crate::records::Cost;
use crate::scale::Scale;
use crate::svg::Pen;

fn peer_pen(peer: Peer) -> Pen {
    let colour = match peer {
        Peer::Library => "#0072b2",
        Peer::Plain | Peer::FourWords | Peer::Bytewise => "#d55e00",
        Peer::Copying => "#009e73",
        #[cfg(feature = "im")]
        Peer::Im => "#aa4499",
    };
    Pen {
        colour,
        dashed: peer == Peer::Plain,
    }
}

fn size_pen(n: usize, peer: Peer) -> Pen {
    let colour = match n {
        1 => "#009e73",
        16 => "#0072b2",
        _ => "#d55e00",
    };
    Pen {
        colour,
        dashed: peer == Peer::Plain,
    }
}

fn axis(label: &str, scale: Scale) -> Axis {
    Axis {
        label: label.into(),
        scale,
    }
}

pub fn records(costs: &[Cost]) -> Picture {
    let of_records =
        |workload: &Workload| !matches!(workload, Workload::Chain | Workload::MixFolds);
    let panels = WORKLOADS.into_iter().filter(of_records).map(|workload| {
        let series = PEERS.map(|peer| {
            let of_peer = costs
                .iter()
                .filter(|cost| cost.peer == peer && cost.workload == workload);
            let points = of_peer
                .map(|cost| (cost.n as f64, cost.marginal()))
                .collect();
            Series {
                name: peer.name().into(),
                pen: peer_pen(peer),
                points,
            }
        });
        Panel {
            title: workload.name().into(),
            x: axis("splitters n", Scale::Log2),
            y: axis("instructions per record", Scale::Linear),
            series: series.into(),
        }
    });
    Picture {
        title: "Instructions per further record of a tape".into(),
        columns: 2,
        panels: panels.collect(),
    }
}

/// What a check is drawn against.
type Place = fn(&CheckCost) -> usize;
/// The instructions of one peer.
type Count = fn(&CheckCost) -> u64;

fn check_series(costs: &[CheckCost], sizes: &[usize], place: Place) -> Vec<Series> {
    let peers: [(Peer, Count); 2] = [
        (Peer::Library, |cost| cost.library),
        (Peer::Plain, |cost| cost.plain),
    ];
    let mut series = Vec::new();
    for (peer, count) in peers {
        for &n in sizes {
            let of_size = costs.iter().filter(|cost| cost.standing.n == n);
            series.push(Series {
                name: format!("{}, n = {n}", peer.name()),
                pen: size_pen(n, peer),
                points: of_size
                    .map(|cost| (place(cost) as f64, count(cost) as f64))
                    .collect(),
            });
        }
    }
    series
}

pub fn checks(
    nodes: &[CheckCost],
    sharing: &[CheckCost],
    written: &[CheckCost],
    empty_tables: &[CheckCost],
    full_tables: &[CheckCost],
    sizes: &[usize],
) -> Picture {
    let instructions = |scale| axis("instructions", scale);
    let against_nodes = |title: &str, x: Scale, y: Scale| Panel {
        title: title.into(),
        x: axis("nodes of the pool", x),
        y: instructions(y),
        series: check_series(nodes, sizes, |cost| cost.standing.nodes),
    };
    let against_frames = |title: &str, costs: &[CheckCost]| Panel {
        title: title.into(),
        x: axis("live frames", Scale::Quarters),
        y: instructions(Scale::Log10),
        series: check_series(costs, sizes, |cost| cost.standing.frames),
    };
    let against_places = |title: &str, costs: &[CheckCost]| Panel {
        title: title.into(),
        x: axis("places of the frame table", Scale::Quarters),
        y: instructions(Scale::Linear),
        series: check_series(costs, sizes, |cost| cost.standing.places),
    };
    let panels = vec![
        against_nodes("one frame, growing pool", Scale::Log2, Scale::Log10),
        against_nodes("the same on plain axes", Scale::Quarters, Scale::Linear),
        against_frames("frames that share one tree", sharing),
        against_frames("frames after writes of their own", written),
        against_places("one frame, growing table", empty_tables),
        against_places("a frame in every place of the table", full_tables),
    ];
    Picture {
        title: "Instructions of one soundness check (a call with an empty tape)".into(),
        columns: 2,
        panels,
    }
}
